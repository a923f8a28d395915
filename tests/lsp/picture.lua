-- Draws neovim with tools/lsp, as it shows two scripts, into docs/editor.svg:
--
--     TPR=PROGRAM nvim --headless --clean -n -c "luafile tests/lsp/picture.lua"
--
-- Neovim 0.7 draws no inlay hints, so this script asks for them, and draws them as neovim draws the other texts.
local SCRIPT, BROKEN = "examples/else_is_taken_for_a_timeout.ttcn", "examples/closed_counter_serves_no_order.ttcn"
local WIDE, HIGH = 8, 18
local room = vim.fn.tempname()
vim.fn.mkdir(room, "p")

local function wait_until(what, holds)
  if not holds() and not vim.wait(60000, holds, 5) then io.stderr:write("never: " .. what .. "\n") vim.cmd("cquit 1") end
end

local client = vim.lsp.start_client({ name = "tpr", cmd = { "tools/lsp" }, root_dir = vim.fn.getcwd() })

local function edit(command, script, change)
  local name = room .. "/" .. vim.fn.fnamemodify(script, ":t")
  local lines = vim.tbl_map(change, vim.fn.readfile(script))
  vim.fn.writefile(lines, name)
  vim.cmd(command .. " " .. name)
  vim.bo.filetype = "ttcn"
  vim.cmd("runtime syntax/ttcn.vim")
  vim.lsp.buf_attach_client(0, client)
  wait_until("the server", function() return vim.lsp.get_client_by_id(client).initialized end)
  return vim.api.nvim_get_current_buf()
end

vim.opt.runtimepath:prepend(room)
vim.fn.mkdir(room .. "/syntax")
vim.fn.writefile(vim.fn.readfile("tools/tpr_tools/lsp/editors/ttcn.vim"), room .. "/syntax/ttcn.vim")
vim.cmd("syntax on")
vim.o.columns, vim.o.lines, vim.o.cmdheight, vim.o.laststatus = 110, 36, 1, 2
vim.o.termguicolors, vim.o.background, vim.o.showmode, vim.o.ruler = true, "light", false, false
vim.o.number, vim.o.numberwidth, vim.o.shortmess, vim.o.statusline = true, 3, "aoOtTF", " %t"
vim.opt.fillchars = { stl = " ", stlnc = " " }
vim.diagnostic.config({ signs = false, virtual_text = { spacing = 2 } })
-- Each version of neovim has other colours of its own.
for group, looks in pairs({
  Normal = "guifg=#24292f", Comment = "guifg=#6e7781", Type = "guifg=#8250df", Constant = "guifg=#0550ae",
  Function = "guifg=#953800", Keyword = "guifg=#0550ae gui=bold", Number = "guifg=#0550ae", String = "guifg=#0a5c2f",
  LineNr = "guifg=#8c959f", StatusLine = "guifg=#24292f guibg=#d0d7de", StatusLineNC = "guifg=#24292f guibg=#d0d7de",
  LspCodeLens = "guifg=#116329 gui=bold", Hint = "guifg=#57606a guibg=#eaeef2", DiagnosticError = "guifg=#cf222e",
  DiagnosticUnderlineError = "guisp=#cf222e gui=underline",
}) do vim.cmd("hi clear " .. group .. " | hi " .. group .. " cterm=NONE gui=NONE guibg=NONE " .. looks) end

-- Above: the verdict, and where messages went. Below: a fault.
local above = edit("edit", SCRIPT, function(line) return line end)
local hints = {}
for _ = 1, 60 do
  local params = { textDocument = vim.lsp.util.make_text_document_params(above) }
  hints = vim.lsp.get_client_by_id(client).request_sync("textDocument/inlayHint", params, 60000, above).result or {}
  if #hints > 0 then break end
  vim.wait(500)
end
wait_until("hints", function() return #hints > 0 end)
for _, hint in ipairs(hints) do
  local space = vim.api.nvim_create_namespace("hints")
  local text = { { " " }, { " " .. hint.label .. " ", "Hint" } }
  vim.api.nvim_buf_set_extmark(above, space, hint.position.line, 0, { virt_text = text, virt_text_pos = "eol" })
end
vim.lsp.codelens.refresh()
wait_until("a lens", function() return #vim.lsp.codelens.get(above) > 0 end)
local below = edit("belowright 11split", BROKEN, function(line)
  return line:gsub([[bell.send%(charstring:"one more%?"%)]], [[bell.send(Order:{2, "soup"})]])
end)
wait_until("a fault", function() return #vim.diagnostic.get(below) > 0 end)
vim.cmd("normal! 17Gzt")
vim.cmd("wincmd k | normal! gg")

local function colour(number, default) return number and string.format("#%06x", number) or default end

local function escaped(text) return (text:gsub("&", "&amp;"):gsub("<", "&lt;"):gsub(">", "&gt;")) end

-- The pieces of a row whose letters look alike: where each begins, its text, and how it looks.
local function pieces_of(row)
  local pieces, before = {}, nil
  for column = 0, vim.o.columns - 1 do
    local letter, looks = unpack(vim.api.nvim__inspect_cell(1, row, column))
    local key = vim.inspect(looks or {})
    if key ~= before then table.insert(pieces, { column, "", looks or {} }) end
    pieces[#pieces][2], before = pieces[#pieces][2] .. letter, key
  end
  return pieces
end

local function drawn(row, column, text, looks)
  local fore, back = colour(looks.foreground, "#000000"), colour(looks.background, "none")
  if looks.reverse then fore, back = back == "none" and "#ffffff" or back, fore end
  local x, y, wide = column * WIDE, row * HIGH, vim.fn.strchars(text) * WIDE
  local marks = {}
  if back ~= "none" then
    table.insert(marks, string.format('<rect x="%d" y="%d" width="%d" height="%d" fill="%s"/>', x, y, wide, HIGH, back))
  end
  if looks.underline or looks.undercurl then
    local form = '<path d="M%d %dh%d" stroke="%s"/>'
    table.insert(marks, string.format(form, x, y + HIGH - 2, wide, colour(looks.special, fore)))
  end
  local weight = looks.bold and ' font-weight="bold"' or ""
  for before, word in text:gmatch("()(%S+)") do
    local at = x + vim.fn.strchars(text:sub(1, before - 1)) * WIDE
    local form = '<text x="%d" y="%d" textLength="%d" fill="%s"%s>%s</text>'
    local long = vim.fn.strchars(word) * WIDE
    table.insert(marks, string.format(form, at, y + HIGH - 5, long, fore, weight, escaped(word)))
  end
  return marks
end

-- The first look makes neovim number all colours anew.
vim.api.nvim__inspect_cell(1, 0, 0)
vim.cmd("redraw!")
local wide, high = vim.o.columns * WIDE, (vim.o.lines - 1) * HIGH
local style = 'font-family="DejaVu Sans Mono, Menlo, Consolas, monospace" font-size="13"'
local svg = {
  string.format('<svg xmlns="http://www.w3.org/2000/svg" viewBox="-8 -8 %d %d" %s>', wide + 16, high + 16, style),
  string.format('<rect x="-8" y="-8" width="%d" height="%d" fill="#ffffff"/>', wide + 16, high + 16),
}
for row = 0, vim.o.lines - 2 do
  for _, piece in ipairs(pieces_of(row)) do vim.list_extend(svg, drawn(row, unpack(piece))) end
end
table.insert(svg, "</svg>")
vim.fn.writefile(svg, os.getenv("PICTURE") or "docs/editor.svg")
vim.fn.delete(room, "rf")
vim.cmd("qa!")
