-- Lets neovim edit a script with tools/lsp, set up by the file that SETUP names, and prints what it shows: for
-- language_server.py.
local function say(text) io.stdout:write(text .. "\n") io.stdout:flush() end
local function wait_until(what, holds)
  if not vim.wait(60000, holds, 5) then say("never: " .. what) vim.cmd("cquit 1") end
end

local published = 0
local show = vim.lsp.handlers["textDocument/publishDiagnostics"]
vim.lsp.handlers["textDocument/publishDiagnostics"] = function(...)
  published = published + 1
  return show(...)
end
-- Neovim 0.7 has no vim.lsp.start.
vim.lsp.start = vim.lsp.start or function(config) vim.lsp.buf_attach_client(0, vim.lsp.start_client(config)) end
vim.cmd("luafile " .. os.getenv("SETUP"))
vim.cmd("edit " .. os.getenv("SCRIPT"))
wait_until("the server", function() return #vim.lsp.get_active_clients() > 0 end)
local id = vim.lsp.get_active_clients()[1].id
wait_until("diagnostics of the text as it was opened", function() return published > 0 end)
local lenses = vim.lsp.buf_request_sync(0, "textDocument/codeLens", { textDocument = vim.lsp.util.make_text_document_params() }, 60000)
for _, lens in ipairs(lenses[id].result) do say("lens " .. lens.command.title) end
vim.cmd("doautocmd CursorHold")
wait_until("a lens above the test case", function() return #vim.lsp.codelens.get(vim.api.nvim_get_current_buf()) > 0 end)
say("filetype " .. vim.bo.filetype)
vim.cmd([[%s/bell.send(charstring:"one more?")/bell.send(Order:{2, "x"})/]])
wait_until("an error", function() return #vim.diagnostic.get(0, { severity = vim.diagnostic.severity.ERROR }) > 0 end)
for _, it in ipairs(vim.diagnostic.get(0, { severity = vim.diagnostic.severity.ERROR })) do
  say(string.format("error %d:%d-%d %s", it.lnum, it.col, it.end_col, it.message))
end
vim.cmd("qa!")
