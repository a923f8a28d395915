# Tests tools/lsp: its protocol, frame by frame, and what neovim shows with it.
language_server() {
    set_up "tpr_ordered is built" [ -x "$ordered" ] || return
    told "$room/language_server" tests/lsp/language_server.py "$tpr" "$ordered"
}
