# Tests which scripts `tpr check` accepts, and how it refuses the others, by the tables of check.py.

checked() { # TABLE
    told "$room/checked" tests/checking/check.py --tpr "$tpr" "$1"
}

# Tests that the table of the grammar spells what PROFILE says, and that the files written from it are up to date.
grammar_table() {
    told "$room/grammar_table" tests/checking/grammar_table.py
}
