# Tests tools/explore: for each script of tests/orders/, and for random scripts, each verdict that `tpr verdicts` names
# has a run and a report (explored.py); what it prints, and how it ends (explore_cases.py).

# The numbers of random scripts: with the common statements, and with every form of the grammar.
explored_of_chance=300
explored_of_grammar=200

# Scripts with every kind of step, and those in which others act between two messages of a send, or between two looks.
explored_scripts() {
    told "$room/explored" tests/exploring/explored.py each "$tpr" "$ordered" tests/orders/*/*.ttcn \
        tests/exploring/acts/*.ttcn
}

explores() {
    set_up "tpr_ordered is built" [ -x "$ordered" ] || return
    at_least $((small_scripts + 8)) explored_scripts
    at_least $((explored_of_chance + 1)) \
        told "$room/explored_by_chance" tests/exploring/explored.py random "$tpr" "$ordered" 1 "$explored_of_chance"
    at_least $((explored_of_grammar + 17)) \
        told "$room/explored_of_grammar" tests/exploring/explored.py grammar "$tpr" "$ordered" 1 "$explored_of_grammar"
    at_least 93 told "$room/explore_cases" tests/exploring/explore_cases.py "$tpr" "$ordered"
}
