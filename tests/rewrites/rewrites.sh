# Tests tools/rewrite: what scripts of the full language become, and which are refused, worked out by hand
# (tests/rewrites/). The tests are in tests/rewrites/*_rules.py. `tpr` and `room` are defined by ./test, `told` and
# `at_least` in their own files.
rewrites() {
    local part least
    while read -r part least; do
        at_least "$least" told "$room/rewrites_$part" tests/rewrites/rewrite_rules.py "$tpr" "$part"
    done <<'PARTS'
table 224
natural 114
timed 12
same 59
broken 14
listed 89
lines 2
rows 219
instead 189
faults 129
PARTS
    at_least 800 told "$room/rewrites_by_chance" tests/rewrites/chance/chance_rules.py
    at_least 29 told "$room/rewrites_unseen" tests/rewrites/unseen_rules.py "$tpr"
    at_least 28 told "$room/rewrites_skipped" tests/rewrites/skipped_rules.py "$tpr"
    at_least 28 told "$room/rewrites_maps" tests/rewrites/map_rules.py "$tpr"
    at_least 4 told "$room/rewrites_command" tests/rewrites/command_rules.py "$tpr"
    at_least 13 told "$room/rewrites_early" tests/rewrites/early_rules.py
    at_least 102 told "$room/rewrites_predefined" tests/rewrites/predefined_rules.py
}

# Compares a second interpreter of the full language with tools/rewrite on random programs, and with Titan.
oracle() {
    at_least 150 told "$room/oracle" tests/rewrites/oracle/oracle_rules.py "$tpr"
    told "$room/oracle_on_titan" tests/rewrites/oracle/on_titan.py "$tpr" 2001 60
}
