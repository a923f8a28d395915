# Tests traces (docs/TRACES.md): compares a judge in Python (tests/traces/oracle.py) with tables that were worked out by
# hand and with all orders of small traces, and `tpr judge`, or the command JUDGE, with that judge. Tests tools/titan,
# and the traces of `tpr trace`.

# Runs some of the tests in Python, which must have at least LEAST cases.
told_by() { # LEAST NAME WORD..
    at_least "$1" told "$room/traces_told" "tests/traces/$2.py" "${@:3}"
}

find_judge() {
    judge_of_traces=(--judge "$tpr" judge)
    if [[ ${JUDGE-} ]]; then read -ra judge_of_traces <<<"--judge $JUDGE"; fi
}

# Compares the answers that were worked out by hand with the judge in Python, or with the command.
answered_tables() { # [--judge COMMAND..]
    told_by 189 rules planted tests/traces/planted.table "$@"
    told_by 79 rules forms tests/traces/forms.table "$@"
    told_by 11 rules titan tests/titan/answers.table "$@"
    told_by 15 rules document docs/TRACES.md "$@"
}

the_judge_of_traces() {
    answered_tables
    told_by 172 rules lines tests/traces/lines.texts
    told_by "${#runnable[@]}" rules played "${runnable[@]}"
    told_by 4 rules tried 2000
    told_by 5 rules reports tests/traces/lawful/*.trace
}

# Writes what `tpr trace` prints for five examples.
make_traces() { # FOLDER
    local script
    mkdir -- "$1"
    for script in examples/{closed_counter_serves_no_order,heartbeats_are_skipped,login_is_answered}.ttcn \
        examples/replies_go_to_their_senders.ttcn tests/golden/all_orders/two_senders_to_one_that_ended.ttcn; do
        "$tpr" trace "$script" >"$1/$(basename "$script" .ttcn).trace" </dev/null || return
    done
}

# Judges lawful traces: five of `tpr trace`, five of logs, and others, each with every fault that one edit can plant,
# and with several faults; two that are cut, or have other bytes; the tables; and traces that were played or made at
# random.
judged_traces() {
    local traces=(tests/traces/lawful/*.trace tests/titan/{kitchen,clearing,pairs,mapped,made}/trace)
    local small=(tests/traces/lawful/{one_port,ask_and_answer}.trace)
    set_up "the program prints traces" make_traces "$room/traced" && traces+=("$room"/traced/*.trace)
    told_by 19 compare planted "${traces[@]}" "${judge_of_traces[@]}"
    answered_tables "${judge_of_traces[@]}"
    told_by 19 compare several "${traces[@]}" "${judge_of_traces[@]}"
    told_by 2 compare cuts "${small[@]}" "${judge_of_traces[@]}"
    told_by 2 compare bytes "${small[@]}" "${judge_of_traces[@]}"
    told_by "${#runnable[@]}" compare played "${runnable[@]}" "${judge_of_traces[@]}"
    told_by 20 compare chance {1..20} "${judge_of_traces[@]}"
    if [[ ! ${JUDGE-} ]]; then told_by 12 large "$tpr"; fi
}

traces() {
    local runnable judge_of_traces
    find_runnable
    find_judge
    the_judge_of_traces
    told_by 100 titan_logs
    told_by 2 cuts tests/titan/made/x-3.log tests/titan/made/5.log
    judged_traces
}

# Judges free runs: each trace of `tpr trace` must be lawful and one run, by the judge in Python and by `tpr judge`;
# without its lines `came` it must be a report that the script may have.
traces_of_runs() {
    local runnable judge_of_traces
    find_runnable
    find_judge
    told_by $((2 * ${#runnable[@]})) runs "$tpr" "${runnable[@]}" "${judge_of_traces[@]}"
}
