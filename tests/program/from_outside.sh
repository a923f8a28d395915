# Tests how the program ends if something outside it fails: its output, memory, threads, files, signals, calls that are
# interrupted or cut short (from_outside.py), and calls that fail after some bytes (failed_calls.py).

cases_from_outside() {
    local refused=()
    if [[ -e $room_of_all/refused.so ]] && ! is_script "$tpr"; then refused=("$room_of_all/refused.so"); fi
    mkdir -- "$room/from_outside"
    told "$room/told_from_outside" tests/program/from_outside.py "$tpr" "$room/from_outside" "${refused[@]}"
}

from_outside() {
    local least=70
    if is_script "$tpr"; then least=49; fi
    at_least "$least" cases_from_outside
}

each_failed_call() {
    mkdir -- "$room/failed_calls"
    told "$room/told_of_failed_calls" tests/program/failed_calls.py "$tpr" "$room/failed_calls" \
        "$room_of_all/refused.so"
}

failed_calls() {
    at_least 335 each_failed_call
}
