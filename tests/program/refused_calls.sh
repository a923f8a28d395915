# Refuses each call of a kind in turn, by a library that is made once for all parts.

compile_refusals() {
    ${CC:-cc} -O1 -shared -fPIC -o "$room_of_all/refused.so" "$root/tests/program/refused.c"
}

refused_calls() { # WHAT
    told_of_runs refused_of_all tests/program/refused_calls.py "$1" "$room_of_all/refused.so" "$tpr"
}
