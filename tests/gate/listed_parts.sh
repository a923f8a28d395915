# Compares the parts of ./test with their list, tests/gate/parts, which is separate from their calls. Each part that has
# ended leaves a line with its number of cases (side_by_side.sh). At the end ./test fails if a part of the list has no
# line, or two, or tried fewer cases than the list demands, or if a part isn't in the list. ./test defines `chosen` and
# `left_out`.

parts_list=tests/gate/parts

# Defines the numbers of examples of each kind, and so on, as variables with these names, by the list tests/cases.list.
read_counts() {
    local name number
    while IFS='=' read -r name number; do
        declare -g -i "$name=$number"
    done < <(python3 -B tests/gate/listed_cases.py counts)
    [[ ${small_scripts-} ]]
}

# Prints the lines of the list: NAME LEAST FAULT. LEAST may be a sum of such variables.
listed_parts() {
    grep -v -e '^#' -e '^$' -- "$parts_list"
}

is_listed() { # NAME
    listed_parts | grep -q -- "^$1 "
}

# Whether the command line names the part, or no part at all.
is_chosen() { # NAME
    ((${#chosen[@]} == 0)) || [[ " ${chosen[*]} " == *" $1 "* ]]
}

# Leaves out a whole part, and prints the reason at the end. If the command line names the part, it is tried.
may_leave_out() { # NAME WHY
    if ((${#chosen[@]} == 0)); then left_out["$1"]=$2; fi
}

is_tried() { # NAME
    is_chosen "$1" && [[ ! ${left_out[$1]-} ]]
}

# Notes a case that a part leaves out because it can't be tried here. The note is printed at the end.
leave_out() { # WHAT, AND WHY
    echo "left out: $1" >>"$room_of_all/left_out"
}

# Tests that a part of the list has ended once, with enough cases.
part_was_tried() { # NAME LEAST
    local times cases
    times=$(grep -c -- "^$1 " "$room_of_all/parts")
    if [[ ${left_out[$1]-} && $times == 0 ]]; then return; fi
    if ((times != 1)); then
        echo "FAILED: the part $1 of $parts_list was tried $times times"
        return 1
    fi
    cases=$(awk -v name="$1" '$1 == name { print $2 }' "$room_of_all/parts")
    if ((cases < $2)); then
        echo "FAILED: the part $1 tried $cases cases, and there are $(($2)) at least"
        return 1
    fi
}

# Tests that no part is missing. If the command line names some, only these are looked at.
all_parts_were_tried() {
    local name least
    touch -- "$room_of_all/parts"
    while read -r name least _; do
        if is_chosen "$name" && ! part_was_tried "$name" "$least"; then count 1; fi
    done < <(listed_parts)
    while read -r name _; do
        if ! is_listed "$name"; then
            echo "FAILED: the part $name isn't in $parts_list"
            count 1
        fi
    done <"$room_of_all/parts"
    if [[ $(listed_parts | cut -d ' ' -f 1 | sort | uniq -d) ]]; then
        echo "FAILED: a name stands twice in $parts_list"
        count 1
    fi
}

# Prints the cases, failures and seconds of each part, in the order of the list.
times_of_parts() {
    echo "the built program, by parts:               cases   failed  seconds"
    awk 'NR == FNR { place[$1] = NR; next }
        { printf "%d %-40s %8d %8d %8d\n", ($1 in place) ? place[$1] : NR, $1, $2, $3, $4 }' \
        <(listed_parts) "$room_of_all/parts" | sort -s -n -k 1,1 | cut -d ' ' -f 2-
}
