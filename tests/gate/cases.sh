# Functions that all tests in shell use to run, judge and count cases. ./test reads all files tests/FOLDER/NAME.sh, and
# defines these variables: `root`, the folder of the repository; `tpr`, the program, `called`, what is called on command
# lines, and `ordered`, tpr_ordered; `room`, the part's own folder, and `room_of_all`, the folder of all parts; the
# counters `passed` and `failed`.

# Counts a case, by this status.
count() {
    if (($1 == 0)); then ((passed += 1)); else ((failed += 1)); fi
}

# Runs the cases of a table, and fails if there are fewer than LEAST: the table lost its entries, or isn't found.
at_least() { # LEAST COMMAND..
    local least=$1 before=$((passed + failed)) tried
    shift
    "$@"
    tried=$((passed + failed - before))
    if ((tried < least)); then
        echo "FAILED: $tried cases of $*, and there are $least at least"
        count 1
    fi
}

# Tests what must hold before a case is tried, because the case would otherwise show nothing. If it doesn't hold, prints
# and counts a failure.
set_up() { # WHAT HOLDS, COMMAND..
    if "${@:2}"; then return 0; fi
    echo "FAILED: it doesn't hold that $1"
    count 1
    return 1
}

# Examples

# Puts the scripts of the examples and of tests/orders/ that can be run into `runnable`, by the list tests/cases.list.
find_runnable() {
    mapfile -t runnable < <(awk '$1 == "right" || $1 == "small" { print $2 }' tests/cases.list)
}

# Tests in Python

# Counts the lines `passed ..` and `FAILED: ..`, and prints all others and the failures. What is left out is printed at
# the end of all parts.
count_told() { # FILE
    local line
    while IFS= read -r line; do
        case $line in
            'passed '*) count 0 ;;
            'left out '*) leave_out "${line#left out }" ;;
            'FAILED: '*)
                echo "$line"
                count 1
                ;;
            *) echo "$line" ;;
        esac
    done <"$1"
}

# Runs a test in Python, keeps its output, and counts its cases. A test has failed if its status says so but it prints
# no failure, for example because it breaks off.
told() { # FILE WORD..
    local ended
    python3 -B "${@:2}" >"$1" 2>&1
    ended=$?
    if ((ended != 0)) && ! grep -q '^FAILED: ' "$1"; then
        echo "FAILED: $2 ended with status $ended, and told no failure" >>"$1"
    fi
    count_told "$1"
}

# The same for a test whose lines are `passed RUNS NAME`: adds the runs to `runs_of_all`, or to `refused_of_all`.
told_of_runs() { # COUNTER WORD..
    told "$room/told" "${@:2}"
    declare -g -i "$1+=$(sum_of 2 "$room/told")"
}

# Prints the sum of the numbers at this place of each line `passed ..`.
sum_of() { # PLACE FILE
    awk -v place="$1" '$1 == "passed" { sum += $place } END { print sum + 0 }' "$2"
}

# Files and processes

# Whether the program is a script. Its shell's calls would be refused too, so cases of that kind are left out.
is_script() { # PROGRAM
    [[ $(head -c 2 -- "$1") == '#!' ]]
}
