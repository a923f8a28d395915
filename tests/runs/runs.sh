# Runs in threads: again and again, beside a load, in little memory, with calls refused, and on small stacks.

free_runs() { # WAY
    told_of_runs runs_of_all tests/runs/free_runs.py "$1" "$tpr"
}

refused_runs() { # WHAT
    told_of_runs refused_of_all tests/runs/refused_runs.py "$1" "$room_of_all/refused.so" "$tpr"
}

# Tests that the faults that races.py plants in the floor and the notifier still fit there.
faults_of_races() { told "$room/races" tests/runs/races.py --fit; }
