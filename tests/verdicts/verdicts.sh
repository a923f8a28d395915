# Compares what `tpr verdicts` prints with every order of the acts in the model of runs (tests/verdicts/).

# The minimum numbers of scripts of which the model goes through every order, and the numbers of random scripts.
least_whole=167
verdicts_by_chance=10000
least_whole_by_chance=8900
verdicts_of_alike=1000
least_whole_of_alike=700

verdicts_of_each() {
    find_runnable
    told "$room/verdicts" tests/verdicts/verdicts.py each "$tpr" "${runnable[@]}" tests/exploring/acts/*.ttcn
}

verdicts_made_by_chance() {
    told "$room/by_chance" tests/verdicts/verdicts.py random "$tpr" 1 "$verdicts_by_chance"
}

verdicts_of_alike_by_chance() {
    told "$room/alike" tests/verdicts/verdicts.py alike "$tpr" 1 "$verdicts_of_alike"
}

every_verdict() {
    at_least 25 told "$room/answers" tests/verdicts/verdicts.py answers
    at_least 13 told "$room/limit" tests/verdicts/verdicts.py limit "$tpr"
    at_least $((right_examples + small_scripts + 7)) verdicts_of_each
    set_up "every order of $least_whole scripts is gone through" [ "$(sum_of 2 "$room/verdicts")" -ge "$least_whole" ]
    at_least "$verdicts_by_chance" verdicts_made_by_chance
    set_up "so it is of $least_whole_by_chance scripts made by chance" \
        [ "$(sum_of 2 "$room/by_chance")" -ge "$least_whole_by_chance" ]
    at_least "$verdicts_of_alike" verdicts_of_alike_by_chance
    set_up "so it is of $least_whole_of_alike in which some components are alike" \
        [ "$(sum_of 2 "$room/alike")" -ge "$least_whole_of_alike" ]
    echo "verdicts: every order of $(sum_of 2 "$room/verdicts") scripts and of $(sum_of 2 "$room/by_chance") made by" \
        "chance; the program looked at $(sum_of 3 "$room/verdicts") and $(sum_of 3 "$room/by_chance") states"
}
