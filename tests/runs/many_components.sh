# Runs scripts with 8, 20, 40 and 62 components, and one with all 64 that a test case may have: a token that goes round,
# a star, all to all, a tree, and so on; and scripts in which 1, 3 and 8 components send a thousand messages each to one
# (tests/runs/many_components/shapes.py).

# How often each script is run, a quarter of it in each of four ways: on all processors, on two, on one, and beside
# a load.
runs_of_many=200

runs_of_many_components() {
    told "$room/many_components" tests/runs/many_components/many.py "$tpr" "$runs_of_many"
}

# Compares the judge of these runs with the model of runs, on scripts of the same shapes with few components.
judge_of_many_components() {
    told "$room/many_tried" tests/runs/many_components/tried.py 5
    set_up "the judge refuses 300 reports" [ "$(sum_of 3 "$room/many_tried")" -ge 300 ]
}

many_components() {
    at_least 176 runs_of_many_components
    at_least 20 judge_of_many_components
}
