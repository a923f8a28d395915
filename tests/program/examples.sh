# Tests the examples of examples/ and tests/golden/.
examples() {
    at_least 1 told "$room/list" tests/gate/listed_cases.py compare
    at_least $((queue_examples + 2 * script_examples)) told "$room/examples" tests/program/golden.py "$tpr"
}
