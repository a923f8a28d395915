# Tests the program's command line, its input and its output. It is called as users call it: by ./tpr, unless another
# program is tested.
command_line() {
    at_least 112 told "$room/command_line" tests/program/command_line.py "$called"
}
