# Tests that ./build builds what it should, and that ./tpr then runs the built program (building.py); what ./tpr does if
# the program isn't built, or is older than a source (trying.py); and what the tools do then that call it (by_tools.py).
building() {
    at_least 78 told "$room/building" tests/program/building.py
    at_least 100 told "$room/trying" tests/program/trying.py
    at_least 52 told "$room/by_tools" tests/program/by_tools.py
}
