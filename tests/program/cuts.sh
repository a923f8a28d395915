# Tests examples that are cut short after each of their bytes.
cuts() { at_least 2 told "$room/cuts" tests/program/cuts.py "$tpr"; }
