# Compares mode verdicts with the allowed reports of each example.
verdicts() { at_least "$script_examples" told "$room/decided" tests/program/decided.py "$tpr"; }
