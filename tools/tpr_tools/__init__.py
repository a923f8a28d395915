"""The parts of the tools. No verdict of tpr depends on them, and nothing here reads a file of tests/."""
