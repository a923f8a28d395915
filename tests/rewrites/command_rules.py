"""Tests the command line of tools/rewrite: its words, and files and programs that can't be used.

    tests/rewrites/command_rules.py PROGRAM

It prints a line `passed ..` or `FAILED: ..` for each case.
"""
from __future__ import annotations

import os
import sys
import tempfile

sys.path.insert(0, os.path.dirname(os.path.realpath(__file__)))

from asking import FOLDER, REWRITE, Ended, judged, run

SCRIPT = f"{FOLDER}/natural/any_port.ttcn"
# Runs a command whose answer can't be written.
ONTO_A_FULL_DEVICE = ("sh", "-c", 'exec "$0" "$@" >/dev/full')


def says_alone(name: str, ended: Ended, status: int, said: str) -> None:
    """The command must end with this status, and only write one line that begins like this on standard error."""
    is_so = ended.said.startswith(said) and ended.said.count("\n") == 1 and not ended.printed
    judged(name, ended.status == status and is_so, f"status {ended.status}, {ended.said[:300]}{ended.printed[:300]}")


def main(program: str) -> None:
    told = run("env", "-u", "TPR", REWRITE, "--help")
    judged("rewrite tells its words", told.status == 0 and "--case NAME" in told.printed, told.said)
    with tempfile.TemporaryDirectory() as folder:
        none = f"{folder}/nothing"
        ended = run(REWRITE, "--tpr", program, f"{none}.ttcn")
        wanted = f"rewrite: {none}.ttcn can't be read: No such file or directory"
        says_alone("a file that isn't there", ended, 2, wanted)
        ended = run(REWRITE, "--tpr", none, SCRIPT)
        says_alone("a program that isn't there", ended, 1, f"rewrite: {none} can't be run: No such file or directory")
    ended = run(*ONTO_A_FULL_DEVICE, REWRITE, "--tpr", program, SCRIPT)
    says_alone("a script that can't be written", ended, 3, "rewrite: the answer can't be written")


if __name__ == "__main__":
    main(sys.argv[1])
