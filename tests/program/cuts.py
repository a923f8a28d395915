#!/usr/bin/env python3
"""Tests the answers to examples that are cut short after each of their bytes.

    tests/program/cuts.py PROGRAM            compares the program's answers with those in tests/program/NAME.cuts
    tests/program/cuts.py --write PROGRAM    writes the answers of this program there

bench/write_cuts lets a program that was written independently of this one write the answers. It prints a line
`passed NAME` for each example, or lines that begin with `FAILED: NAME`.
"""
from __future__ import annotations

import argparse
import difflib
import subprocess
import sys
from pathlib import Path

sys.dont_write_bytecode = True

from example_files import example

HERE = Path(__file__).resolve().parent
EXAMPLES = ("clear_keeps_the_port_halted", "trigger_discards_what_does_not_match")
MOST_SECONDS, MOST_LINES = 60, 40


def answers_to_cuts(program: str, text: bytes) -> bytes:
    """The program's answer to each cut of a queue file."""
    answers = []
    for size in range(1, len(text) + 1):
        ended = subprocess.run(
            [program, "queue"],
            input=text[:size],
            stdout=subprocess.PIPE,
            stderr=subprocess.STDOUT,
            timeout=MOST_SECONDS,
            check=False,
        )
        answers.append(b"--- cut after byte %d\n%b--- status %d\n" % (size, ended.stdout, ended.returncode))
    return b"".join(answers)


def told(name: str, found: bytes, wanted: bytes) -> str:
    if found == wanted:
        return f"passed {name}"
    before, after = (it.decode("latin-1").splitlines() for it in (wanted, found))
    lines = [*difflib.unified_diff(before, after, "wanted", "printed", lineterm="")]
    return "\n".join([f"FAILED: {name}", *lines[:MOST_LINES]])


def main() -> None:
    words = argparse.ArgumentParser(description="What the program answers to examples that are cut short.")
    words.add_argument("--write", action="store_true", help="write its answers down")
    words.add_argument("program", metavar="PROGRAM")
    asked = words.parse_args()
    for name in EXAMPLES:
        found, file = answers_to_cuts(asked.program, example(f"{name}.queue").read_bytes()), HERE / f"{name}.cuts"
        if asked.write:
            file.write_bytes(found)
        else:
            print(told(name, found, file.read_bytes()), flush=True)


if __name__ == "__main__":
    main()
