#!/usr/bin/env python3
"""Tests that mode verdicts prints exactly the verdicts of each example's allowed reports.

    tests/program/decided.py PROGRAM

It tries all scripts of examples/ and tests/golden/. If there is a NAME.verdicts, this is the whole output, with the
states and the orders. It prints a line `passed FILE` for each, or lines that begin with `FAILED: FILE`.
"""
from __future__ import annotations

import argparse
import subprocess
import sys
from pathlib import Path

sys.dont_write_bytecode = True

import example_files

ORDER = ("none", "pass", "inconc", "fail", "error")
MOST_SECONDS = 60


def first_line(text: Path) -> str:
    """The expected first line: the verdicts of all allowed reports, or the refusal."""
    if example_files.is_refused(text):
        return example_files.answers(text)[0].read_text(encoding="latin-1").splitlines()[0]
    results = {it.read_text(encoding="latin-1").splitlines()[-1] for it in example_files.answers(text)}
    verdicts = [it for it in ORDER if f"result {it}" in results]
    return f"always {verdicts[0]}" if len(verdicts) == 1 else " or ".join(verdicts)


def told(program: str, text: Path) -> str:
    name = str(text.relative_to(example_files.ROOT))
    first = first_line(text)
    try:
        command = [program, "verdicts", str(text)]
        ended = subprocess.run(command, stdin=subprocess.DEVNULL, capture_output=True, timeout=MOST_SECONDS, check=False)
    except subprocess.TimeoutExpired:
        return f"FAILED: {name}: no end after {MOST_SECONDS} seconds"
    printed = ended.stdout.decode("latin-1")
    if (ended.returncode, ended.stderr) != (0 if first.startswith("always ") else 2, b""):
        return f"FAILED: {name}: the status was {ended.returncode}; it said {ended.stderr!r}"
    whole = text.with_suffix(".verdicts")
    if whole.exists() and printed != whole.read_text(encoding="latin-1"):
        return f"FAILED: {name}: {printed!r} was printed, and {whole.name} is another text"
    if printed.splitlines()[0] != first:
        return f"FAILED: {name}: {printed.splitlines()[0]!r} was printed first, and {first!r} is wanted"
    return f"passed {name}"


def main() -> None:
    words = argparse.ArgumentParser(description="What mode verdicts says of each example.")
    words.add_argument("program", metavar="PROGRAM")
    program = words.parse_args().program
    for text in example_files.texts("ttcn"):
        print(told(program, text), flush=True)


if __name__ == "__main__":
    main()
