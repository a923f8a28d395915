#!/usr/bin/env python3
"""Tests what the program prints for each example, given by its name, and then on standard input.

    tests/program/golden.py PROGRAM [NAME..]

It tries all examples of examples/ and tests/golden/, or those with these names. It prints a line
`passed FILE in mode MODE` for each, or lines that begin with `FAILED: FILE in mode MODE`.
"""
from __future__ import annotations

import argparse
import difflib
import subprocess
import sys
from collections.abc import Iterator
from pathlib import Path
from typing import NamedTuple, Optional

sys.dont_write_bytecode = True

import example_files

# The modes for each ending of an example's file. Another kind of example needs another line.
MODES = {"queue": ("queue",), "ttcn": ("check", "run")}
MOST_SECONDS, MOST_LINES = 60, 40


class Wanted(NamedTuple):
    """The status, and the texts of which one must be printed. Standard error must be empty."""

    status: int
    texts: list[str]


def wanted_of(text: Path, mode: str) -> Wanted:
    if example_files.is_refused(text):
        return Wanted(2, printed_in(text))
    return Wanted(0, ["accepted\n"] if mode == "check" else printed_in(text))


def printed_in(text: Path) -> list[str]:
    return [it.read_bytes().decode("latin-1") for it in example_files.answers(text)]


def wrong_with(command: list[str], text: Optional[bytes], wanted: Wanted) -> Optional[str]:
    """Describes what is wrong if the command gets this text on standard input, or returns None."""
    try:
        ended = subprocess.run(command, input=text or b"", capture_output=True, timeout=MOST_SECONDS, check=False)
    except subprocess.TimeoutExpired:
        return f"no end after {MOST_SECONDS} seconds"
    printed, said = ended.stdout.decode("latin-1"), ended.stderr.decode("latin-1")
    if (ended.returncode, said) != (wanted.status, ""):
        return f"the status was {ended.returncode}, and {wanted.status} is wanted; it said {said!r}"
    if printed in wanted.texts:
        return None
    first = wanted.texts[0] if wanted.texts else ""
    told = difflib.unified_diff(first.splitlines(), printed.splitlines(), "wanted", "printed", lineterm="")
    others = "(nor is it one of the other texts that are allowed)" if len(wanted.texts) > 1 else ""
    return "\n".join(["another text was printed", *[*told][:MOST_LINES], others])


def told(program: str, text: Path, mode: str) -> str:
    name = f"{text.relative_to(example_files.ROOT)} in mode {mode}"
    wanted = wanted_of(text, mode)
    if (wrong := wrong_with([program, mode, str(text)], None, wanted)) is not None:
        return f"FAILED: {name}: {wrong}"
    if (wrong := wrong_with([program, mode], text.read_bytes(), wanted)) is not None:
        return f"FAILED: {name}, on standard input: {wrong}"
    return f"passed {name}"


def cases(names: list[str]) -> Iterator[tuple[Path, str]]:
    for ending, modes in MODES.items():
        for text in example_files.texts(ending):
            if not names or text.stem in names:
                yield from ((text, mode) for mode in modes)


def main() -> int:
    words = argparse.ArgumentParser(description="What the program prints of each example.")
    words.add_argument("program", metavar="PROGRAM")
    words.add_argument("names", metavar="NAME", nargs="*", help="of the examples; all without one")
    asked = words.parse_args()
    lines = [f"FAILED: there is no example {it}" for it in asked.names if not [*cases([it])]]
    print(*lines, sep="\n", end="\n" if lines else "", flush=True)
    for text, mode in cases(asked.names):
        lines.append(told(asked.program, text, mode))
        print(lines[-1], flush=True)
    return 1 if any(line.startswith("FAILED: ") for line in lines) else 0


if __name__ == "__main__":
    sys.exit(main())
