#!/usr/bin/env python3
"""Tests what `tpr judge` prints for large traces, on a stack of 256 KiB.

    tests/traces/large.py PROGRAM

It prints a line `passed NAME` for each, or lines that begin with `FAILED: NAME`.
"""
from __future__ import annotations

import argparse
import sys
import tempfile
from collections.abc import Iterable, Iterator
from itertools import chain
from pathlib import Path
from typing import Any, NamedTuple

sys.dont_write_bytecode = True
sys.path.append(str(Path(__file__).resolve().parents[1] / "program"))

from calling import Cases, call, printed_by
from refusing import must

ON_A_SMALL_STACK = ("sh", "-c", 'ulimit -s 256 && exec "$@"', "sh")
BYTES = ("sh", "-c", 'echo component a && head -c "$1" /dev/zero | tr "\\0" x', "sh")
MOST_BYTES = 268_435_456  # of a trace
LAWFUL, TOO_LONG, BAD = b"lawful\none run\n", b"refused 15 Limit line 0\n", b"refused 1 BadLine line 2\n"
HEAD = b"component a\n"
LONG = b"x" * (1 << 20)


class Judge:
    """The program, a file for traces, and the cases."""

    def __init__(self, program: str, file: Path):
        self.program, self.file, self.cases = program, file, Cases()

    def says(self, name: str, status: int, answer: bytes, *words: str, **how: Any) -> None:
        ended = call([*ON_A_SMALL_STACK, self.program, "judge", *words], **how)
        self.cases.must_end(name, ended, status, answer)

    def says_of_the_file(self, name: str, status: int, answer: bytes) -> None:
        self.says(name, status, answer, str(self.file))

    def says_of_a_pipe(self, name: str, number: int, answer: bytes) -> None:
        """Judges a text of this many bytes, a long line after the first one, which comes through a pipe."""
        with printed_by(*BYTES, str(number - len(HEAD))) as pipe:
            self.says(f"{name}, through a pipe", 2, answer, stdin=pipe)

    def write(self, texts: Iterable[bytes]) -> None:
        with open(self.file, "wb") as file:
            file.writelines(texts)


class Many(NamedTuple):
    """A trace of many lines, with its expected status and answer."""

    name: str
    status: int
    texts: Iterable[bytes]
    answer: bytes


def traces_of_many_lines() -> Iterator[Many]:
    million, others = range(1, 1_000_001), range(1, 300_001)
    sections = (b"component a%d\nelse\n" % it for it in million)
    yield Many("a million sections of one line", 0, sections, LAWFUL)
    taken = (b"came p b %d m\ntook p b %d m\n" % (it, it) for it in range(5_000_000))
    yield Many("a section of ten million lines", 0, chain([HEAD], taken), LAWFUL)
    sent = (b"sent c%d.p 0 m\n" % it for it in others)
    received = (b"component c%d\ncame p a 0 m\ntook p a 0 m\n" % it for it in others)
    yield Many("300,000 receivers", 0, chain([HEAD], sent, received), LAWFUL)
    never = (b"component a%d\ntook p b 0 m\n" % it for it in million)
    answer = b"".join(b"unlawful NotTop line %d\n" % (2 * it) for it in million)
    yield Many("a million unlawful lines", 2, never, answer)
    came, left = (b"came p%d b 0 m\n" % it for it in others), (b"left q b %d m\n" % it for it in others)
    answer = b"unlawful Left line 300002\n" + b"unlawful Left line 600001\n" * 300_000
    yield Many("300,000 queues that aren't told, and as many lines left", 2, chain([HEAD], came, left), answer)


def many_lines(judge: Judge) -> None:
    """Many lines, sections, receivers, queues, and lines that are reported."""
    for it in traces_of_many_lines():
        judge.write(it.texts)
        judge.says_of_the_file(it.name, it.status, it.answer)


def long_names(judge: Judge) -> None:
    """Names and messages of a mebibyte."""
    trace = [
        b"component %s\nsent b.%s 0 %s\n" % (LONG, LONG, LONG),
        b"component b\ncame %s %s 0 %s\n" % (LONG, LONG, LONG),
    ]
    judge.write(trace)
    judge.says_of_the_file("names and messages of 1 MiB", 0, LAWFUL)
    judge.write([*trace, b"took %sx %s 0 %s\n" % (LONG, LONG, LONG)])
    judge.says_of_the_file("names of 1 MiB that differ in the last byte", 2, b"unlawful NotTop line 5\n")


def long_texts(judge: Judge) -> None:
    """A trace may have 268,435,456 bytes."""
    judge.write([HEAD])
    with open(judge.file, "rb+") as file:
        file.truncate(MOST_BYTES + 1)
    judge.says_of_the_file("a text of 268,435,457 bytes", 2, TOO_LONG)
    judge.says_of_a_pipe("a text of 268,435,457 bytes", MOST_BYTES + 1, TOO_LONG)
    judge.says_of_a_pipe("a text without an end", 1_000_000_000_000, TOO_LONG)
    judge.write([HEAD, *(256 * [LONG])])
    with open(judge.file, "rb+") as file:
        file.truncate(MOST_BYTES)
    must(judge.file.stat().st_size == MOST_BYTES, "the longest text isn't as long as it may be")
    judge.says_of_the_file("a text of 268,435,456 bytes", 2, BAD)
    judge.says_of_a_pipe("a text of 268,435,456 bytes", MOST_BYTES, BAD)


GROUPS = ((many_lines, 5), (long_names, 2), (long_texts, 5))


def main() -> int:
    words = argparse.ArgumentParser(description="What `tpr judge` says of large traces.")
    words.add_argument("program", metavar="PROGRAM")
    program = words.parse_args().program
    with tempfile.TemporaryDirectory() as folder:
        judge = Judge(program, Path(folder) / "trace")
        return judge.cases.try_groups(judge, GROUPS)


if __name__ == "__main__":
    sys.exit(main())
