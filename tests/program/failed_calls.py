#!/usr/bin/env python3
"""Tests how the program ends if a read, a write or a flush fails after some bytes: with 2 or 3, as docs/PROFILE.md,
"The program", says.

    tests/program/failed_calls.py PROGRAM FOLDER REFUSED

The arguments and the output are those of from_outside.py. Only this test refuses the writes of long reports, of `run`
and of `trace`; tests/runs/runs.sh refuses allocations, threads and reads of runs too.
"""
from __future__ import annotations

import os
from collections.abc import Callable, Iterator
from typing import NamedTuple

from calling import Ended
from from_outside import Case, Program, try_each
from refusing import NO_READ, Wrong, must

# The modes whose answers to the program's texts are written in several pieces. The answer of mode queue is as long, but
# bypasses the buffer in one piece.
IN_PIECES = ("run", "trace")


def read_that_fails(taken: int) -> Callable[[Program, str], None]:
    """The bytes are read one by one, and after some of them the next read fails. The bytes before are a bad line in
    each mode, which isn't reported."""

    def fails(program: Program, mode: str) -> None:
        refusals = {"SHORT_READS_FROM": 1, "READ": taken + 1}
        path = f"{program.folder}/empty_lines"
        with open(path, "wb") as file:
            file.write(b"\n" * 5)
        with open(path, "rb") as file:
            ended, came = program.run_with(refusals, mode, stdin=file)
            place = os.lseek(file.fileno(), 0, os.SEEK_CUR)
        must("READ" in came and place == taken, f"{place} bytes were read")
        ended.must_be(2, NO_READ)
        ended, came = program.run_with(refusals, mode, path)
        must("READ" in came, "no read of the file was refused")
        ended.must_be(2, NO_READ)

    return fails


def write_that_fails(kind: str) -> Callable[[Program, str], None]:
    """Each write of a long answer fails in turn, alone or with all later ones. The output is the beginning of the
    answer, and nothing is written after the failure: the rest that is kept isn't tried again."""

    def fails(program: Program, mode: str) -> None:
        for number in range(1, 1000):
            ended, came = program.run_with({kind: number}, mode, program.file(mode))
            if not came:
                must(number > (2 if mode in IN_PIECES else 1), f"there are {number - 1} writes")
                return ended.must_be(0, program.answers[mode])
            must((ended.status, ended.said) == (3, b""), f"write {number}: status {ended.status}, said {ended.said!r}")
            program.must_be_cut(mode, ended.printed)
        raise Wrong("there are 1,000 writes")

    return fails


class Short(NamedTuple):
    """A text with a short answer, which is kept until the end, and then written at once by the flush."""

    name: str
    mode: str
    text: bytes
    status: int
    answer: bytes

    def run_with(self, program: Program, refusals: dict[str, int]) -> tuple[Ended, set[str]]:
        path = f"{program.folder}/short"
        with open(path, "wb") as file:
            file.write(self.text)
        return program.run_with(refusals, self.mode, path)

    def flush_that_fails(self, program: Program, _mode: str) -> None:
        """The flush is the only write: nothing is written before it, and it isn't tried again."""
        ended, came = self.run_with(program, {"WRITE": 1})
        must(came, "nothing was written")
        ended.must_be(3, b"")
        ended, came = self.run_with(program, {"WRITE": 2})
        must(not came, "there is a second write")
        ended.must_be(self.status, self.answer)

    def cut_behind(self, written: int) -> Callable[[Program, str], None]:
        """The bytes are written one by one, and after some of them each write fails. After the last there is none."""

        def cut(program: Program, _mode: str) -> None:
            ended, came = self.run_with(program, {"SHORT_WRITES_FROM": 1, "WRITES_FROM": written + 1})
            whole = written == len(self.answer)
            must(("WRITES_FROM" in came) != whole, f"it came to {sorted(came)}")
            ended.must_be(self.status if whole else 3, self.answer[:written])

        return cut


PASSES = b"module M { type component C { } testcase t() runs on C { setverdict(pass); } }"
PASSED = b"component mtc\nset pass\nend done\nverdict pass\nresult pass\n"
SHORT = (
    Short("a queue file", "queue", b"halt\n", 0, b"halted 0\nleft 0\n"),
    Short("a bad line of a queue file", "queue", b"halted\n", 2, b"refused 1 BadLine line 1\n"),
    Short("an unlawful trace", "judge", b"component a\ntook p b 0 m\n", 2, b"unlawful NotTop line 2\n"),
    Short("a lawful trace", "judge", b"component a\n", 0, b"lawful\none run\n"),
    Short("a bad line of a trace", "judge", b"sent\n", 2, b"refused 1 BadLine line 1\n"),
    Short("a script", "check", PASSES, 0, b"accepted\n"),
    Short("no script", "check", b"", 2, b"refused 10 Syntax line 1\n"),
    Short("a report", "run", PASSES, 0, PASSED),
    Short("a trace of a run", "trace", PASSES, 0, PASSED),
    Short("the one verdict of a script", "verdicts", PASSES, 0, b"always pass\nstates 1\n"),
)


def cases() -> Iterator[Case]:
    """Each case: its name, its mode, and what is tried."""
    for mode in ("queue", "check", "run", "trace", "judge", "verdicts"):
        yield "a write that fails, each in turn", mode, write_that_fails("WRITE")
        yield "the writes from each on", mode, write_that_fails("WRITES_FROM")
        for taken in range(5):
            yield f"a read that fails behind {taken} bytes", mode, read_that_fails(taken)
    for short in SHORT:
        yield f"a flush that fails, of {short.name}", short.mode, short.flush_that_fails
        for written in range(len(short.answer) + 1):
            yield f"a write that fails behind {written} bytes of {short.name}", short.mode, short.cut_behind(written)


if __name__ == "__main__":
    try_each(cases())
