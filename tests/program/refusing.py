"""Runs commands with a call refused, by the library of refused.c, which is loaded before the C library.

The program must not be a script, since the shell that runs it would be refused calls too.
"""
from __future__ import annotations

import argparse
import os
import subprocess
import tempfile
from collections.abc import Callable, Iterable, Iterator, Mapping, Sequence
from contextlib import contextmanager
from pathlib import Path
from typing import NamedTuple, Optional

ROOT = Path(__file__).resolve().parents[2]
MOST_SECONDS, MOST_CALLS = 20, 5000
SHOWN = 400  # bytes of a wrong output that a failure shows
NO_MEMORY, NO_THREAD, NO_READ = b"fault 50 Memory\n", b"fault 51 NoThread\n", b"refused 2 Read\n"


class Wrong(Exception):
    """A case has failed."""


def must(holds: object, text: str) -> None:
    if not holds:
        raise Wrong(text)


@contextmanager
def refused_calls(library: str, calls: Mapping[str, int]) -> Iterator[tuple[dict[str, str], set[str]]]:
    """The variables by which the call with the given number is refused, for each kind: MEMORY, THREAD, READ, WRITE and
    the others of refused.c. At the end the set contains the kinds for which the program reached that call."""
    came: set[str] = set()
    with tempfile.TemporaryDirectory() as marks:
        numbers = {f"REFUSED_{kind}": str(number) for kind, number in calls.items()}
        yield {**numbers, "REFUSED_MARKS": marks, "LD_PRELOAD": library}, came
        came.update(mark.upper() for mark in os.listdir(marks))


class Ran(NamedTuple):
    """How a run ended: its status, None if it didn't end, both outputs, and the kinds of calls that were refused."""

    status: Optional[int]
    printed: bytes
    said: bytes
    refused: frozenset[str] = frozenset()

    def is_so(self, status: int, printed: bytes) -> bool:
        return self[:3] == (status, printed, b"")

    def is_fault(self, fault: bytes) -> bool:
        return self.is_so(3, fault)

    def wrong(self, what: str) -> Wrong:
        return Wrong(f"{what}: status {self.status}, printed {self.printed[:SHOWN]!r}, said {self.said[:SHOWN]!r}")


Before = Optional[Callable[[], None]]


def run(words: Sequence[str], before: Before = None, more: Optional[Mapping[str, str]] = None) -> Ran:
    """Runs a command with further variables, and `before` in its process before it begins."""
    try:
        done = subprocess.run(
            words,
            stdin=subprocess.DEVNULL,
            capture_output=True,
            env={**os.environ, **(more or {})},
            preexec_fn=before,
            timeout=MOST_SECONDS,
            check=False,
        )
    except subprocess.TimeoutExpired as late:
        return Ran(None, late.stdout or b"", late.stderr or b"")
    return Ran(done.returncode, done.stdout, done.stderr)


class Refusing:
    """Runs commands with calls refused, and counts the runs in which one was. The folder is for files."""

    def __init__(self, library: str, program: str, folder: Path):
        self.library, self.program, self.folder, self.refused = library, os.path.abspath(program), folder, 0

    def run(self, words: Sequence[str], **calls: int) -> Ran:
        """Runs a command with the call of this number refused, for each kind."""
        with refused_calls(self.library, calls) as (more, came):
            ran = run(words, more=more)
        self.refused += bool(came)
        return ran._replace(refused=frozenset(came))

    def each(self, words: Sequence[str], kind: str, most: int, **others: int) -> Iterator[tuple[int, Ran]]:
        """Runs a command with each call of a kind refused in turn. The last run is the first that makes fewer calls."""
        for number in range(1, most + 1):
            ran = self.run(words, **{kind: number}, **others)
            yield number, ran
            if kind not in ran.refused:
                return
        raise Wrong(f"{most} calls of the kind {kind}")

    def each_is_told(
        self, words: Sequence[str], kind: str, is_told: Callable[[Ran], bool], is_whole: Callable[[Ran], bool]
    ) -> None:
        """If a call is refused, the output says so; if none is, the answer is complete."""
        for number, ran in self.each(words, kind, MOST_CALLS):
            if kind in ran.refused and not is_told(ran):
                raise ran.wrong(f"with {kind.lower()} {number} refused")
        if number == 1 or not is_whole(ran):
            raise ran.wrong(f"{number - 1} of the kind {kind}, and the last run")


Case = tuple[str, Callable[[], None]]


def try_one_of(kinds: Mapping[str, Callable[[Refusing], Iterable[Case]]], description: str) -> int:
    """Tries the cases of the kind that the command line names, with its library and its program."""
    words = argparse.ArgumentParser(description=description)
    words.add_argument("what", choices=kinds)
    words.add_argument("library", metavar="LIBRARY", help="the library of tests/program/refused.c")
    words.add_argument("program", metavar="PROGRAM")
    asked = words.parse_args()
    with tempfile.TemporaryDirectory() as folder:
        refusing = Refusing(asked.library, asked.program, Path(folder))
        return try_each(kinds[asked.what](refusing), refusing)


def try_each(cases: Iterable[Case], refusing: Refusing) -> int:
    """Tries each case, and prints a line `passed REFUSED NAME` or `FAILED: NAME: ..` for it."""
    failed = False
    for name, attempt in cases:
        refused = refusing.refused
        try:
            attempt()
            print(f"passed {refusing.refused - refused} {name}", flush=True)
        except (Wrong, OSError) as wrong:
            failed = True
            print(f"FAILED: {name}: {wrong}", flush=True)
    return 1 if failed else 0
