"""Runs the program on texts, each with its name and its expected answer."""
from __future__ import annotations

import subprocess
from collections.abc import Callable, Iterator
from dataclasses import dataclass
from pathlib import Path
from typing import NamedTuple, Optional, Protocol

ROOT = Path(__file__).resolve().parents[2]
MOST_SECONDS = 60
SHOWN = 300  # bytes of a wrong output that a failure shows


class Ended(NamedTuple):
    """How a run ended: its status, its standard output and its standard error."""

    status: int
    printed: bytes
    said: bytes

    def shown(self) -> str:
        return f"status {self.status}, printed {self.printed[:SHOWN]!r}, said {self.said[:SHOWN]!r}"


class Asking:
    """Runs the program on a text, which it writes into a file of the folder."""

    def __init__(self, program: str, folder: Path):
        self.program, self.file = program, folder / "script"

    def answer(self, mode: str, text: bytes) -> Optional[Ended]:
        """Returns how the program ends on the text, or None if it takes too long."""
        self.file.write_bytes(text)
        words = [self.program, mode, str(self.file)]
        try:
            done = subprocess.run(
                words, stdin=subprocess.DEVNULL, capture_output=True, timeout=MOST_SECONDS, check=False
            )
        except subprocess.TimeoutExpired:
            return None
        return Ended(done.returncode, done.stdout, done.stderr)

    def fault(self, mode: str, text: bytes, wanted: Ended) -> Optional[str]:
        """Describes how the result differs from the expected one, or returns None."""
        ended = self.answer(mode, text)
        if ended == wanted:
            return None
        return f"{ended.shown() if ended else 'no end'}; wanted is {wanted.shown()}"


def told(answer: str) -> Ended:
    """The result of `check` that a table's answer stands for: `accepted`, or `CODE NAME LINE`."""
    if answer == "accepted":
        return Ended(0, b"accepted\n", b"")
    rule, _, line = answer.rpartition(" ")
    return Ended(2, f"refused {rule} line {line}\n".encode(), b"")


class Case(Protocol):
    """One test case."""

    name: str
    script: bytes

    def fault(self, asking: Asking) -> Optional[str]:
        """Describes what is wrong, or returns None."""


@dataclass
class Script:
    """A script, and the expected answer of `check`."""

    name: str
    script: bytes
    answer: str

    def fault(self, asking: Asking) -> Optional[str]:
        return asking.fault("check", self.script, told(self.answer))


@dataclass
class Reported:
    """A script that is run, and its expected report."""

    name: str
    script: bytes
    report: bytes

    def fault(self, asking: Asking) -> Optional[str]:
        return asking.fault("run", self.script, Ended(0, self.report, b""))


@dataclass
class Replayed:
    """A queue file, and what `queue` must print and return."""

    name: str
    script: bytes
    printed: bytes
    status: int

    def fault(self, asking: Asking) -> Optional[str]:
        return asking.fault("queue", self.script, Ended(self.status, self.printed, b""))


@dataclass
class Cut:
    """A script that is cut after any byte before its last bracket: `check` must refuse it in the line where it ends."""

    name: str
    script: bytes

    def fault(self, asking: Asking) -> Optional[str]:
        for size in range(len(self.script) + 1):
            text = self.script[:size]
            fault = asking.fault("check", text, told(f"10 Syntax {text.count(10) + 1}"))
            if fault is not None:
                return f"cut after byte {size}: {fault}"
        return None


class Group(NamedTuple):
    """Cases that belong together, and their minimum number."""

    name: str
    least: int
    cases: Callable[[], Iterator[Case]]


# Texts of scripts


def in_module(*lines: str) -> bytes:
    """A module with these lines, after three lines with a port type and a component type."""
    head = ("module M {", "type port P message { inout integer; }", "type component C { port P p, q; }")
    return "".join(f"{line}\n" for line in (*head, *lines)).encode()


def listed(text: str, times: int) -> str:
    """Repeats the text, with commas between the copies; each `@` in it becomes the number of the copy, from 0."""
    return ", ".join(text.replace("@", str(number)) for number in range(times))


def on_lines(text: str, times: int) -> str:
    """The same, with each copy on its own line."""
    return "\n".join(text.replace("@", str(number)) for number in range(times))


def loop(name: str, turns: int, statement: str) -> str:
    """A loop around the statement, with the given number of turns."""
    return f"for (var integer {name} := 0; {name} < {turns}; {name} := {name} + 1) {{ {statement} }}"
