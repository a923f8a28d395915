"""Runs commands in tests, checks their results, and reports each case.

A case is a block `with case(NAME):`, or a call of `judged` or `ruled`. At its end a line `passed NAME` is printed, or
lines that begin with `FAILED: NAME: ` if it raises.
"""
from __future__ import annotations

import argparse
import difflib
import json
import os
import re
import subprocess
import sys
import tempfile
from collections.abc import Callable, Iterable, Iterator, Mapping
from contextlib import contextmanager
from dataclasses import dataclass, field
from functools import partial
from itertools import takewhile
from pathlib import Path
from typing import Any, NamedTuple, Optional, TypeVar, Union

ROOT = Path(__file__).resolve().parents[2]
sys.path += [str(ROOT / it) for it in ("tools", "tests/program", "tests/orders")]

import example_files as example_files
from example_files import example as example

EXAMPLES = ROOT / "examples"
MOST_SECONDS = 900
MOST_LINES = 40  # of a text that is shown for a wrong result
SHOWN = 2000  # characters of the message about a broken rule
TAKES_SIGNALS = ("env", "--default-signal=HUP,INT,PIPE,TERM")  # before a command, so that it ignores none of them

Asked = TypeVar("Asked")
Text = Union[str, bytes]
Word = Union[str, bytes, "os.PathLike[str]"]


class Wrong(Exception):
    """An expectation is broken."""


def must(holds: object, text: str) -> None:
    if not holds:
        raise Wrong(text)


def read(file: Union[str, Path]) -> str:
    return Path(file).read_text(encoding="utf-8")


def bytes_of(text: Text) -> bytes:
    return text if isinstance(text, bytes) else text.encode("utf-8", "surrogateescape")


def shown(text: Text) -> str:
    """The first lines, indented, so that none is counted as the line of a case."""
    lines = bytes_of(text).decode("utf-8", "backslashreplace").splitlines()
    return "".join(f"\n    {line[:400]}" for line in lines[:MOST_LINES])


def difference(wanted: Text, found: Text) -> str:
    """The lines that differ; empty if none does."""
    if bytes_of(wanted) == bytes_of(found):
        return ""
    left, right = (bytes_of(it).decode("utf-8", "backslashreplace").splitlines() for it in (wanted, found))
    lines = difflib.unified_diff(left, right, "wanted", "found", lineterm="")
    return "\n".join(lines) or "they differ in their line feeds"


def must_be(found: Any, wanted: Any) -> None:
    told, seen = (json.dumps(it, default=str)[:900] for it in (wanted, found))
    must(found == wanted, f"wanted {told}\nfound {seen}")


class Ended(NamedTuple):
    """The status of a command, its standard output, and its standard error."""

    status: int
    printed: bytes
    said: bytes

    @property
    def text(self) -> str:
        """The standard output."""
        return self.printed.decode("utf-8", "surrogateescape")

    @property
    def told(self) -> str:
        """The standard error."""
        return self.said.decode("utf-8", "surrogateescape")

    def must(self, holds: object, what: str) -> Ended:
        must(holds, f"{what}; status {self.status}, it said{shown(self.said)}\nand printed{shown(self.printed)}")
        return self

    def must_end(self, status: int) -> Ended:
        return self.must(self.status == status, f"status {status} is wanted")

    def must_hold(self, status: int, *tests: Test) -> Ended:
        """The status must be this one, and each test must hold."""
        self.must_end(status)
        for test in tests:
            self.must(test(self), "it is otherwise than wanted")
        return self

    def must_say_nothing(self, status: int = 0) -> Ended:
        return self.must_end(status).must(not self.said, "nothing is to be said")

    def must_print(self, text: Text, status: int = 0) -> Ended:
        """It must print this text, and nothing on standard error."""
        self.must_say_nothing(status)
        wrong = difference(text, self.printed)
        return self.must(self.printed == bytes_of(text), f"another text is wanted{shown(wrong)}")

    def must_say(self, beginning: str, status: int) -> Ended:
        """It must write one line that begins like this on standard error, and nothing else."""
        line = self.said.startswith(bytes_of(beginning)) and self.said.endswith(b"\n") and self.said.count(b"\n") == 1
        return self.must_end(status).must(line and not self.printed, f"{beginning!r} alone is to be said")

    def must_show(self, form: str, status: int = 0) -> Ended:
        """A line of standard output must match this form."""
        has = re.search(form, self.text, re.MULTILINE)
        return self.must_end(status).must(has, f"no line has the form {form!r}")

    def must_complain(self, form: str, status: int) -> Ended:
        """A line of standard error must match this form."""
        has = re.search(form, self.told, re.MULTILINE)
        return self.must_end(status).must(has, f"no line that was said has the form {form!r}")


def run(
    *words: Word,
    folder: Optional[Path] = None,
    more: Optional[Mapping[str, str]] = None,
    only: Optional[Mapping[str, str]] = None,
    most_seconds: int = MOST_SECONDS,
    **files: Any,
) -> Ended:
    """Runs a command in the folder, with further variables, or with only these. `files` are its standard input and so
    on; without them its input is empty, and its standard output and standard error are captured."""
    given: dict[str, Any] = {"stdout": subprocess.PIPE, "stderr": subprocess.PIPE, **files}
    if "input" not in files:
        given.setdefault("stdin", subprocess.DEVNULL)
    variables = dict(only) if only is not None else {**os.environ, **(more or {})}
    try:
        done = subprocess.run(words, cwd=folder, env=variables, timeout=most_seconds, check=False, **given)
    except subprocess.TimeoutExpired:
        raise Wrong(f"no end after {most_seconds} seconds: {words}") from None
    return Ended(done.returncode, done.stdout or b"", done.stderr or b"")


def onto_a_full_device(*words: Word, **more: Any) -> Ended:
    """Runs a command that can't write its answer."""
    with open("/dev/full", "wb") as full:
        return run(*words, stdout=full, **more)


@dataclass(frozen=True)
class Tool:
    """A tool, its first arguments, its variables, and its time limit. It runs at the root."""

    name: str
    first: tuple[str, ...] = ()
    variables: Mapping[str, str] = field(default_factory=dict)
    most_seconds: int = 300

    def run(self, *words: Word, **files: Any) -> Ended:
        command: tuple[Word, ...] = (ROOT / "tools" / self.name, *self.first, *words)
        return run(*command, folder=ROOT, more=self.variables, most_seconds=self.most_seconds, **files)

    def case(self, name: str, words: Iterable[Word], status: int, *tests: Test) -> None:
        """A run with these arguments must end with this status, and each test must hold."""
        with case(name):
            self.run(*words).must_hold(status, *tests)

    def full_device(self, name: str, *words: Word) -> None:
        """The tool must report that its answer can't be written."""
        with open("/dev/full", "wb") as full:
            judged(name, self.run(*words, stdout=full), 3, says_alone(f"{self.name}: the answer can't be written"))


# Tests for the result of a run

Test = Callable[[Ended], object]


def prints(text: str) -> Test:
    """It prints this text, and nothing on standard error."""
    return lambda ended: ended.must_print(text, ended.status)


def prints_line(beginning: str) -> Test:
    """It prints a line that begins like this, and nothing on standard error."""
    return lambda ended: f"\n{beginning}" in f"\n{ended.text}" and says_nothing(ended)


def says(text: str) -> Test:
    """It writes this text on standard error, and prints nothing."""
    return lambda ended: ended.told == text and prints_nothing(ended)


def says_alone(beginning: str) -> Test:
    """It writes one line that begins like this on standard error, and prints nothing."""
    return lambda ended: ended.must_say(beginning, ended.status)


def says_usage(tool: str, why: str = "") -> Test:
    """It writes the usage and this text on standard error, and prints nothing."""
    return lambda ended: ended.told.startswith(f"usage: {tool}") and why in ended.told and prints_nothing(ended)


def says_nothing(ended: Ended) -> bool:
    return not ended.said


def prints_nothing(ended: Ended) -> bool:
    return not ended.printed


# Cases

_TOLD: list[bool] = []  # whether each case passed


def _tell(name: str, wrong: Optional[str]) -> None:
    line = f"passed {shown(name).strip()}" if wrong is None else f"FAILED: {shown(name).strip()}: {wrong}"
    print(line.encode("utf-8", "backslashreplace").decode(), flush=True)
    _TOLD.append(wrong is None)


@contextmanager
def case(name: str) -> Iterator[None]:
    """Reports the result of the block."""
    try:
        yield
    except Wrong as wrong:
        _tell(name, str(wrong))
    except Exception as broken:  # for example if the output can't be read
        _tell(name, f"{type(broken).__name__}: {broken}"[:SHOWN])
    else:
        _tell(name, None)


def judged(name: str, ended: Ended, status: int, *tests: Test) -> None:
    """Reports a case: the run must have this status, and each test must hold."""
    with case(name):
        ended.must_hold(status, *tests)


def ruled(name: str, rule: Callable[..., None], *asked: object) -> None:
    """Reports a case: the rule must hold for these arguments."""
    with case(name):
        rule(*asked)


class Group(NamedTuple):
    """Cases that belong together, and their least number."""

    attempt: Callable[[], None]
    least: int
    name: str


def try_groups(groups: Iterable[Group]) -> int:
    """Runs the groups one after the other. An exception in one counts as a failure, and the others still run. Returns
    the status: 1 if a case failed, or if a group has too few."""
    for group in groups:
        before = len(_TOLD)
        try:
            group.attempt()
        except Exception as broken:
            _tell(f"{group.name} broke off", f"{type(broken).__name__}: {broken}"[:SHOWN])
        tried = len(_TOLD) - before
        if tried < group.least:
            print(f"FAILED: {tried} cases of {group.name}, and there are {group.least} at least", flush=True)
            _TOLD.append(False)
    return 0 if _TOLD and all(_TOLD) else 1


def try_groups_of(asked: Asked, groups: Iterable[tuple[Callable[[Asked], None], int]]) -> int:
    """The same for groups whose functions all get the same argument."""
    return try_groups(Group(partial(attempt, asked), least, attempt.__name__) for attempt, least in groups)


def words_of(described: Optional[str], *names: str) -> list[str]:
    """The arguments of the command line, by name. One in square brackets is optional: it is empty if it is missing."""
    words = argparse.ArgumentParser(description=(described or "").partition("\n\n")[0])
    for name in names:
        optional: dict[str, Any] = {"nargs": "?", "default": ""} if name.startswith("[") else {}
        words.add_argument(name.strip("[]"), **optional)
    return list(vars(words.parse_args()).values())


# Files


@contextmanager
def room() -> Iterator[Path]:
    """A folder that exists during the block."""
    with tempfile.TemporaryDirectory() as folder:
        yield Path(folder)


def file_of(path: Path, text: str) -> Path:
    """Writes the text into the file, and returns the file."""
    path.write_bytes(text.encode())
    return path


def texts_in(name: str) -> dict[str, str]:
    """The texts of a file of data/, each by its heading."""
    _, *texts = re.split("(?m)^=== ", (ROOT / "tests" / "tools" / "data" / name).read_text(encoding="utf-8"))
    return {heading: text for heading, _, text in (it.partition("\n") for it in texts)}


def program_of(path: Path, *lines: str) -> str:
    """Writes a program for sh with these lines."""
    file_of(path, "".join(f"{line}\n" for line in ("#!/bin/sh", *lines))).chmod(0o755)
    return str(path)


def block_of(document: str, beginning: str) -> str:
    """The indented block of a document from the line that begins like this."""
    _, beginning, behind = (ROOT / document).read_text(encoding="utf-8").partition(f"\n    {beginning}")
    must(beginning, f"{document} has no such block")
    block = takewhile(lambda line: not line or line.startswith("    "), f"{beginning[1:]}{behind}".split("\n"))
    return "\n".join(line[4:] for line in block).rstrip("\n") + "\n"
