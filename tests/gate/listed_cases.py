#!/usr/bin/env python3
"""Keeps tests/cases.list, the list of all examples, small scripts and tables of texts, so that none is lost unnoticed.

    ./test list                           writes the list
    tests/gate/listed_cases.py compare    tests that the folders have what the list has, and nothing else
    tests/gate/listed_cases.py counts     prints how many there are of each kind, by the list

A line of the list is `KIND FILE NUMBER`. The number of an example says how many texts it may print, that of a table how
many texts it has. `compare` prints `passed ..`, or a line that begins with `FAILED: ` for each difference, and for each
part that tests/README.md doesn't name. `counts` prints lines `NAME=NUMBER`, from which ./test computes the minimum
number of cases of a part: a new example needs only its files.
"""
from __future__ import annotations

import argparse
import re
import sys
from collections import Counter
from collections.abc import Iterator
from enum import Enum
from hashlib import sha256
from itertools import chain
from pathlib import Path
from typing import NamedTuple

sys.dont_write_bytecode = True
ROOT = Path(__file__).resolve().parents[2]
sys.path += [str(ROOT / "tests" / it) for it in ("checking", "program")]

import changes
import example_files
import grammar

LIST = ROOT / "tests" / "cases.list"
ENDINGS = ("queue", "ttcn")
MOST_ENTRIES = 40  # of a folder of tests/


class Kind(Enum):
    """The kind of a listed file."""

    QUEUE = "queue"  # an example that is a queue file
    RIGHT = "right"  # one that is a script, and is run
    REFUSED = "refused"  # one that is refused
    SMALL = "small"  # a script of tests/orders/, which is run in every order of its steps
    CHANGES = "changes"  # a table of changed scripts
    GRAMMAR = "grammar"  # the table of the grammar


class Listed(NamedTuple):
    """A line of the list."""

    kind: Kind
    file: str
    number: int

    def line(self) -> str:
        return f"{self.kind.value} {self.file} {self.number}"


def listed(kind: Kind, file: Path, number: int) -> Listed:
    return Listed(kind, str(file.relative_to(ROOT)), number)


def example(file: Path) -> Listed:
    kind = Kind.QUEUE if file.suffix == ".queue" else Kind.REFUSED if example_files.is_refused(file) else Kind.RIGHT
    return listed(kind, file, len(example_files.answers(file)))


def all_listed() -> list[Listed]:
    """All files that must be listed, in the order of the list."""
    found = [example(it) for ending in ENDINGS for it in example_files.texts(ending)]
    found += [listed(Kind.SMALL, it, 1) for it in ROOT.glob("tests/orders/*/*.ttcn")]
    for file in changes.FOLDER.glob("*.changes"):
        found.append(listed(Kind.CHANGES, file, len([*changes.changes_of(file.name.removesuffix(".changes"))])))
    found.append(listed(Kind.GRAMMAR, grammar.TEXTS, len([*grammar.texts_of_the_table()])))
    return sorted(found, key=lambda it: it.file)


def strays() -> Iterator[str]:
    """Files that are no examples and belong to none, so that no test reads them."""
    for file in sorted(chain.from_iterable(it.glob("[!.]*") for it in example_files.FOLDERS)):
        name, ending, number = file.name.partition(".expected.")
        base = name if ending and number.isdecimal() else file.stem
        belongs = (file.suffix in (".expected", ".verdicts") or base == name) and any(
            (file.parent / f"{base}.{it}").exists() for it in ENDINGS
        )
        if file.name != "README.md" and file.suffix[1:] not in ENDINGS and not belongs:
            yield f"{file.relative_to(ROOT)} belongs to no example"


def full_folders() -> Iterator[str]:
    """Folders with so many entries that one finds nothing in them."""
    tests = ROOT / "tests"
    entries = Counter(it.parent for it in tests.rglob("*") if it.name != "__pycache__")
    for folder, number in sorted(entries.items()):
        if number > MOST_ENTRIES and folder.name != "__pycache__":
            yield f"{folder.relative_to(ROOT)} has {number} entries, and {MOST_ENTRIES} are the most"


def twins(there: list[Listed]) -> Iterator[str]:
    """An example with the same text as another shows nothing, and one with the same name isn't found by it."""
    known: dict[str, str] = {}
    names = Counter(Path(it.file).name for it in there if it.kind in (Kind.QUEUE, Kind.RIGHT, Kind.REFUSED))
    yield from (f"{number} examples have the name {name}" for name, number in names.items() if number > 1)
    for file in (*(it.file for it in there), *(str(it.relative_to(ROOT)) for it in ROOT.glob("tests/forced/*.ttcn"))):
        other = known.setdefault(sha256((ROOT / file).read_bytes()).hexdigest(), file)
        if other != file:
            yield f"{other} and {file} are of the same text"


def differences(there: list[Listed]) -> Iterator[str]:
    """The lines that only the list or only the folders have."""
    lines, wanted = [it.line() for it in there], LIST.read_text(encoding="utf-8").splitlines()
    for line in sorted({*lines, *wanted}):
        if line not in wanted:
            yield f"{LIST.name} has no line `{line}`: ./test list writes it"
        elif line not in lines:
            yield f"{LIST.name} has the line `{line}`, and it isn't so"
    if not set(lines) ^ set(wanted) and lines != wanted:
        yield f"{LIST.name} isn't as ./test list writes it"


def unnamed_parts() -> Iterator[str]:
    """Parts that tests/README.md doesn't name, so that they are found only by chance."""
    named = {*re.findall(r"\w+", (ROOT / "tests" / "README.md").read_text(encoding="utf-8"))}
    for line in (ROOT / "tests" / "gate" / "parts").read_text(encoding="utf-8").splitlines():
        part = line.partition(" ")[0]
        if part and part != "#" and part not in named:
            yield f"tests/README.md doesn't name the part {part}"


def counts() -> dict[str, int]:
    """How many files or texts there are of each kind, by the list."""
    lines = [line.split() for line in LIST.read_text(encoding="utf-8").splitlines()]
    kinds = Counter(kind for kind, _, _ in lines)
    numbers = {kind: [int(it) for value, _, it in lines if value == kind.value] for kind in Kind}
    return {
        "queue_examples": kinds[Kind.QUEUE.value],
        "script_examples": kinds[Kind.RIGHT.value] + kinds[Kind.REFUSED.value],
        "right_examples": kinds[Kind.RIGHT.value],
        "reports_of_examples": sum(numbers[Kind.RIGHT]),
        "open_examples": sum(it > 1 for it in numbers[Kind.RIGHT]),
        "small_scripts": kinds[Kind.SMALL.value],
        "changed_scripts": sum(numbers[Kind.CHANGES]),
        "grammar_texts": sum(numbers[Kind.GRAMMAR]),
    }


def main() -> int:
    words = argparse.ArgumentParser(description="The list of all examples, small scripts and tables.")
    words.add_argument("what", choices=("write", "compare", "counts"))
    asked, there = words.parse_args().what, all_listed()
    wrong: list[str] = []
    if asked == "write":
        LIST.write_text("".join(f"{it.line()}\n" for it in there), encoding="utf-8")
        print(f"{LIST.relative_to(ROOT)}: {len(there)} lines")
    elif asked == "counts":
        print(*(f"{name}={number}" for name, number in counts().items()), sep="\n")
    else:
        wrong = [*strays(), *full_folders(), *twins(there), *differences(there), *unnamed_parts()]
        print(*(f"FAILED: {it}" for it in wrong) if wrong else ["passed all that is there is listed"], sep="\n")
    return 1 if wrong else 0


if __name__ == "__main__":
    sys.exit(main())
