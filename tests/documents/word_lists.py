#!/usr/bin/env python3
"""Tests that each list of port operations, of their lines, of modes and of reserved words is complete; and finds the
places where a new word belongs.

    word_lists.py               prints a line `passed ..` or `FAILED: ..` for each list
    word_lists.py NEW [OLD]     prints the places that name words related to the OLD word (`halt`), but not the NEW one

The sources define the words. A list is a row of words with nothing but marks, `and` and `or` between them, or lines of
one form with one of the words in each. To add the port operation `flush`, call the second form with that word; for a
mode call `word_lists.py NEW judge`, for a refusal `word_lists.py NewName NotSending`, for a reserved word
`word_lists.py NEW setverdict`. Read each place: some need no change.
"""
from __future__ import annotations

import argparse
import os
import re
import sys
from collections.abc import Iterator
from itertools import groupby
from pathlib import Path
from typing import NamedTuple

from document_names import SOURCES, files_below, text_of

ROOT = Path(__file__).resolve().parents[2]
PLACES = (*SOURCES, "docs", "examples/README.md", "README.md")
# Scripts, reports, records and the like, in which lists aren't searched.
LEFT_OUT = re.compile(
    r"\.(answers|csv|cuts|edit|expected|log|queue|report|svg|table|texts|trace|ttcn|verdicts)$"
    r"|/golden/|/record$|word_lists\.py$"
)
LINES_BETWEEN = 2  # between the words of one place

_WORD = re.compile(r"[A-Za-z][A-Za-z0-9]*(?:_[A-Za-z0-9]+)*")
_LINK = re.compile(r"(?!\.$)(?:\W|\b(?:and|or|b)\b)*")
_COMMENT = re.compile(r"\s*(?://|#|--)")


class Family(NamedTuple):
    """Words of one kind, and shorter lists of them that are complete too. A list has at least `least` of them."""

    name: str
    words: frozenset[str]
    parts: tuple[frozenset[str], ...]
    least: int


class Place(NamedTuple):
    """Lines of a file, and which words of a family are in them."""

    path: str
    first: int
    last: int
    words: frozenset[str]

    def __str__(self) -> str:
        return f"{self.path}:{self.first}" + (f"-{self.last}" if self.last > self.first else "")


# The lists that are incomplete for a reason.
SHORT = {
    ("bench/running/plain.rs", "clear halt stop"): "what the comparison lacks",
    ("crates/tp_syntax/src/operations.rt", "clear halt stop"): "what starts no component either",
    ("tools/tpr_tools/titan/trace.py", "clear start stop"): "what empties a port of Titan",
    ("tests/program/from_outside.py", "check run trace"): "the modes that are given one script",
}


def named_in(source: str, pattern: str) -> list[str]:
    """The words that a source has in this form."""
    words = [it.lower() for it in re.findall(pattern, text_of(source), re.MULTILINE)]
    assert words, f"{source} has no {pattern}"
    return words


def variants(source: str, name: str) -> frozenset[str]:
    """The variants of an enum that have no fields."""
    body = re.search(rf"pub enum {name} \{{(.*?)^\}}", text_of(source), re.MULTILINE | re.DOTALL)
    assert body, f"{source} has no {name}"
    return frozenset(it.lower() for it in re.findall(r"^    ([A-Z]\w*),$", body[1], re.MULTILINE))


def families() -> tuple[Family, ...]:
    operations = variants("crates/tp_common/src/operation.rt", "PortOperation")
    lines = frozenset(named_in("crates/tp_judge/src/referee/read.rt", r'b"(\w+)" => Some\(PortOperation::'))
    statuses = variants("crates/tp_common/src/event.rt", "Status")
    modes = frozenset(named_in("crates/tpr/src/line.rt", r'word == "(\w+)"'))
    reserved = frozenset(named_in("crates/tp_syntax/src/word.rt", r'\("(\w+)", Word::'))
    return (
        Family("port operations", operations, (), 3),
        Family("lines of port operations", lines, (statuses,), 3),
        Family("modes", modes, (modes - {"queue", "judge"},), 3),
        Family("reserved words", reserved, (), 20),
    )


def texts() -> Iterator[tuple[str, str]]:
    for path in files_below(*PLACES):
        if not LEFT_OUT.search(path):
            yield path, text_of(path)


def member(token: str, words: frozenset[str]) -> str | None:
    """The word of a family that a token is, in upper or lower case. `SelfWord` is the variant of `self`."""
    plain = token.lower().replace("_", "")
    return next((it for it in (plain, plain.removesuffix("word")) if it in words), None)


def members(text: str, words: frozenset[str]) -> Iterator[tuple[str, int, int]]:
    """The words of a family in a text, with the begin and end of each."""
    for token in _WORD.finditer(text):
        if (word := member(token[0], words)) is not None:
            yield word, token.start(), token.end()


# Lists that must be complete


def rows(path: str, text: str, words: frozenset[str]) -> Iterator[Place]:
    """Rows of words with nothing but marks between them."""
    row: list[tuple[str, int, int]] = []
    for it in members(text, words):
        if row and not _LINK.fullmatch(text, row[-1][2], it[1]):
            yield place_of(path, text, row)
            row = []
        row.append(it)
    if row:
        yield place_of(path, text, row)


def place_of(path: str, text: str, row: list[tuple[str, int, int]]) -> Place:
    first, last = (text.count("\n", 0, at) + 1 for at in (row[0][1], row[-1][2]))
    return Place(path, first, last, frozenset(word for word, _, _ in row))


def columns(path: str, text: str, words: frozenset[str]) -> Iterator[Place]:
    """Lines of one form, each with one of the words. Comments may be between them."""
    lines = [it for it in enumerate(text.splitlines(), 1) if it[1].strip() and not _COMMENT.match(it[1])]
    for _, alike in groupby(lines, lambda it: _WORD.sub("w", it[1])):
        found = [(at, {word for word, _, _ in members(line, words)}) for at, line in alike]
        if all(len(it) == 1 for _, it in found):
            yield Place(path, found[0][0], found[-1][0], frozenset().union(*(it for _, it in found)))


def tell_lists() -> None:
    """Prints a line for each list. The prover checks the definitions and lemmas in specs/, so these are left out."""
    for path, text in texts():
        for family in families() if "/specs/" not in path else ():
            for place in (*rows(path, text, family.words), *columns(path, text, family.words)):
                if len(place.words) >= family.least:
                    print(told(family, place))


def told(family: Family, place: Place) -> str:
    is_short = (place.path, " ".join(sorted(place.words))) in SHORT
    if place.words == family.words or place.words in family.parts or is_short:
        return f"passed {family.name}, {place}"
    return f"FAILED: {place} is a list of {family.name} without {' '.join(sorted(family.words - place.words))}"


# Where a new word belongs


def roots_beside(old: str) -> tuple[dict[str, str], int]:
    """The words related to a word, where the line of an operation counts as that operation; and how many of them must
    be near each other in a place."""
    operations, lines, *others = families()
    if old in operations.words | lines.words:
        roots = {line: word for line in lines.words for word in operations.words if line.startswith(word)}
        return {**roots, **{word: word for word in operations.words}}, 3
    refusals = Family("refusals", variants("crates/tp_common/src/refusal.rt", "Refusal"), (), 3)
    family = next((it for it in (*others, refusals) if member(old, it.words)), None)
    return ({word: word for word in family.words}, family.least) if family else ({}, 0)


def places(path: str, text: str, words: frozenset[str]) -> Iterator[Place]:
    """The places where words are near each other."""
    lines = [(at, {it for it, _, _ in members(line, words)}) for at, line in enumerate(text.splitlines(), 1)]
    named = [it for it in lines if it[1]]
    begin = 0
    for end in range(1, len(named) + 1):
        if end == len(named) or named[end][0] - named[end - 1][0] > LINES_BETWEEN:
            near = named[begin:end]
            yield Place(path, near[0][0], near[-1][0], frozenset().union(*(found for _, found in near)))
            begin = end


def tell_places(new: str, old: str) -> int:
    """Prints a line for each place, and finally their number."""
    roots, least = roots_beside(old)
    if not roots:
        print(f"word_lists.py: {old} isn't a word of any list", file=sys.stderr)
        return 4
    found = 0
    for path, text in texts():
        lines = text.lower().splitlines()
        for place in places(path, text, frozenset(roots)):
            is_named = any(new.lower() in line for line in lines[place.first - 1 : place.last])
            if len({roots[word] for word in place.words}) >= least and not is_named:
                found += 1
                print(f"{place}: {' '.join(sorted(place.words))}")
    print(f"places: {found}")
    return 0


def main() -> int:
    words = argparse.ArgumentParser(description="Whether each list has all words, or where a new word belongs.")
    words.add_argument("new", metavar="NEW", nargs="?", help="a new word: print places that lack it")
    words.add_argument("old", metavar="OLD", nargs="?", default="halt", help="a related word of a list (default: halt)")
    given = words.parse_args()
    os.chdir(ROOT)
    if given.new is not None:
        return tell_places(given.new, given.old)
    tell_lists()
    return 0


if __name__ == "__main__":
    sys.exit(main())
