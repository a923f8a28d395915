#!/usr/bin/env python3
"""Tests which texts `tpr check` accepts and how it refuses the others, by tables: each is a module of this folder.

    check.py --tpr PROGRAM TABLE.. [--name PART]   tries each text of these tables, or those with PART in their name
    check.py --texts FOLDER TABLE..                writes each into N.ttcn of the folder, and its answer into N.answer

It prints a line `passed NAME` for each text with the expected answer, and otherwise a line that begins with
`FAILED: NAME`. A table fails if it has too few entries, or if two entries have the same name or the same text.
"""
from __future__ import annotations

import argparse
import sys
import tempfile
from collections.abc import Iterator
from hashlib import sha256
from pathlib import Path
from typing import Optional

sys.dont_write_bytecode = True

import changes
import first_faults
import grammar
import limits
import many
import passes
from asking import Asking, Case, Group, Script

TABLES = {it.__name__: it.groups for it in (changes, first_faults, grammar, limits, many, passes)}


class Known:
    """The names and the texts of a table, in order to find two that are the same."""

    def __init__(self) -> None:
        self.names: set[str] = set()
        self.texts: dict[str, str] = {}

    def fault(self, case: Case) -> Optional[str]:
        text = sha256(case.script).hexdigest()
        other = self.texts.setdefault(text, case.name)
        wrong = "two have this name" if case.name in self.names else None
        if wrong is None and other != case.name:
            wrong = f"it is of the same text as {other}"
        self.names.add(case.name)
        return wrong


def told_of(group: Group, known: Known, asking: Asking, name: Optional[str]) -> Iterator[str]:
    """The result lines of a group, or of its cases with this part of a name; one more if it has too few cases."""
    cases = [*group.cases()]
    for case in cases:
        if name is not None and name not in case.name:
            continue
        faults = [it for it in (known.fault(case), case.fault(asking)) if it is not None]
        yield from (f"FAILED: {case.name}: {it}" for it in faults)
        if not faults:
            yield f"passed {case.name}"
    if len(cases) < group.least:
        yield f"FAILED: {group.name}: {len(cases)} cases, and there are {group.least} at least"


def write_texts(folder: Path, tables: list[str]) -> None:
    """Writes each script into a file instead of trying it."""
    folder.mkdir()
    cases = [case for table in tables for group in TABLES[table]() for case in group.cases()]
    for number, case in enumerate((it for it in cases if isinstance(it, Script)), 1):
        (folder / f"{number}.ttcn").write_bytes(case.script)
        (folder / f"{number}.answer").write_text(f"{case.answer}\n", encoding="utf-8")


def try_tables(tables: list[str], asking: Asking, name: Optional[str]) -> Iterator[str]:
    """The result lines of these tables."""
    for table in tables:
        known = Known()
        for group in TABLES[table]():
            yield from told_of(group, known, asking, name)


def main() -> int:
    words = argparse.ArgumentParser(description="Which texts are accepted, and how the others are refused.")
    what = words.add_mutually_exclusive_group(required=True)
    what.add_argument("--tpr", metavar="PROGRAM", help="the program that is asked")
    what.add_argument("--texts", metavar="FOLDER", type=Path, help="where the texts are written, in place of a try")
    words.add_argument("--name", metavar="PART", help="tries only texts whose name has this part")
    words.add_argument("tables", nargs="+", choices=TABLES, metavar="TABLE", help=", ".join(TABLES))
    asked = words.parse_args()
    if asked.texts:
        write_texts(asked.texts, asked.tables)
        return 0
    counts = {True: 0, False: 0}
    with tempfile.TemporaryDirectory() as folder:
        for line in try_tables(asked.tables, Asking(asked.tpr, Path(folder)), asked.name):
            counts[line.startswith("passed ")] += 1
            print(line, flush=True)
    if not any(counts.values()):
        print(f"FAILED: no text has {asked.name!r} in its name")
    return 0 if counts[True] and not counts[False] else 1


if __name__ == "__main__":
    sys.exit(main())
