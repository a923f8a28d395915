"""Scripts that differ from a valid one in a line or two: for each refusal also its nearest accepted neighbour.

For changes/NAME.ttcn, the files NAME.changes and NAME.TOPIC.changes have a block for each script: the answer, and then
lines `N TEXT`. TEXT replaces line N, and `\\n` in it is a line end. Lines that begin with `#` are titles, which state
the rule.
"""
from __future__ import annotations

from collections.abc import Iterator
from functools import cache, partial

from asking import ROOT, Case, Group, Script

FOLDER = ROOT / "tests" / "checking" / "changes"


@cache
def base(name: str) -> list[str]:
    """The lines of a valid script."""
    return (FOLDER / f"{name}.ttcn").read_text(encoding="utf-8").splitlines()


def change(name: str, answer: str, changes: list[str]) -> Script:
    """A script made from the base by replacing some of its lines."""
    lines = [*base(name)]
    for it in changes:
        number, _, text = it.partition(" ")
        if not 1 <= int(number) <= len(lines):
            raise IndexError(f"{name} has no line {number}")
        lines[int(number) - 1] = text.replace("\\n", "\n")
    script = "".join(f"{line}\n" for line in lines).encode()
    return Script(f"{name}, changed: {' '.join(changes)}", script, answer)


def changes_of(topic: str) -> Iterator[Case]:
    """The scripts that a file of changes describes."""
    text = (FOLDER / f"{topic}.changes").read_text(encoding="utf-8")
    lines = [line for line in text.split("\n") if not line.startswith("#")]
    for block in "\n".join(lines).split("\n\n"):
        answer, *changes = block.strip("\n").split("\n")
        if answer:
            yield change(topic.partition(".")[0], answer, changes)


def groups() -> list[Group]:
    """A group for each file; tests/cases.list says how many scripts each file has."""
    topics = sorted(it.name.removesuffix(".changes") for it in FOLDER.glob("*.changes"))
    return [Group(f"changes of {it}", 1, partial(changes_of, it)) for it in topics]
