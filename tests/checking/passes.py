"""Scripts with two faults: the fault of the earlier pass is reported, wherever the two are."""
from __future__ import annotations

from collections.abc import Iterator
from itertools import combinations
from typing import NamedTuple

from asking import Case, Group, Script
from changes import change

LAST = 13  # the line of the bracket that ends the module


class Fault(NamedTuple):
    """A fault that a pass finds: the answer, the line that it changes, and the new text of that line."""

    answer: str
    line: int
    text: str


# One for each pass, in their order. Those of the last line are put there together, before the bracket.
PASSES = (
    Fault("10 Syntax 12", 12, "] }"),
    Fault("12 Duplicate 13", LAST, "type record T { } type record T { }"),
    Fault("11 Unknown 13", LAST, "function g() runs on X { }"),
    Fault("18 NotStarted 10", 10, "a.start(f()); a.start(f());"),
    Fault("13 WrongType 13", LAST, "function h() runs on C { p.send(integer:true); }"),
    Fault("15 Limit 6", 11, "for (var integer i := 0; i < 100000; i := i + 1) { p.stop; } all component.done;"),
)


def with_faults(*faults: Fault) -> Script:
    """A script with these faults, of which the first must be reported."""
    changes = [f"{it.line} {it.text}" for it in faults if it.line != LAST]
    last = "".join(f"{it.text} " for it in reversed(faults) if it.line == LAST)
    return change("configuration", faults[0].answer, [*changes, f"{LAST} {last}}}"])


def each_two() -> Iterator[Case]:
    yield from (with_faults(it) for it in PASSES)
    yield from (with_faults(*both) for both in combinations(PASSES, 2))


def groups() -> list[Group]:
    return [Group("two faults of two passes", 21, each_two)]
