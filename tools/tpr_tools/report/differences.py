"""The differences between two reports of one script, except those that the open order explains.

The order in which a component got messages from different connections is open
(docs/PROFILE.md, "What is open in a report"). So two reports agree if, for each component,

- on each connection into it the same messages arrived, with the same fates, in the same order;
- on each connection out of it the same messages were sent, in the same order;
- what it did by itself, its end and its verdict are the same;
- at the first difference of its histories it got messages from two connections;
- and either it did the same kinds of things in the same order, even if it got another message, or it did the same after
  each message that it got.
"""
from __future__ import annotations

from collections import Counter
from dataclasses import dataclass, replace
from itertools import zip_longest
from typing import Optional

from ..words import counted
from .report import Component, Entry, Line, Received, Report, Sent

EQUAL, ORDER, DIFFERENT = "equal", "equal except for the order between senders", "different"


@dataclass(frozen=True)
class Difference:
    """A difference of two reports: what differs, and the line in each, if there is one."""

    what: str
    first: Optional[Line]
    second: Optional[Line]
    is_open: bool = False
    more: int = 0  # further places that differ in the same way

    def text(self) -> str:
        more = f"  and {counted(self.more, 'further place')}\n" if self.more else ""
        return f"{self.what}\n  - {_told('A', self.first)}\n  + {_told('B', self.second)}\n{more}"


@dataclass(frozen=True)
class Comparison:
    """The result of a comparison: one of the three answers, the differences, and where the order differs first."""

    answer: str
    differences: tuple[Difference, ...]
    orders: tuple[Difference, ...]

    def text(self) -> str:
        texts = [f"{self.answer}\n"]
        texts += [difference.text() for difference in self.differences]
        texts += [order.text() for order in self.orders]
        return "".join(texts)


def compare(first: Report, second: Report) -> Comparison:
    if first.names() != second.names():
        return Comparison(DIFFERENT, (_of_names(first, second),), ())
    pairs = list(zip(first.components, second.components))
    differences = [difference for pair in pairs for difference in _of_component(*pair)]
    if not differences:
        differences = [difference for pair in pairs for difference in _of_places(*pair)]
    orders = [order for pair in pairs for order in _first_orders(*pair)]
    if first.result != second.result:
        differences.append(Difference("the result", first.result_line, second.result_line))
    answer = DIFFERENT if differences else ORDER if orders else EQUAL
    return Comparison(answer, tuple(differences), tuple(orders))


def _told(report: str, line: Optional[Line]) -> str:
    return f"report {report}, line {line.number}: {line.text}" if line else f"report {report}: nothing"


def _of_names(first: Report, second: Report) -> Difference:
    """The difference at the first component that isn't the same."""
    for one, other in zip_longest(first.components, second.components):
        if one is None or other is None or one.name != other.name:
            break
    return Difference("the components", one.line if one else None, other.line if other else None)


Parts = dict[str, list[tuple[str, Line]]]


def _parts(component: Component) -> Parts:
    """What a component did, sorted by its connections, with the lines to show."""
    parts: Parts = {}
    for entry in (*component.entries, *component.left):
        part, what = _part_of(entry)
        parts.setdefault(part, []).append((what, entry.line))
    end, verdict = component.end.line, component.verdict_line
    parts["its end"] = [(end.text, end)]
    parts["its verdict"] = [(verdict.text, verdict)]
    return parts


def _part_of(entry: Entry) -> tuple[str, str]:
    """The connection to which the entry belongs, and the whole text of the entry."""
    if isinstance(entry, Received):
        part = f"what came from {entry.sender} at {entry.port}"
    elif isinstance(entry, Sent):
        part = f"what went to {entry.receiver}.{entry.port}"
    else:
        part = "what it did by itself"
    return part, entry.line.text


def _of_component(one: Component, other: Component) -> list[Difference]:
    """The first difference of each part."""
    parts, others = _parts(one), _parts(other)
    differences = []
    for part in dict.fromkeys([*parts, *others]):
        difference = _first_of(f"{one.name}, {part}", parts.get(part, []), others.get(part, []))
        if difference:
            differences.append(difference)
    return differences


def _first_of(what: str, ours: list[tuple[str, Line]], theirs: list[tuple[str, Line]]) -> Optional[Difference]:
    """The first place where the two differ, with the number of further ones."""
    differ = [
        (mine and mine[1], yours and yours[1])
        for mine, yours in zip_longest(ours, theirs)
        if mine is None or yours is None or mine[0] != yours[0]
    ]
    return Difference(what, *differ[0], more=len(differ) - 1) if differ else None


def _of_places(one: Component, other: Component) -> list[Difference]:
    """If the parts agree: whether the open order explains the places of the entries."""
    what = f"{one.name}, the order of what it did"
    for history, others in ((one.entries, other.entries), (one.left, other.left)):
        difference = _first_entry(what, history, others)
        if difference and not difference.is_open:
            return [difference]
    if _behind_each(one) == _behind_each(other):
        return []
    kinds = [[(_kind(entry), entry.line) for entry in component.entries] for component in (one, other)]
    first = _first_of(what, kinds[0], kinds[1])
    # From there on every entry is shifted, so later places aren't further differences.
    return [replace(first, more=0)] if first else []


def _kind(entry: Entry) -> str:
    """The kind of an entry, without its message."""
    if isinstance(entry, Received):
        return "got"
    return "sent" if isinstance(entry, Sent) else entry.line.text


def _behind_each(component: Component) -> tuple[tuple[str, ...], Counter[tuple[str, ...]]]:
    """What a component did before its first message, and what it did after each message."""
    groups: list[list[str]] = [[]]
    for entry in component.entries:
        if isinstance(entry, Received):
            groups.append([])
        groups[-1].append(entry.line.text)
    return tuple(groups[0]), Counter(tuple(group) for group in groups[1:])


def _first_orders(one: Component, other: Component) -> list[Difference]:
    """Where a component first got a message from another connection than in the other report, and where such a message
    is left."""
    what = f"{one.name}, open: which came first"
    firsts = [_first_entry(what, one.entries, other.entries), _first_entry(what, one.left, other.left)]
    return [first for first in firsts if first and first.is_open]


def _first_entry(what: str, history: tuple[Entry, ...], others: tuple[Entry, ...]) -> Optional[Difference]:
    """Where two histories first differ, and whether this difference is open."""
    for mine, yours in zip_longest(history, others):
        if mine is None or yours is None or mine.line.text != yours.line.text:
            is_open = isinstance(mine, Received) and isinstance(yours, Received) and _ways(mine) != _ways(yours)
            return Difference(what, mine.line if mine else None, yours.line if yours else None, is_open)
    return None


def _ways(entry: Received) -> tuple[str, str]:
    return entry.sender, entry.port
