"""The legend of a chart: a line for each sign that occurs and needs an explanation."""
from __future__ import annotations

from dataclasses import dataclass
from typing import NamedTuple

from .geometry import SMALL, Text, pixels, width_of
from .sequence import Sequence

_SAMPLE = 44  # the width of a sign, with the gap before its text
_BETWEEN = 22
_LINE = 18
_LEFT = 24

# The meanings, by the word of an arrow, or by what else occurs in a chart.
_MEANINGS = {
    "found": "found by a check, and still queued",
    "dropped": "dropped by a trigger",
    "left": "still queued at the end",
    "discarded": "discarded by a clear or a start",
    "stub": "one message, drawn at its two ends",
    "number": "the message's number on its route",
}


class Entry(NamedTuple):
    """A sign of the list above, at its place."""

    sign: str
    x: float
    line: int


@dataclass(frozen=True)
class Legend:
    """The signs with their places, beginning with the first line."""

    entries: tuple[Entry, ...]

    def height(self) -> float:
        return _LINE * (self.entries[-1].line + 1) if self.entries else 0

    def drawn(self, top: float, ends: dict[str, str]) -> list[str]:
        """`ends` are the names of the drawings at the ends of arrows."""
        if not self.entries:
            return []
        parts = [part for entry in self.entries for part in _drawn(entry, top + _LINE * entry.line, ends)]
        return ['<g aria-label="what the signs mean">', *parts, "</g>"]


def legend_of(sequence: Sequence, width: float) -> Legend:
    """As many signs in each line as fit."""
    entries: list[Entry] = []
    x, line = float(_LEFT), 0
    for sign in _signs_of(sequence):
        wide = _SAMPLE + width_of(_MEANINGS[sign], SMALL)
        if entries and x + wide > width:
            x, line = float(_LEFT), line + 1
        entries.append(Entry(sign, x, line))
        x += wide + _BETWEEN
    return Legend(tuple(entries))


def _signs_of(sequence: Sequence) -> list[str]:
    """The signs that occur, in the order of the list."""
    arrows = [arrow for step in sequence.steps for arrow in step.ends]
    occurring = {arrow.word for arrow in arrows}
    if any(arrow.is_long() for arrow in arrows):
        occurring.add("stub")
    if any(arrow.is_far() for arrow in arrows):
        occurring.add("number")
    return [sign for sign in _MEANINGS if sign in occurring]


def _drawn(entry: Entry, y: float, ends: dict[str, str]) -> list[str]:
    text = Text(entry.x + _SAMPLE, y + 4, _MEANINGS[entry.sign], "small").drawn()
    if entry.sign == "number":
        return [Text(entry.x + 6, y + 4, "#0", "small").drawn(), text]
    begins = f"M{pixels(entry.x)} {pixels(y)}"
    way = f"{begins}h10m0 -4v8m6 -8v8m0 -4h12" if entry.sign == "stub" else f"{begins}h30"
    word = "took" if entry.sign == "stub" else entry.sign
    return [f'<path class="{word} key" d="{way}" marker-end="url(#{ends[word]})"/>', text]
