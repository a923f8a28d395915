"""A part of a chart: some components, some rows, and repeats drawn once.

If one end of an arrow isn't in the part, the arrow is drawn as its other end, in the words of the report, which have
the component and the number.
"""
from __future__ import annotations

from dataclasses import dataclass, replace
from typing import Optional

from ..words import counted
from .sequence import Arrow, Badge, Sequence, Step

AROUND = 10  # rows that are drawn above and below a line that is asked for
_LONGEST_REPEAT = 8  # rows
_LEAST_REPEATS = 3


class NoSuchPart(Exception):
    """The part that is asked for isn't in the chart."""


@dataclass(frozen=True)
class Asked:
    """The part that is asked for. An empty field means no restriction."""

    only: tuple[str, ...] = ()
    rows: Optional[tuple[int, int]] = None  # from 1, both included
    around: Optional[int] = None
    fold: bool = False


def part_of(sequence: Sequence, asked: Asked) -> Sequence:
    if asked == Asked():
        return sequence
    first, last = _rows_of(sequence, asked)
    part = _Part(sequence, _columns_of(sequence, asked.only), first, last)
    steps = part.steps()
    if asked.fold:
        steps = _folded(steps)
    return part.numbered([_note(part.told(), part.first)] + steps if part.is_less() else steps)


def _columns_of(sequence: Sequence, only: tuple[str, ...]) -> list[int]:
    for name in only:
        if name not in sequence.names:
            raise NoSuchPart(f"there is no component {name}")
    return [place for place, name in enumerate(sequence.names) if not only or name in only]


def _rows_of(sequence: Sequence, asked: Asked) -> tuple[int, int]:
    """The first row, and the one after the last."""
    rows = len(sequence.steps)
    if asked.around is not None:
        row = next((step.row for step in sequence.steps if asked.around in step.numbers), None)
        if row is None:
            raise NoSuchPart(f"line {asked.around} of the report isn't an entry of a history")
        return max(row - AROUND, 0), min(row + AROUND + 1, rows)
    if asked.rows is None:
        return 0, rows
    if asked.rows[0] > rows:
        raise NoSuchPart(f"there are only {rows} rows")
    return asked.rows[0] - 1, min(asked.rows[1], rows)


def _note(text: str, row: int) -> Step:
    return Step(row, text, text, (), note=text)


class _Part:
    """The steps of some components and rows."""

    def __init__(self, sequence: Sequence, columns: list[int], first: int, last: int):
        self.sequence = sequence
        self.columns = {column: place for place, column in enumerate(columns)}
        self.first = first
        self.last = last

    def is_less(self) -> bool:
        return self.last - self.first < len(self.sequence.steps) or len(self.columns) < len(self.sequence.names)

    def told(self) -> str:
        """Says what is left out."""
        parts = []
        if len(self.columns) < len(self.sequence.names):
            parts.append(f"{len(self.columns)} of {counted(len(self.sequence.names), 'component')}")
        if self.last - self.first < len(self.sequence.steps):
            parts.append(f"rows {self.first + 1} to {self.last} of {len(self.sequence.steps)}")
        return ", ".join(parts)

    def steps(self) -> list[Step]:
        made = (self.step(step) for step in self.sequence.steps[self.first : self.last])
        return [step for step in made if step is not None]

    def step(self, step: Step) -> Optional[Step]:
        """The step with the columns of the part, or None if it belongs to no component of the part."""
        if step.badge is not None:
            column = self.columns.get(step.badge.column)
            return None if column is None else step._replace(badge=step.badge._replace(column=column))
        arrow = step.sends or step.ends[0]
        if self.has(arrow):
            return step._replace(
                sends=self.moved(step.sends) if step.sends else None,
                ends=tuple(self.moved(end) for end in step.ends),
            )
        badge = self.end_of(step, arrow)
        return None if badge is None else Step(step.row, step.said, step.lines, step.numbers, badge=badge)

    def has(self, arrow: Arrow) -> bool:
        """Whether both ends of the arrow are in the part."""
        shown = arrow.sender in self.columns and arrow.receiver in self.columns
        return shown and self.first <= arrow.start and arrow.stop < self.last

    def moved(self, arrow: Arrow) -> Arrow:
        return arrow._replace(sender=self.columns[arrow.sender], receiver=self.columns[arrow.receiver])

    def end_of(self, step: Step, arrow: Arrow) -> Optional[Badge]:
        """The end that is in the part, in the words of the report."""
        route, number, text = arrow.message.route, arrow.message.number, arrow.message.text
        if step.sends and arrow.sender in self.columns:
            told = f"sent {route.receiver}.{route.port} {number} {text}"
            return Badge(self.columns[arrow.sender], told, None)
        if step.ends and arrow.receiver in self.columns:
            told = f"{arrow.word} {route.port} {route.sender} {number} {text}"
            return Badge(self.columns[arrow.receiver], told, None)
        return None

    def numbered(self, steps: list[Step]) -> Sequence:
        """The chart of these steps, its rows without gaps."""
        rows = {step.row: place for place, step in enumerate(steps) if not step.note}
        made = []
        for place, step in enumerate(steps):
            ends = tuple(_in_rows(end, rows) for end in step.ends)
            sends = _in_rows(step.sends, rows) if step.sends else None
            made.append(step._replace(row=place, sends=sends, ends=ends))
        names = self.sequence.names
        return replace(
            self.sequence,
            names=tuple(names[column] for column in self.columns),
            steps=tuple(made),
            feet=tuple(self.sequence.feet[column] for column in self.columns),
            last_rows=tuple(self.last_row(self.sequence.last_rows[column], steps) for column in self.columns),
        )

    def last_row(self, last: int, steps: list[Step]) -> int:
        """The row up to which a life line is drawn: the end of the chart if the component does more after it."""
        if last >= self.last:
            return len(steps) - 1
        return max((place for place, step in enumerate(steps) if step.row <= last), default=-1)


def _in_rows(arrow: Arrow, rows: dict[int, int]) -> Arrow:
    return arrow._replace(start=rows[arrow.start], stop=rows[arrow.stop])


# Repeats


def _folded(steps: list[Step]) -> list[Step]:
    """Draws repeated rows once, with the number of repeats."""
    kinds = _kinds_of(steps)
    same = {size: _same_behind(kinds, size) for size in range(1, _LONGEST_REPEAT + 1)}
    folded, place = [], 0
    while place < len(steps):
        size = max(same, key=lambda it: (same[it][place] // it * it, -it))
        more = same[size][place] // size
        if more + 1 < _LEAST_REPEATS:
            folded.append(steps[place])
            place += 1
            continue
        folded += steps[place : place + size]
        what = "the row above" if size == 1 else f"the {size} rows above"
        folded.append(_note(f"{what}, {counted(more, 'time')} more", steps[place + size].row))
        place += size * (more + 1)
    return folded


def _kinds_of(steps: list[Step]) -> list[int]:
    """A number for each step, which is the same for steps that differ only in the number of a message. A step of an
    arrow over several rows is like no other."""
    kinds: dict[object, int] = {}
    return [kinds.setdefault(_kind(step), len(kinds)) for step in steps]


def _kind(step: Step) -> object:
    if step.badge is not None:
        return step.badge
    arrow = step.sends or step.ends[0]
    if arrow.start != arrow.stop:
        return step.row
    return arrow.message.route, arrow.message.text, arrow.word, bool(step.sends)


def _same_behind(kinds: list[int], size: int) -> list[int]:
    """For each place, how many kinds from there on equal those `size` places later."""
    same = [0] * (len(kinds) + 1)
    for place in range(len(kinds) - size - 1, -1, -1):
        same[place] = same[place + 1] + 1 if kinds[place] == kinds[place + size] else 0
    return same
