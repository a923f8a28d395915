"""The places of the parts of a chart, in pixels."""
from __future__ import annotations

from dataclasses import dataclass
from typing import Optional

from .geometry import LONGEST_NAME, SMALL, width_of
from .legend import Legend, legend_of
from .sequence import Arrow, Sequence, Step

ROW = 27
REPEAT = 40  # rows after which the names of the components are written again
STRIP = 30  # the height of that line of names
PARTING = 22  # the height of what is left free above a row for a line across all life lines
LOOP = 26  # how far the arrow of a message to the component itself goes to the right, if no badge is in its way
LANES = 5  # side by side, for loops over several rows
LANE = 4
STEM = 0.62  # the part of the way that one end of a long arrow takes
TITLE_LETTER = 11.2
BESIDE_TITLE = 190  # what is beside the title, with the margins
MOST_LEFT = 4  # at most so many messages that are left are listed at the foot

_LEAST_GAP = 118
_MOST_MARGIN = 300
_LONGEST_TITLE = 560
_TOP = 112
_FOOT_LINE = 17


@dataclass(frozen=True)
class Layout:
    """The places of the life lines and rows, and the widths of the spaces beside the life lines."""

    columns: tuple[float, ...]  # the middle of each life line
    boxes: tuple[float, ...]  # the width of the box at its head and at its foot
    spaces: tuple[float, ...]  # to the left of each life line, and after the last
    width: float
    reaches: tuple[float, ...]  # how far the arrows of each component to itself go to the right
    rows: int
    foot_lines: int
    legend: Legend
    parted: Optional[int]  # the row above which a line divides the chart; without such a row, the line is at the foot

    def y(self, row: int) -> float:
        """The height of a row; some rows have the names above them."""
        return _TOP + ROW * row + STRIP * self.strips_above(row) + self.parting_above(row)

    def parting_above(self, row: int) -> float:
        return PARTING if self.parted is not None and self.parted <= row else 0

    def parting_y(self, parted: int) -> float:
        """The height of the line that divides the chart."""
        return self.y(parted) - 27 if parted < self.rows else self.foot() - 14

    def strips_above(self, row: int) -> int:
        return row // REPEAT if self.rows > REPEAT + REPEAT // 2 else 0

    def foot(self) -> float:
        """The top of the boxes at the foot."""
        top = self.y(self.rows - 1) + 26 if self.rows else float(_TOP - 10)
        return top + (PARTING if self.parted == self.rows else 0)

    def foot_height(self) -> float:
        return 46 + (8 + _FOOT_LINE * self.foot_lines if self.foot_lines else 0)

    def height(self) -> float:
        return self.legend_top() + self.legend.height()

    def legend_top(self) -> float:
        return self.foot() + self.foot_height() + 62

    def room(self, arrow: Arrow) -> float:
        """The width for the text of the arrow's message."""
        if arrow.sender == arrow.receiver:
            return self.spaces[arrow.sender + 1] - self.reaches[arrow.sender] - 34
        way = abs(self.columns[arrow.receiver] - self.columns[arrow.sender]) - 30
        return way * STEM if arrow.is_long() else way

    def room_outside(self, arrow: Arrow) -> float:
        return self.spaces[outer_space(arrow)] - 18


def goes_right(arrow: Arrow) -> bool:
    return arrow.sender < arrow.receiver


def outer_space(arrow: Arrow) -> int:
    """The space beside the receiver's life line, on the side away from the sender."""
    return arrow.receiver + 1 if goes_right(arrow) else arrow.receiver


def layout_of(sequence: Sequence, parted: Optional[int] = None) -> Layout:
    most_gap = min(max(960 / max(len(sequence.names) - 1, 1), 150), 470)
    reaches = _reaches(sequence)
    needs = _needs(sequence, most_gap, reaches)
    boxes = [_box(sequence, place, most_gap) for place in range(len(sequence.names))]
    spaces = [_MOST_MARGIN if need > _MOST_MARGIN else need for need in needs]
    for place in range(1, len(spaces) - 1):
        beside = (boxes[place - 1] + boxes[place]) / 2 + 18
        spaces[place] = max(min(max(needs[place], _LEAST_GAP), most_gap), beside)
    spaces[0] = max(spaces[0], boxes[0] / 2 + 24)
    spaces[-1] = max(spaces[-1], boxes[-1] / 2 + 24)
    _widen(spaces, min(len(sequence.title) * TITLE_LETTER, _LONGEST_TITLE) + BESIDE_TITLE)
    columns, behind = [], 0.0
    for space in spaces[:-1]:
        behind += space
        columns.append(behind)
    foot_lines = max(min(len(foot.left), MOST_LEFT + 1) for foot in sequence.feet)
    width, rows = behind + spaces[-1], len(sequence.steps)
    legend = legend_of(sequence, width)
    return Layout(tuple(columns), tuple(boxes), tuple(spaces), width, reaches, rows, foot_lines, legend, parted)


def _reaches(sequence: Sequence) -> tuple[float, ...]:
    """How far each component's loops reach. An arrow over several rows goes round the badges in these rows too."""
    reaches = [float(LOOP)] * len(sequence.names)
    loops = {arrow for step in sequence.steps for arrow in step.ends if arrow.is_loop()}
    badges = [(step.row, step.badge) for step in sequence.steps if step.badge]
    for arrow in loops:
        for row, badge in badges:
            if badge.column == arrow.sender and arrow.start < row < arrow.stop:
                reach = width_of(badge.text) / 2 + 18 + LANE * (LANES - 1)
                reaches[badge.column] = max(reaches[badge.column], reach)
    return tuple(reaches)


def _widen(spaces: list[float], least: float) -> None:
    """Widens both margins if the title needs it."""
    missing = least - sum(spaces)
    if missing > 0:
        spaces[0] += missing / 2
        spaces[-1] += missing / 2


def _box(sequence: Sequence, place: int, most_gap: float) -> float:
    """The width of a component's boxes."""
    foot = sequence.feet[place]
    texts = [sequence.names[place][:LONGEST_NAME], foot.end, f"verdict {foot.verdict}"]
    texts += [left[:LONGEST_NAME] for left in foot.left[:MOST_LEFT]]
    return min(max(width_of(text) for text in texts) + 34, most_gap - 18)


def _needs(sequence: Sequence, most: float, reaches: tuple[float, ...]) -> list[float]:
    """The width that each space needs for everything in it."""
    needs = [0.0] * (len(sequence.names) + 1)
    for step in sequence.steps:
        for space, width in _needs_of(step, most, reaches):
            needs[space] = max(needs[space], width)
    return needs


def _needs_of(step: Step, most: float, reaches: tuple[float, ...]) -> list[tuple[int, float]]:
    needs = []
    if step.badge:
        half = width_of(step.badge.text) / 2 + 26
        needs += [(step.badge.column, half), (step.badge.column + 1, half)]
    if step.sends:
        needs += _needs_of_text(step.sends, most, reaches)
    for arrow in step.ends:
        needs.append((outer_space(arrow), width_of(arrow.at_receiver(), SMALL) + 32))
    return needs


def _needs_of_text(arrow: Arrow, most: float, reaches: tuple[float, ...]) -> list[tuple[int, float]]:
    """The text of a message may extend over all spaces between sender and receiver."""
    if arrow.sender == arrow.receiver:
        return [(arrow.sender + 1, min(width_of(arrow.at_sender()) + reaches[arrow.sender] + 50, most))]
    first, last = sorted((arrow.sender, arrow.receiver))
    width = width_of(arrow.at_sender()) / (STEM if arrow.is_long() else 1) + 44
    return [(space, min(width / (last - first), most)) for space in range(first + 1, last + 1)]
