"""Draws a chart with letters, for a terminal."""
from __future__ import annotations

import shutil

from .layout import goes_right, outer_space
from .sequence import Arrow, Badge, Foot, Sequence, Step

_LEAST_GAP = 12
_LONGEST_MARGIN = 40
_ENDS = {"took": ">", "found": "?", "dropped": "x", "left": "]", "discarded": "#"}
_WAITS = ")"
_REPEAT = 40  # rows after which the names of the components are written again


def letters_of(sequence: Sequence) -> str:
    """The chart, a line for each row."""
    return _Letters(sequence, shutil.get_terminal_size((100, 24)).columns).text()


class _Letters:
    """The columns of a chart in letters, and its lines."""

    def __init__(self, sequence: Sequence, width: int):
        self.sequence = sequence
        spaces = _spaces(sequence, width)
        self.columns = [sum(spaces[: place + 1]) + place for place in range(len(sequence.names))]
        self.width = sum(spaces) + len(self.columns)
        self.cut: list[str] = []

    def text(self) -> str:
        sequence = self.sequence
        lines = [f"{sequence.title}: result {sequence.result}", ""]
        for step in sequence.steps:
            if step.row % _REPEAT == 0:
                lines.append(self.beside(list(sequence.names)))
            lines.append(self.row(step))
        if not sequence.steps:
            lines.append(self.beside(list(sequence.names)))
        lines += self.feet()
        if self.cut:
            lines += ["", "cut above:", *self.cut]
        lines += ["", f"result {sequence.result}"]
        return "\n".join(line.rstrip() for line in lines) + "\n"

    def life_lines(self, row: int) -> list[str]:
        """A line with the life lines: dots for a component that has done everything."""
        line = [" "] * self.width
        for column, last in zip(self.columns, self.sequence.last_rows):
            line[column] = "|" if row <= last else "."
        return line

    def row(self, step: Step) -> str:
        if step.note:
            return f"    ({step.note})"
        line = self.life_lines(step.row)
        if step.badge:
            self.badge(line, step, step.badge)
        if step.sends and not step.ends:
            self.draw(line, step.sends, _WAITS, step.sends.message.text)
        drawn = step.sends or (step.ends[0] if step.ends else None)
        if drawn and step.sends and not self.has_room(drawn):
            self.note_cut(step, drawn.message.text)
        for arrow in step.ends:
            if arrow.start == arrow.stop:
                self.draw(line, arrow, _ENDS[arrow.word], arrow.message.text)
                self.write_outside(line, arrow, arrow.outside())
            else:
                self.draw_end(line, arrow)
        return "".join(line)

    def badge(self, line: list[str], step: Step, badge: Badge) -> None:
        text = _cut(badge.text, self.width - 4)
        if text != badge.text:
            self.note_cut(step, badge.text)
        column = self.columns[badge.column]
        place = min(max(column - (len(text) + 2) // 2, 0), max(self.width - len(text) - 2, 0))
        self.write(line, place, f"[{text}]")

    def note_cut(self, step: Step, text: str) -> None:
        """Keeps the whole of a shortened text, which is written below the chart."""
        self.cut.append(f"  report line {step.numbers[0]}: {text}")

    def draw(self, line: list[str], arrow: Arrow, end: str, text: str) -> None:
        """Draws an arrow with its text on it."""
        start, stop = self.columns[arrow.sender], self.columns[arrow.receiver]
        if start == stop:
            self.write(line, start + 1, f"--{end} {text}")
            return
        first, last = min(start, stop) + 1, max(start, stop)
        room = last - first
        shown = f" {_cut(text, room - 6)} " if room > 6 else ""
        shaft = shown.center(room - 1, "-")
        self.write(line, first, shaft + end if start < stop else _turned(end) + shaft)

    def has_room(self, arrow: Arrow) -> bool:
        """Whether the whole text fits on the arrow."""
        start, stop = sorted((self.columns[arrow.sender], self.columns[arrow.receiver]))
        if start == stop:
            return start + len(arrow.message.text) + 5 < self.width
        return len(arrow.message.text) <= stop - start - 7

    def draw_end(self, line: list[str], arrow: Arrow) -> None:
        """Draws the end of an arrow that began in another row: the message comes from the queue of the port."""
        column = self.columns[arrow.receiver]
        end = _ENDS[arrow.word]
        message = arrow.message
        said = f"{arrow.outside()} {message.route.sender} {message.number} {message.text}"
        if goes_right(arrow):
            self.write(line, column - 2, f"{_WAITS}{end}")
        else:
            self.write(line, column + 1, f"{_turned(end)}{_turned(_WAITS)}")
        self.write_outside(line, arrow, said)

    def write_outside(self, line: list[str], arrow: Arrow, text: str) -> None:
        """Writes a text beside the receiver's life line, on the side away from the sender."""
        column = self.columns[arrow.receiver]
        if goes_right(arrow):
            behind = self.columns[arrow.receiver + 1] if arrow.receiver + 1 < len(self.columns) else self.width
            self.write(line, column + 2, _cut(text, behind - column - 3))
        else:
            before = self.columns[arrow.receiver - 1] + 1 if arrow.receiver > 0 else 0
            shown = _cut(text, column - before - 2)
            self.write(line, column - 1 - len(shown), shown)

    def write(self, line: list[str], place: int, text: str) -> None:
        for offset, letter in enumerate(text):
            if 0 <= place + offset < self.width:
                line[place + offset] = letter

    def write_around(self, line: list[str], column: int, text: str) -> None:
        self.write(line, max(column - len(text) // 2, 0), text)

    def beside(self, texts: list[str]) -> str:
        """Each text around its life line, cut so that it touches no other."""
        line = [" "] * self.width
        for place, (column, text) in enumerate(zip(self.columns, texts)):
            before = self.columns[place - 1] if place > 0 else -column
            behind = self.columns[place + 1] if place + 1 < len(self.columns) else 2 * self.width
            self.write_around(line, column, _cut(text, min(column - before, behind - column) - 2))
        return "".join(line)

    def feet(self) -> list[str]:
        feet = [[foot.end, f"verdict {foot.verdict}"] for foot in self.sequence.feet]
        lines = [self.beside([texts[number] for texts in feet]) for number in range(2)]
        left = [text for place, foot in enumerate(self.sequence.feet) for text in self.left(place, foot)]
        return lines + ([""] + left if left else [])

    def left(self, place: int, foot: Foot) -> list[str]:
        return [f"{self.sequence.names[place]}: {text}" for text in foot.left]


def _turned(end: str) -> str:
    return {">": "<", "]": "[", ")": "("}.get(end, end)


def _cut(text: str, most: int) -> str:
    if len(text) <= most:
        return text
    return text[: most - 2] + ".." if most > 2 else text[: max(most, 0)]


def _spaces(sequence: Sequence, width: int) -> list[int]:
    """How many letters are to the left of each life line, and after the last."""
    needs = [_LEAST_GAP] * (len(sequence.names) + 1)
    for step in sequence.steps:
        for space, need in _needs(step):
            needs[space] = max(needs[space], need)
    for place, widest in enumerate(_widest(sequence)):
        needs[place] = max(needs[place], widest // 2 + 2)
        needs[place + 1] = max(needs[place + 1], widest + 2)
    needs[0], needs[-1] = min(needs[0], _LONGEST_MARGIN), min(needs[-1], _LONGEST_MARGIN)
    while sum(needs) + len(sequence.names) > width and max(needs) > _LEAST_GAP:
        needs[needs.index(max(needs))] -= 1
    return needs


def _widest(sequence: Sequence) -> list[int]:
    """The letters of the longest text at the head and the foot of each life line."""
    feet = zip(sequence.names, sequence.feet)
    return [max(len(name), len(foot.end), len(f"verdict {foot.verdict}")) for name, foot in feet]


def _needs(step: Step) -> list[tuple[int, int]]:
    needs = []
    if step.badge:
        half = len(step.badge.text) // 2 + 3
        needs += [(step.badge.column, half), (step.badge.column + 1, half)]
    if step.sends:
        needs += _needs_of_text(step.sends)
    for arrow in step.ends:
        waited = arrow.start != arrow.stop
        more = len(arrow.message.text) + len(arrow.message.route.sender) + 6 if waited else 0
        needs.append((outer_space(arrow), len(arrow.outside()) + more + 4))
    return needs


def _needs_of_text(arrow: Arrow) -> list[tuple[int, int]]:
    first, last = sorted((arrow.sender, arrow.receiver))
    if first == last:
        return [(first + 1, len(arrow.message.text) + 6)]
    need = (len(arrow.message.text) + 7) // (last - first)
    return [(space, need) for space in range(first + 1, last + 1)]
