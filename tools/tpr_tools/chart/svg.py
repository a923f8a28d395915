"""Draws a chart as an SVG file."""
from __future__ import annotations

import os
from dataclasses import replace
from html import escape
from typing import Optional

from ..template import Template
from .geometry import SMALL, Box, Line, Text, cut, cut_middle, escaped, pixels, width_of
from .layout import (
    BESIDE_TITLE,
    LANE,
    LANES,
    LOOP,
    MOST_LEFT,
    PARTING,
    REPEAT,
    ROW,
    STEM,
    STRIP,
    TITLE_LETTER,
    Layout,
    goes_right,
    layout_of,
)
from .sequence import Arrow, Foot, Badge, Sequence, Step

# The paper, the ink, and for each verdict a background, a border and a readable ink.
_COLOURS = {
    "none": ("#f6f8fa", "#8c959f", "#424a53"),
    "pass": ("#dafbe1", "#2da44e", "#0f5323"),
    "inconc": ("#fff8c5", "#bf8700", "#633c01"),
    "fail": ("#ffebe9", "#cf222e", "#82071e"),
    "error": ("#fbefff", "#8250df", "#3e1f79"),
    "plain": ("#ffffff", "#8c959f", "#24292f"),
}

_STYLE = Template(os.path.dirname(os.path.realpath(__file__))).part("chart.css")

# The ends of arrows: the name, a size, how far the drawing reaches beyond the end, and the drawing.
_SHAPES = (
    ("taken", 9, 9, '<path d="M0 0.8L9 4.5L0 8.2z" fill="#24292f"/>'),
    ("seen", 9, 8.6, '<path d="M1 1L8.6 4.5L1 8" fill="none" stroke="#0550ae" stroke-width="1.4"/>'),
    ("crossed", 12, 6, '<path d="M1.5 1.5L10.5 10.5M10.5 1.5L1.5 10.5" stroke="#a40e26" stroke-width="2"/>'),
    ("queued", 12, 11.5, '<path d="M1 1H11V11H1z" fill="#fff8c5" stroke="#7d4e00" stroke-width="1.4"/>'),
    ("emptied", 12, 11.5, '<path d="M1 1H11V11H1zL11 11M11 1L1 11" fill="#ffffff" stroke="#57606a"/>'),
)
_ENDS = {"took": "taken", "found": "seen", "dropped": "crossed", "left": "queued", "discarded": "emptied"}
_MOST_SAID = 60  # most rows that the description lists one by one
_HEAD_TOP, _HEAD_HEIGHT = 58, 26


def svg_of(sequence: Sequence) -> str:
    """The whole file."""
    return drawing_of(sequence).file()


def drawing_of(sequence: Sequence, parted: Optional[int] = None) -> Drawing:
    """The drawing, with room for a line above the row at which it is divided. No arrow crosses a text, a badge or the
    end of another arrow: one that would is drawn as its two ends. Its texts are longer then, so the layout is computed
    again."""
    while True:
        drawing = Drawing(sequence, layout_of(sequence, parted))
        striking = drawing.striking()
        if not striking:
            return drawing
        steps = [
            step._replace(
                sends=_split(step.sends, striking) if step.sends else None,
                ends=tuple(_split(arrow, striking) for arrow in step.ends),
            )
            for step in sequence.steps
        ]
        sequence = replace(sequence, steps=tuple(steps))


def _split(arrow: Arrow, striking: set[tuple[int, int]]) -> Arrow:
    return arrow._replace(is_split=True) if (arrow.start, arrow.stop) in striking else arrow


def picture(width: float, height: float, title: str, description: str, body: list[str]) -> str:
    """An SVG file with these parts, and with everything that all charts need for drawing. A screen reader reads the
    title and the description."""
    wide, high = pixels(width), pixels(height)
    markers = "\n".join(_marker(*shape) for shape in _SHAPES)
    opening = (
        f'<svg xmlns="http://www.w3.org/2000/svg" width="{wide}" height="{high}" '
        f'viewBox="0 0 {wide} {high}" role="img" aria-labelledby="chart-title chart-description" '
        f'xml:space="preserve">\n<title id="chart-title">{escaped(title)}</title>\n'
        f'<desc id="chart-description">{escaped(description)}</desc>\n'
        f"<style>\n{_STYLE}</style>\n<defs>\n{markers}\n</defs>\n"
        f'<rect width="{wide}" height="{high}" rx="8" fill="#ffffff"/>'
    )
    return "\n".join([opening, *body, "</svg>"]) + "\n"


def _marker(name: str, size: float, reach: float, drawing: str) -> str:
    return (
        f'<marker id="{name}" viewBox="0 0 {size} {size}" refX="{reach}" refY="{size / 2}" markerWidth="{size}" '
        f'markerHeight="{size}" markerUnits="userSpaceOnUse" orient="auto">{drawing}</marker>'
    )


def _pill(x: float, y: float, text: str, colour: str, size: float = 18) -> str:
    """A text in a rounded box, around a middle."""
    ground, border, ink = _COLOURS[colour]
    width = width_of(text) + 18
    return (
        f'<rect x="{pixels(x - width / 2)}" y="{pixels(y - size / 2)}" width="{pixels(width)}" '
        f'height="{pixels(size)}" rx="{pixels(size / 2)}" fill="{ground}" stroke="{border}"/>'
        f'<text x="{pixels(x)}" y="{pixels(y + 4)}" class="middle" style="fill:{ink}">{escaped(text)}</text>'
    )


class Drawing:
    """The parts of one chart."""

    def __init__(self, sequence: Sequence, layout: Layout):
        self.sequence = sequence
        self.layout = layout
        loops = [arrow for step in sequence.steps for arrow in step.ends if arrow.is_loop()]
        self.lanes = lanes_of(loops)
        self.looped = {(it.sender, row) for it in loops for row in range(it.start + 1, it.stop)}

    def file(self) -> str:
        title = f"Sequence chart of {self.sequence.title}: result {self.sequence.result}"
        return picture(self.layout.width, self.layout.height(), title, self.description(), self.parts())

    def parts(self) -> list[str]:
        body = [*self.opening(), *self.life_lines(), *self.strips(), *self.heads()]
        # All arrows are drawn before the first text, so that no arrow covers a text.
        body += ['<g aria-hidden="true">', *self.arrows(), "</g>"]
        body += [self.row(step) for step in self.sequence.steps]
        body += [self.foot(place, foot) for place, foot in enumerate(self.sequence.feet)]
        return body + [self.result(), *self.layout.legend.drawn(self.layout.legend_top(), _ENDS)]

    def opening(self) -> list[str]:
        sequence = self.sequence
        pill = _pill(self.layout.width - 78, 32, f"result {sequence.result}", sequence.result, 24)
        name = cut(sequence.title, self.layout.width - BESIDE_TITLE, TITLE_LETTER)
        return [Text(24, 38, name, "head").drawn(), pill]

    def description(self) -> str:
        """The text for a screen reader: the summary, and each row if the chart isn't too long."""
        sequence = self.sequence
        said = [f"Components {', '.join(sequence.names)}. {sequence.summary}"]
        if len(sequence.steps) <= _MOST_SAID:
            said += [f"{number}. {step.said}." for number, step in enumerate(sequence.steps, 1)]
        return "\n".join(said)

    def life_lines(self) -> list[str]:
        """A line for each component, dotted after its last entry."""
        lines = []
        for x, last in zip(self.layout.columns, self.sequence.last_rows):
            top, foot = float(_HEAD_TOP + _HEAD_HEIGHT), self.layout.foot()
            middle = self.layout.y(last) + ROW / 2 if last >= 0 else top
            line = f'<path class="life" d="M{pixels(x)} {pixels(top)}V{pixels(middle)}"/>'
            rest = f'<path class="life ended" d="M{pixels(x)} {pixels(middle)}V{pixels(foot)}"/>'
            lines.append(line + rest)
        return lines

    def heads(self) -> list[str]:
        heads = []
        for x, width, name in zip(self.layout.columns, self.layout.boxes, self.sequence.names):
            text = Text(x, _HEAD_TOP + 17, cut_middle(name, width - 12), "name middle").drawn()
            heads.append(
                f'<rect class="box" x="{pixels(x - width / 2)}" y="{_HEAD_TOP}" width="{pixels(width)}" '
                f'height="{_HEAD_HEIGHT}" rx="5"/>{text}'
            )
        return heads

    def strips(self) -> list[str]:
        """The names again, for readers who have scrolled down."""
        strips = []
        for row in range(REPEAT, self.layout.rows, REPEAT):
            if self.layout.strips_above(row) == 0:
                break
            parting = PARTING if self.layout.parted == row else 0
            y = self.layout.y(row) - parting - STRIP / 2 - 17
            for x, width, name in zip(self.layout.columns, self.layout.boxes, self.sequence.names):
                strips.append(Text(x, y, cut_middle(name, width - 12, SMALL), "strip middle halo").drawn())
        return strips

    def arrows(self) -> list[str]:
        return [self.arrow(arrow) for step in self.sequence.steps for arrow in step.ends]

    def row(self, step: Step) -> str:
        """The texts of a row, its description, and its lines of the report."""
        parts = [text.drawn() for text in self.texts(step)]
        if step.badge:
            parts.append(_pill(*self.badge(step.row, step.badge), step.badge.verdict or "plain"))
        said = cut(step.said, 120, 1)
        return f'<g aria-label="{escape(said)}"><title>{escaped(step.lines)}</title>{"".join(parts)}</g>'

    def texts(self, step: Step) -> list[Text]:
        """The texts of a row, except the text of a badge."""
        texts = []
        if step.note:
            note = cut(step.note, self.layout.width - 40, SMALL)
            texts.append(Text(self.layout.width / 2, self.layout.y(step.row) + 4, note, "small middle halo"))
        if step.sends:
            texts.append(self.text_of(step.sends, step.row))
        for arrow in step.ends:
            texts += [self.text_again(arrow)] if arrow.is_long() else []
            texts.append(self.outside(arrow))
        return texts

    def badge(self, row: int, badge: Badge) -> tuple[float, float, str]:
        """Its middle, its width, and its text."""
        room = 2 * min(self.layout.spaces[badge.column : badge.column + 2]) - 40
        return self.layout.columns[badge.column], self.layout.y(row), cut(badge.text, room)

    def text_of(self, arrow: Arrow, row: int) -> Text:
        """The message, above the beginning or the middle of its arrow."""
        x, y = self.layout.columns[arrow.sender], self.layout.y(row)
        text = cut(arrow.at_sender(), self.layout.room(arrow))
        if arrow.sender == arrow.receiver:
            is_beside = arrow.is_loop() or (arrow.sender, row) in self.looped
            reach = self.layout.reaches[arrow.sender] if is_beside else LOOP
            return Text(x + reach + 12, y + 4, text, "halo")
        if arrow.start == arrow.stop:
            return Text(self.middle_of_text(arrow, text), y - 5, text, "middle halo")
        if goes_right(arrow):
            return Text(x + 10, y - 5, text, "halo")
        return Text(x - 10, y - 5, text, "end halo")

    def middle_of_text(self, arrow: Arrow, text: str) -> float:
        """The middle of the space beside the sender if the text fits there, so that it covers no life line."""
        columns = self.layout.columns
        beside = columns[arrow.sender + (1 if goes_right(arrow) else -1)]
        fits = width_of(text) < abs(beside - columns[arrow.sender]) - 20
        return (columns[arrow.sender] + (beside if fits else columns[arrow.receiver])) / 2

    def outside(self, arrow: Arrow) -> Text:
        x, y = self.layout.columns[arrow.receiver], self.layout.y(arrow.stop) + 4
        text = cut(arrow.at_receiver(), self.layout.room_outside(arrow), SMALL)
        if goes_right(arrow):
            return Text(x + 9, y, text, "small halo")
        return Text(x - 9, y, text, "small end halo")

    # Arrows

    def striking(self) -> set[tuple[int, int]]:
        """The arrows that cross something, each by the rows where it starts and stops."""
        boxes = [self.boxes(step) for step in self.sequence.steps]
        return {
            (arrow.start, arrow.stop)
            for step in self.sequence.steps
            for arrow in step.ends
            if arrow.start < arrow.stop and not arrow.is_long() and self.strikes(arrow, boxes)
        }

    def strikes(self, arrow: Arrow, boxes: list[list[Box]]) -> bool:
        lines, between = self.lines(arrow), range(arrow.start, arrow.stop + 1)
        return any(line.hits(box) for row in between for box in boxes[row] for line in lines)

    def boxes(self, step: Step) -> list[Box]:
        """The boxes of a row that no arrow may cross: its texts, its badge, and the boxes at the ends of its arrows."""
        boxes = [text.box() for text in self.texts(step)]
        y = self.layout.y(step.row)
        if step.badge:
            x, _, text = self.badge(step.row, step.badge)
            half = width_of(text) / 2 + 9
            boxes.append(Box(x - half, y - 9, x + half, y + 9))
        for arrow in step.ends:
            if arrow.word in ("left", "discarded"):
                x = self.layout.columns[arrow.receiver] + (LOOP if arrow.sender == arrow.receiver else 0)
                boxes.append(Box(x - 12, y - 6, x + 12, y + 6))
        return boxes

    def lines(self, arrow: Arrow) -> list[Line]:
        """The straight lines of an arrow that goes over several rows and isn't drawn as two ends."""
        start, stop = self.layout.columns[arrow.sender], self.layout.columns[arrow.receiver]
        top, foot = self.layout.y(arrow.start), self.layout.y(arrow.stop)
        if arrow.sender != arrow.receiver:
            return [Line(start, top, stop, foot)]
        far = start + self.far(arrow)
        return [Line(start, top, far, top), Line(far, top, far, foot), Line(far, foot, start, foot)]

    def arrow(self, arrow: Arrow) -> str:
        if arrow.is_long():
            return self.two_ends(arrow)
        if arrow.sender == arrow.receiver:
            return self.loop(arrow)
        start, stop = self.layout.columns[arrow.sender], self.layout.columns[arrow.receiver]
        begins = f"M{pixels(start)} {self.height(arrow.start)}"
        return self.path(arrow, f"{begins}L{pixels(stop)} {self.height(arrow.stop)}")

    def height(self, row: int) -> str:
        return pixels(self.layout.y(row))

    def path(self, arrow: Arrow, way: str) -> str:
        return f'<path class="{arrow.word}" d="{way}" marker-end="url(#{_ENDS[arrow.word]})"/>'

    def loop(self, arrow: Arrow) -> str:
        """An arrow to the component itself: out to the right, down and back."""
        x = self.layout.columns[arrow.sender]
        if arrow.word in ("left", "discarded"):
            return self.path(arrow, f"M{pixels(x)} {self.height(arrow.start)}h{LOOP}")
        start, stop, far = self.layout.y(arrow.start), self.layout.y(arrow.stop), self.far(arrow)
        if arrow.start == arrow.stop:
            start, stop = start - 6, stop + 6
        return self.path(arrow, f"M{pixels(x)} {pixels(start)}h{pixels(far)}V{pixels(stop)}H{pixels(x)}")

    def far(self, arrow: Arrow) -> float:
        """How far a loop goes to the right: loops that are open at the same time are side by side."""
        if not arrow.is_loop():
            return LOOP
        return self.layout.reaches[arrow.sender] - LANE * self.lanes[arrow.start, arrow.stop]

    def two_ends(self, arrow: Arrow) -> str:
        """An arrow over many rows, drawn as its start and its end, without the way between."""
        start, stop = self.layout.columns[arrow.sender], self.layout.columns[arrow.receiver]
        way = (stop - start) * STEM if start != stop else LOOP
        top, foot = self.layout.y(arrow.start), self.layout.y(arrow.stop)
        leaves = f"M{pixels(start)} {pixels(top)}h{pixels(way)}m0 -4v8"
        comes = f"M{pixels(stop - way if start != stop else stop + way)} {pixels(foot - 4)}v8m0 -4H{pixels(stop)}"
        return self.path(arrow, leaves + comes)

    def text_again(self, arrow: Arrow) -> Text:
        """The message again, at the end of its long arrow."""
        x, y = self.layout.columns[arrow.receiver], self.layout.y(arrow.stop) - 5
        text = cut(arrow.message.text, self.layout.room(arrow))
        if arrow.sender == arrow.receiver:
            return Text(x + LOOP + 12, y + 9, text, "halo")
        return Text(x - 12, y, text, "end halo") if goes_right(arrow) else Text(x + 12, y, text, "halo")

    def foot(self, place: int, foot: Foot) -> str:
        """How the behaviour ended, its verdict, and the messages left at its ports."""
        x, width, top = self.layout.columns[place], self.layout.boxes[place], self.layout.foot()
        parts = [
            f'<rect class="foot" x="{pixels(x - width / 2)}" y="{pixels(top)}" width="{pixels(width)}" '
            f'height="{pixels(self.layout.foot_height())}" rx="5"/>',
            Text(x, top + 17, cut(foot.end, width - 10), "middle").drawn(),
            _pill(x, top + 34, cut(f"verdict {foot.verdict}", width - 22), foot.verdict),
        ]
        left = list(foot.left[:MOST_LEFT])
        if len(foot.left) > MOST_LEFT:
            left.append(f"and {len(foot.left) - MOST_LEFT} more")
        for number, text in enumerate(left):
            told = cut(text, width - 10, SMALL)
            parts.append(Text(x, top + 62 + 17 * number, told, "small middle").drawn())
        told = "\n".join([foot.end, f"verdict {foot.verdict}", *foot.left])
        said = f"{self.sequence.names[place]}: {foot.end}, verdict {foot.verdict}"
        return f'<g aria-label="{escape(said)}"><title>{escaped(told)}</title>{"".join(parts)}</g>'

    def result(self) -> str:
        y = self.layout.foot() + self.layout.foot_height() + 32
        said = f"result {self.sequence.result}"
        pill = _pill(self.layout.width / 2, y, said, self.sequence.result, 26)
        return f'<g aria-label="{said}">{pill}</g>'


def lanes_of(loops: list[Arrow]) -> dict[tuple[int, int], int]:
    """The lane of each loop, by the rows where it starts and stops."""
    lanes: dict[tuple[int, int], int] = {}
    used: list[int] = []  # the last rows of the loops in each lane
    for arrow in sorted(loops, key=lambda it: it.start):
        lane = next((lane for lane, last in enumerate(used) if last < arrow.start), len(used))
        used[lane : lane + 1] = [arrow.stop]
        lanes[arrow.start, arrow.stop] = min(lane, LANES - 1)
    return lanes
