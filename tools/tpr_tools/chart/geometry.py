"""Texts, boxes and lines of a picture, and where they meet, in pixels."""
from __future__ import annotations

from html import escape
from typing import NamedTuple

LETTER = 7.25  # the width of a letter of a label, of 12 pixels, in the widest of the usual fonts
SMALL = 6.65  # and of one of 11 pixels
LONGEST_NAME = 26


def width_of(text: str, letter: float = LETTER) -> float:
    return len(text) * letter


def letters_in(width: float, letter: float) -> int:
    """How many letters fit. A width that was computed for a text has room for all of it, in spite of rounding."""
    return int(width / letter + 1e-6)


def cut(text: str, width: float, letter: float = LETTER) -> str:
    """The text, shortened at its end if it doesn't fit."""
    most = max(letters_in(width, letter), 1)
    return text if len(text) <= most else text[: most - 1] + "…"


def cut_middle(text: str, width: float, letter: float = LETTER) -> str:
    """The text, shortened in its middle if it doesn't fit: names often differ at their ends."""
    most = max(letters_in(width, letter), 3)
    if len(text) <= most:
        return text
    behind = (most - 1) // 2
    return f"{text[: most - 1 - behind]}…{text[-behind:]}"


def short(name: str) -> str:
    """A component's name, for use among other words."""
    return cut_middle(name, LONGEST_NAME, 1)


def pixels(value: float) -> str:
    return f"{value:.1f}".rstrip("0").rstrip(".")


def escaped(text: str) -> str:
    return escape(text, quote=False)


class Box(NamedTuple):
    """A box that no arrow may cross."""

    left: float
    top: float
    right: float
    bottom: float


class Line(NamedTuple):
    """A straight line."""

    x: float
    y: float
    to_x: float
    to_y: float

    def hits(self, box: Box) -> bool:
        """Whether a part of the line lies in the box. The line is clipped at one side of the box after the other."""
        first, last = 0.0, 1.0
        wide, high = self.to_x - self.x, self.to_y - self.y
        for way, room in (
            (-wide, self.x - box.left),
            (wide, box.right - self.x),
            (-high, self.y - box.top),
            (high, box.bottom - self.y),
        ):
            if way == 0:
                if room < 0:
                    return False
            elif way < 0:
                first = max(first, room / way)
            else:
                last = min(last, room / way)
        return first < last


class Text(NamedTuple):
    """A text at its place."""

    x: float
    y: float
    text: str
    classes: str = ""

    def drawn(self) -> str:
        kind = f' class="{self.classes}"' if self.classes else ""
        return f'<text x="{pixels(self.x)}" y="{pixels(self.y)}"{kind}>{escaped(self.text)}</text>'

    def box(self) -> Box:
        classes = self.classes.split()
        width = width_of(self.text, SMALL if "small" in classes else LETTER)
        before = width if "end" in classes else width / 2 if "middle" in classes else 0
        return Box(self.x - before, self.y - 8, self.x - before + width, self.y + 1)
