"""Two runs of one script beside each other, with a line where they diverge."""
from __future__ import annotations

from dataclasses import dataclass

from .geometry import SMALL, Text, escaped, pixels, width_of
from .layout import ROW
from .sequence import Sequence
from .svg import Drawing, drawing_of, picture

_TOP, _LINE = 64, 17
_BETWEEN = 24  # the charts
_MARGIN = 24
_HERE = "the runs diverge here"


@dataclass(frozen=True)
class Diverging:
    """A run as a chart, and the first row that the other run doesn't have."""

    sequence: Sequence
    row: int


@dataclass(frozen=True)
class Pair:
    """Two runs, and a text that says where they diverge."""

    first: Diverging
    second: Diverging
    words: tuple[str, ...]


def beside_of(title: str, pairs: list[Pair]) -> str:
    """The whole file: the pairs one below the other."""
    body, width, y = [Text(_MARGIN, 38, title, "head").drawn()], _MARGIN * 2 + width_of(title, 11.2), float(_TOP)
    for pair in pairs:
        parts, wide, high = _drawn(pair, y)
        body += parts
        width, y = max(width, wide), y + high
    description = "\n".join(line for pair in pairs for line in pair.words)
    return picture(width, y, title, description, body)


def _drawn(pair: Pair, y: float) -> tuple[list[str], float, float]:
    """The SVG elements of a pair from this height down, their width, and their height."""
    parts = [Text(_MARGIN, y + 12 + _LINE * at, line).drawn() for at, line in enumerate(pair.words)]
    top = y + _LINE * len(pair.words) + 12
    drawings = [drawing_of(run.sequence, run.row) for run in (pair.first, pair.second)]
    x = 0.0
    for drawing, run in zip(drawings, (pair.first, pair.second)):
        place = f"translate({pixels(x)} {pixels(top)})"
        told = escaped(drawing.description())
        parts += [f'<g transform="{place}" aria-label="{_label(run)}"><title>{told}</title>']
        parts += [*drawing.parts(), *_line_of(drawing, run.row), "</g>"]
        x += drawing.layout.width + _BETWEEN
    words = max((width_of(line) for line in pair.words), default=0.0) + 2 * _MARGIN
    high = max(drawing.layout.height() for drawing in drawings)
    return parts, max(x - _BETWEEN, words), top - y + high + _BETWEEN


def _label(run: Diverging) -> str:
    return escaped(run.sequence.title)


def _line_of(drawing: Drawing, row: int) -> list[str]:
    """A line above the row; if the run ends before the other one, below its last row."""
    layout = drawing.layout
    y = layout.parting_y(row)
    right = layout.width - 12
    line = f'<path class="parts" d="M12 {pixels(y)}H{pixels(right - width_of(_HERE, SMALL) - 6)}"/>'
    return [line, Text(right, y + 3, _HERE, "where small end halo").drawn()]
