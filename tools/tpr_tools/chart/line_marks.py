"""The lines of a script in a chart."""
from __future__ import annotations

from ..report.deliveries import Place
from ..why.ways import Ways
from .sequence import Marks


class LineMarks(Marks):
    """Shows the line of the script that an entry comes from, in brackets."""

    def __init__(self, ways: Ways):
        self.ways = ways

    def at(self, place: Place) -> str:
        return f" ({self.ways.line(place).short()})"

    def at_end(self, component: int) -> str:
        line = self.ways.line_of_stop(component)
        return "" if line is None else f" ({line.short()})"
