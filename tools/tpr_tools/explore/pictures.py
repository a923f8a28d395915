"""The runs that diverge as charts beside each other, each in the order of its steps."""
from __future__ import annotations

from itertools import takewhile

from ..chart.beside import Diverging, Pair, beside_of
from ..chart.sequence import Marks, sequence_in
from ..origins import Origins
from ..report.deliveries import Deliveries, Place, deliveries_of
from ..report.order import rows_in
from ..report.reader import read_report
from ..report.report import Report
from .exploration import Parted
from .parting import Told


def picture_of(script: str, partings: list[Parted], origins: Origins) -> str:
    """An SVG file with each pair of diverging runs."""
    return beside_of(f"{script}: where the runs diverge", [_pair(it, origins) for it in partings])


def _pair(parted: Parted, origins: Origins) -> Pair:
    better, worse = parted.better, parted.worse
    assert better.told is not None and worse.told is not None
    orders = [_order_of(it) for it in (better.told, worse.told)]
    apart = sum(1 for _ in takewhile(lambda both: both[0] == both[1], zip(*orders)))
    first, second = (
        _diverging(f"a run with the verdict {shown.verdict}", told, order, apart)
        for shown, told, order in ((better, better.told, orders[0]), (worse, worse.told, orders[1]))
    )
    words = "" if parted.where is None else parted.where.text(origins)
    return Pair(first, second, tuple(words.splitlines()))


Entries = list[tuple[Place, str]]  # with their lines


def _order_of(told: Told) -> Entries:
    """The entries of the report in the order of the steps. Entries that no step made come last."""
    counts = [0] * len(told.case.names)
    entries: Entries = []
    for step in told.steps:
        for line in step.lines:
            entries.append((Place(step.who, counts[step.who]), line))
            counts[step.who] += 1
    for who, component in enumerate(told.run.components):
        entries += [(Place(who, at), component.lines[at]) for at in range(counts[who], len(component.lines))]
    return entries


def _diverging(title: str, told: Told, order: Entries, apart: int) -> Diverging:
    deliveries = deliveries_of(_report_of(told))
    places = [place for place, _ in order]
    sequence = sequence_in(deliveries, rows_in(deliveries, places, apart), title, _Lines(told))
    line = _line_at(deliveries, places, apart)
    return Diverging(sequence, next((it.row for it in sequence.steps if line in it.numbers), len(sequence.steps)))


def _report_of(told: Told) -> Report:
    return read_report(told.run.report().encode("latin-1"))


def _line_at(deliveries: Deliveries, places: list[Place], apart: int) -> int:
    """The line of the report with the first entry that the other run doesn't have."""
    return deliveries.entry(places[apart]).line.number if apart < len(places) else 0


class _Lines(Marks):
    """Shows the line of the script that an entry comes from, in brackets."""

    def __init__(self, told: Told):
        self.case = told.case
        self.lines = [[step.line for step in steps for _ in step.lines] for steps in told.of_each]

    def at(self, place: Place) -> str:
        lines = self.lines[place.component]
        return f" ({self.case.told(lines[place.entry]).short()})" if place.entry < len(lines) else ""
