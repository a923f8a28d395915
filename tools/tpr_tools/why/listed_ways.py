"""The lines of a report, each beside the line of the script that it comes from."""
from __future__ import annotations

from typing import NamedTuple, Optional

from ..origins import Line
from ..report.deliveries import Place
from ..report.report import Received, Sent
from .ways import Ways


class Row(NamedTuple):
    """A line of the report: the line of the script, and for a message that of its other end."""

    line: Optional[Line]
    arrow: str
    other: str
    text: str


def listing_of(ways: Ways) -> str:
    rows = [Row(None, "", "", "report")]
    for place in range(len(ways.report.components)):
        rows += _rows_of(ways, place)
    rows.append(Row(None, "", "", ways.report.result_line.text))
    return _aligned(rows)


def _rows_of(ways: Ways, number: int) -> list[Row]:
    component = ways.report.components[number]
    rows = [Row(ways.line_of_body(number), "", "", component.line.text)]
    rows += [_row_of(ways, Place(number, place)) for place in range(len(component.entries))]
    rows.append(Row(ways.line_of_stop(number), "", "", component.end.line.text))
    rows.append(Row(ways.line_of_verdict(number), "", "", component.verdict_line.text))
    rows += [Row(None, "<-", _sent_at(ways, it, component.name), it.line.text) for it in component.left]
    return rows


def _row_of(ways: Ways, place: Place) -> Row:
    entry, line = ways.deliveries.entry(place), ways.line(place)
    if isinstance(entry, Sent):
        message = ways.deliveries.message(place)
        assert message is not None
        other = " or ".join(line.short() for line in ways.lines_gone(message)) or "left"
        return Row(line, "->", other, entry.line.text)
    if isinstance(entry, Received):
        name = ways.report.components[place.component].name
        return Row(line, "<-", _sent_at(ways, entry, name), entry.line.text)
    return Row(line, "", "", entry.line.text)


def _sent_at(ways: Ways, entry: Received, receiver: str) -> str:
    return ways.line(ways.sending_of(entry, receiver).sent).short()


def _aligned(rows: list[Row]) -> str:
    """The lines with their numbers on the left, in columns, below a head."""
    lines = [row.line.short() if row.line else "" for row in rows]
    lines[0] = "line"
    first, second = max(map(len, lines)), max(len(row.other) for row in rows)
    told = [f"{line:>{first}} {row.arrow:2} {row.other:<{second}}  {row.text}\n" for line, row in zip(lines, rows)]
    return "".join(told)
