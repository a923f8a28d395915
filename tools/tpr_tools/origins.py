"""The places that a script's lines come from, by the map that tools/rewrite writes beside it (SCRIPT.map)."""
from __future__ import annotations

import os
import re
from bisect import bisect_right
from typing import Iterable, NamedTuple, Optional

from .command import REFUSED, Stop, read_bytes
from .words import and_, shown

_ROW = re.compile(r"([0-9]{1,9}) ([0-9]{1,9}):([0-9]{1,9}) (.+)")


class Line(NamedTuple):
    """A line as messages name it: with its file if there are several."""

    file: str
    number: int

    def __str__(self) -> str:
        return f"{self.number} of {shown(self.file)}" if self.file else str(self.number)

    def short(self) -> str:
        """The line as it is shown in a column."""
        return f"{shown(self.file)}:{self.number}" if self.file else str(self.number)


class Row(NamedTuple):
    """A line of the script, and the place that it comes from."""

    own: int
    line: int
    column: int
    file: str


class Origins:
    """The rows of a map. Without rows, each line comes from itself."""

    def __init__(self, rows: list[Row]):
        self.rows = rows
        self._own = [row.own for row in rows]
        self.files = list(dict.fromkeys(row.file for row in rows))

    def row(self, own: int) -> Optional[Row]:
        """The row for the line, or for the nearest line above that has one."""
        if not self.rows:
            return None
        return self.rows[max(0, bisect_right(self._own, own) - 1)]

    def line(self, own: int) -> Line:
        row = self.row(own)
        if row is None:
            return Line("", own)
        return Line(row.file if len(self.files) > 1 else "", row.line)

    def place(self, own: int) -> str:
        """`login.ttcn:9:5`, or an empty text if the line comes from itself."""
        row = self.row(own)
        return f"{shown(row.file)}:{row.line}:{row.column}" if row else ""

    def heading(self) -> str:
        """Which files the line numbers belong to, if not to the script itself."""
        return f"lines of {and_(map(shown, self.files))}\n" if self.files else ""


def origins_of(script: str) -> Origins:
    """The map beside a script. A map that doesn't belong to the current script ends the tool."""
    file = f"{script}.map"
    if not os.path.isfile(file):
        return Origins([])
    texts = read_bytes(script).decode("utf-8", "replace").split("\n")
    rows = []
    for number, text in enumerate(read_bytes(file).splitlines(), 1):
        row = _row_of(text.decode("utf-8", "surrogateescape"))
        if row is None or not _is_told(texts, row):
            told = f"{file}, line {number}: it isn't the map of {script}; tools/rewrite writes both"
            raise Stop(REFUSED, told)
        rows.append(row)
    return Origins(sorted(rows))


def origin_told(script: str, own: Optional[int]) -> str:
    """`login.ttcn:9:5`, or an empty text if there is no map that belongs to the current script."""
    try:
        return "" if own is None else origins_of(script).place(own)
    except Stop:
        return ""


def _row_of(text: str) -> Optional[Row]:
    found = _ROW.fullmatch(text)
    return Row(int(found[1]), int(found[2]), int(found[3]), found[4]) if found else None


def _is_told(texts: list[str], row: Row) -> bool:
    """Whether the line of the script ends with the number from the map."""
    text = texts[row.own - 1] if 0 < row.own <= len(texts) else ""
    return re.search(rf"// ([^/]*:)?{row.line}$", text) is not None


def lines_told(lines: Iterable[Line]) -> str:
    """`line 7`, `lines 7, 9 and 12-15`; for several files `line 7 of a.ttcn and lines 1-2 of b.ttcn`."""
    by_file: dict[str, list[int]] = {}
    for line in sorted(set(lines)):
        by_file.setdefault(line.file, []).append(line.number)
    told = [_numbers_told(numbers) + (f" of {shown(file)}" if file else "") for file, numbers in by_file.items()]
    return and_(told)


def _numbers_told(numbers: list[int]) -> str:
    spans: list[list[int]] = []
    for number in numbers:
        if spans and spans[-1][-1] == number - 1:
            spans[-1][1:] = [number]
        else:
            spans.append([number])
    told = and_("-".join(map(str, span)) for span in spans)
    return f"line {told}" if len(spans) == len(spans[0]) == 1 else f"lines {told}"
