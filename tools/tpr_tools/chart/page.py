"""A chart as one HTML page that stands alone: its data, its style and its script are in it.

The page draws only the visible part, while one scrolls. If `script_lines` gives the line of the script for a line of
the report, the page shows it beside that line.
"""
from __future__ import annotations

import json
import os
from html import escape
from typing import Any, Mapping, Optional

from ..template import Template
from .sequence import Arrow, Sequence, Step

_TEMPLATE = Template(os.path.join(os.path.dirname(os.path.realpath(__file__)), "page"))
_STAYS = ("left", "discarded")


def page_of(sequence: Sequence, script_lines: Optional[Mapping[int, str]] = None) -> str:
    """The whole file."""
    data = json.dumps(_Data(sequence, script_lines or {}).all(), separators=(",", ":"))
    parts = {
        "title": escape(sequence.title),
        "style": _TEMPLATE.part("page.css"),
        "code": "\n".join(_TEMPLATE.part(name) for name in ("told.js", "drawing.js", "acting.js")),
        # A `<` in the data could end the script element.
        "data": data.replace("<", "\\u003c"),
    }
    return _TEMPLATE.filled("page.html", parts)


class _Data:
    """The page's data: lists of numbers and texts, with the text of each message only once."""

    def __init__(self, sequence: Sequence, script_lines: Mapping[int, str]):
        self.sequence = sequence
        self.script_lines = script_lines
        self.texts: dict[str, int] = {}
        self.messages: dict[int, list[Any]] = {}  # by the message's own number
        self.row_of_line: dict[int, int] = {}

    def all(self) -> dict[str, object]:
        sequence = self.sequence
        for step in sequence.steps:
            for number in step.numbers:
                self.row_of_line[number] = step.row
        rows = [self.row(step) for step in sequence.steps]
        order = {index: place for place, index in enumerate(self.messages)}
        for row in rows:
            if row[0] != 2:
                row[1] = order[row[1]]  # type: ignore[index]
        return {
            "title": sequence.title,
            "result": sequence.result,
            "summary": sequence.summary,
            "names": sequence.names,
            "feet": [[foot.end, foot.verdict, list(foot.left)] for foot in sequence.feet],
            "last": sequence.last_rows,
            "rows": rows,
            "messages": list(self.messages.values()),
            "texts": list(self.texts),
            "script": {str(line): told for line, told in self.script_lines.items()},
        }

    def row(self, step: Step) -> list[object]:
        """The row as a list. It begins with 0 for a send, with what happened to the message in this row; with 1 for a
        message that was got; with 2 for what a component does by itself. The lines of the report are at the end."""
        if step.badge is not None:
            return [2, step.badge.column, step.badge.text, step.badge.verdict or "", *step.numbers]
        arrow = step.sends or step.ends[0]
        index = self.message(arrow)
        if step.sends is None:
            self.end(index, arrow, step.row, step.numbers[0])
            return [1, index, arrow.word, *step.numbers]
        ended = arrow.word if step.ends else ""
        if ended and ended not in _STAYS:
            self.end(index, arrow, step.row, step.numbers[1])
        return [0, index, ended, *step.numbers]

    def message(self, arrow: Arrow) -> int:
        """Adds a new message as a list: sender, receiver, port, number, text, fate, the row and line where it is sent,
        those of its end, and those where it was found. Returns the message's index."""
        message = arrow.message
        if message.index not in self.messages:
            text = self.texts.setdefault(message.text, len(self.texts))
            ways = [arrow.sender, arrow.receiver, message.route.port, message.number]
            self.messages[message.index] = [*ways, text, message.fate, *self.sent(arrow), *self.discarding(arrow), []]
        return message.index

    def sent(self, arrow: Arrow) -> list[int]:
        line = self.sequence.line_of(arrow.message.sent)
        return [arrow.start, line]

    def discarding(self, arrow: Arrow) -> list[int]:
        """For a discarded message, the row and line of the entry that discarded it. Another end is filled in later."""
        message = arrow.message
        if message.fate != "discarded" or message.gone is None:
            return [-1, 0]
        line = self.sequence.line_of(message.gone)
        return [self.row_of_line[line], line]

    def end(self, index: int, arrow: Arrow, row: int, line: int) -> None:
        told = self.messages[index]
        if arrow.word == "found":
            told[10].append([row, line])
        else:
            told[8:10] = [row, line]
