"""The explanation of one script: its refusal, the places in the script, and what to write."""
from __future__ import annotations

from dataclasses import dataclass, field
from enum import Enum
from typing import Any, Optional

from ..script.refusal_rules import Rule
from ..script.tokens import Position
from ..words import counted


# The text of a construct without a replacement begins with this.
NOTHING = "nothing: "
STANDARD = "ES 201 873-1"


class Answer(Enum):
    """The kinds of answers of `tpr check`."""

    ACCEPTED = "accepted"
    REFUSED = "refused"
    FAULT = "fault"
    BROKEN = "broken"


@dataclass(frozen=True)
class Shown:
    """A place of the script: its line is shown, with the meant part underlined.

    `begin` is the column where the construct of the place begins, if that is on the same line.
    """

    position: Position
    text: str
    label: str = ""
    begin: Optional[int] = None


@dataclass(frozen=True)
class Warned:
    """Something in an accepted script that has no effect, and where."""

    sentence: str
    places: list[Shown]

    def text(self, file: str) -> list[str]:
        position = self.places[0].position
        width = max(4, *(len(str(shown.position.line)) for shown in self.places))
        lines = [f"{file}:{position.line}:{position.column}: warning: {self.sentence}"]
        return lines + [line for shown in self.places for line in _shown_lines(shown, width)]


@dataclass
class Explanation:
    """The whole explanation. `line` is that of `tpr check`; there is a column if explain's own reading agrees."""

    file: str
    answer: Answer
    said: str
    number: Optional[int] = None
    name: str = ""
    line: Optional[int] = None
    column: Optional[int] = None
    sentence: str = ""
    places: list[Shown] = field(default_factory=list)
    can_stand: list[str] = field(default_factory=list)
    construct: str = ""
    clause: str = ""
    instead: str = ""
    rules: list[Rule] = field(default_factory=list)
    # The result of explain's own reading, if it differs from that of `tpr check`: then no place is known.
    own_reading: str = ""
    # Where the line comes from, if tools/rewrite wrote the script.
    origin: str = ""
    warnings: list[Warned] = field(default_factory=list)
    more_warnings: int = 0

    def first_line(self) -> str:
        place = self.file
        if self.line is not None:
            place += f":{self.line}"
        if self.column is not None:
            place += f":{self.column}"
        if self.answer is not Answer.REFUSED:
            return f"{place}: {self.said}"
        if self.number is None:
            return f"{place}: {self.sentence}" + (f" ({self.code()})" if self.clause else "")
        return f"{place}: refused {self.code()}: {self.sentence}"

    def code(self) -> str:
        """The refusal; or, for a construct that the program hasn't reported, its clause."""
        if self.number is not None:
            return f"{self.number} {self.name}"
        return f"{STANDARD}, {self.clause}" if self.clause else ""

    def advice(self) -> list[str]:
        """What to write."""
        lines = []
        if self.can_stand:
            lines.append(f"expected here: {', '.join(self.can_stand)}")
        if self.instead.startswith(NOTHING):
            lines.append(f"no replacement: {self.instead.removeprefix(NOTHING)}")
        elif self.instead:
            lines.append(f"write instead: {self.instead}")
        return lines

    def message(self) -> str:
        return "\n".join([self.sentence or self.said, *self.advice()])

    def text(self) -> str:
        lines = [self.first_line()]
        if self.origin:
            lines.append(f"  comes from {self.origin}")
        width = max((len(str(shown.position.line)) for shown in self.places), default=1)
        for shown in self.places:
            lines += _shown_lines(shown, max(width, 4))
        lines += [f"  {line}" for line in self.advice()]
        if self.construct:
            lines.append(f"  more: docs/FROM_TTCN3.md, {self.clause}")
        if self.own_reading:
            lines.append(f"  no place is shown, because explain finds something else: {self.own_reading}")
        word = "rule" if len(self.rules) == 1 else "one of these rules"
        lines += [f"  {word}: {rule.told()}" for rule in self.rules]
        for warned in self.warnings:
            lines += warned.text(self.file)
        if self.more_warnings:
            lines.append(f"{self.file}: {counted(self.more_warnings, 'more warning')}")
        return "\n".join(lines) + "\n"

    def as_json(self) -> dict[str, Any]:
        return {
            "file": self.file,
            "answer": self.answer.value,
            "said": self.said,
            "number": self.number,
            "name": self.name or None,
            "line": self.line,
            "column": self.column,
            "origin": self.origin or None,
            "sentence": self.sentence or None,
            "places": [_place(shown) for shown in self.places],
            "can_stand": self.can_stand,
            "construct": self.construct or None,
            "clause": self.clause or None,
            "instead": self.instead or None,
            "rules": [rule.value for rule in self.rules],
            "own_reading": self.own_reading or None,
            "warnings": [
                {"sentence": it.sentence, "places": [_place(shown) for shown in it.places]} for it in self.warnings
            ],
            "more_warnings": self.more_warnings,
        }


def _place(shown: Shown) -> dict[str, Any]:
    position = shown.position
    return {
        "line": position.line,
        "column": position.column,
        "length": position.length,
        "begin": shown.begin,
        "text": shown.text,
        "label": shown.label or None,
    }


_LONGEST_LINE = 160


def _shown_lines(shown: Shown, width: int) -> list[str]:
    """The line of the script, and below it marks under the meant part. A long line is shortened around the place."""
    before = shown.text[: shown.position.column - 1]
    text, cut = shown.text, 0
    if len(text) > _LONGEST_LINE:
        cut = max(0, len(before) - _LONGEST_LINE // 2)
        behind = "…" if len(text) > cut + _LONGEST_LINE else ""
        text = ("…" if cut else "") + text[cut : cut + _LONGEST_LINE] + behind
    # A tab stays a tab, so that the marks below are at the right column.
    indent = "".join("\t" if letter == "\t" else " " for letter in before)
    if shown.begin is not None:
        indent = indent[: shown.begin - 1] + "~" * (len(indent) - shown.begin + 1)
    indent = (" " if cut else "") + indent[cut:]
    left = min(len(shown.text) - shown.position.column + 1, _LONGEST_LINE // 2)
    marks = "^" * max(1, min(shown.position.length, left))
    label = f" {shown.label}" if shown.label else ""
    return [f"{shown.position.line:>{width}} | {text}".rstrip(), f"{'':<{width}} | {indent}{marks}{label}"]
