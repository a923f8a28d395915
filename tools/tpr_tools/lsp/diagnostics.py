"""What is wrong in a text, as an editor shows it: `tpr check` decides, and explain finds the places and the words."""
from __future__ import annotations

from dataclasses import dataclass, field
from typing import Optional

from ..explain.explaining import explanations_of, reading_of
from ..explain.explanation import STANDARD, Answer, Explanation, Shown
from ..script.refusal_rules import clauses_of
from .frames import Json
from .positions import Lines

ERROR, WARNING = 1, 2


@dataclass
class Found:
    """A diagnostic: its range, what it says, and what only a hover says."""

    span: Json
    severity: int
    code: str
    message: str
    more: str = ""
    related: list[tuple[Json, str]] = field(default_factory=list)

    def as_json(self, uri: str) -> Json:
        related = [{"location": {"uri": uri, "range": span}, "message": text} for span, text in self.related]
        told = {"range": self.span, "severity": self.severity, "source": "tpr", "message": self.message}
        return {**told, **({"code": self.code} if self.code else {}), "relatedInformation": related}

    def hover(self) -> str:
        pieces = (f"**{self.code or 'warning'}** {self.message}", self.more)
        return "\n\n".join(it for it in pieces if it)


def explained(file: str, data: bytes, said: Optional[str]) -> list[Explanation]:
    """The explanation of the program's answer, or of explain's own reading if explain doesn't know the answer; and
    those of the other faults."""
    found = list(explanations_of(file, data, said)) if said is not None else []
    if found and found[0].answer in (Answer.ACCEPTED, Answer.REFUSED):
        return found
    return list(explanations_of(file, data, reading_of(data).answer))


def found_in(lines: Lines, explanations: list[Explanation]) -> list[Found]:
    """The faults, or the warnings of an accepted script."""
    found = [_refusal(lines, it) for it in explanations if it.answer is Answer.REFUSED]
    warned = [it for explanation in explanations for it in explanation.warnings]
    return found + [_of_places(lines, Found({}, WARNING, "", it.sentence), it.places) for it in warned]


def _refusal(lines: Lines, it: Explanation) -> Found:
    """A construct beyond those of the program's answer becomes a warning, with its clause as the code."""
    span = lines.whole_line(it.line or 1)
    if it.number is None:
        return _of_places(lines, Found(span, WARNING, it.code(), it.message()), it.places)
    more = [f"rule: {rule.value}{_standard(clauses_of(rule))}" for rule in it.rules]
    more += [_standard(it.clause), it.own_reading]
    found = Found(span, ERROR, it.code(), it.message(), "\n\n".join(text for text in more if text))
    return _of_places(lines, found, it.places)


def _standard(clauses: str) -> str:
    return f" ({STANDARD}, {clauses})" if clauses else ""


def _of_places(lines: Lines, found: Found, places: list[Shown]) -> Found:
    spans = [lines.told(it.position.line, it.position.column, it.position.length) for it in places]
    found.span = spans[0] if spans else found.span
    found.related = [(span, it.label or "here") for span, it in zip(spans[1:], places[1:])]
    return found
