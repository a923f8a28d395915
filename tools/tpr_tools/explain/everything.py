"""All faults of a script at once: those that explain finds, and each construct that isn't in the profile."""
from __future__ import annotations

from typing import Iterator, Optional

from ..rewrite.listing import constructs_of
from ..script.tokens import Position, shown_lines
from .explaining import explanations_of
from .explanation import Answer, Explanation, Shown

_MOST_UNREADABLE = 20  # lines of one script


def everything_of(file: str, data: Optional[bytes], said: str) -> list[Explanation]:
    """The explanation of the program's answer, and then the others in the order of the text, each of them once."""
    told = list(explanations_of(file, data, said))
    has_more = told[0].answer is Answer.REFUSED and data is not None and told[0].line != 0
    return with_further(told, list(further(file, data or b"")) if has_more else [])


def with_further(told: list[Explanation], listed: list[Explanation]) -> list[Explanation]:
    """Adds those of a list that aren't among the explanations yet."""
    others = told[1:] + [it for it in listed if not any(is_same(it, one) for one in told)]
    return [told[0], *sorted(others, key=lambda it: (it.line or 0, it.column or 0))]


def is_same(listed: Explanation, other: Explanation) -> bool:
    """Whether a listed one is already there: at the same place, or as the same construct in the same line. A line
    rarely has more than one place that can't be read."""
    if listed.line != other.line:
        return False
    return listed.column == other.column or listed.construct in ("", other.construct)


def further(file: str, data: bytes) -> Iterator[Explanation]:
    """The constructs that the profile lacks, then the lines that can't be read."""
    listed, faults = constructs_of(file, data)
    lines, shown = data.split(b"\n"), shown_lines(data)

    def made(line: int, column: int, length: int, sentence: str) -> Explanation:
        before = lines[line - 1].decode("utf-8", "surrogateescape")[: column - 1]
        byte = len(before.encode("utf-8", "surrogateescape")) + 1
        place = Shown(Position(line, column, max(1, length), byte), shown[line - 1] if line <= len(shown) else "")
        told = Explanation(file, Answer.REFUSED, "", line=line, column=column, sentence=sentence)
        told.places = [place]
        return told

    for one in listed:
        told = made(one.at.line, one.at.column, len(one.at.text), f"{one.title()} isn't supported")
        told.construct, told.clause, told.instead = one.title(), one.construct.clause, one.instead()
        yield told
    unread = {fault.line: fault for fault in reversed(faults)}
    for line in sorted(unread)[:_MOST_UNREADABLE]:
        yield made(line, unread[line].column, 1, unread[line].reason)
