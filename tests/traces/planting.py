"""Plants a fault in a trace: a line is left out, doubled, exchanged with the next, or its number or message changed."""
import re
from collections.abc import Iterator
from typing import NamedTuple

_NUMBER = re.compile(rb"((?:sent|came|took|found|dropped|left)(?: [^ ]+){1,2} )(0|[1-9][0-9]*)( .*)", re.DOTALL)


class Planted(NamedTuple):
    """The edit, the number of the line, from 1, and the new text."""

    edit: str
    line: int
    text: bytes


def planted_in(text: bytes) -> Iterator[Planted]:
    """All faults, line by line, without those that change nothing."""
    lines = text.splitlines(True)
    for place in range(len(lines)):
        for edit in EDITS:
            changed = EDITS[edit](lines, place)
            if changed is not None and changed != lines:
                yield Planted(edit, place + 1, b"".join(changed))


def plant(text: bytes, edit: str, line: str) -> bytes:
    """The text with this fault."""
    changed = EDITS[edit](text.splitlines(True), int(line) - 1)
    if changed is None:
        raise ValueError(f"{edit} can't be done to line {line}")
    return b"".join(changed)


def _without(lines: list[bytes], place: int) -> list[bytes]:
    return [*lines[:place], *lines[place + 1 :]]


def _twice(lines: list[bytes], place: int) -> list[bytes]:
    return [*lines[: place + 1], *lines[place:]]


def _exchanged(lines: list[bytes], place: int) -> list[bytes] | None:
    if place + 1 >= len(lines):
        return None
    return [*lines[:place], lines[place + 1], lines[place], *lines[place + 2 :]]


def _numbered(lines: list[bytes], place: int, by: int) -> list[bytes] | None:
    """The text with a line whose number is changed by this much."""
    found = _NUMBER.fullmatch(lines[place])
    if found is None or int(found[2]) + by < 0:
        return None
    return [*lines[:place], b"%s%d%s" % (found[1], int(found[2]) + by, found[3]), *lines[place + 1 :]]


def _message(lines: list[bytes], place: int) -> list[bytes] | None:
    """The text with a line whose message has one more byte."""
    if _NUMBER.fullmatch(lines[place]) is None:
        return None
    return [*lines[:place], lines[place].removesuffix(b"\n") + b"x\n", *lines[place + 1 :]]


# The edits, by their words in the table.
EDITS = {
    "without": _without,
    "twice": _twice,
    "exchanged": _exchanged,
    "next number": lambda lines, place: _numbered(lines, place, 1),
    "number before": lambda lines, place: _numbered(lines, place, -1),
    "far number": lambda lines, place: _numbered(lines, place, 1_000_000),
    "message": _message,
}
