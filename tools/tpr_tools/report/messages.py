"""The text of a message: the name of its type, `:` and its value."""
from __future__ import annotations

import functools
import re
from typing import Any, Optional, Union

from ..words import is_name

# A value. A record or a record of is a tuple of its members, in their order.
Plain = Union[int, bool, str, tuple[Any, ...]]

# A script may have this many brackets open at once.
MOST_BRACKETS = 32

_INTEGER = re.compile(r"0|-?[1-9][0-9]{0,18}")
_BOOLEAN = re.compile(r"true|false")
_CHARSTRING = re.compile(r'"((?:[ !#-~]|"")*)"')
_FIELD = re.compile(r"([A-Za-z][A-Za-z0-9_]*) := ")
_BASE_TYPES = {"integer": int, "boolean": bool, "charstring": str}
_LONGEST_KNOWN = 2_000


class _NoValue(Exception):
    """There is no value at this place."""


def is_message(text: str) -> bool:
    """Whether the text is a message. `-` stands for a value that doesn't fit its type."""
    return text == "-" or value_of(text) is not None


def value_of(text: str) -> Optional[Plain]:
    """The value of a message; None if the text isn't a message."""
    # A report has each message at least twice, and most of them often.
    return _known(text) if len(text) < _LONGEST_KNOWN else _value_of(text)


def _value_of(text: str) -> Optional[Plain]:
    name, colon, told = text.partition(":")
    try:
        value, end = _value(told, 0, 0)
    except _NoValue:
        return None
    has_type = type(value) is _BASE_TYPES[name] if name in _BASE_TYPES else is_name(name) and type(value) is tuple
    return value if colon and has_type and end == len(told) else None


_known = functools.lru_cache(maxsize=20_000)(_value_of)


def _value(text: str, place: int, depth: int) -> tuple[Plain, int]:
    """The value at the place, and the place after it."""
    if text.startswith("{", place):
        return _braces(text, place, depth + 1)
    if found := _CHARSTRING.match(text, place):
        return found[1].replace('""', '"'), found.end()
    if found := _BOOLEAN.match(text, place):
        return found[0] == "true", found.end()
    found = _INTEGER.match(text, place)
    if found is None or not -(2**63) <= int(found[0]) < 2**63:
        raise _NoValue
    return int(found[0]), found.end()


def _braces(text: str, place: int, depth: int) -> tuple[Plain, int]:
    """The record or the record of that begins at the place, and the place after it."""
    if depth > MOST_BRACKETS:
        raise _NoValue
    if text.startswith("{}", place):
        return (), place + 2
    has_fields = _FIELD.match(text, place + 1) is not None
    members: list[Plain] = []
    while not text.startswith("}", place):
        if not text.startswith(", " if members else "{", place):
            raise _NoValue
        place += 2 if members else 1
        member, place = _value(text, _behind_field(text, place) if has_fields else place, depth)
        members.append(member)
    return tuple(members), place + 1


def _behind_field(text: str, place: int) -> int:
    field = _FIELD.match(text, place)
    if field is None or not is_name(field[1]):
        raise _NoValue
    return field.end()
