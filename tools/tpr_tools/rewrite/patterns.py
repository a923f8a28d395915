"""Patterns for texts (ES 201 873-1, B.1.5): reading them, and the texts that match."""
from __future__ import annotations

import string
from dataclasses import dataclass
from typing import Optional, Union

_DIGITS = frozenset(string.digits)
_SPACE = frozenset("\t\n\v\f\r ")
_SETS = {
    "d": _DIGITS, "w": _DIGITS | frozenset(string.ascii_letters), "t": frozenset("\t"), "n": frozenset("\n\v\f\r"),
    "r": frozenset("\r"), "s": _SPACE,
}
_ALL = frozenset(map(chr, range(128)))
# Signs that no other sign can replace: a reference, a character by its place, the border of a word.
_NOT_READ = frozenset("qNb")


@dataclass(frozen=True)
class Sign:
    """One of these characters; without any characters, any character."""

    letters: Optional[frozenset[str]]


@dataclass(frozen=True)
class Row:
    """Parts one after the other; a group has its number."""

    parts: tuple[Pattern, ...]
    group: Optional[int] = None


@dataclass(frozen=True)
class Either:
    parts: tuple[Pattern, ...]


@dataclass(frozen=True)
class Times:
    part: Pattern
    low: int
    high: Optional[int]


Pattern = Union[Sign, Row, Either, Times]


class NotRead(Exception):
    """A pattern with a sign that isn't read here, or with a fault."""


def letters_between(low: str, high: str) -> Pattern:
    """Texts of any length that contain only these characters (B.1.2.5)."""
    return Times(Sign(frozenset(map(chr, range(ord(low), ord(high) + 1)))), 0, None)


def read_pattern(text: str) -> Pattern:
    reader = _Reader(text)
    found = reader.either()
    if reader.place < len(text):
        raise NotRead(text)
    return found


class _Reader:
    def __init__(self, text: str):
        self.text = text
        self.place = 0
        self.groups = 0

    def _next(self) -> str:
        return self.text[self.place : self.place + 1]

    def _take(self) -> str:
        found = self._next()
        if not found:
            raise NotRead(self.text)
        self.place += 1
        return found

    def either(self) -> Pattern:
        parts = [self._row()]
        while self._next() == "|":
            self.place += 1
            parts.append(self._row())
        return parts[0] if len(parts) == 1 else Either(tuple(parts))

    def _row(self) -> Pattern:
        parts: list[Pattern] = []
        while self._next() not in ("", "|", ")"):
            letter = self._take()
            if letter in "+#":
                if not parts:
                    raise NotRead(self.text)
                parts.append(Times(parts.pop(), *((1, None) if letter == "+" else self._bounds())))
            else:
                parts.append(self._one(letter))
        return Row(tuple(parts))

    def _one(self, letter: str) -> Pattern:
        if letter in "?*":
            return Sign(None) if letter == "?" else Times(Sign(None), 0, None)
        if letter == "(":
            number = self.groups
            self.groups += 1
            inner = self.either()
            if self._take() != ")":
                raise NotRead(self.text)
            return Row((inner,), number)
        if letter == "[":
            return Sign(self._set())
        if letter in "]{}":
            raise NotRead(self.text)
        return Sign(self._escaped() if letter == "\\" else frozenset(letter))

    def _escaped(self) -> frozenset[str]:
        letter = self._take()
        if letter in _NOT_READ:
            raise NotRead(self.text)
        return _SETS.get(letter, frozenset(letter))

    def _set(self) -> frozenset[str]:
        is_other = self._next() == "^"
        self.place += is_other
        found: set[str] = set()
        while (letter := self._take()) != "]":
            low = self._escaped() if letter == "\\" else frozenset(letter)
            if self._next() == "-" and self.text[self.place + 1 : self.place + 2] != "]":
                self.place += 1
                high = self._take()
                ends = low | (self._escaped() if high == "\\" else frozenset(high))
                if not (len(low) == 1 and 1 <= len(ends) <= 2) or max(ends) in low and len(ends) == 2:
                    raise NotRead(self.text)
                low = frozenset(map(chr, range(ord(min(ends)), ord(max(ends)) + 1)))
            found |= low
        if not found:
            raise NotRead(self.text)
        return frozenset(_ALL - found if is_other else found)

    def _bounds(self) -> tuple[int, Optional[int]]:
        """Reads a number of repetitions: `#4`, `#(2,3)`, `#(,3)` or `#(2,)`."""
        if self._next() != "(":
            digit = self._take()
            if digit not in _DIGITS:
                raise NotRead(self.text)
            return int(digit), int(digit)
        end = self.text.find(")", self.place)
        low, comma, high = (part.strip() for part in self.text[self.place + 1 : end].partition(","))
        if end < 0 or not all(not part or part.isdecimal() and len(part) < 4 for part in (low, high)) or not comma and not low:
            raise NotRead(self.text)
        self.place = end + 1
        least = int(low or 0)
        most = int(high) if high else None if comma else least
        if most is not None and most < least:
            raise NotRead(self.text)
        return least, most


# Which texts match

_SEVERAL = "\0several"
_Ends = frozenset[tuple[int, Optional[str]]]


def fits_pattern(text: str, pattern: Pattern) -> bool:
    return any(end == len(text) for end, _ in _Matching(text, -1).ends(pattern, 0))


def group_of(text: str, pattern: Pattern, number: int) -> Optional[str]:
    """The part of the text that matches this group: empty if the pattern doesn't match (C.4.1). None if the group can
    match in several ways, or if there is no such group."""
    if not 0 <= number < count_of_groups(pattern):
        return None
    found = {group or "" for end, group in _Matching(text, number).ends(pattern, 0) if end == len(text)}
    return None if len(found) > 1 or _SEVERAL in found else found.pop() if found else ""


def count_of_groups(pattern: Pattern) -> int:
    parts = pattern.parts if isinstance(pattern, (Row, Either)) else (pattern.part,) if isinstance(pattern, Times) else ()
    return sum(map(count_of_groups, parts)) + (isinstance(pattern, Row) and pattern.group is not None)


class _Matching:
    """Where a match of a part can end that begins at a given place, and what its group can have matched by then."""

    def __init__(self, text: str, group: int):
        self.text = text
        self.group = group
        self.known: dict[tuple[Pattern, int], _Ends] = {}

    def ends(self, pattern: Pattern, at: int) -> _Ends:
        known = self.known.get((pattern, at))
        if known is None:
            known = self.known[pattern, at] = self._ends(pattern, at)
        return known

    def _ends(self, pattern: Pattern, at: int) -> _Ends:
        if isinstance(pattern, Sign):
            is_one = at < len(self.text) and (pattern.letters is None or self.text[at] in pattern.letters)
            return frozenset([(at + 1, None)] if is_one else [])
        if isinstance(pattern, Either):
            return frozenset().union(*(self.ends(part, at) for part in pattern.parts))
        if isinstance(pattern, Times):
            return self._times(pattern, at)
        found: _Ends = frozenset([(at, None)])
        for part in pattern.parts:
            found = self._behind(found, part)
        return frozenset((end, self.text[at:end]) for end, _ in found) if pattern.group == self.group else found

    def _behind(self, before: _Ends, part: Pattern) -> _Ends:
        return frozenset((end, _both(one, other)) for place, one in before for end, other in self.ends(part, place))

    def _times(self, pattern: Times, at: int) -> _Ends:
        found: set[tuple[int, Optional[str]]] = set()
        now: _Ends = frozenset([(at, None)])
        count = 0
        while now:
            if count >= pattern.low:
                now -= found
                found |= now
            if count == pattern.high:
                break
            now = self._behind(now, pattern.part)
            count += 1
        return frozenset(found)


def _both(one: Optional[str], other: Optional[str]) -> Optional[str]:
    return other if one is None else one if other in (None, one) else _SEVERAL
