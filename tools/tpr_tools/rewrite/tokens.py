"""The tokens of the full language (ES 201 873-1, 5 and Annex A), each with its file, line and column."""
from __future__ import annotations

import re
from bisect import bisect_right
from dataclasses import dataclass
from enum import Enum
from typing import Optional

from ..words import RESERVED, RESERVED_ELSEWHERE

KEYWORDS = RESERVED | RESERVED_ELSEWHERE | {"realtime", "timestamp", "now", "setencode", "unicast"}


class Kind(Enum):
    NAME = "name"
    KEYWORD = "keyword"
    NUMBER = "number"
    FLOAT = "float"
    TEXT = "text"
    BITS = "bits"
    MODIFIER = "modifier"
    MACRO = "macro"
    SIGN = "sign"
    END = "end"


@dataclass(frozen=True)
class Token:
    kind: Kind
    text: str
    line: int
    column: int
    file: str

    def place(self) -> str:
        return f"{self.file}:{self.line}:{self.column}"


@dataclass(frozen=True)
class Refused:
    """A construct that can't be carried over, with the reason."""

    file: str
    line: int
    column: int
    reason: str

    def text(self) -> str:
        return f"{self.file}:{self.line}:{self.column}: {self.reason}"


def refused_at(token: Token, reason: str) -> Refused:
    return Refused(token.file, token.line, token.column, reason)


_TOKEN = re.compile(
    r"""(?P<space>[\t-\r ]+|//[^\n]*|/\*.*?\*/)
      | (?P<FLOAT>[0-9]+\.[0-9]+(?:[eE][-+]?[0-9]+)?|[0-9]+[eE][-+]?[0-9]+)
      | (?P<NUMBER>0|[1-9][0-9]*)
      | (?P<NAME>[A-Za-z][A-Za-z0-9_]*)
      | (?P<MACRO>__[A-Z]+__)
      | (?P<BEGUN>_[A-Za-z0-9_]*)
      | (?P<TEXT>"(?:[^"]|"")*")
      | (?P<BITS>'[0-9A-Fa-f?*\t-\r ]*'[BHO])
      | (?P<MODIFIER>@[a-z]+)
      | (?P<SIGN>:=|->|=>|==|!=|>=|<=|<<|>>|<@|@>|\.\.|[-{}()\[\],;:.?*<>+/&!|@])""",
    re.VERBOSE | re.DOTALL,
)

_UNREADABLE = {
    '"': "this text isn't closed",
    "/": "this comment isn't closed",
    "'": "this string of bits, hex digits or octets isn't closed",
}


class Source:
    """A file, with its tokens and the places where no token begins."""

    def __init__(self, file: str, data: bytes):
        self.file = file
        self.text = data.decode("utf-8", "replace").removeprefix("\ufeff")
        self.faults: list[Refused] = []
        # Names that begin with `_`: they are read as names, and refused.
        self.begun: list[Token] = []
        self.tokens: list[Token] = []
        # The first text that has a backslash.
        self.escaped: Optional[Token] = None
        self._starts = [0] + [found.end() for found in re.finditer("\n", self.text)]
        self._read()

    def _read(self) -> None:
        place, text = 0, self.text
        match = _TOKEN.match
        while place < len(text):
            found = match(text, place)
            if found is None or (found[0] == "/" and text.startswith("/*", place)):
                place = self._skip(place)
                continue
            place = found.end()
            if found.lastgroup != "space":
                self._add(found.lastgroup or "", found[0], found.start())
        self._add("END", "", len(text))

    def _add(self, group: str, text: str, place: int) -> None:
        line, column = self.position(place)
        kind = Kind.NAME if group == "BEGUN" else Kind[group]
        if kind is Kind.NAME and text in KEYWORDS:
            kind = Kind.KEYWORD
        self.tokens.append(Token(kind, text, line, column, self.file))
        is_of_pattern = len(self.tokens) > 1 and self.tokens[-2].text == "pattern"
        if kind is Kind.TEXT and "\\" in text and self.escaped is None and not is_of_pattern:
            self.escaped = self.tokens[-1]
        if group == "BEGUN":
            self.begun.append(self.tokens[-1])

    def _skip(self, place: int) -> int:
        """Reports a place where no token begins. An unclosed text or comment ends with its line."""
        line, column = self.position(place)
        letter = self.text[place]
        reason = _UNREADABLE.get(letter, f"{letter!r} begins no token")
        self.faults.append(Refused(self.file, line, column, reason))
        if letter not in _UNREADABLE:
            return place + 1
        end = self.text.find("\n", place)
        return len(self.text) if end < 0 else end

    def position(self, place: int) -> tuple[int, int]:
        line = bisect_right(self._starts, place)
        return line, place - self._starts[line - 1] + 1
