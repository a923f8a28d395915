"""The tokens of a script by docs/PROFILE.md ("Tokens"), and their places.

A token is its spelling, and its first character shows its kind. The tokens are numbered from 0, and the number after
the last one is the place of the text's end.
"""
from __future__ import annotations

import functools
import re
from dataclasses import dataclass
from itertools import accumulate
from typing import Optional

from ..words import RESERVED

MOST_BYTES = 1_048_576
LONGEST_NAME = 64
GREATEST_NUMBER = 9_223_372_036_854_775_807

_TOKEN = (r"[A-Za-z][A-Za-z0-9_]*|0|[1-9][0-9]*" r'|"[ !#-~]*(?:""[ !#-~]*)*"(?!")' r"|\.\.|:=|->|[{}()\[\],;:.?*<+-]")
_WHOLE_TOKEN = re.compile(_TOKEN)
# The gap between tokens, and a token; or the rest of the text if no token begins there.
_GAP = r"(?:[\t-\r ]+|//[^\n]*|/\*.*?\*/)*"
_PIECE = re.compile(f"{_GAP}({_TOKEN}|\\Z|.+)", re.S)
_PIECE_WITH_GAP = re.compile(f"{_GAP}(?:{_TOKEN}|\\Z|.+)", re.S)


@dataclass(frozen=True)
class TokenFault:
    """The first fault of the tokens: its number, its place, and a description."""

    number: int
    offset: int
    length: int
    sentence: str


@dataclass(frozen=True)
class Position:
    """A line and a column, both counted from 1, the length of the meant part in characters, and the column in bytes."""

    line: int
    column: int
    length: int
    byte: int


class Text:
    """The bytes of a script with their tokens, and the place of each."""

    def __init__(self, data: bytes):
        self.data = data
        # Each byte is one character here, so that places are byte offsets.
        self.letters = data.decode("latin-1")
        self.tokens: list[str] = _PIECE.findall(self.letters)
        while self.tokens and not self.tokens[-1]:
            self.tokens.pop()
        self.rest = ""
        if self.tokens and not _WHOLE_TOKEN.fullmatch(self.tokens[-1]):
            self.rest = self.tokens.pop()
        self.starts: Optional[list[int]] = None

    def fault(self) -> Optional[TokenFault]:
        """The first fault of the tokens in the text."""
        for place, token in enumerate(self.tokens):
            if len(token) > 18 and (fault := self._too_long(place, token)):
                return fault
        if not self.rest:
            return None
        return _fault_of_rest(self.rest, len(self.letters) - len(self.rest))

    def _too_long(self, place: int, token: str) -> Optional[TokenFault]:
        offset = self.offset(place)
        if token[0].isdecimal() and (len(token) > 19 or int(token) > GREATEST_NUMBER + 1):
            sentence = f"the number has more than 64 bits: {GREATEST_NUMBER} is the greatest"
            return TokenFault(15, offset, len(token), sentence)
        if token[0].isalpha() and len(token) > LONGEST_NAME:
            sentence = f"the name has {len(token)} characters, but at most {LONGEST_NAME} are allowed"
            return TokenFault(15, offset, len(token), sentence)
        return None

    def spelling(self, place: int) -> str:
        """The token; empty at the end of the text."""
        return self.tokens[place] if 0 <= place < len(self.tokens) else ""

    def offset(self, place: int) -> int:
        """The offset of the token, in bytes from 0."""
        if self.starts is None:
            ends = accumulate(map(len, _PIECE_WITH_GAP.findall(self.letters)))
            self.starts = [end - len(token) for end, token in zip(ends, self.tokens)]
        return self.starts[place] if place < len(self.starts) else len(self.letters)

    @functools.cached_property
    def lines(self) -> list[int]:
        """The line of each token, by the number of line ends before it."""
        offsets = [self.offset(place) for place in range(len(self.tokens))]
        between = [self.letters.count("\n", *cut) for cut in zip([0, *offsets], offsets)]
        return [count + 1 for count in accumulate(between)]

    def line(self, place: int) -> int:
        return self.letters.count("\n", 0, self.offset(place)) + 1

    def position(self, place: int) -> Position:
        return self.position_of(self.offset(place), len(self.spelling(place)) or 1)

    def position_of(self, offset: int, length: int) -> Position:
        """Columns count characters, like in an editor, even after a comment with non-ASCII text."""
        line = self.letters.count("\n", 0, offset) + 1
        begin = self.letters.rfind("\n", 0, offset) + 1
        return Position(line, len(_readable(self.data[begin:offset])) + 1, length, offset - begin + 1)

    def shown_line(self, number: int) -> str:
        """The line in a printable form: bytes that can't be decoded are replaced."""
        lines = self.data.split(b"\n", number)
        return _shown(lines[number - 1]) if 0 < number <= len(lines) else ""

    def shown_lines(self) -> list[str]:
        """All lines in a printable form."""
        return shown_lines(self.data)


def shown_lines(data: bytes) -> list[str]:
    """The lines of a text in a printable form."""
    lines = data.split(b"\n")
    return [_shown(line) for line in (lines if lines[-1] else lines[:-1])]


def _shown(line: bytes) -> str:
    return "".join(letter if letter == "\t" or letter.isprintable() else "\ufffd" for letter in _readable(line))


def _readable(data: bytes) -> str:
    return data.decode("utf-8", "replace").rstrip("\r")


def is_word(token: str) -> bool:
    """Whether it is a name or a reserved word."""
    return token[:1].isalpha()


def is_name(token: str) -> bool:
    return token[:1].isalpha() and token not in RESERVED


def is_number(token: str) -> bool:
    return token[:1].isdecimal()


def is_text(token: str) -> bool:
    return token[:1] == '"'


def _fault_of_rest(rest: str, offset: int) -> TokenFault:
    """Why no token begins there."""
    if rest[0] == '"':
        return TokenFault(10, offset, 1, _fault_of_text(rest))
    if rest.startswith("/*"):
        return TokenFault(10, offset, 2, "the comment isn't closed: no `*/` follows")
    if offset == 0 and rest.startswith("\xef\xbb\xbf"):
        return TokenFault(10, offset, 1, "the file begins with a byte order mark, which isn't a valid token")
    if rest[0].isprintable() and rest[0] < "\x7f":
        return TokenFault(10, offset, 1, f"`{rest[0]}` isn't a valid token")
    return TokenFault(10, offset, 1, f"the byte {ord(rest[0])} isn't a valid token")


def _fault_of_text(rest: str) -> str:
    good = re.match(r'"[ !#-~]*(?:""[ !#-~]*)*', rest)
    behind = rest[good.end() :] if good else ""
    if not behind:
        return "the text isn't closed: a `\"` is missing"
    if behind[0] in "\r\n":
        return "the text isn't closed on its line: a `\"` is missing"
    return f"a text can have only the characters 32 to 126, but here is the byte {ord(behind[0])}"
