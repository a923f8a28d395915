"""The position in a script, and what could be at a place.

If the grammar has a fault, the script is read twice: the second time the place of the fault is known, and all tokens
that would fit there are noted.
"""
from __future__ import annotations

from typing import NoReturn, Optional

from ..words import RESERVED
from .tokens import GREATEST_NUMBER, Text, is_name, is_number

MOST_BRACKETS = 32

A_NAME, A_NUMBER, A_TEXT, A_TYPE = "a name", "a number", "a text", "a type"
A_VALUE, A_TEMPLATE, A_STATEMENT, A_DEFINITION = "a value", "a template", "a statement", "a definition"
A_COMPONENT, THE_END = "the name of a component", "the end of the text"
PORT_CONTROL = "`start`, `stop`, `halt` or `clear`"


class GrammarFault(Exception):
    """The first fault of the grammar: at which token, and what was being read.

    `begin` is the first token of the statement, branch or definition, `part` what was being read there. `sentence` says
    more than that the token is unexpected, if there is more to say.
    """

    def __init__(self, number: int, place: int, begin: int, part: str, sentence: str):
        super().__init__(sentence)
        self.number = number
        self.place = place
        self.begin = begin
        self.part = part
        self.sentence = sentence
        self.wanted: list[str] = []


class Cursor:
    """The tokens, the place of the next one, and what is being read."""

    def __init__(self, text: Text, watched: int = -1):
        # Empty tokens after the last one, so that looking ahead needs no bound.
        self.tokens = text.tokens + [""] * 4
        self.place = 0
        self.begin = 0
        self.part = "the module"
        self.watched = watched
        self.wanted: list[str] = []

    def refuse(self, *wanted: str, sentence: str = "", place: Optional[int] = None) -> NoReturn:
        """Refuses the next token, or the one at the place."""
        if self.place == self.watched:
            self.wanted += wanted
        raise GrammarFault(10, self.place if place is None else place, self.begin, self.part, sentence)

    def limit(self, place: int, sentence: str) -> NoReturn:
        raise GrammarFault(15, place, self.begin, self.part, sentence)

    def is_at(self, token: str) -> bool:
        if self.place == self.watched:
            self.wanted.append(quoted(token))
        return self.tokens[self.place] == token

    def has(self, token: str) -> bool:
        """Reads the token, if it is the next."""
        if self.place == self.watched:
            self.wanted.append(quoted(token))
        if self.tokens[self.place] == token:
            self.place += 1
            return True
        return False

    def expect(self, token: str) -> int:
        if self.tokens[self.place] != token:
            self.refuse(quoted(token))
        self.place += 1
        return self.place - 1

    def name(self, wanted: str = A_NAME) -> int:
        token = self.tokens[self.place]
        if not token[:1].isalpha() or token in RESERVED:
            self.refuse(wanted)
        self.place += 1
        return self.place - 1

    def one_of(self, words: tuple[str, ...], *wanted: str) -> int:
        """Reads one of the words. The message may name a kind of words instead of the words."""
        if self.tokens[self.place] not in words:
            self.refuse(*(wanted or [quoted(word) for word in words]))
        self.place += 1
        return self.place - 1

    def open(self, bracket: str, left: int) -> int:
        """Reads an opening bracket, and returns how many may be open inside it."""
        place = self.expect(bracket)
        return self.below(place, left)

    def below(self, place: int, left: int) -> int:
        if left == 0:
            self.limit(place, f"{MOST_BRACKETS} brackets are open here already, but no more are allowed")
        return left - 1

    def end(self, is_closed: bool) -> None:
        """Reads `;`, which is optional before a `}`, and after anything that ends with a `}`."""
        if self.has(";") or is_closed or self.tokens[self.place] == "}":
            return
        self.refuse("`}`")

    def type_name(self) -> int:
        token = self.tokens[self.place]
        if token not in ("integer", "boolean", "charstring") and not is_name(token):
            self.refuse(A_TYPE)
        self.place += 1
        return self.place - 1

    def component(self, *more: str) -> int:
        """Reads a component: its name, `mtc` or `self`, or one of the additional words."""
        token = self.tokens[self.place]
        if token not in ("mtc", "self") and token not in more and not is_name(token):
            self.refuse(A_COMPONENT, "`mtc`", "`self`", *[quoted(word) for word in more])
        self.place += 1
        return self.place - 1

    def integer(self) -> int:
        """Reads an integer, and returns the place of its sign or number."""
        start = self.place
        if self.has("-"):
            if not is_number(self.tokens[self.place]):
                self.refuse(A_NUMBER)
            self.place += 1
            return start
        self.positive()
        return start

    def positive(self) -> None:
        token = self.tokens[self.place]
        if not is_number(token):
            self.refuse(A_NUMBER)
        if len(token) > 18 and int(token) > GREATEST_NUMBER:
            self.limit(self.place, f"{token} needs a `-` before it: {GREATEST_NUMBER} is the greatest number")
        self.place += 1


def quoted(token: str) -> str:
    return f"`{token}`"
