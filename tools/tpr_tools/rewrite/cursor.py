"""A place in the tokens of a file, with the functions that all readers need there."""
from __future__ import annotations

from typing import Callable, NoReturn, TypeVar

from ..script.constructs import Construct

from .tokens import Kind, Refused, Source, Token, refused_at
from .tree import Expression

Read = TypeVar("Read")

MOST_NESTED = 80


class ReadFault(Exception):
    """The text doesn't follow the notation."""

    def __init__(self, token: Token, reason: str):
        super().__init__(reason)
        self.token = token
        self.reason = reason


class Cursor:
    def __init__(self, source: Source):
        self.tokens = source.tokens
        self.place = 0
        self.nested = 0
        self.faults: list[Refused] = list(source.faults)
        self.noted: list[tuple[Construct, Token]] = [(Construct.NAME_BEGIN, name) for name in source.begun]
        # The variables that hold components.
        self.created: set[str] = set()
        # The messages that are sent or received, and whether each is sent: the type may be missing before it.
        self.messages: list[tuple[Expression, bool]] = []
        # The names that are called within an expression: functions, or templates with parameters.
        self.called: list[Token] = []
        self.module_names: set[str] = set()

    @property
    def token(self) -> Token:
        return self.tokens[self.place]

    def ahead(self, count: int) -> Token:
        return self.tokens[min(self.place + count, len(self.tokens) - 1)]

    def is_at_end(self) -> bool:
        return self.tokens[self.place].kind is Kind.END

    def note(self, construct: Construct, token: Token) -> None:
        """Notes a construct that isn't in the profile."""
        self.noted.append((construct, token))

    def is_at(self, *words: str) -> bool:
        token = self.tokens[self.place]
        return token.text in words and token.kind is not Kind.TEXT

    def take(self) -> Token:
        token = self.tokens[self.place]
        if token.kind is not Kind.END:
            self.place += 1
        return token

    def accept(self, *words: str) -> bool:
        if self.is_at(*words):
            self.place += 1
            return True
        return False

    def expect(self, word: str) -> Token:
        if not self.is_at(word):
            self.fail(f"`{word}` is expected here")
        return self.take()

    def listed(self, read: Callable[[], Read], end: str) -> list[Read]:
        """Reads items separated by commas, and the `end` after them."""
        found: list[Read] = []
        while not self.is_at(end):
            found.append(read())
            if not self.accept(","):
                break
        self.expect(end)
        return found

    def up_to_brace(self, read: Callable[[], Read]) -> list[Read]:
        """Reads items up to a `}`, with or without `;` between them, and the `}`."""
        found: list[Read] = []
        while not self.is_at("}"):
            if self.token.kind is Kind.END:
                self.fail("`}` is expected here")
            if not self.accept(";"):
                found.append(read())
        self.expect("}")
        return found

    def name(self, what: str = "a name") -> Token:
        if self.token.kind is not Kind.NAME:
            self.fail(f"{what} is expected here")
        return self.take()

    def fail(self, reason: str) -> NoReturn:
        token = self.token
        found = f"`{token.text}`" if token.text else "the text ends"
        raise ReadFault(token, f"{reason}; {found}" if token.text else f"{found}, and {reason}")

    def modifiers(self) -> None:
        """Reads the modifiers of a variable or a parameter. A value that is evaluated later, or again at each use, has
        another meaning."""
        while self.token.kind is Kind.MODIFIER:
            if self.is_at("@lazy", "@fuzzy"):
                self.fail(f"`{self.token.text}` isn't carried over: a value is evaluated where it is given")
            self.known_modifier(())

    def known_modifier(self, words: tuple[str, ...]) -> None:
        """Skips a modifier that changes nothing here; refuses any other."""
        if self.token.text not in words:
            self.fail(f"the modifier `{self.token.text}` isn't carried over here")
        self.note(Construct.MODIFIER, self.take())

    def template_restriction(self) -> str:
        """Reads `value`, `omit` or `present` in brackets after `template`, or nothing (15.8)."""
        if not self.accept("("):
            return ""
        if self.token.text not in ("value", "omit", "present"):
            self.fail("`value`, `omit` or `present` is expected here")
        word = self.take().text
        self.expect(")")
        return word

    def deeper(self) -> None:
        self.nested += 1
        if self.nested > MOST_NESTED:
            raise ReadFault(self.token, f"more than {MOST_NESTED} brackets are open here")

    def shallower(self) -> None:
        self.nested -= 1

    def tell(self, fault: ReadFault) -> None:
        self.faults.append(refused_at(fault.token, fault.reason))

    def end(self) -> None:
        """Reads a `;`, which is optional before and after a `}`."""
        if self.accept(";"):
            return
        before = self.tokens[self.place - 1].text if self.place else ""
        if not self.is_at("}", ",") and before != "}" and self.token.kind is not Kind.END:
            self.fail("`;` is expected here")

    def skip_brackets(self) -> None:
        """Skips these brackets with all their contents."""
        depth = 0
        while self.token.kind is not Kind.END:
            text, kind = self.token.text, self.token.kind
            self.take()
            if kind is Kind.SIGN and text in "({[":
                depth += 1
            elif kind is Kind.SIGN and text in ")}]":
                depth -= 1
                if depth <= 0:
                    return
