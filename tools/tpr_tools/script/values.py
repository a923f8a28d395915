"""Reads the messages, values and templates of a script (docs/PROFILE.md, "Grammar")."""
from __future__ import annotations

import re

from .cursor import A_TEMPLATE, A_TEXT, A_VALUE, Cursor
from .tokens import is_name, is_number, is_text
from .tree import Message, Value, ValueKind

_NO_PATTERN = re.compile(r'[\\\[\]{}()|#+]|""')


class ValueReader(Cursor):
    """Reads values and templates: `is_template` tells which."""

    def message(self, left: int, is_template: bool) -> Message:
        type_name = self.type_name()
        self.expect(":")
        return Message(type_name, self.value(left, is_template))

    def value(self, left: int, is_template: bool) -> Value:
        start = self.place
        token = self.tokens[start]
        first = token[:1]
        if first == "-" or first.isdecimal():
            return Value(self.integer(), ValueKind.INTEGER)
        if first == '"':
            self.place += 1
            return Value(start, ValueKind.TEXT)
        if token in ("true", "false"):
            self.place += 1
            return Value(start, ValueKind.BOOLEAN)
        if is_name(token):
            self.place += 1
            return Value(start, ValueKind.NAME)
        if token == "{":
            self.place += 1
            return self.braces(start, self.below(start, left), is_template)
        if is_template:
            return self.template(start, token, left)
        self.refuse(A_VALUE)

    def template(self, start: int, token: str, left: int) -> Value:
        """Reads what a template can be and a value can't."""
        if token not in ("?", "*", "(", "complement", "pattern"):
            self.refuse(A_TEMPLATE)
        self.place += 1
        if token == "?":
            return Value(start, ValueKind.ANY)
        if token == "*":
            return Value(start, ValueKind.ANY_OR_NONE)
        if token == "(":
            return self.parenthesis(start, self.below(start, left))
        if token == "pattern":
            return self.pattern(start)
        inner = self.open("(", left)
        members = self.members(inner, True)
        self.expect(")")
        return Value(start, ValueKind.COMPLEMENT, members)

    def pattern(self, start: int) -> Value:
        text = self.tokens[self.place]
        if not is_text(text):
            self.refuse(A_TEXT)
        if bad := _NO_PATTERN.search(text[1:-1]):
            signs = "`?` is any one character, `*` any number of them"
            self.refuse(sentence=f"a pattern can't hold `{bad[0][:1]}`: {signs}")
        self.place += 1
        return Value(start, ValueKind.PATTERN)

    def parenthesis(self, start: int, left: int) -> Value:
        if not self.is_range():
            members = self.members(left, True)
            self.expect(")")
            return Value(start, ValueKind.ONE_OF, members)
        lower = self.bound("-", "infinity")
        self.expect("..")
        upper = self.bound("infinity")
        self.expect(")")
        return Value(start, ValueKind.RANGE, bounds=(lower, upper))

    def is_range(self) -> bool:
        ahead = self.tokens[self.place : self.place + 3]
        if ahead[0] == "-":
            return ahead[1] == "infinity" or is_number(ahead[1]) and ahead[2] == ".."
        return is_number(ahead[0]) and ahead[1] == ".."

    def bound(self, *infinite: str) -> int | None:
        """The place of a bound, or None if it is infinite."""
        if tuple(self.tokens[self.place : self.place + len(infinite)]) == infinite:
            self.place += len(infinite)
            return None
        return self.integer()

    def braces(self, start: int, left: int, is_template: bool) -> Value:
        """Reads the rest after a `{`."""
        if self.has("}"):
            return Value(start, ValueKind.LIST)
        if is_name(self.tokens[self.place]) and self.tokens[self.place + 1] == ":=":
            return self.fields(start, left, is_template)
        members = self.members(left, is_template)
        self.expect("}")
        return Value(start, ValueKind.LIST, members)

    def members(self, left: int, is_template: bool) -> tuple[Value, ...]:
        members = [self.value(left, is_template)]
        while self.has(","):
            members.append(self.value(left, is_template))
        return tuple(members)

    def fields(self, start: int, left: int, is_template: bool) -> Value:
        names, members = [], []
        while True:
            names.append(self.name("the name of a field"))
            self.expect(":=")
            members.append(self.value(left, is_template))
            if not self.has(","):
                break
        self.expect("}")
        return Value(start, ValueKind.FIELDS, tuple(members), tuple(names))
