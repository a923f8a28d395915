"""The definitions of a text, found by its words alone, so that the text need not follow the grammar.

Names are found while the user types, and in a script of the full language.
"""
from __future__ import annotations

import re
from bisect import bisect_right
from dataclasses import dataclass, field
from typing import Iterator, NamedTuple, Optional

_PIECE = re.compile(r'//[^\n]*|/\*.*?(?:\*/|\Z)|"(?:[^"\n]|"")*"?|[A-Za-z]\w*|[0-9]+|:=|->|\.\.|[^\s]', re.S)
_COMPONENTS = ("self", "mtc")
_TYPES = ("record", "set", "union", "enumerated", "port", "component")
_BODIES = ("function", "altstep", "testcase")
_NAMED = ("template", "const", "modulepar")


class Declared(NamedTuple):
    """A port, a variable, a parameter or a field: the positions of the words of its type and of its name."""

    kind: str
    type: int
    name: int


@dataclass
class Definition:
    """A definition of a module: its kind, and the positions of its first word, its name and its last word."""

    kind: str
    first: int
    name: int
    last: int
    head: int  # the last word before the body
    runs_on: str = ""
    system: str = ""
    declared: list[Declared] = field(default_factory=list)


class Outline:
    """The words of a text, its definitions, and the connections of its test case."""

    def __init__(self, text: str):
        self.words: list[str] = []
        self.offsets: list[int] = []
        for found in _PIECE.finditer(text):
            word = found[0]
            if word[:2] not in ("//", "/*"):
                self.words.append(word)
                self.offsets.append(found.start())
        self.definitions = list(self._definitions())
        self.named: dict[str, Definition] = {}
        for it in self.definitions:
            self.named.setdefault(self.words[it.name], it)
        self.case = next((it for it in self.definitions if it.kind == "testcase"), None)
        self.joined = list(self._joined())  # `connect` or `map`, and two ports such as `mtc.bell`
        self.components = self._components()

    def word(self, number: int) -> str:
        return self.words[number] if 0 <= number < len(self.words) else ""

    def word_at(self, offset: int) -> Optional[int]:
        """The name or the keyword at the offset, or directly before it."""
        number = bisect_right(self.offsets, offset) - 1
        for it in (number, number - 1):
            if it >= 0 and self.words[it][0].isalpha() and offset <= self.offsets[it] + len(self.words[it]):
                return it
        return None

    def end(self, number: int) -> int:
        """The offset after a word."""
        return self.offsets[number] + len(self.words[number])

    def around(self, number: int) -> Optional[Definition]:
        """The definition that the word is in."""
        place = bisect_right([it.first for it in self.definitions], number) - 1
        return self.definitions[place] if place >= 0 and number <= self.definitions[place].last else None

    # Definitions

    def _definitions(self) -> Iterator[Definition]:
        number = 0
        while number < len(self.words):
            made = self._definition(number)
            if made is not None:
                yield made
            number = number + 1 if made is None else made.last + 1

    def _definition(self, first: int) -> Optional[Definition]:
        """The definition that begins with the word."""
        word, kind = self.words[first], self.word(first + 1)
        name, has_body = first + 2, True
        if word == "type" and kind in _TYPES:
            has_body = self.word(first + 2) != "of"
            name = first + 2 if has_body else first + 4
            word = kind if has_body and kind in _TYPES[:4] else f"{kind} {'type' if has_body else 'of'}"
        elif word in _BODIES:
            name = first + 1
        elif word in _NAMED and self.word(first - 1) != "var":
            has_body = False
        else:
            return None
        if not self.word(name)[:1].isalpha():
            return None
        made = Definition(word, first, name, name, name)
        return self._with_body(made) if has_body else made

    def _with_body(self, made: Definition) -> Definition:
        """Finds the braces of its body. An unclosed body ends with the text, or before the next definition."""
        depth = 0
        for number in range(made.name + 1, len(self.words)):
            word = self.words[number]
            if depth == 0 and word in (";", "}") or word in (*_BODIES, "type"):
                break
            made.last = number
            if word == "{":
                made.head = made.head if depth else number - 1
                depth += 1
            elif word == "}":
                depth -= 1
                if depth == 0:
                    break
            elif depth == 0 and self.words[number - 1] == "on":
                made.runs_on = word
            elif depth == 0 and self.words[number - 1] == "system":
                made.system = word
        made.declared = list(self._declared(made))
        return made

    def _declared(self, made: Definition) -> Iterator[Declared]:
        is_record = made.kind in _TYPES[:2]
        inner = range(made.name + 1, made.last + 1)
        for number in inner:
            before, word = self.words[number - 1], self.words[number]
            if before in ("port", "var") and made.kind != "port type":
                yield from self._list_of("port" if before == "port" else "variable", number, made.last)
            elif is_record or made.kind in _BODIES and number <= made.head:
                is_last = self.word(number + 1) in (",", ")", "}") and word[:1].isalpha() and before[:1].isalpha()
                if is_last:
                    yield Declared("field" if is_record else "parameter", number - 1, number)

    def _list_of(self, kind: str, number: int, last: int) -> Iterator[Declared]:
        """`TYPE NAME, NAME`, with a value for each of them or none."""
        type_of = number + 1 if self.words[number] == "template" else number
        name = type_of + 1
        while name <= last and self.words[name][:1].isalpha():
            yield Declared(kind, type_of, name)
            name += 1
            if self.word(name) != ",":
                return
            name += 1

    # The test case

    def _joined(self) -> Iterator[tuple[str, str, str]]:
        inside = range(self.case.head, self.case.last) if self.case is not None else ()
        for number in (it for it in inside if self.words[it] in ("connect", "map")):
            if "".join(self.word(number + it) for it in (1, 3, 5, 7, 9)) == "(:,:)":
                one, port, other, partner = (self.words[number + it] for it in (2, 4, 6, 8))
                yield self.words[number], f"{named(one)}.{port}", f"{named(other)}.{partner}"

    def _components(self) -> dict[str, str]:
        """The component types, by the names of the components."""
        if self.case is None:
            return {}
        types = {"mtc": self.case.runs_on, "system": self.case.system}
        types.update({self.words[it.name]: self.words[it.type] for it in self.case.declared if it.kind == "variable"})
        return types

    # Names

    def target_of(self, number: int) -> Optional[int]:
        """The word that declares or defines the name."""
        word, around = self.words[number], self.around(number)
        if port := self.port_of(number):
            return port.name
        if around is not None:
            own = [it.name for it in around.declared if self.words[it.name] == word]
            if own:
                return max((it for it in own if it <= number), default=own[0])
        return self.named[word].name if word in self.named else None

    def port_of(self, number: int) -> Optional[Declared]:
        """The declaration of the port that a word names."""
        word, around = self.words[number], self.around(number)
        if around is None:
            return None
        if around.kind == "component type":
            return next((it for it in around.declared if self.words[it.name] == word and it.name == number), None)
        component = self.owner_of(number)
        owner = self.components.get(component, "") if component else around.runs_on
        return self.port_in(owner, word)

    def owner_of(self, number: int) -> str:
        """The component before a port, as in `connect(self:p, ..)`; nothing if there is none."""
        is_end = self.word(number - 1) == ":" and self.word(number - 3) in ("(", ",")
        component = named(self.word(number - 2)) if is_end else ""
        return component if component in self.components else ""

    def port_in(self, component_type: str, word: str) -> Optional[Declared]:
        owner = self.named.get(component_type)
        ports = owner.declared if owner is not None and owner.kind == "component type" else []
        return next((it for it in ports if it.kind == "port" and self.words[it.name] == word), None)

    def directions(self, port_type: str) -> list[str]:
        """For example, `inout Order, integer`."""
        owner = self.named.get(port_type)
        if owner is None or owner.kind != "port type":
            return []
        told: list[str] = []
        for word in self.words[owner.head + 1 : owner.last + 1]:
            if word in ("in", "out", "inout"):
                told.append(word)
            elif told and word[:1].isalpha():
                told[-1] += (", " if " " in told[-1] else " ") + word
        return told


def named(component: str) -> str:
    """The name of a component in a report."""
    return "mtc" if component in _COMPONENTS else component
