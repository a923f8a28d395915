"""Recognises texts of the grammar of docs/PROFILE.md token by token: Earley's algorithm, with that page's rules."""
from __future__ import annotations

import re
from collections.abc import Iterator
from dataclasses import dataclass, field
from typing import NamedTuple, Optional

from asking import ROOT

PROFILE = ROOT / "docs" / "PROFILE.md"
FIRST = "module"
PIECES = re.compile(r'"[^"]*"|[a-z]+|[][{}()|=]')
OF_A_PATTERN = re.compile(r'"[^][\\{}()|#+"]*"')
LOOP_NAME = 4  # the name of a loop's variable comes this many tokens after its `for`

# The parts of a rule: a quoted token, a kind of token (KINDS), or the name of a rule.
KINDS = ("name", "number", "text", "i")


class Rule(NamedTuple):
    """One alternative of the rule `of`."""

    of: str
    parts: tuple[str, ...]


class Item(NamedTuple):
    """An alternative of which this many parts are passed, from the place `begin` on."""

    rule: Rule
    passed: int
    begin: int

    def wanted(self) -> Optional[str]:
        return self.rule.parts[self.passed] if self.passed < len(self.rule.parts) else None

    def advanced(self) -> Item:
        return Item(self.rule, self.passed + 1, self.begin)


class GrammarReader:
    """Reads the lines `NAME = ..` into rules, in which `[x]`, `{x}` and `(x | y)` become rules of their own."""

    def __init__(self, text: str):
        self.pieces: list[str] = PIECES.findall(text)
        self.place = 0
        self.rules: dict[str, list[Rule]] = {}

    def at(self, behind: int = 0) -> str:
        return self.pieces[self.place + behind] if self.place + behind < len(self.pieces) else ""

    def read(self) -> dict[str, list[Rule]]:
        while self.at():
            name = self.at()
            self.place += 2
            self.rules[name] = [Rule(name, it) for it in self.ways()]
        return self.rules

    def ways(self) -> list[tuple[str, ...]]:
        found = [self.way()]
        while self.at() == "|":
            self.place += 1
            found.append(self.way())
        return found

    def way(self) -> tuple[str, ...]:
        parts: list[str] = []
        while self.at() and self.at() not in "|)]}" and self.at(1) != "=":
            parts.append(self.part())
        return tuple(parts)

    def part(self) -> str:
        piece = self.at()
        self.place += 1
        if piece not in "([{":
            return piece
        name = f"{piece}{self.place}"
        ways = self.ways()
        self.place += 1
        again = (name,) if piece == "{" else ()
        self.rules[name] = [Rule(name, it + again) for it in ways]
        if piece != "(":
            self.rules[name].append(Rule(name, ()))
        return name


def rules_of_the_profile() -> dict[str, list[Rule]]:
    """The lines of the section Grammar, and `end`: one `;`, which may be missing directly before a `}`."""
    section = PROFILE.read_text(encoding="utf-8").partition("\n### Grammar\n")[2]
    blocks = re.findall(r"```\n(.*?)```", section, re.DOTALL)
    rules = GrammarReader("".join(it for it in blocks if re.match(r"[a-z]+ += ", it))).read()
    return {**rules, "end": [Rule("end", ('";"',)), Rule("end", ())]}


@dataclass
class Place:
    """A place of a text: the items with which the token before it was passed, and all items that follow from these,
    grouped by the part that they expect next."""

    passed: list[Item]
    wanting: dict[str, list[Item]] = field(default_factory=dict)
    items: set[Item] = field(default_factory=set)
    empty: set[str] = field(default_factory=set)  # the rules that spell nothing here


class Recogniser:
    """Reads tokens one after the other, as long as some text of the grammar continues with them."""

    def __init__(self, rules: dict[str, list[Rule]]):
        self.rules = rules
        self.words = {it[1:-1] for it in self.quoted() if it[1:-1].isalpha()}
        self.tokens: list[str] = []
        self.places: list[Place] = []
        self.next = [Item(it, 0, 0) for it in rules[FIRST]]

    def quoted(self) -> set[str]:
        """The tokens that the grammar names, in their quotes."""
        return {it for ways in self.rules.values() for rule in ways for it in rule.parts if it.startswith('"')}

    def go_back(self, to: int) -> None:
        """Takes back all tokens after the first `to`."""
        if to < len(self.tokens):
            self.next = self.places[to].passed
            del self.places[to:], self.tokens[to:]

    def goes_on(self, token: Optional[str]) -> bool:
        """Whether a text of the grammar continues with the token, which is then passed, or, for None, may end."""
        place = self.closed(token)
        if token is None:
            return any(it.rule.of == FIRST and it.wanted() is None for it in place.items)
        found = [
            it.advanced() for wanted, items in place.wanting.items() for it in items if self.is_it(wanted, token, it)
        ]
        if found:
            self.places.append(place)
            self.tokens.append(token)
            self.next = found
        return bool(found)

    def is_it(self, wanted: str, token: str, item: Item) -> bool:
        """Whether the token is the part that the item expects."""
        if wanted.startswith('"'):
            return token == wanted[1:-1]
        if wanted == "number":
            return token.isdecimal()
        if wanted == "text":
            return token.startswith('"') and (self.tokens[-1] != "pattern" or bool(OF_A_PATTERN.fullmatch(token)))
        if not token[0].isalpha() or token in self.words or wanted not in KINDS:
            return False
        first = item.begin + LOOP_NAME
        return wanted == "name" or len(self.tokens) == first or token == self.tokens[first]

    def closed(self, token: Optional[str]) -> Place:
        """All items of the next place, before this token."""
        place, here, left = Place(self.next), len(self.places), list(self.next)
        while left:
            item = left.pop()
            if item in place.items:
                continue
            place.items.add(item)
            wanted = item.wanted()
            left += self.behind(item, place, here) if wanted is None else self.begun(item, wanted, place, here, token)
        return place

    def behind(self, item: Item, place: Place, here: int) -> Iterator[Item]:
        """The items that continue after a rule that is complete."""
        if item.begin == here:
            place.empty.add(item.rule.of)
        before = place if item.begin == here else self.places[item.begin]
        yield from [it.advanced() for it in before.wanting.get(item.rule.of, [])]

    def begun(self, item: Item, wanted: str, place: Place, here: int, token: Optional[str]) -> Iterator[Item]:
        """The items that begin here because the item expects this part."""
        place.wanting.setdefault(wanted, []).append(item)
        for rule in self.rules.get(wanted, []):
            if rule.parts or wanted != "end" or token == "}":
                yield Item(rule, 0, here)
        if wanted in place.empty:
            yield item.advanced()
