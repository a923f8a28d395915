"""Reads the rules of the table in crates/tp_syntax/specs/Grammar.antt, with the comment above each."""
from __future__ import annotations

import re
from typing import NamedTuple

from asking import ROOT

SPECS = ROOT / "crates" / "tp_syntax" / "specs"
COMMENTED = re.compile(r"((?:--[^\n]*\n)*)production (\w+) =(.*?)(?=\n\n|\n--|\nproduction|\Z)", re.DOTALL)
PIECES = re.compile(r"[\w.]+|[()∷]|\[\]")
KINDS = {"a_name": "name", "a_number": "number", "a_text": "text", "positive": "number", "negated": "number"}

# A token as a quoted spelling, the name of a kind of token, or the name of a rule.
Way = tuple[str, ...]


class Alternative(NamedTuple):
    """One alternative of a rule. It is taken before one of the guards; the last alternative of a rule has no guards."""

    guards: Way
    items: Way


class TableRule(NamedTuple):
    """A rule of the table."""

    spells: str
    alternatives: tuple[Alternative, ...]


def spellings() -> dict[str, str]:
    """The spelling of each word and symbol, by its name in the table."""
    words, symbols = ((SPECS / f"{it}.antt").read_text("utf-8") for it in ("Word", "Spelling"))
    found = re.findall(r'^word_spelling (w\.\w+) = codes "(.*)"', words, re.M)
    found += re.findall(r'^symbol_spelling s\.(\w+) = codes "(.*)"', symbols, re.M)
    return dict(found)


class TableReader:
    """Reads the right-hand side of a rule."""

    def __init__(self, text: str, spelled: dict[str, str]):
        self.pieces: list[str] = PIECES.findall(text)
        self.place = 0
        self.spelled = spelled

    def take(self, *wanted: str) -> str:
        piece = self.pieces[self.place]
        if wanted and piece not in wanted:
            raise ValueError(f"{' or '.join(wanted)} should stand in place of {piece}")
        self.place += 1
        return piece

    def at(self) -> str:
        return self.pieces[self.place] if self.place < len(self.pieces) else ""

    def alternatives(self) -> tuple[Alternative, ...]:
        if self.take("alone", "choose") == "alone":
            found = [Alternative((), self.items())]
        else:
            found = self.guarded()
            found.append(Alternative((), self.items()))
        if self.at():
            raise ValueError(f"{self.at()} stands after the rule")
        return tuple(found)

    def guarded(self) -> list[Alternative]:
        found: list[Alternative] = []
        self.take("(")
        while self.at() != "[]":
            how = self.take("at", "at_word", "at_symbol", "before")
            if how == "before":
                found.append(Alternative(self.terminals(), self.items()))
            else:
                first = self.spelling() if how != "at" else self.terminal()
                found.append(Alternative((first,), (first, *self.items())))
            self.take("∷")
        self.take("[]")
        self.take(")")
        return found

    def terminals(self) -> Way:
        found: list[str] = []
        self.take("(")
        while self.at() != "[]":
            found.append(self.terminal())
            self.take("∷")
        self.take("[]")
        self.take(")")
        return tuple(found)

    def items(self) -> Way:
        found: list[str] = []
        closes = self.at() == "("
        if closes:
            self.take("(")
        while self.at() != "[]":
            found.append(self.item())
            self.take("∷")
        self.take("[]")
        if closes:
            self.take(")")
        return tuple(found)

    def item(self) -> str:
        how = self.take("wo", "sy", "token", "rule")
        if how == "rule":
            return self.take()
        return self.terminal() if how == "token" else self.spelling()

    def terminal(self) -> str:
        in_brackets = self.at() == "("
        if in_brackets:
            self.take("(")
        name = self.take()
        if name in ("of_word", "of_symbol"):
            name = self.spelling()
        elif name == "exactly":
            name = f'"{self.take()}"'
        if in_brackets:
            self.take(")")
        return KINDS.get(name, name)

    def spelling(self) -> str:
        return f'"{self.spelled[self.take()]}"'


def rules_of_the_table() -> dict[str, TableRule]:
    spelled = spellings()
    found: dict[str, TableRule] = {}
    for above, name, text in COMMENTED.findall((SPECS / "Grammar.antt").read_text("utf-8")):
        spells = " ".join(it[2:].strip() for it in above.splitlines())
        found[name] = TableRule(spells, TableReader(text, spelled).alternatives())
    return found
