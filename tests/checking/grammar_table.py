#!/usr/bin/env python3
"""Tests that the grammar's table, crates/tp_syntax/specs/Grammar.antt, spells the texts of docs/PROFILE.md's grammar.

    grammar_table.py    prints a line `passed NAME` or `FAILED: NAME: WHY` for each rule, and each file of table_sets.py

The comment above each rule of the table says what the rule spells, in the words of the document and of other rules of
the table. Rule and comment are run side by side as automata: after the same tokens, the same tokens or the end must be
able to follow. A block, a value and a template contain themselves: an inner one counts as a token, so that the
comparison ends. The inside of a block, a value or a template is compared in the line of its own rule.
"""
from __future__ import annotations

import re
import sys
from collections.abc import Iterator
from typing import Optional

sys.dont_write_bytecode = True

import table_sets
from recogniser import GrammarReader, Rule, rules_of_the_profile
from table import TableRule, Way, rules_of_the_table

NESTED = ("unnamed_value", "other_template")  # a token, unless nothing follows
BLOCK = "statements of a block"
BEFORE_BRACE = "only before }"  # nothing, if a `}` comes next
SAID = "said "  # before the name of a rule of the table, for the comment above it
WORDS = re.compile(r'"[^"]*"|[a-z_]+|[][{}()|]')
Grammar = dict[str, list[Way]]
Form = tuple[bool, Way]  # whether it must begin with a `}`; what is still to come
Forms = frozenset[Form]


class SaidReader(GrammarReader):
    """Reads the comment above a rule, in the notation of the document."""

    def __init__(self, name: str, text: str):
        super().__init__("")
        self.pieces = [name, "=", *WORDS.findall(text)]


def plain(name: str, rules: dict[str, list[Rule]]) -> Grammar:
    """The rules; those that stand for brackets get this name before theirs."""
    return {
        named(name, of): [tuple(named(name, it) for it in rule.parts) for rule in ways] for of, ways in rules.items()
    }


def named(name: str, part: str) -> str:
    return f"{name} {part}" if part[0] in "([{" else part


def with_one_loop_name(way: Way) -> Way:
    """The first `i` of a loop binds the name, each further one is the same; a text after `pattern` is a plain one."""
    found: list[str] = []
    for part in way:
        if part == "i":
            part = "same" if "binds" in found else "binds"
        found.append("a_pattern" if part == "text" and found[-1:] == ['"pattern"'] else part)
    return tuple(found)


def said_of(table: dict[str, TableRule]) -> Grammar:
    """The rules of the document, and the comments above the rules of the table.

    A block is a `{` and its statements, a value is a name or another value, and a template is a name, an integer or
    another one. The comments above `statements`, `unnamed_value` and `other_template` say the same of the document's
    own rules.
    """
    profile = plain("profile", rules_of_the_profile())
    rules: Grammar = {**profile, "end": [('";"',), (BEFORE_BRACE,)]}
    for name, rule in table.items():
        rules |= plain(name, SaidReader(SAID + name, rule.spells).read())
    instead: Grammar = {
        "block": [('"{"', SAID + "statements")],
        "value": [("name",), (SAID + "unnamed_value",)],
        "template": [("name",), ("integer",), (SAID + "other_template",)],
    }
    for name, ways in instead.items():
        rules[f"the {name}"], rules[f"{name} instead"] = rules[name], ways
        rules[name] = ways if name != "block" else [('"{"', BLOCK)]

    def known(part: str) -> str:
        return SAID + part if part in table and part not in profile else part

    return {name: [with_one_loop_name(tuple(known(it) for it in way)) for way in ways] for name, ways in rules.items()}


def ways_of(table: dict[str, TableRule]) -> Grammar:
    """The rules of the table. Statements directly after a `{` are those of a block."""
    return {name: [with_blocks(it.items) for it in rule.alternatives] for name, rule in table.items()}


def with_blocks(way: Way) -> Way:
    brace = ('"{"',)
    return tuple(BLOCK if part == "statements" and way[at - 1 : at] == brace else part for at, part in enumerate(way))


class Run:
    """Computes which tokens may come next, at one place after another of the texts of a grammar."""

    def __init__(self, rules: Grammar):
        self.rules = rules

    def opened(self, forms: Forms) -> Forms:
        """The same, with each form expanded until it begins with a token or is at its end."""
        left, seen = list(forms), set(forms)
        found: set[Form] = set()
        while left:
            form = left.pop()
            inner = self.inner(form)
            if inner is None:
                found.add(form)
                continue
            new = [it for it in inner if it not in seen]
            seen.update(new)
            left += new
        return frozenset(it for it in found if not it[0] or it[1][:1] == ('"}"',))

    def inner(self, form: Form) -> Optional[list[Form]]:
        """The forms that this one expands to, or None if it begins with a token or is at its end."""
        bound, parts = form
        if not parts:
            return None
        first, rest = parts[0], parts[1:]
        if first == BEFORE_BRACE:
            return [(True, rest)]
        if first not in self.rules or (rest and first.removeprefix(SAID) in NESTED):
            return None
        return [(bound, way + rest) for way in self.rules[first]]

    def passed(self, forms: Forms, token: str) -> Forms:
        return self.opened(frozenset((False, it[1:]) for bound, it in forms if first_of(it) == token))


def first_of(parts: Way) -> str:
    return parts[0].removeprefix(SAID) if parts else "the end"


def difference(one: Run, other: Run, names: tuple[str, str]) -> str:
    """The first tokens after which the two continue with different tokens, or an empty text."""
    begin = one.opened(frozenset({(False, (names[0],))})), other.opened(frozenset({(False, (names[1],))}))
    passed, left = {begin: ""}, [begin]
    for here in left:
        tokens = [{first_of(it) for bound, it in forms} for forms in here]
        if tokens[0] != tokens[1]:
            return f"after `{passed[here].strip()}` only one has {' '.join(sorted(tokens[0] ^ tokens[1]))}"
        for token in sorted(tokens[0] - {"the end"}):
            there = one.passed(here[0], token), other.passed(here[1], token)
            if there not in passed:
                passed[there] = f"{passed[here]} {token}"
                left.append(there)
    return ""


def differences() -> Iterator[tuple[str, str]]:
    """Each rule, and how table and document differ in it."""
    table = rules_of_the_table()
    said = Run(said_of(table))
    spelled = Run(ways_of(table))
    for name in table:
        yield name, difference(spelled, said, (name, SAID + name))
    for name in ("block", "value", "template"):
        yield f"the document's {name}", difference(said, said, (f"the {name}", f"{name} instead"))


def main() -> int:
    failed = table_sets.main([])
    for name, found in differences():
        print(f"FAILED: {name}: {found}" if found else f"passed {name}")
        failed |= bool(found)
    return failed


if __name__ == "__main__":
    sys.exit(main())
