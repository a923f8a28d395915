"""Writes what the proofs of tp_syntax check of each rule of the grammar's table: the tokens with which it begins, those
that may follow it, and a short text of it. These tables need no trust: the prover rejects a wrong one.

    table_sets.py write    writes FILES in crates/tp_syntax/proofs
    table_sets.py          prints `passed NAME` for each file that is as it would be written, or `FAILED: ..`
"""
from __future__ import annotations

import re
import sys
from pathlib import Path

from asking import ROOT
from table import TableRule, Way, rules_of_the_table, spellings

PROOFS = ROOT / "crates" / "tp_syntax" / "proofs"
KINDS = {"binds": "name", "same": "name", '"1"': "number", "a_pattern": "text"}
END = "finish"
FIRST = "a_module"
WIDTH = 118
IMPORTED = ("Terminal", "of_word", "of_symbol", "a_name", "a_number", "a_text", "finish")
FILES = ("FirstTokens", "FollowingTokens", "ShallowTexts", "WrittenSetsAreRight")
WRITTEN = f"-- Written by tests/checking/table_sets.py from the table. {FILES[-1]}.antt checks that it is right."
Sets = dict[str, set[str]]


class Computed:
    """The sets, each as small as possible."""

    def __init__(self, rules: dict[str, TableRule]):
        self.rules = rules
        self.ways = {name: [it.items for it in rule.alternatives] for name, rule in rules.items()}
        self.nothing = self.rules_of_nothing()
        self.firsts: Sets = {name: set() for name in rules}
        while self.grow_firsts():
            pass
        self.follows: Sets = {name: set() for name in rules}
        self.follows[FIRST] = {END}
        while self.grow_follows():
            pass
        self.depth: dict[str, int] = {}
        self.shortest: dict[str, int] = {}
        self.find_depths()
        self.rank: dict[str, int] = {}
        for name in rules:
            self.find_rank(name)

    def rules_of_nothing(self) -> set[str]:
        found: set[str] = set()
        while True:
            more = {name for name in self.rules if any(all(it in found for it in way) for way in self.ways[name])}
            if more == found:
                return found
            found = more

    def find_rank(self, name: str) -> int:
        """One more than the rank of each rule with which it may begin. A rule that begins with itself has none."""
        if name not in self.rank:
            inner = [self.find_rank(it) for way in self.ways[name] for it in self.leading(way)]
            self.rank[name] = 1 + max(inner, default=0)
        return self.rank[name]

    def leading(self, way: Way) -> list[str]:
        found: list[str] = []
        for it in way:
            if it not in self.rules:
                return found
            found.append(it)
            if it not in self.nothing:
                return found
        return found

    def starts(self, way: Way, after: set[str]) -> set[str]:
        found: set[str] = set()
        for it in way:
            if it not in self.rules:
                return found | {KINDS.get(it, it)}
            found |= self.firsts[it]
            if it not in self.nothing:
                return found
        return found | after

    def grow_firsts(self) -> bool:
        grew = False
        for name, ways in self.ways.items():
            for way in ways:
                more = self.starts(way, set())
                grew = grew or not more <= self.firsts[name]
                self.firsts[name] |= more
        return grew

    def grow_follows(self) -> bool:
        grew = False
        for name, ways in self.ways.items():
            for way in ways:
                for at, it in enumerate(way):
                    if it in self.rules:
                        more = self.starts(way[at + 1 :], self.follows[name])
                        grew = grew or not more <= self.follows[it]
                        self.follows[it] |= more
        return grew

    def find_depths(self) -> None:
        """How deep rules nest in the shallowest text of each rule, and the place of its alternative."""
        while len(self.depth) < len(self.rules):
            found = {}
            for name, ways in self.ways.items():
                for place, way in enumerate(ways):
                    inner = [it for it in way if it in self.rules]
                    if name not in self.depth and name not in found and all(it in self.depth for it in inner):
                        found[name] = (place, 1 + max((self.depth[it] for it in inner), default=0))
            for name, (place, depth) in found.items():
                self.shortest[name], self.depth[name] = place, depth


class Writing:
    """The lines of the files."""

    def __init__(self, computed: Computed):
        self.computed = computed
        names = {f'"{spelling}"': name for name, spelling in spellings().items()}
        self.names = {**names, "name": "a_name", "number": "a_number", "text": "a_text", END: END}
        self.order = [*self.names.values()]

    def terminal(self, kind: str) -> str:
        name = self.names[kind]
        if not kind.startswith('"'):
            return name
        return f"of_word {name}" if "." in name else f"of_symbol s.{name}"

    def set_lines(self, begin: str, kinds: set[str]) -> list[str]:
        parts = [f"{self.terminal(it)} ∷" for it in sorted(kinds, key=lambda it: self.order.index(self.names[it]))]
        return filled(begin, [*parts, "[]"])

    def table(self, about: str, word: str, sets: Sets) -> list[str]:
        """A table in which a set of several tokens that occurs more than once has one name. Its last line is for all
        other rules: those with the most frequent set."""
        named: dict[frozenset[str], str] = {}
        shared: list[str] = []
        for name, kinds in sets.items():
            same = [it for it, others in sets.items() if others == kinds]
            if len(same) > 1 and len(kinds) > 1 and frozenset(kinds) not in named:
                named[frozenset(kinds)] = f"{word}_{name}"
                shared += [f"abbrev {word}_{name} : List Terminal", *self.set_lines(f"{word}_{name} =", kinds), ""]
        lines = [*shared, about, f"unfoldable pub {word} : Rule → List Terminal"]
        others = max(named, key=lambda it: sum(kinds == it for kinds in sets.values()))
        for name, kinds in sets.items():
            if kinds == others:
                continue
            short = named.get(frozenset(kinds))
            lines += [f"{word} r.{name} = {short}"] if short else self.set_lines(f"{word} r.{name} =", kinds)
        return [*lines, f"{word} _ = {named[others]}"]

    def first_tokens(self) -> str:
        they = self.computed
        table = self.table("-- with what a rule begins, if it spells something", "firsts", they.firsts)
        return text_of(
            [
                "-- The tokens with which each rule begins, and the rules that may spell nothing.",
                *head_of_tokens("ℕ, Bool, true, false, List, [], ◌∷◌", table),
                "-- rules that may spell nothing",
                "abbrev pub nullable : Rule → Bool",
                *(f"nullable r.{name} = true" for name in they.rules if name in they.nothing),
                "nullable _ = false",
                "",
                *table,
                "",
                "-- one more than that of each rule with which the rule may begin",
                *numbers("rank", they.rank, 1),
            ]
        )

    def following_tokens(self) -> str:
        table = self.table("-- what may follow a rule", "follows", self.computed.follows)
        head = head_of_tokens("List, [], ◌∷◌", table)
        return text_of(["-- The tokens that may follow each rule.", *head, *table])

    def shallow_texts(self) -> str:
        they = self.computed
        return text_of(
            [
                "-- For each rule an alternative with a text in which few rules nest, and how deep they nest.",
                WRITTEN,
                "use Rattle.std.proofs.Common.{ℕ}",
                *head_of_rules(),
                "",
                "-- the place of an alternative whose rules have shallower texts",
                *numbers("shortest", they.shortest, 0),
                "",
                "-- how deep rules nest in a text of that alternative",
                *numbers("depth", they.depth, 1),
            ]
        )

    def checked(self) -> str:
        return text_of(
            [
                "-- What tests/checking/table_sets.py has written of each rule is right: computed. It writes this file too.",
                "use Rattle.std.proofs.Common.{◌≡◌, true, refl}",
                *head_of_rules(),
                f"use Rattle.tp_syntax.proofs.{FILES[0]}.{{firsts}}",
                f"use Rattle.tp_syntax.proofs.{FILES[1]}.{{follows}}",
                "use Rattle.tp_syntax.proofs.TokensTellAlternatives.{is_right}",
                "use Rattle.tp_syntax.proofs.TextsOfRules.{is_shallow}",
                "",
                "pub rules_are_right : (r : Rule) → is_right r ≡ true",
                "unfolding firsts follows",
                *computed_for_each("rules_are_right"),
                "",
                "pub rules_are_shallow : (r : Rule) → is_shallow r ≡ true",
                *computed_for_each("rules_are_shallow"),
            ]
        )


def computed_for_each(lemma: str) -> list[str]:
    """A lemma that is computed for each rule. The first rule has a line of its own, so that the second line is taken
    once for each of the others."""
    return [f"{lemma} r.{FIRST} = refl", f"{lemma} r = refl"]


def text_of(lines: list[str]) -> str:
    return "\n".join(lines) + "\n"


def head_of_tokens(common: str, lines: list[str]) -> list[str]:
    """The imports of a file of tokens with these lines. Kinds of tokens that the lines don't use aren't imported."""
    words = set(re.findall(r"\w+", "\n".join(lines)))
    kinds = ", ".join(it for it in IMPORTED if it in words)
    return [
        WRITTEN,
        f"use Rattle.std.proofs.Common.{{{common}}}",
        "use Rattle.tp_syntax.specs.declared.word.Word.TheVariants as w",
        "use Rattle.tp_syntax.specs.declared.token.Symbol.TheVariants as s",
        f"use Rattle.tp_syntax.specs.Item.{{{kinds}}}",
        *head_of_rules(),
        "",
    ]


def head_of_rules() -> list[str]:
    return ["use Rattle.tp_syntax.specs.Rule.{Rule}", "use Rattle.tp_syntax.specs.Rule as r"]


def numbers(word: str, of_rules: dict[str, int], of_others: int) -> list[str]:
    """A number for each rule in the table, and one for all other rules."""
    named = [f"{word} r.{name} = {number}" for name, number in of_rules.items() if number > of_others]
    return [f"abbrev pub {word} : Rule → ℕ", *named, f"{word} _ = {of_others}"]


def filled(begin: str, parts: list[str]) -> list[str]:
    one = " ".join([begin, *parts])
    if len(one) <= WIDTH:
        return [one]
    lines, line = [begin], "   "
    for part in parts:
        if len(line) + 1 + len(part) > WIDTH:
            lines.append(line)
            line = "   "
        line += f" {part}"
    return [*lines, line]


def main(words: list[str]) -> int:
    writing = Writing(Computed(rules_of_the_table()))
    texts = (writing.first_tokens(), writing.following_tokens(), writing.shallow_texts(), writing.checked())
    failed = 0
    for name, text in zip(FILES, texts):
        path = PROOFS / f"{name}.antt"
        if words == ["write"]:
            path.write_text(text, encoding="utf-8")
        elif path.exists() and path.read_text(encoding="utf-8") == text:
            print(f"passed {name}")
        else:
            print(f"FAILED: {path.relative_to(ROOT)} isn't as tests/checking/table_sets.py writes it")
            failed = 1
    return failed


if __name__ == "__main__":
    sys.exit(main(sys.argv[1:]))
