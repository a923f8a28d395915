"""A rule that a script breaks, and where."""
from __future__ import annotations

import difflib
from typing import Iterable, Optional

from ..words import counted
from .constructs import Construct
from .refusal_rules import Rule


class RuleFault(Exception):
    """The number, the token whose line is reported, the token that is meant, and what is wrong.

    `others` are further places to show, each with a text; `instead` is what to write, and `construct` the construct of
    the full language that was meant.
    """

    def __init__(self, number: int, told: int, place: int, sentence: str, rule: Rule):
        super().__init__(sentence)
        self.number = number
        self.told = told
        self.place = place
        self.sentence = sentence
        self.rule = rule
        self.others: list[tuple[int, str]] = []
        self.instead = ""
        self.construct: Optional[Construct] = None

    def beside(self, place: int, label: str) -> "RuleFault":
        self.others.append((place, label))
        return self

    def write(self, instead: str) -> "RuleFault":
        self.instead = instead
        return self

    def meant(self, construct: Construct) -> "RuleFault":
        self.construct = construct
        return self


class Faults:
    """`with faults: ..` is a rule or a statement. The first fault ends the checks, or only this block if faults are
    kept."""

    MOST = 100  # of one script: users who have corrected these ask again

    def __init__(self, are_kept: bool = False):
        self.are_kept = are_kept
        self.kept: list[RuleFault] = []

    def keep(self, fault: RuleFault) -> None:
        if fault not in self.kept:
            self.kept.append(fault)

    def stop(self) -> None:
        """Ends the checks here, because the following ones would only report consequences of the kept faults."""
        if self.kept:
            raise self.kept[-1]

    def __enter__(self) -> None:
        pass

    def __exit__(self, _: object, fault: Optional[BaseException], __: object) -> bool:
        if not self.are_kept or not isinstance(fault, RuleFault):
            return False
        self.keep(fault)
        return len(self.kept) < self.MOST


def a(word: str) -> str:
    """The word, quoted, after `a` or `an`."""
    return f"{'an' if word[:1].lower() in ('a', 'e', 'i', 'o') else 'a'} `{word}`"


def nearest(name: str, known: Iterable[str]) -> str:
    """A question with the name that may be meant, or an empty text."""
    found = difflib.get_close_matches(name, list(known)[:500], 1, 0.7)
    return f" (did you mean `{found[0]}`?)" if found else ""


def listed(names: Iterable[str], none: str = "none") -> str:
    """The names in a row, at most six of them."""
    shown = list(dict.fromkeys(names))
    if not shown:
        return none
    more = f" and {len(shown) - 6} more" if len(shown) > 6 else ""
    return ", ".join(f"`{name}`" for name in shown[:6]) + more


def there_are(count: int, what: str) -> str:
    """`there is 1 value`, `there are 2 values`."""
    return f"there {'is' if count == 1 else 'are'} {counted(count, what)}"
