"""Tests that the parser reports 10 at the first token with which no text of the grammar continues.

In scripts with one token on each line, a token is replaced, inserted or removed. The line that `check` reports must be
that of the grammar in docs/PROFILE.md (recogniser.py), and neither an earlier nor a later one.
"""
from __future__ import annotations

import re
from collections.abc import Iterator
from dataclasses import dataclass
from random import Random
from typing import NamedTuple, Optional

from asking import ROOT, Asking, Case, Group, told
from recogniser import Recogniser, rules_of_the_profile

SCRIPTS = (
    "tests/checking/every_line.ttcn",
    "tests/golden/components/system_under_test_answers.ttcn",
    "examples/ping_pong.ttcn",
)
TOKENS = re.compile(r'"(?:[^"]|"")*"|[A-Za-z]\w*|[0-9]+|:=|->|\.\.|[^\s]')
COMMENTS = re.compile(r'("(?:[^"]|"")*")|//[^\n]*|/\*.*?\*/', re.DOTALL)
EXCHANGED, PUT_IN = 6, 3
OTHERS = ("another", "7", "1", '"a?"', '"(b"')  # in addition to those that the grammar names


class Change(NamedTuple):
    """At a place, removes `out` tokens and inserts others."""

    place: int
    out: int
    put: tuple[str, ...]


def changes_of(tokens: list[str], others: list[str], chance: Random) -> Iterator[Change]:
    """At each place a token is replaced by some others, some are inserted before it, and one and two are removed."""
    for at in range(len(tokens) + 1):
        yield from (Change(at, 1, (it,)) for it in chance.sample(others, EXCHANGED))
        yield from (Change(at, 0, (it,)) for it in chance.sample(others, PUT_IN))
        yield from (Change(at, out, ()) for out in (1, 2))


@dataclass
class ChangedInTurn:
    """A script that is changed in one place after the other, from the last place on."""

    name: str
    script: bytes
    changes: list[Change]

    def fault(self, asking: Asking) -> Optional[str]:
        right, recogniser = tokens_of(self.script.decode()), Recogniser(rules_of_the_profile())
        if not all(recogniser.goes_on(it) for it in right) or not recogniser.goes_on(None):
            return "the script isn't one of the grammar"
        for change in sorted(self.changes, reverse=True):
            tokens = [*right[: change.place], *change.put, *right[change.place + change.out :]]
            recogniser.go_back(change.place)
            line = refused_line(recogniser, tokens, change.place)
            fault = fault_of(asking, "".join(f"{it}\n" for it in tokens).encode(), line)
            if fault is not None:
                return f"{change}: {fault}"
        return None


def refused_line(recogniser: Recogniser, tokens: list[str], place: int) -> Optional[int]:
    """The line of the first token with which no text continues, or of the end; None if the text is in the grammar."""
    for at in range(place, len(tokens)):
        if not recogniser.goes_on(tokens[at]):
            return at + 1
    return None if recogniser.goes_on(None) else len(tokens) + 1


def fault_of(asking: Asking, text: bytes, line: Optional[int]) -> Optional[str]:
    """How the answer differs: from 10 at this line, or from any answer but 10 if the text is in the grammar."""
    if line is not None:
        return asking.fault("check", text, told(f"10 Syntax {line}"))
    ended = asking.answer("check", text)
    if ended is not None and not ended.printed.startswith(b"refused 10 "):
        return None
    return f"{ended.shown() if ended else 'no end'}; wanted is any answer but 10"


def tokens_of(text: str) -> list[str]:
    return TOKENS.findall(COMMENTS.sub(lambda it: it.group(1) or " ", text))


def changed() -> Iterator[Case]:
    others = sorted({it[1:-1] for it in Recogniser(rules_of_the_profile()).quoted()}) + [*OTHERS]
    for file in SCRIPTS:
        script = (ROOT / file).read_bytes()
        changes = [*changes_of(tokens_of(script.decode()), others, Random(file))]
        yield ChangedInTurn(f"{file} with {len(changes)} changes", script, changes)


def groups() -> list[Group]:
    return [Group("scripts with a token changed", 3, changed)]
