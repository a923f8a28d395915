"""Reads the answer of `tpr verdicts` completely: a line that doesn't have its form is a fault."""
from __future__ import annotations

import re
from dataclasses import dataclass
from typing import Optional

from ..words import VERDICTS

MOST_STATES = 4_194_304
_WORD = f"(?:{'|'.join(VERDICTS)})"
_FORM = (
    rf"(?:always (?P<always>{_WORD})|(?P<several>{_WORD}(?: or {_WORD})+)|undecided(?:\nseen(?P<seen>(?: {_WORD})+))?)\n"
    rf"states (?P<states>0|[1-9][0-9]*)\n(?P<orders>(?:{_WORD}:(?: [A-Za-z]\w*)*\n)*)"
)


@dataclass(frozen=True)
class Answer:
    """The verdicts that are named, whether there are no others, how many states were visited, and an order for each
    verdict that has one, by the names of components."""

    verdicts: tuple[str, ...]
    decided: bool
    states: int
    orders: tuple[tuple[str, tuple[str, ...]], ...]

    def status(self) -> int:
        """The exit status for this answer."""
        if not self.decided:
            return 3
        return 0 if len(self.verdicts) == 1 else 2

    def fault(self) -> Optional[str]:
        """What is impossible in the answer, for any script; None if nothing is."""
        if list(self.verdicts) != [it for it in VERDICTS if it in self.verdicts]:
            return "the verdicts aren't in their order, each once"
        wanted = self.verdicts if self.status() > 0 else ()
        if tuple(verdict for verdict, _ in self.orders) != wanted:
            return "the orders aren't those of the verdicts"
        if self.states > MOST_STATES or self.decided and self.states == 0:
            return f"it can't be that {self.states} states were looked at"
        return None


def read_answer(printed: str) -> Optional[Answer]:
    """The answer, or None if the text isn't one."""
    found = re.fullmatch(_FORM, printed, re.A)
    if found is None:
        return None
    one, several, seen = found["always"], found["several"], found["seen"]
    lines = [line.split(":") for line in found["orders"].splitlines()]
    return Answer(
        verdicts=(one,) if one else tuple(several.split(" or ")) if several else tuple((seen or "").split()),
        decided=bool(one or several),
        states=int(found["states"]),
        orders=tuple((verdict, tuple(names.split())) for verdict, names in lines),
    )


def first_line(answer: Answer) -> str:
    """The verdicts, and whether there are others."""
    told = " or ".join(answer.verdicts)
    if answer.decided:
        return told if len(answer.verdicts) > 1 else f"always {told}"
    return f"undecided, seen {told}" if told else "undecided"
