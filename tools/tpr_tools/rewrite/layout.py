"""The text of a form, a type and a name in a script of the profile."""
from __future__ import annotations

from typing import Iterable, Optional

from ..words import RESERVED, RESERVED_ELSEWHERE

from .types import Type
from .values import Bounds, Elements, Excluded, Fields, Form, Options, TextPattern, Wild

MOST_LETTERS = 64


def form_text(form: Form) -> str:
    """A value or a template, as the profile writes it."""
    if isinstance(form, bool):
        return "true" if form else "false"
    if isinstance(form, int):
        return str(form)
    if isinstance(form, str):
        return _quoted(form)
    if isinstance(form, Wild):
        return form.value
    if isinstance(form, TextPattern):
        return f"pattern {_quoted(form.text)}"
    if isinstance(form, Bounds):
        low = "-infinity" if form.low is None else str(form.low)
        return f"({low} .. {'infinity' if form.high is None else form.high})"
    if isinstance(form, (Fields, Elements)):
        return "{" + _listed(form.items) + "}"
    if isinstance(form, Options):
        return f"({_listed(form.items)})" if len(form.items) != 1 else form_text(form.items[0])
    assert isinstance(form, Excluded)
    return f"complement({_listed(form.items)})"


def _quoted(text: str) -> str:
    return '"' + text.replace('"', '""') + '"'


def _listed(items: Iterable[Form]) -> str:
    return ", ".join(map(form_text, items))


def type_text(type: Type) -> str:
    return type.root.name


class Names:
    """Gives each thing a unique name."""

    def __init__(self) -> None:
        self.taken: set[str] = set(RESERVED | RESERVED_ELSEWHERE)

    def keep(self, names: Iterable[str]) -> None:
        self.taken |= set(names)

    def free(self, wanted: str, others: Optional[set[str]] = None) -> str:
        """The wanted name, or a similar one that isn't used."""
        wanted = wanted[: MOST_LETTERS - 4] or "v"
        taken = self.taken | (others or set())
        found, number = wanted, 2
        while found in taken:
            found = f"{wanted}_{number}"
            number += 1
        self.taken.add(found)
        return found
