"""The components of a script's test case: what each of them does, and where its messages go."""
from __future__ import annotations

import functools
from dataclasses import dataclass
from typing import Optional

from ..origins import Line, Origins
from .checks import Checked
from .forms import Forms
from .names import SUT
from .setup import MTC, SYSTEM
from .tokens import Text
from .tree import Body, Function, Pair, Statement, TestCase

# A port of a component, by the names of both.
End = tuple[str, str]


@dataclass(frozen=True)
class Player:
    """A component of the test case. The system without a `sut` has no body.

    `references` says which component a word after `to` or `from` means, unless the word is a variable.
    """

    name: str
    ports: tuple[str, ...]
    body: Optional[Body]
    references: dict[str, str]

    def statements(self) -> list[Statement]:
        return self.body.statements if self.body else []

    def variables(self) -> list[int]:
        return [variable.name for variable in self.body.variables] if self.body else []


class Case:
    """A script that obeys all rules: its components in the order of a report, and their connections."""

    def __init__(self, text: Text, checked: Checked, origins: Optional[Origins] = None):
        self.text = text
        self.origins = origins or Origins([])
        self.names = checked.names
        self.forms = Forms(checked.names)
        self.partners: dict[End, list[End]] = {}
        for pair in self.names.case.setups:
            if isinstance(pair, Pair):
                self._join(pair)
        self.types = checked.setup.types  # of the components, by their names
        order = sorted(self.types, key=lambda name: name == SYSTEM)
        self.players = [self._player(checked, name, self.types[name]) for name in order]

    @functools.cached_property
    def _told(self) -> dict[int, Line]:
        return {line: self.origins.line(line) for line in set(self.text.lines)}

    def word(self, place: int) -> str:
        return self.names.word(place)

    def own_line(self, place: int) -> int:
        """The line of a token."""
        return self.text.lines[place]

    def line(self, place: int) -> Line:
        """The line that it comes from: for a script that tools/rewrite wrote, a line of the original."""
        return self._told[self.text.lines[place]]

    def source(self, place: int) -> tuple[Line, int]:
        """The origin of the statement or branch at a token: its line and column; without a map, line and token."""
        row = self.origins.row(self.text.lines[place])
        return self.line(place), row.column if row else place

    def bodies(self) -> list[Body]:
        """All bodies, including those of functions that aren't started."""
        return [it for it in self.names.module.definitions if isinstance(it, (Function, TestCase))]

    def _join(self, pair: Pair) -> None:
        ends = []
        for end in (pair.first, pair.second):
            component = self.word(end.component)
            ends.append((MTC if component == "self" else component, self.word(end.port)))
        for one, other in (ends, ends[::-1]):
            self.partners.setdefault(one, []).append(other)

    def _player(self, checked: Checked, name: str, type_name: str) -> Player:
        ports = tuple(self.names.ports_of(type_name))
        created = {it: it for it in checked.setup.created}
        references = {**created, MTC: MTC, "self": name}
        body: Optional[Body] = self.names.case
        if name == SYSTEM:
            body = self.names.functions.get(SUT)
        elif name != MTC:
            start = checked.setup.started[name]
            function = self.names.functions[self.word(start.function)]
            given = [MTC if self.word(it) == "self" else self.word(it) for it in start.arguments]
            parameters = [self.word(parameter.name) for parameter in function.parameters]
            references = {**references, **dict(zip(parameters, given))}
            body = function
        return Player(name, ports, body, references)
