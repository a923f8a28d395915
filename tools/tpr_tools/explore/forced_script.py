"""Makes of a script one in which a gate sees each act as a step, and which prints the same reports.

A gate notices the end of a statement when the next one begins (docs/DECISIONS.md). So each body gets a loop without a
turn after its last statement, which does nothing and prints nothing. A gate can't pause a send to all components
between its messages, so it is written as a send to each component: the same messages, in the order of the connections.
A component whose name is hidden by a parameter is passed to the function as an additional parameter.
"""
from __future__ import annotations

from dataclasses import dataclass, field
from itertools import count
from typing import Optional

from ..origins import Origins
from ..script.tree import Body, ComponentStart, Function, Loop, Send, TestCase, statements_in
from .placed import Placed, PlacedCase, placed_tokens

Edits = dict[int, tuple[int, list[str]]]  # by the place of a token: the number of tokens removed, and the new ones


@dataclass
class ForcedScript:
    """The tokens of the script that is run."""

    tokens: list[Placed]

    def case(self, origins: Optional[Origins] = None) -> PlacedCase:
        return PlacedCase(self.tokens, origins)

    def text(self) -> str:
        """The text: the tokens, with those of one line on one line."""
        pieces, line = [], 1
        for token in self.tokens:
            pieces.append("\n" if token.line != line else " ")
            pieces.append(token)
            line = token.line
        return "".join(pieces) + "\n"

    def own_line(self, number: int) -> int:
        """The line of the script that this line of the text comes from."""
        lines = [1]
        for token in self.tokens:
            if token.line != lines[-1]:
                lines.append(token.line)
        return lines[min(number, len(lines)) - 1]


def forced_script(data: bytes) -> ForcedScript:
    """The script to run instead of an accepted one."""
    writer = _Writer(placed_tokens(data))
    writer.split_sends()
    return writer.script()


@dataclass(frozen=True)
class _Runner:
    """A component that runs a body; the components that are the arguments of the body's parameters; and the names that
    mean something else in the body than a component of the test case. `handed` has the components that are passed as
    additional parameters, with the names of these."""

    component: int
    arguments: dict[str, int]
    hidden: set[str]
    handed: dict[int, str] = field(default_factory=dict)


class _Writer:
    """The tokens of a script, and the edits."""

    def __init__(self, tokens: list[Placed]):
        self.tokens = tokens
        self.case = PlacedCase(self.tokens)
        self.bodies = [it for it in self.case.module.definitions if isinstance(it, (Function, TestCase))]
        self.edits: Edits = {}
        taken = set(self.tokens)
        self.new_names = (name for number in count(1) if (name := f"forced{number}") not in taken)
        self.turn = next(self.new_names)

    def script(self) -> ForcedScript:
        """The script with a loop without a turn at the end of each body."""
        for body in self.bodies:
            self.edits.update(self.last_step(body))
        return ForcedScript(self.written(0, len(self.tokens), self.edits))

    def written(self, first: int, behind: int, edits: Edits) -> list[Placed]:
        """The tokens between two places, with the edits. New tokens get the line of the place of their insertion."""
        tokens: list[Placed] = []
        place = first
        while place < behind:
            taken_out, new = edits.get(place, (0, []))
            line = self.tokens[place].line
            tokens += [it if isinstance(it, Placed) else Placed(it, line) for it in new]
            tokens += self.tokens[place : place + 1] if taken_out == 0 else []
            place += max(taken_out, 1)
        return tokens

    # The last step of a body

    def last_step(self, body: Body) -> Edits:
        place = self.end_of(body)
        if isinstance(body, TestCase):
            # Nothing may follow `all component.done`, which isn't a step.
            place = next((at - 3 for at in range(place - 1, body.start, -1) if self.tokens[at] == "done"), place)
        begin = [] if self.tokens[place - 1] in ("{", "}", ";") else [";"]
        turn = self.turn
        loop = f"for ( var integer {turn} := 0 ; {turn} < 0 ; {turn} := {turn} + 1 ) {{ }}"
        return {place: (0, begin + loop.split())}

    def place_of(self, symbol: str, behind: int) -> int:
        """The first place of the symbol from there on."""
        return next(at for at in range(behind, len(self.tokens)) if self.tokens[at] == symbol)

    def end_of(self, body: Body) -> int:
        """The place of the bracket that closes the body."""
        place = self.place_of("{", body.start)
        depth = 1
        while depth > 0:
            place += 1
            depth += {"{": 1, "}": -1}.get(self.tokens[place], 0)
        return place

    # Sends to all components

    def split_sends(self) -> None:
        """Splits all sends to all components: those of the test case in their place, and those of a function in a copy
        of the function for each start, because each component has its own connections."""
        functions = {self.tokens[it.name]: it for it in self.bodies if isinstance(it, Function)}
        for case in (it for it in self.bodies if isinstance(it, TestCase)):
            self.edits.update(self.split(case, _Runner(0, {}, set())))
            for start in case.starts:
                self.split_start(functions[self.tokens[start.function]], start)

    def split_start(self, body: Function, start: ComponentStart) -> None:
        words = [self.tokens[it] for it in start.arguments]
        meant = [self.case.places["mtc" if it == "self" else it] for it in words]
        arguments = dict(zip((str(self.tokens[it.name]) for it in body.parameters), meant))
        runner = _Runner(self.case.places[self.tokens[start.component]], arguments, self.hidden_in(body))
        edits = self.split(body, runner)
        if not edits:
            return
        name = next(self.new_names)
        behind = self.end_of(body) + 1
        copied = {**edits, **self.last_step(body), body.name: (1, [name])}
        for other, parameter in runner.handed.items():
            named = str(self.case.names[other])
            self.add_one(copied, body.name, [str(dict(self.case.script.created)[named]), parameter])
            self.add_one(self.edits, start.function, [named])
        others = self.edits.get(behind, (0, []))[1]
        self.edits[behind] = (0, [*others, *self.written(body.start, behind, copied)])
        self.edits[start.function] = (1, [name])

    def hidden_in(self, body: Function) -> set[str]:
        """The names that don't mean a component of the test case in this body."""
        loops = [it.name for it in statements_in(body.statements) if isinstance(it, Loop)]
        return {self.tokens[it] for it in loops + [it.name for it in body.parameters + body.variables]}

    def add_one(self, edits: Edits, name: int, words: list[str]) -> None:
        """Adds one parameter or argument in the brackets after the name."""
        place = self.place_of(")", name)
        new = edits.get(place, (0, []))[1]
        comma = [","] if new or self.tokens[place - 1] != "(" else []
        edits[place] = (0, [*new, *comma, *words])

    def split(self, body: Body, runner: _Runner) -> Edits:
        edits: Edits = {}
        for send in statements_in(body.statements):
            if not isinstance(send, Send) or send.to is None or self.tokens[send.to] != "all":
                continue
            ends = self.case.partners.get((runner.component, self.tokens[send.port]), [])
            if len(ends) > 1:
                names = [self.name_of(component, runner) for component, _ in ends]
                taken_out = send.to + len(("all", "component")) - send.start
                edits[send.start] = (taken_out, self.sends_to(send.start, send.to, names))
        return edits

    def sends_to(self, start: int, to: int, names: list[str]) -> list[str]:
        """A send of the same message to each of these. All are on the line of the original send."""
        line = self.tokens[start].line
        tokens: list[str] = []
        for name in names:
            tokens += [";"] if tokens else []
            tokens += [*self.tokens[start:to], Placed(name, line)]
        return tokens

    def name_of(self, component: int, runner: _Runner) -> str:
        """The name by which the body can refer to the component."""
        if component == runner.component:
            return "self"
        for name, meant in runner.arguments.items():
            if meant == component:
                return name
        name = self.case.names[component]
        if name not in runner.hidden:
            return name
        if component not in runner.handed:
            runner.handed[component] = next(self.new_names)
        return runner.handed[component]
