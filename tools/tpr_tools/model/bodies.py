"""The components of a test case and what they do: the statements of each in one list, the routes, and the names."""
from __future__ import annotations

from dataclasses import dataclass
from typing import Any

from .tree import Block, Choice, Function, Loop, Script

Code = list[Any]  # statements, and the entries that an `alt` and a loop become


@dataclass(frozen=True)
class Jump:
    """The next statement is at this place."""

    place: int


@dataclass(frozen=True)
class Turn:
    """The end of a turn of a loop, whose block begins at the place."""

    loop: Loop
    place: int


@dataclass(frozen=True)
class Tried:
    """An `alt`, and the places where its blocks begin; the block of `[else]` is last."""

    choice: Choice
    places: tuple[int, ...]


@dataclass(frozen=True)
class Begun:
    """A loop, and the place after it."""

    loop: Loop
    behind: int


def listed(block: Block, code: Code) -> Code:
    """The code, extended by the statements of a block."""
    for statement in block:
        if isinstance(statement, Choice):
            list_choice(statement, code)
        elif isinstance(statement, Loop):
            begun = len(code)
            code.append(None)
            listed(statement.block, code)
            code.append(Turn(statement, begun + 1))
            code[begun] = Begun(statement, len(code))
        else:
            code.append(statement)
    return code


def list_choice(choice: Choice, code: Code) -> None:
    tried = len(code)
    places: list[int] = []
    ends: list[int] = []
    code.append(None)
    blocks = [block for _, block in choice.branches]
    for block in blocks + ([] if choice.otherwise is None else [choice.otherwise]):
        places.append(len(code))
        listed(block, code)
        ends.append(len(code))
        code.append(None)
    for end in ends:
        code[end] = Jump(len(code))
    code[tried] = Tried(choice, tuple(places))


@dataclass(frozen=True)
class Body:
    """What a component has and does: it never changes."""

    name: str
    ports: tuple[str, ...]
    code: Code
    components: dict[str, int]


class TestCase:
    """The components of a script, and the routes between their ports."""

    def __init__(self, script: Script):
        assert script.case is not None, "a script that is accepted has a test case"
        self.script, self.forms = script, script.forms
        named = [("mtc", script.case.runs_on)] + script.created
        if script.system is not None:
            named.append(("system", script.system))
        self.names = [name for name, _ in named]
        self.places = {name: place for place, name in enumerate(self.names)}
        self.partners: dict[tuple[int, str], list[tuple[int, str]]] = {}
        for one, other in script.pairs:
            self.join(self.end(one), self.end(other))
        self.bodies = [self.body(name, type_name) for name, type_name in named]

    def end(self, written_end: tuple[str, str]) -> tuple[int, str]:
        name, port = written_end
        return self.places["mtc" if name == "self" else name], port

    def join(self, one: tuple[int, str], other: tuple[int, str]) -> None:
        self.partners.setdefault(one, []).append(other)
        self.partners.setdefault(other, []).append(one)

    def body(self, name: str, type_name: str) -> Body:
        """What the component does: the test case, the function that it is started with, or `sut`."""
        arguments: tuple[str, ...] = ()
        function: Function | None = self.script.case
        for started, function_name, given in self.script.starts:
            if started == name:
                function, arguments = self.script.functions[function_name], given
        if name == "system":
            function = self.script.functions.get("sut")
        known = {**self.places, "self": self.places[name]}
        for parameter, argument in zip(function.parameters if function else (), arguments):
            known[parameter] = self.places["mtc" if argument == "self" else argument]
        block = function.block if function else ()
        return Body(name, self.script.component_types[type_name], listed(block, []), known)
