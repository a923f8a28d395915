"""A script as plain lists: its components, their statements, and how they are joined."""
from __future__ import annotations

from dataclasses import dataclass, field

from ..script.forms import Forms, Test
from ..script.tree import Message

EVERYONE = "all component"

Block = tuple[object, ...]  # of statements


@dataclass(frozen=True)
class Guard:
    """A receiving operation, and the variables that keep its message and sender."""

    how: str
    port: str
    type: str | None
    template: Test | None
    sender: str | None
    value_into: str | None
    sender_into: str | None


@dataclass(frozen=True)
class Variable:
    """The declaration of a variable."""

    name: str


@dataclass(frozen=True)
class Send:
    """A send of a message, or of the value of a variable."""

    port: str
    message: Message | None
    variable: str
    receiver: str | None


@dataclass(frozen=True)
class Control:
    """A port operation. Without a port it means all ports of the component."""

    port: str | None
    operation: str


@dataclass(frozen=True)
class Setverdict:
    """A `setverdict`."""

    verdict: str


@dataclass(frozen=True)
class Choice:
    """An `alt`: guards with their blocks, and the block of `[else]`, if there is one. A receiving operation outside an
    `alt` is one with a single branch."""

    branches: tuple[tuple[Guard, Block], ...]
    otherwise: Block | None


@dataclass(frozen=True)
class Loop:
    """A `for`."""

    variable: str
    first: int
    bound: int
    block: Block


@dataclass(frozen=True)
class Function:
    """A function, or the test case, with the names of its parameters."""

    parameters: tuple[str, ...]
    runs_on: str
    block: Block


@dataclass
class Script:
    """The definitions of a script. Its types are in `forms`."""

    forms: Forms
    component_types: dict[str, tuple[str, ...]] = field(default_factory=dict)
    functions: dict[str, Function] = field(default_factory=dict)
    case: Function | None = None
    system: str | None = None
    created: list[tuple[str, str]] = field(default_factory=list)
    pairs: list[tuple[tuple[str, str], ...]] = field(default_factory=list)
    starts: list[tuple[str, str, tuple[str, ...]]] = field(default_factory=list)
