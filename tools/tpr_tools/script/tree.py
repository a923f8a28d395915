"""The syntax tree of a script, by the grammar of docs/PROFILE.md.

Each name and each word is kept as the number of its token, so that messages can show its place. `start` is the first
token of the whole construct.
"""
from __future__ import annotations

from dataclasses import dataclass
from enum import Enum
from typing import Iterable, Iterator, Optional, Union


class ValueKind(Enum):
    """The kinds of values and templates."""

    INTEGER = "a number"
    BOOLEAN = "a truth value"
    TEXT = "a text"
    NAME = "a name"
    ANY = "`?`"
    ANY_OR_NONE = "`*`"
    ONE_OF = "a list of templates"
    COMPLEMENT = "a `complement`"
    RANGE = "a range"
    PATTERN = "a pattern"
    LIST = "a list"
    FIELDS = "a list of fields by their names"


@dataclass
class Value:
    """A value or a template. `names` are those of the fields, `bounds` those of a range."""

    start: int
    kind: ValueKind
    members: tuple["Value", ...] = ()
    names: tuple[int, ...] = ()
    bounds: tuple[Optional[int], Optional[int]] = (None, None)


@dataclass
class Message:
    """`type : value`"""

    type: int
    value: Value


@dataclass
class Declared:
    """A field, a port, a parameter or a variable: its type, and its own name."""

    start: int
    type: int
    name: int


@dataclass
class Record:
    start: int
    name: int
    fields: list[Declared]


@dataclass
class ListType:
    start: int
    element: int
    name: int


@dataclass
class Direction:
    """`in`, `out` or `inout`, and the types."""

    way: int
    types: list[int]


@dataclass
class PortType:
    start: int
    name: int
    directions: list[Direction]


@dataclass
class ComponentType:
    start: int
    name: int
    ports: list[Declared]


@dataclass
class Function:
    start: int
    name: int
    parameters: list[Declared]
    runs_on: int
    variables: list[Declared]
    statements: list["Statement"]


@dataclass
class Creation:
    """`var type name := created.create`"""

    start: int
    type: int
    name: int
    created: int


@dataclass
class End:
    """`component:port` of a pair."""

    component: int
    port: int


@dataclass
class Pair:
    """`connect` or `map`; this word is at the start."""

    start: int
    first: End
    second: End


@dataclass
class ComponentStart:
    start: int
    component: int
    function: int
    arguments: list[int]


@dataclass
class TestCase:
    start: int
    name: int
    runs_on: int
    system: Optional[int]
    setups: list[Union[Creation, Pair]]
    starts: list[ComponentStart]
    variables: list[Declared]
    statements: list["Statement"]
    has_done: bool


@dataclass
class Send:
    """`to` is the word `all` for a send to all components."""

    start: int
    port: int
    message: Optional[Message]
    variable: Optional[int]
    to: Optional[int]


@dataclass
class Receive:
    start: int
    port: int
    how: int
    message: Optional[Message]
    sender: Optional[int]
    value_to: Optional[int]
    sender_to: Optional[int]


@dataclass
class Control:
    """An operation on a port, or on all of them."""

    start: int
    port: Optional[int]
    operation: int


@dataclass
class SetVerdict:
    start: int
    verdict: int


@dataclass
class Branch:
    start: int
    receive: Receive
    block: list["Statement"]


@dataclass
class Otherwise:
    """`[else]` and its block"""

    start: int
    block: list["Statement"]


@dataclass
class Alt:
    start: int
    branches: list[Branch]
    otherwise: Optional[Otherwise]


@dataclass
class Loop:
    start: int
    name: int
    first: int
    bound: int
    block: list["Statement"]


Statement = Union[Send, Receive, Control, SetVerdict, Alt, Loop]
Body = Union[Function, TestCase]
Definition = Union[Record, ListType, PortType, ComponentType, Function, TestCase]


@dataclass
class Module:
    start: int
    name: int
    definitions: list[Definition]


def blocks_of(statement: Statement) -> list[list[Statement]]:
    if isinstance(statement, Loop):
        return [statement.block]
    if not isinstance(statement, Alt):
        return []
    blocks = [branch.block for branch in statement.branches]
    return blocks + ([statement.otherwise.block] if statement.otherwise else [])


def statements_in(statements: Iterable[Statement]) -> Iterator[Statement]:
    """All statements of a block, and of the blocks in it."""
    for statement in statements:
        yield statement
        for block in blocks_of(statement):
            yield from statements_in(block)


def operations_in(statements: Iterable[Statement]) -> list[Union[Send, Receive, Control]]:
    """All sends, receiving operations and port operations, including those of branches, in the order of the text."""
    inside = [*statements_in(statements)]
    branches = [branch.receive for it in inside if isinstance(it, Alt) for branch in it.branches]
    found = [*branches, *(it for it in inside if isinstance(it, (Send, Receive, Control)))]
    return sorted(found, key=lambda it: it.start)
