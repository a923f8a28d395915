"""The syntax tree of a module of the full language: its definitions and statements.

Each node has its first token. Nodes are compared by identity.
"""
from __future__ import annotations

from dataclasses import dataclass
from enum import Enum
from typing import Optional, Union

from .tree_expressions import *  # noqa: F403
from .tree_expressions import Declaration, Expression, Node, TypeBody, TypeName

# Statements


@dataclass(eq=False)
class Assignment(Node):
    target: Expression
    value: Expression
    span: tuple[int, int] = (0, 0)


@dataclass(eq=False)
class CallStatement(Node):
    call: Expression
    span: tuple[int, int] = (0, 0)


@dataclass(eq=False)
class Block(Node):
    statements: list[Statement]
    span: tuple[int, int] = (0, 0)


@dataclass(eq=False)
class If(Node):
    condition: Expression
    then: Block
    otherwise: Optional[Block]
    span: tuple[int, int] = (0, 0)


@dataclass(eq=False)
class Case(Node):
    templates: Optional[list[Expression]]
    block: Block


@dataclass(eq=False)
class Select(Node):
    value: Expression
    cases: list[Case]
    is_union: bool
    span: tuple[int, int] = (0, 0)


@dataclass(eq=False)
class For(Node):
    first: Statement
    condition: Expression
    step: Statement
    block: Block
    span: tuple[int, int] = (0, 0)


@dataclass(eq=False)
class While(Node):
    condition: Expression
    block: Block
    is_first_done: bool
    span: tuple[int, int] = (0, 0)


class Leaving(Enum):
    BREAK = "break"
    CONTINUE = "continue"
    REPEAT = "repeat"
    STOP = "stop"


@dataclass(eq=False)
class Leave(Node):
    how: Leaving
    span: tuple[int, int] = (0, 0)


@dataclass(eq=False)
class Label(Node):
    name: str
    span: tuple[int, int] = (0, 0)


@dataclass(eq=False)
class Goto(Node):
    name: str
    span: tuple[int, int] = (0, 0)


@dataclass(eq=False)
class Return(Node):
    value: Optional[Expression]
    span: tuple[int, int] = (0, 0)


@dataclass(eq=False)
class Dropped(Node):
    """A `log`, with its arguments."""

    arguments: list[Expression]
    span: tuple[int, int] = (0, 0)


@dataclass(eq=False)
class SetVerdict(Node):
    verdict: Expression
    reasons: list[Expression]
    span: tuple[int, int] = (0, 0)


@dataclass(eq=False)
class Deactivate(Node):
    value: Optional[Expression]
    span: tuple[int, int] = (0, 0)


@dataclass(eq=False)
class Place(Node):
    """A port of a component, after `connect` or `map`."""

    component: Optional[Expression]
    port: Optional[Expression]


class Joining(Enum):
    CONNECT = "connect"
    MAP = "map"
    DISCONNECT = "disconnect"
    UNMAP = "unmap"


@dataclass(eq=False)
class Join(Node):
    how: Joining
    places: list[Place]
    has_parameters: bool
    span: tuple[int, int] = (0, 0)


class PortAct(Enum):
    START = "start"
    STOP = "stop"
    HALT = "halt"
    CLEAR = "clear"


@dataclass(eq=False)
class Operate(Node):
    """`p.start`, `all port.stop`, and also `c.stop` and `t.start`: the name tells which kind it is."""

    target: Optional[Expression]
    act: PortAct
    arguments: list[Expression]
    span: tuple[int, int] = (0, 0)
    # `all timer.stop`.
    is_of_timers: bool = False


class Finding(Enum):
    DONE = "done"
    KILLED = "killed"
    TIMEOUT = "timeout"


class Any(Enum):
    """What is meant if there is no name."""

    ANY = "any"
    ALL = "all"


@dataclass(eq=False)
class Send(Node):
    port: Expression
    message: Expression
    to: list[Expression]
    to_all: bool
    span: tuple[int, int] = (0, 0)


class Receiving(Enum):
    RECEIVE = "receive"
    TRIGGER = "trigger"
    CHECK = "check"


@dataclass(eq=False)
class Redirect(Node):
    """Where the value is stored, whole or by fields, and the sender."""

    value: Optional[Expression]
    parts: list[tuple[Expression, Expression]]
    sender: Optional[Expression]
    index: Optional[Expression]


@dataclass(eq=False)
class Receive(Node):
    """`port` is None for `any port`; `is_each` is set for `any from p`."""

    how: Receiving
    port: Optional[Expression]
    is_each: bool
    template: Optional[Expression]
    senders: list[Expression]
    redirect: Optional[Redirect]
    span: tuple[int, int] = (0, 0)


@dataclass(eq=False)
class Find(Node):
    """`c.done`, `all component.killed`, `t.timeout`."""

    how: Finding
    target: Union[Expression, Any]
    is_timer: bool
    has_more: bool
    span: tuple[int, int] = (0, 0)


@dataclass(eq=False)
class Unsupported(Node):
    """A statement that can't be carried over, and why."""

    reason: str
    span: tuple[int, int] = (0, 0)


@dataclass(eq=False)
class Branch(Node):
    """A branch of an `alt`: `event` is None for `[else]`, a Call for an altstep."""

    guard: Optional[Expression]
    is_else: bool
    event: Optional[Statement]
    block: Optional[Block]


@dataclass(eq=False)
class Alt(Node):
    branches: list[Branch]
    is_interleave: bool
    span: tuple[int, int] = (0, 0)


Statement = Union[
    Declaration, Assignment, CallStatement, Block, If, Select, For, While, Leave, Label, Goto, Return, Dropped,
    SetVerdict, Deactivate, Join, Operate, Send, Receive, Find, Unsupported, Alt,
]


def blocks_of(statement: Statement) -> list[Block]:
    if isinstance(statement, Alt):
        return [branch.block for branch in statement.branches if branch.block is not None]
    if isinstance(statement, If):
        return [statement.then, *([statement.otherwise] if statement.otherwise else [])]
    if isinstance(statement, Select):
        return [case.block for case in statement.cases]
    if isinstance(statement, Block):
        return [statement]
    return [statement.block] if isinstance(statement, (For, While)) else []


# Definitions


class Direction(Enum):
    IN = "in"
    OUT = "out"
    INOUT = "inout"


@dataclass(eq=False)
class Parameter(Node):
    direction: Direction
    type: TypeName
    name: str
    value: Optional[Expression]
    # For a template: `value`, `omit`, `present` or nothing.
    restriction: str = ""


@dataclass(eq=False)
class TypeDefinition(Node):
    name: str
    body: TypeBody


@dataclass(eq=False)
class Constant(Node):
    """A constant or a module parameter."""

    name: str
    type: TypeName
    value: Optional[Expression]
    is_parameter: bool


@dataclass(eq=False)
class TemplateDefinition(Node):
    name: str
    type: TypeName
    parameters: list[Parameter]
    base: Optional[str]
    body: Expression
    restriction: str = ""


@dataclass(eq=False)
class Function(Node):
    name: str
    parameters: list[Parameter]
    runs_on: Optional[str]
    result: Optional[TypeName]
    body: Optional[Block]
    module: str = ""


@dataclass(eq=False)
class Altstep(Node):
    name: str
    parameters: list[Parameter]
    runs_on: Optional[str]
    declarations: list[Declaration]
    branches: list[Branch]
    span: tuple[int, int] = (0, 0)


@dataclass(eq=False)
class TestCase(Node):
    name: str
    parameters: list[Parameter]
    runs_on: Optional[str]
    system: Optional[str]
    body: Block


Definition = Union[TypeDefinition, Constant, TemplateDefinition, Function, Altstep, TestCase]


@dataclass(eq=False)
class Module(Node):
    name: str
    definitions: list[Definition]
    imports: list[Name]
    control: list[Statement]
    # The variables of the control part that always have one value there, whatever is executed.
    known: list[Constant]
