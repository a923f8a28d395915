"""The syntax tree of expressions, templates, types and declarations of the full language.

Each node has its first token. Nodes are compared by identity.
"""
from __future__ import annotations

from dataclasses import dataclass, field
from enum import Enum
from typing import Optional, Union

from .tokens import Token


@dataclass(eq=False)
class Node:
    at: Token


# Expressions and templates


class Sign(Enum):
    """A sign that stands for itself in an expression or a template."""

    ANY = "?"
    ANY_OR_NONE = "*"
    OMIT = "omit"
    NOT_USED = "-"
    NULL = "null"
    SELF = "self"
    MTC = "mtc"
    SYSTEM = "system"
    GETVERDICT = "getverdict"
    INFINITY = "infinity"


@dataclass(eq=False)
class Literal(Node):
    value: Union[int, bool, str, float]


@dataclass(eq=False)
class Bits(Node):
    """A string of bits, hex digits or octets: its digits, and `B`, `H` or `O`."""

    digits: str
    letter: str


@dataclass(eq=False)
class VerdictWord(Node):
    word: str


@dataclass(eq=False)
class Special(Node):
    sign: Sign


@dataclass(eq=False)
class Name(Node):
    word: str


@dataclass(eq=False)
class FieldOf(Node):
    value: Expression
    word: str


@dataclass(eq=False)
class IndexOf(Node):
    value: Expression
    index: Expression


@dataclass(eq=False)
class Argument(Node):
    name: Optional[str]
    value: Expression


@dataclass(eq=False)
class Call(Node):
    called: Expression
    arguments: list[Argument]


@dataclass(eq=False)
class Braces(Node):
    """`{1, 2}`, `{f := 1}` or `{[0] := 1}`."""

    items: list[Expression]
    named: list[tuple[Union[str, Expression], Expression]]


@dataclass(eq=False)
class OneOf(Node):
    """A list in parentheses: several templates, or one expression."""

    items: list[Expression]


@dataclass(eq=False)
class Complement(Node):
    items: list[Expression]


@dataclass(eq=False)
class RangeOf(Node):
    low: Expression
    high: Expression


@dataclass(eq=False)
class PatternOf(Node):
    text: Expression


@dataclass(eq=False)
class OtherMatching(Node):
    """`superset`, `subset`, `permutation`, `ifpresent`, `length`: the word, and its operands."""

    word: str
    items: list[Expression]


@dataclass(eq=False)
class Binary(Node):
    sign: str
    left: Expression
    right: Expression


@dataclass(eq=False)
class Unary(Node):
    sign: str
    value: Expression


@dataclass(eq=False)
class Typed(Node):
    type: TypeName
    value: Expression


@dataclass(eq=False)
class Modified(Node):
    base: Expression
    body: Expression


@dataclass(eq=False)
class Create(Node):
    type: Expression
    arguments: list[Expression]
    is_alive: bool


@dataclass(eq=False)
class Activate(Node):
    call: Expression


@dataclass(eq=False)
class Asked(Node):
    """`c.running`, `any component.alive`, `t.read`, `p.checkstate(..)` and the like: states that can't be known before
    the run."""

    of: str
    word: str
    target: Optional[Expression] = None
    arguments: list[Expression] = field(default_factory=list)


Expression = Union[
    Literal, Bits, VerdictWord, Special, Name, FieldOf, IndexOf, Call, Braces, OneOf, Complement, RangeOf,
    PatternOf, OtherMatching, Binary, Unary, Typed, Modified, Create, Activate, Asked,
]


def word_called(call: Expression) -> str:
    """The name that is called, with or without brackets after it; empty if it has none."""
    called = call.called if isinstance(call, Call) else call
    return called.word if isinstance(called, (Name, FieldOf)) else ""


# Types


@dataclass(eq=False)
class TypeName(Node):
    """A type that is named, or written out within a field; for a result also the restriction of its template."""

    word: str
    body: Optional[TypeBody] = None
    sizes: list[Expression] = field(default_factory=list)
    restriction: str = ""


@dataclass(eq=False)
class FieldType(Node):
    type: TypeName
    name: str
    is_optional: bool
    restriction: Optional[Restriction]


@dataclass(eq=False)
class Restriction(Node):
    """The restriction after a subtype's name: its list in parentheses, and its length."""

    values: list[Expression]
    lengths: list[Expression]


@dataclass(eq=False)
class RecordBody(Node):
    fields: list[FieldType]
    is_set: bool


@dataclass(eq=False)
class UnionBody(Node):
    fields: list[FieldType]


@dataclass(eq=False)
class ListBody(Node):
    element: TypeName
    is_set: bool
    restriction: Optional[Restriction]


@dataclass(eq=False)
class EnumBody(Node):
    """Each name, with the number after it; `is_of_ranges` if a name has several numbers."""

    names: list[str]
    numbers: list[Optional[int]] = field(default_factory=list)
    is_of_ranges: bool = False


@dataclass(eq=False)
class AliasBody(Node):
    type: TypeName
    restriction: Optional[Restriction]


@dataclass(eq=False)
class PortBody(Node):
    is_message: bool
    sent: list[TypeName]
    received: list[TypeName]
    has_all: bool


@dataclass(eq=False)
class ComponentBody(Node):
    extends: list[Expression]
    members: list[Declaration]


@dataclass(eq=False)
class OtherBody(Node):
    """A type that can't be carried over, and why."""

    reason: str


TypeBody = Union[
    RecordBody, UnionBody, ListBody, EnumBody, AliasBody, PortBody, ComponentBody, OtherBody
]


# Declarations


class Declared(Enum):
    VALUE = "var"
    CONSTANT = "const"
    TEMPLATE = "template"
    TIMER = "timer"
    PORT = "port"


@dataclass(eq=False)
class Variable(Node):
    name: str
    sizes: list[Expression]
    value: Optional[Expression]


@dataclass(eq=False)
class Declaration(Node):
    """`is_late` if a value is evaluated at its use: `@lazy` or `@fuzzy`."""

    kind: Declared
    type: TypeName
    variables: list[Variable]
    is_late: bool
    span: tuple[int, int] = (0, 0)
    restriction: str = ""
