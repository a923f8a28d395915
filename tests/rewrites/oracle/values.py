"""Values and templates, and whether a template matches (ES 201 873-1, 6, 7, 15, 16.1.2 and B.1)."""
from __future__ import annotations

import operator
import re
from enum import Enum
from typing import Any, Callable, NamedTuple, Optional


class Fault(Exception):
    """An error of the test case in the full language."""


class Mark(Enum):
    UNSET = "without a value"
    OMIT = "omit"
    ANY = "?"
    ANY_OR_NONE = "*"
    SKIP = "-"


class Word(NamedTuple):
    """A value of an enumerated type."""

    type: str
    name: str


class Record(NamedTuple):
    type: str
    fields: tuple[Any, ...]


class Series(NamedTuple):
    """A value of a `record of`."""

    type: str
    items: tuple[Any, ...]


class Component(NamedTuple):
    """A default is one with a number below 0."""

    number: int


class Range(NamedTuple):
    low: Optional[int]
    high: Optional[int]


class Among(NamedTuple):
    """One of several templates, or none of them."""

    is_one: bool
    templates: tuple[Any, ...]


class Pattern(NamedTuple):
    text: str


def matches(template: Any, value: Any) -> bool:
    if isinstance(template, Among):
        found = any(matches(it, value) for it in template.templates)
        return found if template.is_one else value is not Mark.OMIT and not found
    if template is Mark.ANY_OR_NONE or template is Mark.OMIT or value is Mark.OMIT:
        return template is Mark.ANY_OR_NONE or template is value
    if isinstance(template, Range):
        return (template.low is None or template.low <= value) and (template.high is None or value <= template.high)
    if isinstance(template, Pattern):
        signs = {"?": ".", "*": ".*"}
        return re.fullmatch("".join(signs.get(it, re.escape(it)) for it in template.text), value, re.DOTALL) is not None
    if isinstance(template, Record):
        return all(matches(part, of) for part, of in zip(template.fields, value.fields))
    if isinstance(template, Series):
        return items_match(template.items, value.items)
    return template is Mark.ANY or bool(template == value)


def items_match(templates: tuple[Any, ...], items: tuple[Any, ...]) -> bool:
    """`*` matches any number of elements, including none."""
    if not templates:
        return not items
    if templates[0] is Mark.ANY_OR_NONE:
        return any(items_match(templates[1:], items[skipped:]) for skipped in range(len(items) + 1))
    return bool(items) and matches(templates[0], items[0]) and items_match(templates[1:], items[1:])


def type_of(it: Any) -> str:
    """The type of a value, or of a template that shows it."""
    if isinstance(it, (Word, Record, Series)):
        return it.type
    if isinstance(it, Among):
        return type_of(it.templates[0])
    return {bool: "boolean", int: "integer", Range: "integer", str: "charstring", Pattern: "charstring"}[type(it)]


def value_of(it: Any) -> Any:
    """The value, if all its parts are set."""
    if isinstance(it, (Record, Series)):
        for part in it[1]:
            if part is not Mark.OMIT or isinstance(it, Series):
                value_of(part)
    elif not isinstance(it, (bool, int, float, str, Word, Component)):
        raise Fault("there is no value")
    return it


def divided(left: int, right: int) -> int:
    """7.1.1: rounds towards zero."""
    if right == 0:
        raise Fault("division by zero")
    whole = abs(left) // abs(right)
    return whole if (left < 0) == (right < 0) else -whole


def remainder(left: int, right: int) -> int:
    return left - right * divided(left, right)


_OPERATORS: dict[str, Callable[[Any, Any], Any]] = {
    "+": operator.add, "-": operator.sub, "*": operator.mul, "&": operator.add, "/": divided, "rem": remainder,
    "mod": lambda left, right: remainder(remainder(left, right) + abs(right), right), "<": operator.lt,
    ">": operator.gt, "<=": operator.le, ">=": operator.ge, "xor": operator.ne, "and": operator.and_, "or": operator.or_,
}
UNARY: dict[str, Callable[[Any], Any]] = {"not": operator.not_, "-": operator.neg, "pattern": Pattern}
_FUNCTIONS: dict[str, Callable[[Any], Any]] = {
    "int2str": str, "str2int": int, "char2int": ord, "int2char": chr, "valueof": lambda it: it,
}


def calculated(sign: str, left: Any, right: Any) -> Any:
    """The result of an operator with two operands (7.1). An absent value can be compared with `omit`."""
    if sign in ("==", "!="):
        both = (it if it is Mark.OMIT else value_of(it) for it in (left, right))
        return (sign == "==") == (next(both) == next(both))
    if isinstance(left, Series) and sign == "&":
        return Series(left.type, left.items + value_of(right).items)
    return _OPERATORS[sign](value_of(left), value_of(right))


def predefined(name: str, given: list[Any]) -> Any:
    """What a predefined function returns (annex C)."""
    first = given[0]
    if name == "ispresent":
        return first is not Mark.OMIT and first is not Mark.UNSET
    if name == "match":
        return matches(given[1], value_of(first))
    for one in given:
        value_of(one)
    if name == "lengthof":
        return len(first.items if isinstance(first, Series) else first)
    if name == "str2int" and not re.fullmatch("[-+]?[0-9]+", first):
        raise Fault("not a number")
    if name == "substr":
        if min(given[1:]) < 0 or given[1] + given[2] > len(first):
            raise Fault("beyond the string")
        return first[given[1] : given[1] + given[2]]
    return _FUNCTIONS[name](first)
