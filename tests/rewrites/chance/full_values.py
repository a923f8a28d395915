"""Values and templates of the full language, for an interpreter that shares only the reader with tools/rewrite."""
from __future__ import annotations

import fnmatch
from dataclasses import dataclass
from typing import Any, Optional


@dataclass(frozen=True)
class Record:
    items: tuple[Any, ...]


@dataclass(frozen=True)
class List:
    items: tuple[Any, ...]


@dataclass(frozen=True)
class Word:
    """An enumerated value."""

    word: str


@dataclass(frozen=True)
class Choice:
    name: str
    value: Any


@dataclass(frozen=True)
class Component:
    number: int


@dataclass(frozen=True)
class Port:
    name: str


@dataclass(frozen=True)
class Default:
    number: int


@dataclass(frozen=True)
class Sign:
    """`?`, `*`, `omit`, or no value yet."""

    word: str


ANY, ANY_OR_NONE, OMIT, UNSET = map(Sign, ("?", "*", "omit", "unset"))


@dataclass(frozen=True)
class OneOf:
    items: tuple[Any, ...]


@dataclass(frozen=True)
class NoneOf:
    items: tuple[Any, ...]


@dataclass(frozen=True)
class Range:
    low: Optional[int]
    high: Optional[int]


@dataclass(frozen=True)
class Pattern:
    text: str


@dataclass(frozen=True)
class IfPresent:
    template: Any


def is_same(one: Any, other: Any) -> bool:
    return type(one) is type(other) and bool(one == other)


def matches(value: Any, template: Any) -> bool:
    """Whether a value matches a template (ES 201 873-1, Annex B). An omitted field is `omit`."""
    if template is ANY_OR_NONE:
        return True
    if isinstance(template, IfPresent):
        return value is OMIT or matches(value, template.template)
    if value is OMIT:
        return template is OMIT
    if template is ANY:
        return True
    if isinstance(template, OneOf):
        return any(matches(value, item) for item in template.items)
    if isinstance(template, NoneOf):
        return not any(matches(value, item) for item in template.items)
    if isinstance(template, Range):
        return (template.low is None or template.low <= value) and (template.high is None or value <= template.high)
    if isinstance(template, Pattern):
        return fnmatch.fnmatchcase(value, template.text)
    return _match_parts(value, template)


def _match_parts(value: Any, template: Any) -> bool:
    if isinstance(template, Record):
        return all(matches(*pair) for pair in zip(value.items, template.items))
    if isinstance(template, Choice):
        return template.name == value.name and matches(value.value, template.value)
    if isinstance(template, List):
        return _match_lists(value.items, template.items)
    return is_same(value, template)


def _match_lists(values: tuple[Any, ...], templates: tuple[Any, ...]) -> bool:
    if not templates:
        return not values
    if templates[0] is ANY_OR_NONE:
        return any(_match_lists(values[skipped:], templates[1:]) for skipped in range(len(values) + 1))
    return bool(values) and matches(values[0], templates[0]) and _match_lists(values[1:], templates[1:])
