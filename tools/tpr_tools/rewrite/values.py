"""Values and templates as a rewrite knows them, and whether a value matches a template (ES 201 873-1, Annex B).

A form is a value if nothing in it is open. An integer, a boolean and a charstring stand for themselves.
"""
from __future__ import annotations

import re
from dataclasses import dataclass
from enum import Enum
from typing import NamedTuple, Optional, Union

from .patterns import Pattern, fits_pattern


class Wild(Enum):
    ANY = "?"
    ANY_OR_NONE = "*"


class Mark(Enum):
    """Forms that aren't messages: no value yet, `omit`, `null`, `-`, and the value that a refused statement would
    set."""

    UNSET = "unset"
    OMIT = "omit"
    NULL = "null"
    NOT_USED = "-"
    LOST = "lost"


@dataclass(frozen=True)
class Fields:
    """The fields of a record, in declared order."""

    items: tuple[Form, ...]


@dataclass(frozen=True)
class Elements:
    """The elements of a record of, or of an array."""

    items: tuple[Form, ...]


@dataclass(frozen=True)
class Enumerated:
    word: str


@dataclass(frozen=True)
class Chosen:
    """A union with this alternative."""

    name: str
    value: Form


@dataclass(frozen=True)
class Digits:
    digits: str
    letter: str


@dataclass(frozen=True)
class DigitsPattern:
    """Digits with `?` for any one of them (for octets: any two), and `*` for any number of these."""

    digits: str
    letter: str


@dataclass(frozen=True)
class Options:
    items: tuple[Form, ...]


@dataclass(frozen=True)
class Excluded:
    items: tuple[Form, ...]


@dataclass(frozen=True)
class Bounds:
    low: Optional[int]
    high: Optional[int]


@dataclass(frozen=True)
class TextPattern:
    text: str


@dataclass(frozen=True)
class Texts:
    """Texts of a pattern that the profile doesn't have: it lacks such signs, and too many texts match to list them."""

    pattern: Pattern


@dataclass(frozen=True)
class IfPresent:
    form: Form


@dataclass(frozen=True)
class ComponentValue:
    number: int


@dataclass(frozen=True)
class VerdictValue:
    word: str


@dataclass(frozen=True)
class DefaultValue:
    number: int


@dataclass(frozen=True)
class PortValue:
    name: str


@dataclass(frozen=True)
class TimerValue:
    """A timer, and whether it was started, so that its timeout may come."""

    name: str
    is_running: bool = False


@dataclass(frozen=True)
class Reference:
    """A parameter that refers to another variable."""

    scope: int
    name: str
    steps: tuple[int, ...] = ()


@dataclass(frozen=True)
class End:
    """A port of a component, by the number of the component."""

    component: int
    port: str


class Coming(NamedTuple):
    """A message that can come: the port that it is sent from, its type and its value."""

    sender: End
    type: object
    form: Form


class Symbol:
    """A received message: what its template and the branches say about it, and no more."""

    def __init__(self, number: int, type: object, template: Form, hint: str):
        self.number = number
        self.type = type
        self.template = template
        self.hint = hint
        self.facts: Facts = {}
        self.is_used = False
        self.name = ""
        self.is_sender = False
        # For a sender: the components that it may be.
        self.peers: tuple[int, ...] = ()
        # All messages that it can be, if they are known.
        self.coming: tuple[Coming, ...] = ()


@dataclass(frozen=True)
class Received:
    """A received message, or a part of it, by the steps from the whole message."""

    symbol: Symbol
    steps: tuple[int, ...] = ()


Form = Union[
    int, bool, str, float, Wild, Mark, Fields, Elements, Enumerated, Chosen, Digits, Options, Excluded, Bounds,
    TextPattern, Texts, DigitsPattern, IfPresent, ComponentValue, VerdictValue, DefaultValue, PortValue, TimerValue, Reference,
    Received,
]

# Facts about a message: whether the part at these steps matches.
Facts = dict[tuple[tuple[int, ...], Form], bool]
_OPEN = (Wild, Options, Excluded, Bounds, TextPattern, Texts, DigitsPattern, Received, IfPresent)
VERDICTS = ("none", "pass", "inconc", "fail", "error")


def worse(one: str, other: str) -> str:
    return max(one, other, key=VERDICTS.index)


def is_value(form: Form) -> bool:
    """Whether nothing in it is open or unset."""
    if isinstance(form, _OPEN) or form in (Mark.UNSET, Mark.NOT_USED, Mark.LOST):
        return False
    if isinstance(form, (Fields, Elements)):
        return all(map(is_value, form.items))
    return is_value(form.value) if isinstance(form, Chosen) else True


def is_template(form: Form) -> bool:
    """Whether it can be used in a receive: nothing in it is unset or part of a received message."""
    if isinstance(form, Received) or form in (Mark.UNSET, Mark.NOT_USED, Mark.LOST):
        return False
    if isinstance(form, (Fields, Elements, Options, Excluded)):
        return all(map(is_template, form.items))
    if isinstance(form, (Chosen, IfPresent)):
        return is_template(form.value if isinstance(form, Chosen) else form.form)
    return True


def has_received(form: Form) -> bool:
    return _has(form, Received)


def has_texts(form: Form) -> bool:
    """Whether it can't be written, because the matching texts can't be listed."""
    return _has(form, Texts)


def _has(form: Form, kind: type) -> bool:
    if isinstance(form, kind):
        return True
    if isinstance(form, (Fields, Elements, Options, Excluded)):
        return any(_has(item, kind) for item in form.items)
    if isinstance(form, (Chosen, IfPresent)):
        return _has(form.value if isinstance(form, Chosen) else form.form, kind)
    return False


def same(one: Form, other: Form) -> bool:
    """Whether the two are equal; `1` isn't equal to `true`."""
    if isinstance(one, bool) is not isinstance(other, bool):
        return False
    if isinstance(one, (Fields, Elements)) and type(one) is type(other):
        assert isinstance(other, (Fields, Elements))
        pairs = zip(one.items, other.items)
        return len(one.items) == len(other.items) and all(same(a, b) for a, b in pairs)
    return one == other


def matches(value: Form, template: Form) -> bool:
    """Whether a value matches a template. Both have one type."""
    if isinstance(template, Wild):
        return template is Wild.ANY_OR_NONE or value is not Mark.OMIT
    if isinstance(template, IfPresent):
        return value is Mark.OMIT or matches(value, template.form)
    if isinstance(template, Options):
        return any(matches(value, item) for item in template.items)
    if isinstance(template, Excluded):
        return value is not Mark.OMIT and not any(matches(value, item) for item in template.items)
    if isinstance(template, Bounds):
        return isinstance(value, int) and _within(value, template)
    if isinstance(template, TextPattern):
        return isinstance(value, str) and _fits_pattern(value, template.text, ".")
    if isinstance(template, Texts):
        return isinstance(value, str) and fits_pattern(value, template.pattern)
    if isinstance(template, DigitsPattern):
        one = ".." if template.letter == "O" else "."
        return isinstance(value, Digits) and _fits_pattern(value.digits, template.digits, one)
    return _matches_parts(value, template)


def _matches_parts(value: Form, template: Form) -> bool:
    if isinstance(template, Fields) and isinstance(value, Fields):
        return all(matches(one, other) for one, other in zip(value.items, template.items))
    if isinstance(template, Elements) and isinstance(value, Elements):
        return _match_elements(value.items, template.items)
    if isinstance(template, Chosen) and isinstance(value, Chosen):
        return template.name == value.name and matches(value.value, template.value)
    return same(value, template)


def _within(value: int, bounds: Bounds) -> bool:
    low = bounds.low is None or bounds.low <= value
    return low and (bounds.high is None or value <= bounds.high)


def _fits_pattern(text: str, pattern: str, one: str) -> bool:
    letters = "".join({"?": one, "*": f"({one})*"}.get(letter, re.escape(letter)) for letter in pattern)
    return re.fullmatch(letters, text, re.DOTALL) is not None


def _match_elements(values: tuple[Form, ...], templates: tuple[Form, ...]) -> bool:
    """Keeps, after each template, the numbers of values that the templates so far can match."""
    ends = {0}
    for template in templates:
        if template is Wild.ANY_OR_NONE:
            ends = set(range(min(ends), len(values) + 1)) if ends else ends
        else:
            ends = {end + 1 for end in ends if end < len(values) and matches(values[end], template)}
    return len(values) in ends


def may_be_left_out(template: Form) -> bool:
    """For an optional field: whether the template matches `omit` beside values."""
    return template is Wild.ANY_OR_NONE or isinstance(template, IfPresent)


def decided(template: Form, asked: Form) -> Optional[bool]:
    """Whether all values that match the template match the asked one, or none do; None if that is open."""
    if is_value(template):
        return matches(template, asked)
    if asked is Wild.ANY or asked is Mark.OMIT:
        return None if may_be_left_out(template) else asked is Wild.ANY
    if isinstance(template, Chosen) and isinstance(asked, Chosen):
        return decided(template.value, asked.value) if template.name == asked.name else False
    if isinstance(template, Options):
        answers = {decided(item, asked) for item in template.items}
        return answers.pop() if len(answers) == 1 else None
    if isinstance(template, Bounds):
        return _bounds_decided(template, asked)
    return None


def _bounds_decided(known: Bounds, asked: Form) -> Optional[bool]:
    if isinstance(asked, int) and not isinstance(asked, bool):
        asked = Bounds(asked, asked)
    if not isinstance(asked, Bounds):
        return None
    both = _both(known, asked)
    if both is None:
        return False
    return True if both == known else None


def _both(one: Bounds, other: Bounds) -> Optional[Bounds]:
    lows = [low for low in (one.low, other.low) if low is not None]
    highs = [high for high in (one.high, other.high) if high is not None]
    low, high = max(lows, default=None), min(highs, default=None)
    return None if low is not None and high is not None and low > high else Bounds(low, high)


def narrowed(template: Form, asked: Form) -> Optional[Form]:
    """A template that matches what both match; None if there is none that can be written."""
    if template in (Wild.ANY, Wild.ANY_OR_NONE):
        return asked
    if isinstance(template, IfPresent):
        return asked if asked is Mark.OMIT else narrowed(template.form, asked)
    if asked is Wild.ANY:
        return template
    if isinstance(template, Chosen) and isinstance(asked, Chosen):
        inner = narrowed(template.value, asked.value)
        return inner if inner is None or inner == Options(()) else Chosen(template.name, inner)
    if is_value(asked):
        return asked if is_template(template) and matches(asked, template) else None
    if isinstance(template, Bounds) and isinstance(asked, Bounds):
        return _both(template, asked)
    if isinstance(template, Options):
        return _narrowed_options(template.items, asked)
    return None


def _narrowed_options(items: tuple[Form, ...], asked: Form) -> Optional[Form]:
    """For each item, what both match; a single remaining one stands for itself."""
    found: list[Form] = []
    for item in items:
        answer = decided(item, asked)
        part = narrowed(item, asked) if answer is None else item
        if part is None:
            return None
        if answer is not False and part != Options(()):
            found.append(part)
    return found[0] if len(found) == 1 else Options(tuple(found))
