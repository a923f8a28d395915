"""Whether a value or a template fits a type of the profile (ES 201 873-1, 6 and Annex B)."""
from __future__ import annotations

from typing import Iterable, Optional

from .types import FieldOfType, Kind, Type
from .values import (
    Bounds, Chosen, Digits, DigitsPattern, Elements, Enumerated, Excluded, Facts, Fields, Form, IfPresent, Mark,
    Options, TextPattern, Texts, Wild,
)

LEAST, MOST = -(2**63), 2**63 - 1
_SIGNS = frozenset(map(chr, range(32, 127)))


def fits_type(form: Form, type: Type) -> bool:
    if isinstance(form, Wild):
        return form is Wild.ANY
    if isinstance(form, (Options, Excluded)):
        return bool(form.items) and all(fits_type(item, type) for item in form.items)
    root = type.root
    if type.kind is Kind.RECORD:
        return isinstance(form, Fields) and _fits_fields(form, root)
    if type.kind is Kind.LIST:
        return isinstance(form, Elements) and _fits_elements(form, type)
    if type.kind is Kind.UNION:
        return isinstance(form, Chosen) and _fits_chosen(form, root)
    return _fits_simple(form, type)


def _fits_simple(form: Form, type: Type) -> bool:
    if type.kind is Kind.INTEGER:
        if isinstance(form, Bounds):
            return all(bound is None or LEAST <= bound <= MOST for bound in (form.low, form.high))
        return isinstance(form, int) and not isinstance(form, bool) and LEAST <= form <= MOST
    if type.kind is Kind.BOOLEAN:
        return isinstance(form, bool)
    if type.kind is Kind.CHARSTRING:
        text = form.text if isinstance(form, TextPattern) else form
        return isinstance(form, Texts) or isinstance(text, str) and set(text) <= _SIGNS
    if type.kind is Kind.ENUM:
        return isinstance(form, Enumerated) and form.word in type.root.names
    is_of_digits = isinstance(form, (Digits, DigitsPattern)) and form.letter == type.root.name[0].upper()
    return type.kind is Kind.BITS and is_of_digits


def _fits_fields(form: Fields, root: Type) -> bool:
    if len(form.items) != len(root.fields):
        return False
    for item, field in zip(form.items, root.fields):
        if field.is_optional and (item in (Mark.OMIT, Wild.ANY_OR_NONE)):
            continue
        inner = item.form if isinstance(item, IfPresent) and field.is_optional else item
        if not fits_type(inner, field.type):
            return False
    return True


def _fits_elements(form: Elements, type: Type) -> bool:
    element, root = type.root.element or type.element, type
    if element is None or (root.size is not None and _has_other_length(form, root.size)):
        return False
    return all(item is Wild.ANY_OR_NONE or fits_type(item, element) for item in form.items)


def _has_other_length(form: Elements, size: int) -> bool:
    return Wild.ANY_OR_NONE not in form.items and len(form.items) != size


def _fits_chosen(form: Chosen, root: Type) -> bool:
    number = root.field_number(form.name)
    return number is not None and fits_type(form.value, root.fields[number].type)


def nothing_said(field: FieldOfType) -> Form:
    """The template for a field if the template of its record says nothing about it."""
    return Wild.ANY_OR_NONE if field.is_optional else Wild.ANY


def opened(type: Type) -> Fields:
    """`?` of a record, field by field."""
    return Fields(tuple(map(nothing_said, type.root.fields)))


def template_at(form: Form, type: Optional[Type], steps: Iterable[int]) -> Form:
    """What a template of the type says about a part of a matching value, as far as it says anything."""
    for step in steps:
        if type is None:
            return Wild.ANY
        form, type = _part_of(form, type, step)
    return form


def type_at(type: Optional[Type], steps: Iterable[int]) -> Optional[Type]:
    """The type of a part of a value of the type."""
    for step in steps:
        if type is None:
            return None
        _, type = _part_of(Wild.ANY, type, step)
    return type


def open_alternatives(facts: Facts, steps: tuple[int, ...], union: Type) -> list[str]:
    """The alternatives of a received union that no earlier branch has asked for in vain."""
    names = [field.name for field in union.root.fields]
    return [name for name in names if facts.get((steps, Chosen(name, Wild.ANY))) is not False]


def _part_of(form: Form, type: Type, step: int) -> tuple[Form, Optional[Type]]:
    root = type.root
    if type.kind is Kind.RECORD:
        field = root.fields[step]
        return form.items[step] if isinstance(form, Fields) else nothing_said(field), field.type
    if type.kind is Kind.UNION:
        field = root.fields[step]
        is_chosen = isinstance(form, Chosen) and form.name == field.name
        return form.value if isinstance(form, Chosen) and is_chosen else Wild.ANY, field.type
    is_listed = isinstance(form, Elements) and step < len(form.items)
    return form.items[step] if isinstance(form, Elements) and is_listed else Wild.ANY, root.element or type.element
