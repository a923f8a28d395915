"""Encodes types that aren't in the profile by types that are (`--encode`), so that each value matches as before.

An enumerated type becomes a record with the name of its value. A union becomes a record with a list for each
alternative: the chosen one has an element, and the others have none. An optional field becomes such a list, which is
empty if the field is left out. A string of bits, hex digits or octets becomes a charstring of its digits.

Each value has one form here, no two values share a form, and only such forms are sent. Therefore a template matches as
before if each of its matching mechanisms is replaced by one that means the same for these forms. If there is none, or
if two types of messages would become one, the script is refused.
"""
from __future__ import annotations

import re
from typing import Callable

from .refusing import refuse
from .tokens import Token
from .types import FieldOfType, Kind, Type, Types
from .values import (
    Chosen, Digits, DigitsPattern, Elements, Enumerated, Excluded, Fields, Form, IfPresent, Mark, Options, TextPattern,
    Wild,
)

_NAME = "name"


class Encoder:
    """`free` returns an unused name for a type. If encoding is off, each type and form stays as it is."""

    def __init__(self, types: Types, free: Callable[[str], str], is_on: bool):
        self.types = types
        self.free = free
        self.is_on = is_on
        self._known: dict[Type, Type] = {}

    # Types

    def type_of(self, type: Type) -> Type:
        """The type in the profile: the same type if the profile has it and all types inside it."""
        root = type.root
        if not self.is_on or not _is_encoded(root, []):
            return root
        known = self._known.get(root)
        if known is None:
            known = self._known[root] = self._begun(root)
            self._fill(known, root)
        return known

    def _begun(self, root: Type) -> Type:
        """The new type without its inner types, because it may contain itself."""
        if root.kind is Kind.BITS:
            return self.types.base("charstring")
        kind = Kind.LIST if root.kind is Kind.LIST else Kind.RECORD
        return Type(kind, root.name, root.at, is_set=root.is_set, size=root.size)

    def _fill(self, found: Type, root: Type) -> None:
        if root.kind is Kind.ENUM:
            found.fields.append(FieldOfType(_NAME, self.types.base("charstring"), False, None))
        elif root.kind is Kind.LIST:
            assert root.element is not None
            found.element = self.type_of(root.element)
        elif root.kind in (Kind.RECORD, Kind.UNION):
            for field in root.fields:
                is_list = field.is_optional or root.kind is Kind.UNION
                of = self._none_or_one(root, field) if is_list else self.type_of(field.type)
                found.fields.append(FieldOfType(field.name, of, False, None))

    def _none_or_one(self, root: Type, field: FieldOfType) -> Type:
        name = self.free(f"{root.name}_{field.name}")
        return Type(Kind.LIST, name, root.at, element=self.type_of(field.type))

    # Values and templates

    def form_of(self, form: Form, type: Type, at: Token) -> Form:
        """A value or a template of the type, in the profile."""
        root = type.root
        if not self.is_on or not _is_encoded(root, []) or isinstance(form, Wild):
            return form
        if isinstance(form, (Options, Excluded)):
            items = tuple(self.form_of(item, type, at) for item in form.items)
            return Options(items) if isinstance(form, Options) else Excluded(items)
        if isinstance(form, Enumerated):
            return Fields((form.word,))
        if isinstance(form, Digits):
            return form.digits
        if isinstance(form, DigitsPattern):
            return _pattern_of(form, at)
        if isinstance(form, Chosen):
            return Fields(tuple(self._alternative(form, field, at) for field in root.fields))
        if isinstance(form, Fields):
            pairs = zip(form.items, root.fields)
            return Fields(tuple(self._field(item, field, at) for item, field in pairs))
        assert isinstance(form, Elements) and root.element is not None
        return Elements(tuple(self.form_of(item, root.element, at) for item in form.items))

    def _alternative(self, form: Chosen, field: FieldOfType, at: Token) -> Form:
        return Elements((self.form_of(form.value, field.type, at),) if field.name == form.name else ())

    def _field(self, form: Form, field: FieldOfType, at: Token) -> Form:
        if not field.is_optional:
            return self.form_of(form, field.type, at)
        if form is Mark.OMIT:
            return Elements(())
        if form is Wild.ANY_OR_NONE:
            return Wild.ANY
        if isinstance(form, IfPresent):
            return Options((Elements(()), Elements((self.form_of(form.form, field.type, at),))))
        return Elements((self.form_of(form, field.type, at),))


def _is_encoded(root: Type, above: list[Type]) -> bool:
    """Whether the type, or a type inside it, isn't in the profile."""
    if root in above:
        return False
    if root.kind in (Kind.ENUM, Kind.UNION, Kind.BITS):
        return True
    inner = [root.element] if root.kind is Kind.LIST else [field.type for field in root.fields]
    is_open = any(field.is_optional for field in root.fields)
    return is_open or any(_is_encoded(type.root, [*above, root]) for type in inner if type is not None)


def _pattern_of(form: DigitsPattern, at: Token) -> Form:
    """The pattern as characters. `?` in octets is two digits; two `*` could match half an octet."""
    if form.letter != "O":
        return TextPattern(form.digits)
    if any(len(digits) % 2 for digits in re.split("[?*]", form.digits)):
        refuse(at, "an octet has two digits")
    if form.digits.count("*") > 1:
        refuse(at, "an octetstring with several `*` isn't carried over: its digits could match at half an octet")
    return TextPattern(form.digits.replace("?", "??"))
