"""Whether a value or a template of a script fits its type (docs/REFUSALS.md, "4. Bodies")."""
from __future__ import annotations

from typing import Optional

from ..words import counted
from .faults import RuleFault, a, listed, nearest, there_are
from .names import BASE_TYPES, Names
from .refusal_rules import Rule
from .tree import ListType, Record, Value, ValueKind

# The type of values of these kinds.
_FIXED = {
    ValueKind.INTEGER: "integer",
    ValueKind.BOOLEAN: "boolean",
    ValueKind.TEXT: "charstring",
    ValueKind.RANGE: "integer",
    ValueKind.PATTERN: "charstring",
}


class MessageRules:
    """The rules on the values of one statement. `variables` has the names in scope."""

    def __init__(self, names: Names, told: int, loops: list[str], variables: dict[str, int]):
        self.names = names
        self.told = told
        self.loops = loops
        self.variables = variables

    def fault(self, number: int, place: int, sentence: str) -> RuleFault:
        return RuleFault(number, self.told, place, sentence, Rule.FITS)

    def check(self, type_name: str, value: Value, owner: Optional[int] = None) -> None:
        """`owner` is the place of the field that gets the value."""
        kind = value.kind
        if self.names.is_unknown(type_name):
            return
        if kind in _FIXED:
            self._check_fixed(type_name, value, owner)
        elif kind is ValueKind.NAME:
            self._check_name(type_name, value)
        elif kind is ValueKind.ANY_OR_NONE:
            sentence = "`*` is only for elements of a record of: write `?` for any value of a field or an element"
            raise self.fault(13, value.start, sentence).write("`?`")
        elif kind in (ValueKind.ONE_OF, ValueKind.COMPLEMENT):
            for member in value.members:
                self.check(type_name, member, owner)
        elif kind in (ValueKind.LIST, ValueKind.FIELDS):
            self._check_braces(type_name, value, owner)

    def _check_fixed(self, type_name: str, value: Value, owner: Optional[int]) -> None:
        wanted = _FIXED[value.kind]
        if wanted != type_name:
            what = a(wanted).replace("`", "")
            shown = f"`{self._shown(value)}`"
            if value.kind in (ValueKind.RANGE, ValueKind.PATTERN):
                shown = f"{value.kind.value}"
            fault = self.fault(13, value.start, f"{shown} is {what}, but `{type_name}` is expected")
            raise self._of(fault, type_name, owner)
        if value.kind is ValueKind.RANGE:
            lower, upper = (self._number(bound) for bound in value.bounds)
            if lower is not None and upper is not None and lower > upper:
                raise self.fault(13, value.start, f"the range is empty: {lower} is above {upper}")

    def _of(self, fault: RuleFault, type_name: str, owner: Optional[int]) -> RuleFault:
        """Shows the field that the value is for, or else the type."""
        if owner is not None:
            return fault.beside(owner, a(type_name))
        if type_name in self.names.types:
            return fault.beside(self.names.types[type_name].name, "the type")
        return fault

    def _shown(self, value: Value) -> str:
        word = self.names.word(value.start)
        return word + self.names.word(value.start + 1) if word == "-" else word

    def _number(self, place: Optional[int]) -> Optional[int]:
        return None if place is None else self.names.number(place)

    def _check_name(self, type_name: str, value: Value) -> None:
        name = self.names.word(value.start)
        if name in self.loops:
            if type_name != "integer":
                sentence = f"the loop variable `{name}` is an integer, but `{type_name}` is expected"
                raise self.fault(13, value.start, sentence)
            return
        if name in self.variables:
            sentence = f"`{name}` is a variable, which can't be part of a value or a template"
            fault = self.fault(13, value.start, sentence).beside(self.variables[name], "the variable")
            holds = f"`send({name})` to send the value of `{name}`"
            raise fault.write(f"{holds}; in a template, the value itself")
        meant = nearest(name, self.loops)
        sentence = f"`{name}` isn't a loop variable, and no other name can be part of a value{meant}"
        raise self.fault(11, value.start, sentence)

    def _check_braces(self, type_name: str, value: Value, owner: Optional[int]) -> None:
        definition = self.names.types.get(type_name)
        if definition is None or type_name in BASE_TYPES:
            fault = self.fault(13, value.start, f"`{type_name}` has no fields and no elements")
            raise self._of(fault, type_name, owner)
        if isinstance(definition, ListType):
            if value.kind is ValueKind.FIELDS:
                sentence = f"`{type_name}` is a record of, whose elements have no names"
                fault = self.fault(13, value.names[0], sentence)
                raise fault.beside(definition.name, "the type")
            for member in value.members:
                if member.kind is not ValueKind.ANY_OR_NONE:
                    self.check(self.names.word(definition.element), member, definition.element)
        elif value.kind is ValueKind.FIELDS:
            self._check_named(type_name, definition, value)
        else:
            self._check_positions(type_name, definition, value)

    def _check_positions(self, type_name: str, record: Record, value: Value) -> None:
        fields = record.fields
        if len(fields) != len(value.members):
            missing = [self.names.word(field.name) for field in fields[len(value.members) :]]
            sentence = f"`{type_name}` has {counted(len(fields), 'field')}, but {there_are(len(value.members), 'value')} here"
            if missing:
                sentence += f": {listed(missing)} {'is' if len(missing) == 1 else 'are'} missing"
            place = value.start if missing else value.members[len(fields)].start
            raise self.fault(13, place, sentence).beside(record.name, "the type")
        for field, member in zip(fields, value.members):
            self.check(self.names.word(field.type), member, field.type)

    def _check_named(self, type_name: str, record: Record, value: Value) -> None:
        fields = {self.names.word(field.name): field for field in record.fields}
        given: dict[str, int] = {}
        for place in value.names:
            name = self.names.word(place)
            if name not in fields:
                sentence = f"`{type_name}` has no field `{name}`{nearest(name, fields)}: it has {listed(fields)}"
                raise self.fault(13, place, sentence).beside(record.name, "the type")
            if name in given:
                sentence = f"the field `{name}` is given twice"
                raise self.fault(13, place, sentence).beside(given[name], "the first one")
            given[name] = place
        missing = [name for name in fields if name not in given]
        if missing:
            is_or_are = "is" if len(missing) == 1 else "are"
            sentence = f"{listed(missing)} of `{type_name}` {is_or_are} missing: a value has every field"
            raise self.fault(13, value.start, sentence).beside(fields[missing[0]].name, "the field")
        for place, member in zip(value.names, value.members):
            field = fields[self.names.word(place)]
            self.check(self.names.word(field.type), member, field.type)
