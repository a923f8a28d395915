"""The types of a program: the meaning of each name, resolved once (ES 201 873-1, 6)."""
from __future__ import annotations

from dataclasses import dataclass, field
from enum import Enum
from typing import Optional

from . import tree
from .refusing import refuse
from .tokens import Token


class Kind(Enum):
    INTEGER = "integer"
    BOOLEAN = "boolean"
    CHARSTRING = "charstring"
    FLOAT = "float"
    BITS = "bits"
    VERDICT = "verdicttype"
    DEFAULT = "default"
    RECORD = "record"
    LIST = "list"
    ENUM = "enumerated"
    UNION = "union"
    COMPONENT = "component"
    PORT = "port"
    TIMER = "timer"
    OTHER = "other"


@dataclass(eq=False)
class FieldOfType:
    name: str
    type: Type
    is_optional: bool
    restriction: Optional[tree.Restriction]


@dataclass(eq=False)
class Type:
    """`root` is the type itself, or the type that it is an alias of; `size` is that of an array."""

    kind: Kind
    name: str
    at: Optional[Token] = None
    fields: list[FieldOfType] = field(default_factory=list)
    element: Optional[Type] = None
    size: Optional[int] = None
    # The names of an enumerated type with their numbers; without numbers if a name has several.
    names: list[str] = field(default_factory=list)
    numbers: dict[str, int] = field(default_factory=dict)
    above: Optional[Type] = None
    restriction: Optional[tree.Restriction] = None
    port: Optional[tree.PortBody] = None
    component: Optional[tree.ComponentBody] = None
    reason: str = ""
    is_set: bool = False

    @property
    def root(self) -> Type:
        found = self
        while found.above is not None:
            found = found.above
        return found

    @property
    def is_universal(self) -> bool:
        return self.name == UNIVERSAL or (self.above is not None and self.above.is_universal)

    def field_number(self, name: str) -> Optional[int]:
        names = [item.name for item in self.root.fields]
        return names.index(name) if name in names else None


def _numbers_of(body: tree.EnumBody) -> dict[str, int]:
    """A name without a number gets the least unused one, counted from 0, in the order of the text (6.2.4)."""
    found = {name: number for name, number in zip(body.names, body.numbers) if number is not None}
    for name in body.names:
        if name not in found:
            found[name] = next(number for number in range(len(body.names)) if number not in found.values())
    return found


UNIVERSAL = "universal charstring"
_BASES = {
    "integer": Kind.INTEGER, "boolean": Kind.BOOLEAN, "charstring": Kind.CHARSTRING, "float": Kind.FLOAT,
    "bitstring": Kind.BITS, "hexstring": Kind.BITS, "octetstring": Kind.BITS,
    "verdicttype": Kind.VERDICT, "default": Kind.DEFAULT, "timer": Kind.TIMER,
}
MESSAGES = (Kind.INTEGER, Kind.BOOLEAN, Kind.CHARSTRING, Kind.RECORD, Kind.LIST, Kind.ENUM, Kind.UNION, Kind.BITS)


class Types:
    """The types by their names. A type that is written out within a field gets a name of its own."""

    def __init__(self, definitions: dict[str, tree.TypeDefinition]):
        self.definitions = definitions
        self._known: dict[str, Type] = {word: Type(kind, word) for word, kind in _BASES.items()}

    def base(self, word: str) -> Type:
        return self._known[word]

    def named(self, word: str, at: Token) -> Type:
        known = self._known.get(word)
        if known is not None:
            return known
        definition = self.definitions.get(word)
        if definition is None:
            if word == UNIVERSAL:
                # A message may only have those of its characters that a charstring has.
                self._known[word] = Type(Kind.CHARSTRING, word, above=self._known["charstring"])
                return self._known[word]
            is_word = word in ("anytype", "address")
            refuse(at, f"`{word}` isn't carried over" if is_word else f"the type `{word}` isn't known")
        found = Type(Kind.OTHER, word, definition.at)
        self._known[word] = found
        self._fill(found, definition.body)
        return found

    def _fill(self, found: Type, body: tree.TypeBody) -> None:
        if isinstance(body, tree.RecordBody):
            found.kind = Kind.RECORD
            found.is_set = body.is_set
            self._fill_fields(found, body.fields)
        elif isinstance(body, tree.UnionBody):
            found.kind = Kind.UNION
            self._fill_fields(found, body.fields)
        elif isinstance(body, tree.ListBody):
            found.kind, found.restriction = Kind.LIST, body.restriction
            found.is_set = body.is_set
            found.element = self.of(body.element, f"{found.name}_element")
        elif isinstance(body, tree.EnumBody):
            found.kind, found.names = Kind.ENUM, body.names
            found.numbers = {} if body.is_of_ranges else _numbers_of(body)
        elif isinstance(body, tree.AliasBody):
            self._fill_alias(found, body)
        elif isinstance(body, tree.PortBody):
            found.kind, found.port = Kind.PORT, body
        elif isinstance(body, tree.ComponentBody):
            found.kind, found.component = Kind.COMPONENT, body
        else:
            found.reason = body.reason

    def _fill_fields(self, found: Type, fields: list[tree.FieldType]) -> None:
        for item in fields:
            of = self.of(item.type, f"{found.name}_{item.name}")
            found.fields.append(FieldOfType(item.name, of, item.is_optional, item.restriction))

    def _fill_alias(self, found: Type, body: tree.AliasBody) -> None:
        above = self.of(body.type, f"{found.name}_element")
        if above is found or above.kind is Kind.OTHER:
            refuse(body.at, "this type is another name of what isn't carried over")
        found.kind, found.above, found.restriction = above.kind, above, body.restriction
        found.element, found.size = above.element, above.size
        found.component, found.port = above.component, above.port

    def of(self, name: tree.TypeName, inner: str) -> Type:
        """The type that is named or written out; `inner` is the name for a type that is written out within a field."""
        if name.body is not None:
            found = Type(Kind.OTHER, self._free(inner), name.at)
            self._known[found.name] = found
            self._fill(found, name.body)
        else:
            found = self.named(name.word, name.at)
        for number, size in enumerate(reversed(name.sizes)):
            if not isinstance(size, tree.Literal) or not isinstance(size.value, int):
                refuse(size.at, "the size of an array within a type is a number here")
            label = self._free(f"{inner}_{number}" if number else inner)
            found = Type(Kind.LIST, label, name.at, element=found, size=size.value)
            self._known[label] = found
        return found

    def _free(self, name: str) -> str:
        while name in self.definitions or name in self._known:
            name += "_"
        return name

    def array(self, element: Type, sizes: list[int]) -> Type:
        for size in reversed(sizes):
            element = Type(Kind.LIST, f"{element.name} array", element=element, size=size)
        return element
