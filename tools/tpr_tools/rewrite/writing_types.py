"""Writes the types of messages and of ports."""
from __future__ import annotations

from typing import Callable, Iterator, Optional

from . import tree
from .encoding import Encoder
from .layout import type_text
from .refusing import Refusal, refuse
from .tokens import Token
from .types import Kind, Type, Types

_Tell = Callable[[Refusal], None]
_Add = Callable[[str, Optional[Token]], None]
_BASES = (Kind.INTEGER, Kind.BOOLEAN, Kind.CHARSTRING)
_ENCODED = {
    Kind.ENUM: "an enumerated type", Kind.UNION: "a union", Kind.BITS: "a string of bits, hex digits or octets",
}


class TypeWriter:
    def __init__(self, types: Types, encoder: Encoder, tell: _Tell, nowhere: Token):
        self.types = types
        self.tell = tell
        self.encoder = encoder
        # The place for a type that no module defines.
        self.nowhere = nowhere
        self._written: set[Type] = set()

    def write(self, ports: list[Type], messages: list[Type], add: _Add) -> None:
        """Writes the types of messages that ports list, and the port types. A type without messages may be left out."""
        listed: dict[Type, str] = {}
        lists = [(port, self._directions(port, messages, listed)) for port in ports]
        for type in listed:
            self._message_type(type, add, type.at)
        for port, (sent, received) in lists:
            self._port_type(port.root, sent, received, add)

    def _directions(
        self, port: Type, messages: list[Type], listed: dict[Type, str]
    ) -> tuple[list[Type], list[Type]]:
        body = port.root.port
        assert body is not None
        if not body.is_message:
            return [], []
        sent = self._roots(body.sent, messages, listed)
        return sent, self._roots(body.received, messages, listed)

    def _roots(
        self, names: list[tree.TypeName], messages: list[Type], listed: dict[Type, str]
    ) -> list[Type]:
        found: list[Type] = []
        for name in names:
            if name.word in ("anytype", "address"):
                continue
            type = self.types.named(name.word, name.at)
            root = self.encoder.type_of(type)
            if root not in messages and not is_plain(root, []):
                continue
            if listed.setdefault(root, type.name) != type.name:
                both = f"`{listed[root]}` and `{type.name}`"
                refuse(name.at, f"{both} are one type here, so that a message of the one would match the other")
            if root not in found:
                found.append(root)
        return found

    def _message_type(self, type: Type, add: _Add, at: Optional[Token]) -> None:
        if type.root in self._written or type.kind in _BASES:
            return
        self._written.add(type.root)
        root = type.root
        for reason in _reasons_against(root):
            self.tell(Refusal(root.at or self.nowhere, reason))
        if root.kind is Kind.LIST and root.element is not None:
            self._message_type(root.element, add, at)
            add(f"  type record of {type_text(root.element)} {root.name};", root.at)
            return
        for field in root.fields:
            self._message_type(field.type, add, at)
        fields = ", ".join(f"{type_text(field.type)} {field.name}" for field in root.fields)
        add(f"  type record {root.name} {{ {fields} }}" if fields else f"  type record {root.name} {{ }}", root.at)

    def _port_type(self, port: Type, sent: list[Type], received: list[Type], add: _Add) -> None:
        if port in self._written:
            return
        self._written.add(port)
        both = [type for type in sent if type in received]
        lists = {
            "inout": both,
            "out": [type for type in sent if type not in both],
            "in": [type for type in received if type not in both],
        }
        text = " ".join(
            f"{word} {', '.join(map(type_text, types))};" for word, types in lists.items() if types
        )
        # A port that no message is sent to must list some type.
        add(f"  type port {port.name} message {{ {text or 'inout boolean;'} }}", port.at)


def _reasons_against(root: Type) -> Iterator[str]:
    if root.kind in _ENCODED:
        yield f"{_ENCODED[root.kind]} isn't carried over without --encode"
    elif root.kind not in (Kind.RECORD, Kind.LIST):
        yield root.reason or f"no message has the type `{root.name}`"
    elif root.is_set and root.kind is Kind.LIST:
        yield "a set of isn't carried over: the order of its elements doesn't count"
    elif any(field.is_optional for field in root.fields):
        yield "an optional field isn't carried over without --encode"


def is_plain(type: Type, above: list[Type]) -> bool:
    """Whether the profile has the type and all types inside it."""
    if type in above:
        return True
    if type.kind is Kind.LIST:
        element = type.root.element
        return element is not None and not type.is_set and is_plain(element.root, [*above, type])
    if type.kind is Kind.RECORD:
        fields = type.root.fields
        return all(not field.is_optional and is_plain(field.type.root, [*above, type]) for field in fields)
    return type.kind in _BASES
