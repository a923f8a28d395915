"""The messages of a port: the type of a message that doesn't name it, and whether it can be sent or received there."""
from __future__ import annotations

from typing import Optional

from . import tree
from .arithmetic import length_of
from .emitted import Message, Who
from .fitting import fits_type
from .paths import End, Path, Scope
from .refusing import Refusal, refuse
from .timers import Timers
from .tokens import Token
from .tree import Expression
from .types import MESSAGES, FieldOfType, Kind, Type
from .values import (
    Chosen, ComponentValue, Elements, Fields, Form, Mark, Options, PortValue, Received, Wild, has_texts, is_template,
    is_value, matches,
)


class Messages(Timers):
    # Why the examined value has none of the types that it may have.
    why_not: Optional[Refusal] = None

    def sent_types(self, port: str) -> list[Type]:
        body = self.ports[port].type.root.port
        assert body is not None
        return self._types_of(body.sent, body)

    def received_types(self, port: str) -> list[Type]:
        body = self.ports[port].type.root.port
        assert body is not None
        return self._types_of(body.received, body)

    def _types_of(self, names: list[tree.TypeName], body: tree.PortBody) -> list[Type]:
        if body.has_all:
            refuse(body.at, "`all` in a port's list isn't carried over")
        if not body.is_message:
            refuse(body.at, "this port is of procedures: ports have messages alone")
        found: list[Type] = []
        for name in names:
            type = self.types.named(name.word, name.at)
            if type not in found:
                found.append(type)
        return found

    # What is sent

    def message(self, node: Expression, port: str, path: Path, scope: Scope) -> Message:
        """The message that is sent there, with its type."""
        type, form = self._evaluated(node, self.sent_types(port), path, scope)
        if isinstance(form, Received) and form.steps == ():
            if form.symbol.type is not type.root:
                refuse(node.at, "what was received is sent as another type")
            form.symbol.is_used = True
            return Message(type, form)
        self.settled(form, node.at)
        self._look_at_sent(form, node.at)
        self._look_at_type(form, type, node.at)
        return Message(type, form)

    def _look_at_sent(self, form: Form, at: Token) -> None:
        if not is_template(form):
            refuse(at, "this has no value yet")
        if not is_value(form):
            refuse(at, "this is no value, so that it can't be sent")

    def _evaluated(self, node: Expression, listed: list[Type], path: Path, scope: Scope) -> tuple[Type, Form]:
        """Which of these types it has, and its value."""
        type = self._type_in(node, listed, path, scope)
        form = self.evaluate(node, path, scope, type)
        if form is Mark.LOST:
            raise Refusal(node.at, "")
        return type, form

    def _type_in(self, node: Expression, listed: list[Type], path: Path, scope: Scope) -> Type:
        declared = self.type_of(node, path, scope)
        if declared is None:
            self.why_not = None
            fitting = [type for type in listed if self._can_be(node, type, path, scope)]
            if not fitting and self.why_not is not None:
                raise self.why_not
            if len(fitting) != 1:
                others = [type.name for type in listed if type.kind not in MESSAGES]
                if not fitting and others:
                    refuse(node.at, f"no message has the type `{others[0]}` here")
                count = "none" if not fitting else "several"
                refuse(node.at, f"{count} of the port's types fits this: write the type before it")
            return fitting[0]
        for type in listed:
            if type is declared or (type.root is declared.root and type.is_universal is declared.is_universal):
                return type
        refuse(node.at, f"the port's list hasn't the type `{declared.name}`")

    def _can_be(self, node: Expression, type: Type, path: Path, scope: Scope) -> bool:
        if isinstance(node, tree.Special) and node.sign in (tree.Sign.ANY, tree.Sign.ANY_OR_NONE):
            return True
        if isinstance(node, tree.Name) and self.find(node.word, scope, path) is None:
            self.why_not = Refusal(node.at, f"`{node.word}` isn't known here")
            return type.kind is Kind.ENUM and node.word in type.root.names
        # The value is evaluated here only as a trial, which must leave no effects.
        looked_at = Path([], path.state.copy(), path.fork)
        try:
            form = self.evaluate(node, looked_at, scope, type)
        except Refusal as refusal:
            self.why_not = self.why_not or refusal
            return False
        return fits_type(form, type)

    def _look_at_type(self, form: Form, type: Type, at: Token) -> None:
        if type.kind not in MESSAGES:
            refuse(at, f"no message has the type `{type.name}`")
        if not fits_type(form, type):
            refuse(at, f"this doesn't fit the type `{type.name}`")
        self._look_at_restrictions(form, type, at)

    def _look_at_restrictions(self, form: Form, type: Type, at: Token) -> None:
        """Checks that a value satisfies the restrictions of its subtypes, everywhere inside it."""
        found: Optional[Type] = type
        while found is not None:
            if found.restriction is not None:
                self._look_at_restriction(form, found.restriction, found.root, at)
            found = found.above
        root = type.root
        if isinstance(form, Fields):
            for item, of in zip(form.items, root.fields):
                self._look_at_field(item, of, at)
        if isinstance(form, Chosen):
            for of in root.fields:
                if of.name == form.name:
                    self._look_at_field(form.value, of, at)
        if isinstance(form, Elements) and root.element is not None:
            for item in form.items:
                self._look_at_restrictions(item, root.element, at)

    def _look_at_field(self, form: Form, field: FieldOfType, at: Token) -> None:
        if form is Mark.OMIT:
            return
        self._look_at_restrictions(form, field.type, at)
        if field.restriction is not None:
            self._look_at_restriction(form, field.restriction, field.type.root, at)

    def _look_at_restriction(
        self, form: Form, restriction: tree.Restriction, root: Type, at: Token
    ) -> None:
        items = [self.evaluate(item, self.nowhere(), None, root) for item in restriction.values]
        if items and not matches(form, Options(tuple(items))):
            refuse(at, "this value isn't one that its subtype allows")
        if restriction.lengths:
            bounds = [self._length(item) for item in restriction.lengths]
            length = length_of(form)
            low, high = bounds[0], bounds[-1]
            if length is None or low is None or length < low or (high is not None and length > high):
                refuse(at, "this value hasn't a length that its subtype allows")

    def _length(self, node: Expression) -> Optional[int]:
        if isinstance(node, tree.Special):
            return None
        value = self.evaluate(node, self.nowhere(), None)
        return value if isinstance(value, int) else None

    def look_at_value_of(self, value: Form, type: Optional[Type], at: Token) -> None:
        if type is not None and is_value(value) and value is not Mark.OMIT:
            self._look_at_restrictions(value, type, at)

    # What is received

    def wanted(self, node: Expression, port: str, path: Path, scope: Scope) -> Message:
        type, form = self._evaluated(node, self.received_types(port), path, scope)
        self.settled(form, node.at, "this template is computed from what was received")
        if not is_template(form):
            refuse(node.at, "this template has no value yet")
        form = Wild.ANY if form is Wild.ANY_OR_NONE else form
        declared = self.type_of(node, path, scope)
        if declared is not None and not is_value(form) and _is_narrower(declared, type):
            refuse(node.at, f"`{declared.name}` allows less than the port's `{type.name}`")
        if not fits_type(form, type):
            refuse(node.at, f"this doesn't fit the type `{type.name}`")
        if has_texts(form):
            refuse(node.at, "more texts match this pattern, or this range of characters, than can be listed: give it a `length`")
        return Message(type, form)

    # Components

    def peers_of(self, port: str, path: Path) -> list[End]:
        raise NotImplementedError

    def who(self, node: Expression, path: Path, scope: Scope) -> Who:
        value = self.evaluate(node, path, scope)
        if value is Mark.LOST:
            raise Refusal(node.at, "")
        if isinstance(value, ComponentValue):
            return value.number
        if isinstance(value, Received) and value.symbol.is_sender:
            value.symbol.is_used = True
            return value.symbol
        refuse(node.at, "which component is meant isn't known here")

    def port_of(self, node: Expression, path: Path, scope: Scope) -> str:
        value = self.evaluate(node, path, scope)
        if not isinstance(value, PortValue):
            refuse(node.at, "which port is meant isn't known here")
        return value.name


def _is_narrower(declared: Type, listed: Type) -> bool:
    """Whether a subtype, other than the port's own, restricts the values that its template matches."""
    found: Optional[Type] = declared
    while found is not None and found is not listed:
        if found.restriction is not None:
            return True
        found = found.above
    return False
