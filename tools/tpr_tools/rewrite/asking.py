"""Functions that ask about values, templates or variables of any contents (ES 201 873-1, 15.10, 16.1.2, C.3)."""
from __future__ import annotations

from typing import Optional

from . import tree
from .braces import BracesReader
from .paths import Path, Scope
from .refusing import Refusal, refuse
from .settling import SENDER
from .tokens import Token
from .tree import Expression
from .types import Kind, Type
from .values import (
    Bounds, Chosen, Digits, Elements, Enumerated, Excluded, Fields, Form, IfPresent, Mark, Options, Received, TextPattern,
    Wild, is_template, is_value, matches,
)

# These functions take a variable with any contents, even without a value.
ASKING = ("isbound", "isvalue", "ispresent", "ischosen", "match", "valueof", "istemplatekind", "enum2int")
_OF_TWO = ("match", "istemplatekind")
_KINDS = (
    "list", "complement", "AnyValue", "AnyValueOrNone", "range", "superset", "subset", "omit", "decmatch", "AnyElement",
    "AnyElementsOrNone", "permutation", "length", "ifpresent", "pattern", "value",
)


class Asker(BracesReader):
    # The methods below belong to the evaluator, of which this class is a part.

    def asked(
        self, node: Expression, path: Path, scope: Optional[Scope], type: Optional[Type], may_be_open: bool
    ) -> Form:
        raise NotImplementedError

    def fits(self, received: Received, template: Form, at: Token) -> bool:
        raise NotImplementedError

    def look_at_value(self, value: Form, at: Token) -> None:
        raise NotImplementedError

    def asking(self, word: str, node: tree.Call, path: Path, scope: Optional[Scope]) -> Form:
        if not node.arguments or len(node.arguments) != (2 if word in _OF_TWO else 1):
            refuse(node.at, f"`{word}` has another number of arguments")
        first = node.arguments[0].value
        if word == "ischosen":
            return self._is_chosen(first, path, scope)
        type = self.type_of(first, path, scope)
        if word == "match" and type is None:
            type = self.type_of(node.arguments[1].value, path, scope)
        value = self.asked(first, path, scope, type, word == "ispresent")
        if word == "match":
            template = self.evaluate(node.arguments[1].value, path, scope, type)
            return self._match(value, template, node.at)
        if value is Mark.LOST:
            raise Refusal(node.at, "")
        if word == "enum2int":
            return self.number_of(value, type or self._only_type_of(value), node.at)
        if word == "istemplatekind":
            return self._is_of_kind(value, self.evaluate(node.arguments[1].value, path, scope), node.at)
        if word == "valueof":
            self.look_at_value(value, node.at)
            return value
        if isinstance(value, Received):
            if word == "ispresent" and value.steps != SENDER:
                return self.fits(value, Wild.ANY, node.at)
            return True if len(value.steps) == 0 else self.split(value, node.at)
        if word == "isbound":
            return value is not Mark.UNSET
        if word == "ispresent":
            is_in_omitted = isinstance(first, tree.FieldOf) and self.evaluate(first.value, path, scope) is Mark.OMIT
            return self._is_present(Mark.OMIT if is_in_omitted else value, node.at)
        return is_value(value) and value is not Mark.OMIT

    def _is_present(self, form: Form, at: Token) -> bool:
        """For a template: whether it doesn't match an omitted field."""
        if form in (Mark.OMIT, Wild.ANY_OR_NONE) or isinstance(form, IfPresent):
            return False
        if not is_value(form) and form is not Wild.ANY and not isinstance(form, (Fields, Elements, Chosen, Bounds)):
            refuse(at, "whether this is present isn't known here")
        return True

    def _only_type_of(self, value: Form) -> Optional[Type]:
        """The only enumerated type that has this value."""
        named = [name for name, one in self.types.definitions.items() if isinstance(one.body, tree.EnumBody)]
        found = [type for type in (self.types.named(name, self.types.definitions[name].at) for name in named)
                 if isinstance(value, Enumerated) and value.word in type.root.names]
        return found[0] if len(found) == 1 else None

    def number_of(self, value: Form, type: Optional[Type], at: Token) -> Form:
        self.settled(value, at)
        if not isinstance(value, Enumerated) or type is None or value.word not in type.root.numbers:
            refuse(at, "the number of this enumerated value isn't known here")
        return type.root.numbers[value.word]

    def of_number(self, number: Form, type: Optional[Type], at: Token) -> Form:
        """The result of `int2enum` for a number."""
        self.look_at_value(number, at)
        numbers = type.root.numbers if type is not None and type.kind is Kind.ENUM else {}
        for word, of in numbers.items():
            if isinstance(number, int) and not isinstance(number, bool) and of == number:
                return Enumerated(word)
        refuse(at, "`int2enum` isn't computed of this")

    def _is_of_kind(self, form: Form, kind: Form, at: Token) -> bool:
        """Whether a template is of this kind, if it is kept as it was written. A length, a permutation and a pattern
        aren't: they become lists and texts here."""
        found = _kinds_of(form)
        is_kept = not isinstance(form, (Options, Elements, TextPattern, str)) or not any(
            self.program.has_word(word) for word in ("length", "permutation", "pattern")
        )
        if not found or not is_kept or kind not in _KINDS:
            refuse(at, "what kind of template this is isn't known here")
        return kind in found

    def _is_chosen(self, node: Expression, path: Path, scope: Optional[Scope]) -> Form:
        if not isinstance(node, tree.FieldOf):
            refuse(node.at, "`ischosen` asks for an alternative")
        whole = self.evaluate(node.value, path, scope)
        return not isinstance(whole, Wild) and self.has_chosen(whole, node.word, node.at)

    def has_chosen(self, whole: Form, name: str, at: Token) -> bool:
        """Whether a union has this alternative. If that is open for a received message, its branch is split."""
        if whole is Mark.LOST:
            raise Refusal(at, "")
        if isinstance(whole, Received) and whole.steps != SENDER:
            return self.fits(whole, Chosen(name, Wild.ANY), at)
        if not isinstance(whole, Chosen):
            refuse(at, "which alternative it has isn't known here")
        return whole.name == name

    def _match(self, value: Form, template: Form, at: Token) -> bool:
        self.settled(template, at)
        if not is_template(template):
            refuse(at, "the template isn't known here")
        if isinstance(value, Received):
            return self.fits(value, template, at)
        self.look_at_value(value, at)
        return matches(value, template)


def _kinds_of(form: Form) -> set[str]:
    """The kinds of a template in table C.1; none if the kind is open."""
    if isinstance(form, IfPresent):
        return {"ifpresent", *_kinds_of(form.form)}
    simple: dict[Form, str] = {Wild.ANY: "AnyValue", Wild.ANY_OR_NONE: "AnyValueOrNone", Mark.OMIT: "omit"}
    if isinstance(form, (Wild, Mark)):
        return {simple[form]} if form in simple else set()
    if isinstance(form, Elements) and not is_value(form):
        signs = {Wild.ANY: "AnyElement", Wild.ANY_OR_NONE: "AnyElementsOrNone"}
        return {signs[item] for item in form.items if isinstance(item, Wild)}
    kinds: list[tuple[type, str]] = [
        (Options, "list"), (Excluded, "complement"), (Bounds, "range"), (TextPattern, "pattern"),
    ]
    found = {kind for of, kind in kinds if isinstance(form, of)}
    return found or ({"value"} if is_value(form) else set())
