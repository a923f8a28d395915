"""Values and templates in braces: the fields of a record, the elements of a list, the alternative of a union (ES 201
873-1, 6.2)."""
from __future__ import annotations

from typing import Optional

from . import tree
from .paths import Path, Scope
from .refusing import refuse
from .settling import Settler
from .tree import Expression
from .types import Kind, Type
from .values import Chosen, Elements, Fields, Form, Mark


class BracesReader(Settler):
    def braces(self, node: tree.Braces, path: Path, scope: Optional[Scope], type: Optional[Type]) -> Form:
        kind = type.kind if type is not None else None
        if type is not None and kind is Kind.RECORD:
            return self._record(node, path, scope, type)
        if type is not None and kind is Kind.LIST:
            return self._list(node, path, scope, type)
        if type is not None and kind is Kind.UNION and len(node.named) == 1:
            name, value = node.named[0]
            number = type.field_number(name) if isinstance(name, str) else None
            if number is not None and isinstance(name, str):
                return Chosen(name, self.evaluate(value, path, scope, type.root.fields[number].type))
        refuse(node.at, "the type of what is in these braces isn't known here")

    def _record(self, node: tree.Braces, path: Path, scope: Optional[Scope], type: Type) -> Form:
        fields = type.root.fields
        forms: list[Form] = [Mark.UNSET] * len(fields)
        if len(node.items) > len(fields):
            refuse(node.at, f"`{type.name}` has {len(fields)} fields")
        for number, item in enumerate(node.items):
            forms[number] = self.evaluate(item, path, scope, fields[number].type)
        for name, item in node.named:
            found = type.field_number(name) if isinstance(name, str) else None
            if found is None:
                refuse(node.at, f"`{type.name}` has no such field")
            forms[found] = self.evaluate(item, path, scope, fields[found].type)
        return Fields(tuple(forms))

    def _element(self, node: Expression, path: Path, scope: Optional[Scope], type: Optional[Type]) -> Form:
        if isinstance(node, tree.OtherMatching) and node.word == "permutation":
            return Elements(tuple(self.evaluate(item, path, scope, type) for item in node.items))
        return self.evaluate(node, path, scope, type)

    def _list(self, node: tree.Braces, path: Path, scope: Optional[Scope], type: Type) -> Form:
        element = type.root.element
        if not node.named:
            return self.with_permutations(node, [self._element(item, path, scope, element) for item in node.items])
        forms: list[Form] = []
        for index, item in node.named:
            number = self.evaluate(index, path, scope) if not isinstance(index, str) else None
            if isinstance(number, bool) or not isinstance(number, int) or not 0 <= number < 10_000:
                refuse(node.at, "the index isn't known here")
            forms += [Mark.UNSET] * (number + 1 - len(forms))
            forms[number] = self.evaluate(item, path, scope, element)
        return Elements(tuple(forms))
