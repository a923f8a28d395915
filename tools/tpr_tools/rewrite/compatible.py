"""Finds the places where a value of one type is assigned to a variable of another type with the same structure (ES 201
873-1, 6.3)."""
from __future__ import annotations

from typing import Iterator, Optional, get_args

from . import tree
from .refusing import Refusal
from .tokens import Token
from .types import Kind, Type, Types

# The type of each name at a place; None if its type isn't known.
Known = dict[str, Optional[Type]]
_STRUCTURED = (Kind.RECORD, Kind.LIST, Kind.UNION)
_FOLLOWED = (*get_args(tree.Statement), tree.Branch, tree.Case)


def given_by_structure(modules: list[tree.Module]) -> list[Token]:
    """The places, of all functions, altsteps and test cases of a file."""
    definitions = [item for module in modules for item in module.definitions]
    found = _Places({item.name: item for item in definitions if isinstance(item, tree.TypeDefinition)})
    named: Known = {}
    for item in definitions:
        if isinstance(item, (tree.Constant, tree.TemplateDefinition)):
            named[item.name] = found.type_named(item.type)
    for item in definitions:
        if isinstance(item, (tree.Function, tree.Altstep, tree.TestCase)):
            found.look_at(item, named)
    return found.places


class _Places:
    def __init__(self, definitions: dict[str, tree.TypeDefinition]):
        self.definitions = definitions
        self.types = Types(definitions)
        self.places: list[Token] = []

    def type_named(self, name: tree.TypeName) -> Optional[Type]:
        if name.body is not None or name.sizes:
            return None
        try:
            return self.types.named(name.word, name.at)
        except Refusal:
            return None

    def look_at(self, behaviour: tree.Function | tree.Altstep | tree.TestCase, named: Known) -> None:
        known = {**named, **self._of_component(behaviour.runs_on)}
        for parameter in behaviour.parameters:
            known[parameter.name] = self.type_named(parameter.type)
        if isinstance(behaviour, tree.Altstep):
            self._follow([*behaviour.declarations, *behaviour.branches], known)
        elif behaviour.body is not None:
            self._follow([behaviour.body], known)

    def _of_component(self, name: Optional[str]) -> Known:
        """The variables of a component type, and of those that it extends."""
        known: Known = {}
        open_names, seen = [name], set[Optional[str]]()
        while open_names:
            word = open_names.pop()
            definition = None if word in seen else self.definitions.get(word or "")
            seen.add(word)
            if definition is None or not isinstance(definition.body, tree.ComponentBody):
                continue
            open_names += [above.word for above in definition.body.extends if isinstance(above, tree.Name)]
            for member in definition.body.members:
                self._declare(member, known)
        return known

    def _declare(self, declaration: tree.Declaration, known: Known) -> None:
        for variable in declaration.variables:
            known[variable.name] = None if variable.sizes else self.type_named(declaration.type)

    def _follow(self, nodes: list[tree.Node], known: Known) -> None:
        """Follows the nodes in the order of the text. A name that is declared in a block is known only there."""
        waiting = [(node, known) for node in reversed(nodes)]
        while waiting:
            node, known = waiting.pop()
            self._look_at_node(node, known)
            inner = dict(known) if isinstance(node, (tree.Block, tree.Branch, tree.For)) else known
            waiting += [(below, inner) for below in reversed(list(_below(node)))]

    def _look_at_node(self, node: tree.Node, known: Known) -> None:
        if isinstance(node, tree.Declaration):
            self._declare(node, known)
            for variable in node.variables:
                self._look_at_both(known.get(variable.name), variable.value, known)
        elif isinstance(node, tree.Assignment):
            self._look_at_both(self._type_of(node.target, known), node.value, known)
        elif isinstance(node, tree.Send) and isinstance(node.message, tree.Typed):
            self._look_at_both(self.type_named(node.message.type), node.message.value, known)
        elif isinstance(node, tree.Receive) and node.redirect is not None and node.template is not None:
            self._look_at_both(self._type_of(node.template, known), node.redirect.value, known)

    def _look_at_both(self, one: Optional[Type], given: Optional[tree.Expression], known: Known) -> None:
        other = self._type_of(given, known)
        if given is None or one is None or other is None or one.root is other.root:
            return
        if one.kind in _STRUCTURED and are_compatible(one, other):
            self.places.append(given.at)

    def _type_of(self, node: Optional[tree.Expression], known: Known) -> Optional[Type]:
        """The type of a name, of a value with its type before it, or of a template with parameters."""
        if isinstance(node, tree.Typed):
            return self.type_named(node.type)
        called = node.called if isinstance(node, tree.Call) else node
        return known.get(called.word) if isinstance(called, tree.Name) else None


def _below(node: tree.Node) -> Iterator[tree.Node]:
    """The statements, branches and blocks inside a statement."""
    for value in vars(node).values():
        for item in value if isinstance(value, list) else [value]:
            if isinstance(item, _FOLLOWED):
                yield item


def are_compatible(one: Type, other: Type) -> bool:
    """Whether two types have the same structure. Types that contain themselves are assumed to be compatible there."""
    seen: set[tuple[int, int]] = set()
    waiting = [(one.root, other.root)]
    while waiting:
        first, second = waiting.pop()
        if first is second or (id(first), id(second)) in seen:
            continue
        seen.add((id(first), id(second)))
        inner = _inner_pairs(first, second)
        if inner is None:
            return False
        waiting += inner
    return True


def _inner_pairs(one: Type, other: Type) -> Optional[list[tuple[Type, Type]]]:
    """The pairs of inner types that must be compatible; None if the two types aren't compatible in any case."""
    if one.kind is not other.kind or one.kind not in _STRUCTURED or one.is_set != other.is_set:
        return None
    if one.kind is Kind.LIST:
        is_sized_alike = one.size == other.size
        elements = (one.element, other.element)
        return [(elements[0].root, elements[1].root)] if is_sized_alike and elements[0] and elements[1] else None
    if len(one.fields) != len(other.fields):
        return None
    pairs = list(zip(one.fields, other.fields))
    if any(first.is_optional != second.is_optional for first, second in pairs):
        return None
    if one.kind is Kind.UNION and any(first.name != second.name for first, second in pairs):
        return None
    return [(first.type.root, second.type.root) for first, second in pairs]
