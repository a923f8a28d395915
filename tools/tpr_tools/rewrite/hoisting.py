"""Calls within an expression that do more than compute a value: they are followed before the statement.

This has the same meaning if the call changes nothing else in the expression. In the full language the operands before
it are evaluated first.
"""
from __future__ import annotations

from dataclasses import fields, is_dataclass
from typing import Callable, Iterator, Optional, TypeVar

from . import tree
from .paths import Exit, Key, Path, Scope, Slot
from .refusing import Refusal
from .tree import Expression, Statement
from .values import Form, Mark

Answer = TypeVar("Answer")
_MORE = "this call within an expression does more than compute a value"


class Communicates(Refusal):
    """A call that sends, receives, or does something else for which a statement is written."""

    def __init__(self, call: tree.Call):
        super().__init__(call.at, _MORE)
        self.call = call


def key_of(call: tree.Call) -> Key:
    """The key for the value of a call that was followed before its statement: no variable has such a name."""
    return (0, f"@{id(call)}")


def expressions_of(statement: Statement) -> Optional[list[Expression]]:
    """The expressions that are evaluated once, before the statement has any effect; None if there are others."""
    if isinstance(statement, tree.If):
        return [statement.condition]
    if isinstance(statement, tree.SetVerdict):
        return [statement.verdict, *statement.reasons]
    if isinstance(statement, tree.Assignment):
        return [statement.target, statement.value]
    if isinstance(statement, tree.Declaration):
        return [variable.value for variable in statement.variables if variable.value is not None]
    if isinstance(statement, tree.Send):
        return [statement.message, *statement.to]
    if isinstance(statement, tree.Return):
        return [statement.value] if statement.value else []
    if isinstance(statement, tree.Dropped):
        return list(statement.arguments)
    if isinstance(statement, tree.Select):
        return [statement.value]
    return [statement.call] if isinstance(statement, tree.CallStatement) else None


def names_beside(node: object, call: tree.Call) -> Iterator[str]:
    """The names in an expression, except those inside the given call."""
    if node is call:
        return
    if isinstance(node, tree.Name):
        yield node.word
    elif isinstance(node, (list, tuple)):
        for item in node:
            yield from names_beside(item, call)
    elif isinstance(node, tree.Node) and is_dataclass(node):
        for field in fields(node):
            yield from names_beside(getattr(node, field.name), call)


def calls_in(node: object) -> Iterator[tree.Call]:
    """All calls in an expression."""
    if isinstance(node, tree.Call):
        yield node
    if isinstance(node, (list, tuple)):
        for item in node:
            yield from calls_in(item)
    elif isinstance(node, tree.Node) and is_dataclass(node):
        for field in fields(node):
            yield from calls_in(getattr(node, field.name))


class Hoister:
    """The methods of a behaviour's follower that are needed here; this class is a part of it."""

    def call(self, node: tree.Call, path: Path, scope: Optional[Scope]) -> list[Path]:
        raise NotImplementedError

    def is_apart(self, call: tree.Call, listed: list[Expression], path: Path) -> bool:
        raise NotImplementedError

    def with_frame(self, names: frozenset[str]) -> None:
        raise NotImplementedError

    def hoisted(
        self, met: Communicates, listed: list[Expression], path: Path, scope: Scope,
        go_on: Callable[[Path], list[Answer]], leave: Callable[[Path], Answer],
    ) -> list[Answer]:
        """Follows the call, and then continues with `go_on` on each path after it."""
        if not self.is_apart(met.call, listed, path):
            raise Refusal(met.at, met.reason)
        key = key_of(met.call)
        self.with_frame(frozenset([key[1]]))
        found: list[Answer] = []
        for one in self.call(met.call, path, scope):
            if one.exit is not Exit.ON:
                found.append(leave(one))
                continue
            value: Form = one.result if one.result is not None else Mark.LOST
            one.result = None
            one.state.variables[key] = Slot(None, value)
            found += go_on(one)
        return found
