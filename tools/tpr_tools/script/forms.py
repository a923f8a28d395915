"""The complete values of a script, what its templates match, and how both are written.

A value is an int, a bool, a str, or a tuple: the fields of a record in declared order, or the elements of a record of.
Its type says which. The script is known to obey all rules.
"""
from __future__ import annotations

from typing import Any, Callable, Union

from ..report.messages import Plain
from .names import Names
from .tree import ListType, Message, Value, ValueKind

Loops = dict[str, int]
Test = Callable[[Any, Loops], bool]  # whether a value matches

_ANY_NUMBER = object()  # a `*` among the tests of elements


def is_cut(tests: list[Any], items: Union[str, tuple[Plain, ...]], loops: Loops) -> bool:
    """Whether the items can be cut into pieces, one for each test: any piece for a `*`, otherwise one item.

    Between two `*` the first place that fits is as good as any later one, so no other is tried.
    """
    item = test = 0
    star, behind_star = -1, 0
    while item < len(items):
        if test < len(tests) and tests[test] is _ANY_NUMBER:
            star, behind_star = test, item
            test += 1
        elif test < len(tests) and tests[test](items[item], loops):
            test, item = test + 1, item + 1
        elif star >= 0:
            behind_star += 1
            test, item = star + 1, behind_star
        else:
            return False
    return all(it is _ANY_NUMBER for it in tests[test:])


class Forms:
    """The values and templates of a script, by their types."""

    def __init__(self, names: Names):
        self.names = names

    def inner_of(self, type_name: str, number: int) -> list[tuple[str, str]]:
        """The fields of a record with their types, in declared order; for a record of, `number` unnamed elements."""
        definition, word = self.names.types[type_name], self.names.word
        if isinstance(definition, ListType):
            return [("", word(definition.element))] * number
        return [(word(field.name), word(field.type)) for field in definition.fields]

    def members_of(self, form: Value, type_name: str) -> list[tuple[Value, str]]:
        """The members of a record or a record of with their types, in declared order."""
        inner = self.inner_of(type_name, len(form.members))
        if form.kind is ValueKind.LIST:
            return [(member, of) for member, (_, of) in zip(form.members, inner)]
        by_name = {self.names.word(name): member for name, member in zip(form.names, form.members)}
        return [(by_name[name], of) for name, of in inner]

    def braces(self, texts: list[str], type_name: str) -> str:
        """The members in braces; those of a record with their names."""
        names = [name for name, _ in self.inner_of(type_name, len(texts))]
        return "{" + ", ".join(f"{name} := {text}" if name else text for name, text in zip(names, texts)) + "}"

    # Values

    def has_loop_variable(self, form: Value) -> bool:
        return form.kind is ValueKind.NAME or any(map(self.has_loop_variable, form.members))

    def text_of(self, message: Message, loops: Loops) -> str:
        """The message as a report writes it, with the values of the loop variables."""
        type_name = self.names.word(message.type)
        return f"{type_name}:{self.written(self.filled(message.value, type_name, loops), type_name)}"

    def filled(self, form: Value, type_name: str, loops: Loops) -> Plain:
        word = self.names.word(form.start)
        if form.kind is ValueKind.INTEGER:
            return self.names.number(form.start)
        if form.kind is ValueKind.BOOLEAN:
            return word == "true"
        if form.kind is ValueKind.TEXT:
            return _unquoted(word)
        if form.kind is ValueKind.NAME:
            return loops[word]
        return tuple(self.filled(member, of, loops) for member, of in self.members_of(form, type_name))

    def written(self, value: Plain, type_name: str) -> str:
        if isinstance(value, bool):
            return "true" if value else "false"
        if isinstance(value, int):
            return str(value)
        if isinstance(value, str):
            return '"' + value.replace('"', '""') + '"'
        inner = self.inner_of(type_name, len(value))
        return self.braces([self.written(it, of) for it, (_, of) in zip(value, inner)], type_name)

    # Templates

    def test_of(self, form: Value, type_name: str) -> Test:
        """Whether a value of the type matches the template."""
        kind, word = form.kind, self.names.word(form.start)
        if kind is ValueKind.ANY:
            return lambda value, loops: True
        if kind is ValueKind.NAME:
            return lambda value, loops: bool(value == loops[word])
        if kind is ValueKind.RANGE:
            return self._range(form)
        if kind is ValueKind.PATTERN:
            return _pattern(_unquoted(self.names.word(form.start + 1)))
        if kind in (ValueKind.ONE_OF, ValueKind.COMPLEMENT):
            tests = [self.test_of(member, type_name) for member in form.members]
            is_listed = kind is ValueKind.ONE_OF
            return lambda value, loops: any(test(value, loops) for test in tests) == is_listed
        if kind in (ValueKind.LIST, ValueKind.FIELDS):
            return self._members(form, type_name)
        wanted = self.filled(form, type_name, {})
        return lambda value, loops: bool(value == wanted)

    def _range(self, form: Value) -> Test:
        lower, upper = (None if it is None else self.names.number(it) for it in form.bounds)
        return lambda value, loops: (lower is None or lower <= value) and (upper is None or value <= upper)

    def _members(self, form: Value, type_name: str) -> Test:
        tests: list[object] = []
        for member, of in self.members_of(form, type_name):
            is_star = member.kind is ValueKind.ANY_OR_NONE
            tests.append(_ANY_NUMBER if is_star else self.test_of(member, of))
        return lambda value, loops: is_cut(tests, value, loops)

    # How they are told

    def told(self, form: Value, type_name: str, loops: Loops) -> str:
        """The template as the script writes it, with the values of the loop variables."""
        kind, word = form.kind, self.names.word
        if kind is ValueKind.NAME:
            return str(loops[word(form.start)])
        if kind is ValueKind.INTEGER:
            return str(self.names.number(form.start))
        if kind is ValueKind.PATTERN:
            return f"pattern {word(form.start + 1)}"
        if kind is ValueKind.RANGE:
            lower, upper = (None if it is None else self.names.number(it) for it in form.bounds)
            return f"({'-infinity' if lower is None else lower} .. {'infinity' if upper is None else upper})"
        if kind in (ValueKind.ONE_OF, ValueKind.COMPLEMENT):
            members = ", ".join(self.told(member, type_name, loops) for member in form.members)
            return f"complement ({members})" if kind is ValueKind.COMPLEMENT else f"({members})"
        if kind in (ValueKind.LIST, ValueKind.FIELDS):
            texts = [self.told(it, of, loops) for it, of in self.members_of(form, type_name)]
            return self.braces(texts, type_name)
        return word(form.start)


def _unquoted(token: str) -> str:
    return token[1:-1].replace('""', '"')


def _pattern(text: str) -> Test:
    """`?` matches any one character, `*` any number of them."""
    tests = [_ANY_NUMBER if it == "*" else _character(it) for it in text]
    return lambda value, loops: is_cut(tests, value, loops)


def _character(wanted: str) -> Test:
    return lambda value, loops: wanted in ("?", value)
