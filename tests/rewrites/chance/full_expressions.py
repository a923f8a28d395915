"""Expressions and templates of the full language, for an interpreter that shares only the reader with tools/rewrite (ES
201 873-1, 6, 7, 15 and 16)."""
from __future__ import annotations

from typing import Any, Optional

from full_values import (
    ANY, ANY_OR_NONE, OMIT, UNSET, Choice, Component, IfPresent, List, NoneOf, OneOf, Pattern, Port, Range, Record,
    Sign, Word, is_same, matches,
)
from tpr_tools.rewrite import tree
from tpr_tools.rewrite.reading_modules import ModuleReader
from tpr_tools.rewrite.tokens import Source


class Fault(Exception):
    """Something that the interpreter can't handle, or that ends a run of the full language: the program is left out."""


class Cell:
    """A variable, with the name of its type."""

    def __init__(self, type: str, value: Any):
        self.type = type
        self.value = value


class Scope:
    def __init__(self, above: Optional[Scope]):
        self.cells: dict[str, Cell] = {}
        self.above = above

    def find(self, name: str) -> Optional[Cell]:
        scope: Optional[Scope] = self
        while scope is not None:
            if name in scope.cells:
                return scope.cells[name]
            scope = scope.above
        return None


class Program:
    """The definitions of one module, by name."""

    def __init__(self, text: str):
        reader = ModuleReader(Source("chance", text.encode()))
        module = reader.modules()[0]
        if reader.faults:
            raise Fault(reader.faults[0].text())
        self.by_name: dict[str, Any] = {definition.name: definition for definition in module.definitions}
        self.case = next(it for it in module.definitions if isinstance(it, tree.TestCase))

    def named(self, name: str, kind: type) -> Any:
        found = self.by_name.get(name)
        return found if isinstance(found, kind) else None

    def body_of(self, type: Optional[str]) -> Any:
        found = self.named(type or "", tree.TypeDefinition)
        return found.body if found else None

    def members_of(self, type: str) -> list[tree.Declaration]:
        return [it for it in self.body_of(type).members if it.kind is not tree.Declared.PORT]

    def port_names(self, type: str) -> dict[str, Any]:
        """The ports of a component type by their names; an array has the list of its ports."""
        found: dict[str, Any] = {}
        for member in self.body_of(type).members:
            for variable in member.variables if member.kind is tree.Declared.PORT else []:
                found[variable.name] = Port(variable.name)
                if variable.sizes:
                    count = variable.sizes[0].value
                    found[variable.name] = List(tuple(Port(f"{variable.name}_{place}") for place in range(count)))
        return found

    def ports_of(self, type: str) -> list[str]:
        values = self.port_names(type).values()
        return [port.name for value in values for port in (value.items if isinstance(value, List) else [value])]

    def fields_of(self, type: Optional[str]) -> list[tree.FieldType]:
        body = self.body_of(type)
        return body.fields if isinstance(body, (tree.RecordBody, tree.UnionBody)) else []


class Evaluator:
    """Evaluates the expressions of one behaviour."""

    def __init__(self, program: Program, me: int):
        self.program = program
        self.me = me
        self.verdict = "none"

    # Names

    def function_of(self, node: Any) -> Optional[tree.Function]:
        word = node.called.word if isinstance(node, tree.Call) and isinstance(node.called, tree.Name) else ""
        found: Optional[tree.Function] = self.program.named(word, tree.Function)
        return found

    def altstep_of(self, node: Any) -> Optional[tree.Altstep]:
        called = node.called if isinstance(node, tree.Call) else node
        word = called.word if isinstance(called, tree.Name) else ""
        found: Optional[tree.Altstep] = self.program.named(word, tree.Altstep)
        return found

    def bind(self, parameters: list[tree.Parameter], arguments: list[Any], scope: Scope, inner: Scope) -> None:
        for number, parameter in enumerate(parameters):
            type = parameter.type.word
            given = [item.value for item in arguments if item.name == parameter.name]
            given += [arguments[number].value] if number < len(arguments) and arguments[number].name is None else []
            value: Any = given[0] if given else parameter.value
            if value is None:
                raise Fault("an argument")
            if parameter.direction is tree.Direction.IN:
                inner.cells[parameter.name] = Cell(type, self.evaluate(value, scope, type))
            else:
                cell = scope.find(value.word) if isinstance(value, tree.Name) else None
                if cell is None:
                    raise Fault("a reference")
                inner.cells[parameter.name] = cell

    def type_of(self, node: Any, scope: Scope) -> Optional[str]:
        """The declared type."""
        if isinstance(node, tree.Typed):
            return node.type.word
        if isinstance(node, tree.Modified):
            return self.type_of(node.base, scope)
        if isinstance(node, tree.FieldOf):
            whole = self.type_of(node.value, scope)
            return next((it.type.word for it in self.program.fields_of(whole) if it.name == node.word), None)
        word = getattr(node.called if isinstance(node, tree.Call) else node, "word", "")
        cell = scope.find(word) if isinstance(node, tree.Name) else None
        if cell is not None:
            return cell.type
        found = self.program.by_name.get(word)
        if isinstance(found, (tree.TemplateDefinition, tree.Constant)):
            return found.type.word
        return found.result.word if isinstance(found, tree.Function) and found.result else None

    def message_type(self, node: Any, scope: Scope) -> str:
        """The type of a message. The random programs name it, or the sent value has a type of its own."""
        if isinstance(node, tree.Literal):
            return {bool: "boolean", int: "integer", str: "charstring", float: "float"}[type(node.value)]
        if isinstance(node, (tree.Binary, tree.OneOf)):
            return self.message_type(node.left if isinstance(node, tree.Binary) else node.items[0], scope)
        found = self.type_of(node, scope)
        if found is None:
            raise Fault("a message without a type")
        return found

    # Values and templates

    def look_at_value(self, value: Any) -> None:
        if isinstance(value, (OneOf, NoneOf, Range, Pattern, IfPresent)) or value in (ANY, ANY_OR_NONE, UNSET):
            raise Fault("no value")
        for item in getattr(value, "items", ()):
            self.look_at_value(item)
        if isinstance(value, Choice):
            self.look_at_value(value.value)

    def is_match(self, value: Any, template: Any) -> bool:
        self.look_at_value(value)
        return matches(value, template)

    def evaluate(self, node: Any, scope: Scope, type: Optional[str]) -> Any:
        do = _OF_NODE.get(node.__class__.__name__)
        if do is None:
            raise Fault(node.__class__.__name__)
        return do(self, node, scope, type)

    def _literal(self, node: tree.Literal, scope: Scope, type: Optional[str]) -> Any:
        return node.value

    def _name(self, node: tree.Name, scope: Scope, type: Optional[str]) -> Any:
        cell = scope.find(node.word)
        if cell is not None:
            if cell.value is UNSET:
                raise Fault("no value yet")
            return cell.value
        found = self.program.by_name.get(node.word)
        if isinstance(found, tree.Constant):
            return self.evaluate(found.value, Scope(None), found.type.word)
        if isinstance(found, tree.TemplateDefinition):
            return self._by_template(found, [], scope)
        return Word(node.word)

    def _by_template(self, found: tree.TemplateDefinition, arguments: list[tree.Argument], scope: Scope) -> Any:
        inner = Scope(None)
        self.bind(found.parameters, arguments, scope, inner)
        if found.base is None:
            return self.evaluate(found.body, inner, found.type.word)
        base = self.program.named(found.base, tree.TemplateDefinition)
        names = [parameter.name for parameter in base.parameters if parameter.name in inner.cells]
        given = [tree.Argument(found.at, name, tree.Name(found.at, name)) for name in names]
        return self._modify(self._by_template(base, given, inner), found.body, inner, found.type.word)

    def _modify(self, base: Any, body: Any, scope: Scope, type: Optional[str]) -> Any:
        if not isinstance(body, tree.Braces) or not isinstance(base, Record) or not body.named:
            return self.evaluate(body, scope, type)
        items = list(base.items)
        for name, value in body.named:
            for place, field in enumerate(self.program.fields_of(type)):
                if field.name == name:
                    items[place] = self.evaluate(value, scope, field.type.word)
        return Record(tuple(items))

    def _special(self, node: tree.Special, scope: Scope, type: Optional[str]) -> Any:
        sign = node.sign
        if sign is tree.Sign.GETVERDICT:
            return Word(self.verdict)
        known: dict[tree.Sign, Any] = {
            tree.Sign.ANY: ANY, tree.Sign.ANY_OR_NONE: ANY_OR_NONE, tree.Sign.OMIT: OMIT,
            tree.Sign.SELF: Component(self.me), tree.Sign.MTC: Component(0),
        }
        if sign not in known:
            raise Fault(sign.value)
        return known[sign]

    def _verdict(self, node: tree.VerdictWord, scope: Scope, type: Optional[str]) -> Any:
        return Word(node.word)

    def field(self, whole: Any, type: Optional[str], name: str) -> Any:
        if isinstance(whole, Choice):
            if whole.name != name:
                raise Fault("another alternative")
            return whole.value
        names = [field.name for field in self.program.fields_of(type)]
        if not isinstance(whole, Record) or name not in names:
            raise Fault("a field")
        return whole.items[names.index(name)]

    def _field(self, node: tree.FieldOf, scope: Scope, type: Optional[str]) -> Any:
        return self.field(self.evaluate(node.value, scope, None), self.type_of(node.value, scope), node.word)

    def _index(self, node: tree.IndexOf, scope: Scope, type: Optional[str]) -> Any:
        whole, index = self.evaluate(node.value, scope, None), self.evaluate(node.index, scope, None)
        if not isinstance(whole, List) or not 0 <= index < len(whole.items):
            raise Fault("an index")
        return whole.items[index]

    def port_name(self, node: Any, scope: Scope) -> str:
        """A port of another component, by its name alone."""
        if isinstance(node, tree.IndexOf):
            return f"{self.port_name(node.value, scope)}_{self.evaluate(node.index, scope, None)}"
        assert isinstance(node, tree.Name)
        return node.word

    def _typed(self, node: tree.Typed, scope: Scope, type: Optional[str]) -> Any:
        return self.evaluate(node.value, scope, node.type.word)

    def _braces(self, node: tree.Braces, scope: Scope, type: Optional[str]) -> Any:
        body = self.program.body_of(type)
        if isinstance(body, tree.ListBody):
            return List(tuple(self.evaluate(item, scope, body.element.word) for item in node.items))
        if isinstance(body, tree.UnionBody):
            name, value = node.named[0]
            assert isinstance(name, str)
            of = next(field.type.word for field in body.fields if field.name == name)
            return Choice(name, self.evaluate(value, scope, of))
        if not isinstance(body, tree.RecordBody):
            raise Fault("braces")
        items: list[Any] = [UNSET] * len(body.fields)
        for place, field in enumerate(body.fields):
            given = [value for name, value in node.named if name == field.name]
            given += node.items[place : place + 1]
            if given:
                items[place] = self.evaluate(given[0], scope, field.type.word)
        return Record(tuple(items))

    def _one_of(self, node: tree.OneOf, scope: Scope, type: Optional[str]) -> Any:
        items = tuple(self.evaluate(item, scope, type) for item in node.items)
        return items[0] if len(items) == 1 else OneOf(items)

    def _none_of(self, node: tree.Complement, scope: Scope, type: Optional[str]) -> Any:
        return NoneOf(tuple(self.evaluate(item, scope, type) for item in node.items))

    def _range(self, node: tree.RangeOf, scope: Scope, type: Optional[str]) -> Any:
        limits = []
        for end in (node.low, node.high):
            inner = end.value if isinstance(end, tree.Unary) else end
            is_open = isinstance(inner, tree.Special) and inner.sign is tree.Sign.INFINITY
            limits.append(None if is_open else self.evaluate(end, scope, None))
        return Range(*limits)

    def _pattern(self, node: tree.PatternOf, scope: Scope, type: Optional[str]) -> Any:
        return Pattern(self.evaluate(node.text, scope, None))

    def _other(self, node: tree.OtherMatching, scope: Scope, type: Optional[str]) -> Any:
        if node.word != "ifpresent":
            raise Fault(node.word)
        return IfPresent(self.evaluate(node.items[0], scope, type))

    def _modified(self, node: tree.Modified, scope: Scope, type: Optional[str]) -> Any:
        of = self.type_of(node.base, scope) or type
        return self._modify(self.evaluate(node.base, scope, of), node.body, scope, of)

    # Operators and calls

    def _binary(self, node: tree.Binary, scope: Scope, type: Optional[str]) -> Any:
        of = self.type_of(node.left, scope)
        left = self.evaluate(node.left, scope, of)
        self.look_at_value(left)
        if node.sign == "and" and left is False or node.sign == "or" and left is True:
            return left
        right = self.evaluate(node.right, scope, of)
        self.look_at_value(right)
        if node.sign in ("==", "!="):
            return is_same(left, right) == (node.sign == "==")
        do = _OPERATORS.get(node.sign)
        if do is None or isinstance(left, Sign) or isinstance(right, Sign):
            raise Fault(node.sign)
        return do(left, right)

    def _unary(self, node: tree.Unary, scope: Scope, type: Optional[str]) -> Any:
        value = self.evaluate(node.value, scope, None)
        return not value if node.sign == "not" else -value

    def _call(self, node: tree.Call, scope: Scope, type: Optional[str]) -> Any:
        assert isinstance(node.called, tree.Name)
        word = node.called.word
        found = self.program.by_name.get(word)
        if isinstance(found, tree.TemplateDefinition):
            return self._by_template(found, node.arguments, scope)
        if isinstance(found, tree.Function):
            return self.quiet(found, node, scope)
        arguments = [item.value for item in node.arguments]
        if word == "ischosen":
            assert isinstance(arguments[0], tree.FieldOf)
            return bool(self.evaluate(arguments[0].value, scope, None).name == arguments[0].word)
        of = self.type_of(arguments[0], scope)
        first = self.evaluate(arguments[0], scope, of)
        if word == "ispresent":
            return first is not OMIT
        if word == "match":
            return self.is_match(first, self.evaluate(arguments[1], scope, of))
        if word == "lengthof":
            return len(first.items if isinstance(first, List) else first)
        raise Fault(word)

    def called(self, function: tree.Function, node: Any, scope: Scope) -> Any:
        raise NotImplementedError

    def quiet(self, function: tree.Function, node: Any, scope: Scope) -> Any:
        """The value of a call without acts."""
        acts = self.called(function, node, scope)
        try:
            next(acts)
        except StopIteration as ended:
            return ended.value
        raise Fault("acts within an expression")

    def store(self, target: Any, value: Any, scope: Scope) -> None:
        if isinstance(target, tree.Name):
            cell = scope.find(target.word)
            if cell is None:
                raise Fault("a variable")
            cell.value = value
            return
        if not isinstance(target, tree.FieldOf):
            raise Fault("a part")
        type = self.type_of(target.value, scope)
        names = [field.name for field in self.program.fields_of(type)]
        whole = self.evaluate(target.value, scope, None)
        items = list(whole.items)
        items[names.index(target.word)] = value
        self.store(target.value, Record(tuple(items)), scope)


_OPERATORS: dict[str, Any] = {
    "+": lambda left, right: left + right, "-": lambda left, right: left - right, "*": lambda left, right: left * right,
    "&": lambda left, right: left + right, "<": lambda left, right: left < right, ">": lambda left, right: left > right,
    "<=": lambda left, right: left <= right, ">=": lambda left, right: left >= right,
    "mod": lambda left, right: left % abs(right), "and": lambda left, right: right, "or": lambda left, right: right,
    "xor": lambda left, right: left is not right,
}
_OF_NODE: dict[str, Any] = {
    "Literal": Evaluator._literal, "Name": Evaluator._name, "Special": Evaluator._special, "FieldOf": Evaluator._field,
    "VerdictWord": Evaluator._verdict, "IndexOf": Evaluator._index, "Typed": Evaluator._typed,
    "Braces": Evaluator._braces, "OneOf": Evaluator._one_of, "Complement": Evaluator._none_of,
    "RangeOf": Evaluator._range, "PatternOf": Evaluator._pattern, "OtherMatching": Evaluator._other,
    "Modified": Evaluator._modified, "Binary": Evaluator._binary, "Unary": Evaluator._unary, "Call": Evaluator._call,
}
