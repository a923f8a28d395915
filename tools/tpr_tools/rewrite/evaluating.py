"""Evaluates expressions and templates, as far as they are known before a run."""
from __future__ import annotations

from typing import Optional, Union

from . import tree
from .arithmetic import CODECS, ORDERED, PREDEFINED, computed, inverted, predefined
from .asking import ASKING, Asker
from .fitting import open_alternatives, opened, template_at
from .paths import Key, Path, Scope, Slot, Split
from .patterns import letters_between
from .program import Program
from .refusing import refuse, Refusal
from .settling import SENDER as SENDER
from .templates import look_at_restricted
from .tokens import Token
from .tree import Expression, Sign
from .types import Kind, Type
from .values import (
    Bounds, Chosen, ComponentValue, Digits, DigitsPattern, Elements, Enumerated, Excluded, Fields, Form, Mark, Options,
    Received, Reference, Texts, VerdictValue, Wild, decided, has_received, has_texts, is_template, is_value, matches,
    may_be_left_out,
)

_MOST_NESTED = 60


class Evaluator(Asker):
    """Evaluates the expressions of one behaviour. `own` is the number of its component."""

    def __init__(self, program: Program, own: int):
        super().__init__(program)
        self.own = own
        self.depth = 0
        # Expressions in the branches of an `alt` are evaluated at each look, and may change nothing (16.1.4).
        self.is_looking = False

    # Names

    def find(self, word: str, scope: Optional[Scope], path: Path) -> Optional[Key]:
        while scope is not None:
            key = (scope.number, word)
            if key in path.state.variables:
                return key
            scope = scope.above
        return None

    def slot(self, key: Key, path: Path) -> Slot:
        """The variable, or the one that it refers to."""
        found = path.state.variables[key]
        if isinstance(found.value, Reference):
            behind = self.slot((found.value.scope, found.value.name), path)
            return Slot(found.type, self.part(behind.value, found.value.steps))
        return found

    def part(self, form: Form, steps: tuple[int, ...]) -> Form:
        for step in steps:
            if isinstance(form, (Fields, Elements)):
                form = form.items[step] if step < len(form.items) else Mark.UNSET
            elif isinstance(form, Received):
                form = self.part_of_received(form, step)
            elif form is not Mark.LOST:
                return Mark.UNSET
        return form

    def part_of_received(self, form: Received, step: int) -> Form:
        steps = (*form.steps, step)
        part = Received(form.symbol, steps)
        known = self.said_of(part)
        return known if is_value(known) else part

    def said_of(self, form: Received) -> Form:
        """What the template says about a part of a received message."""
        type = form.symbol.type
        return template_at(form.symbol.template, type if isinstance(type, Type) else None, form.steps)

    # Expressions

    def evaluate(self, node: Expression, path: Path, scope: Optional[Scope], type: Optional[Type] = None) -> Form:
        self.depth += 1
        if self.depth > _MOST_NESTED:
            self.depth = 0
            refuse(node.at, "this is nested too deep to be evaluated")
        try:
            return self._evaluate(node, path, scope, type)
        finally:
            self.depth = max(0, self.depth - 1)

    def _evaluate(self, node: Expression, path: Path, scope: Optional[Scope], type: Optional[Type]) -> Form:
        if isinstance(node, tree.Literal):
            return node.value
        if isinstance(node, tree.Name):
            return self._name(node, path, scope, type)
        if isinstance(node, tree.Special):
            return self._special(node, path, type)
        if isinstance(node, (tree.FieldOf, tree.IndexOf)):
            return self._part(node, path, scope)
        if isinstance(node, tree.Typed):
            return self.evaluate(node.value, path, scope, self.types.named(node.type.word, node.type.at))
        if isinstance(node, tree.Braces):
            return self.braces(node, path, scope, type)
        if isinstance(node, tree.Binary):
            return self._binary(node, path, scope)
        if isinstance(node, tree.Unary):
            return self._unary(node, path, scope)
        if isinstance(node, tree.Call):
            return self._call(node, path, scope)
        return self._template(node, path, scope, type)

    def _template(self, node: Expression, path: Path, scope: Optional[Scope], type: Optional[Type]) -> Form:
        if isinstance(node, tree.OneOf):
            items = [self.evaluate(item, path, scope, type) for item in node.items]
            return items[0] if len(items) == 1 else Options(tuple(items))
        if isinstance(node, tree.Complement):
            return Excluded(tuple(self.evaluate(item, path, scope, type) for item in node.items))
        if isinstance(node, tree.RangeOf):
            return self._range(node, path, scope, type)
        if isinstance(node, tree.PatternOf):
            text = self.evaluate(node.text, path, scope)
            return self.pattern(text, node.at)
        if isinstance(node, tree.OtherMatching) and node.word == "length":
            bounds = [self._limit(item, path, scope) for item in node.items[1:]]
            return self.of_length(node.at, self.evaluate(node.items[0], path, scope, type), bounds[0], bounds[-1], type)
        if isinstance(node, tree.OtherMatching):
            items = [self.evaluate(item, path, scope, type) for item in node.items]
            return self.other_matching(node, items, type)
        if isinstance(node, tree.Modified):
            of = self.type_of(node.base, path, scope) or type
            base = self.evaluate(node.base, path, scope, of)
            return self._modify(base, node.body, path, scope, of)
        if isinstance(node, tree.VerdictWord):
            return VerdictValue(node.word)
        if isinstance(node, tree.Bits):
            is_open = bool(set(node.digits) & {"?", "*"})
            return DigitsPattern(node.digits, node.letter) if is_open else Digits(node.digits, node.letter)
        if isinstance(node, tree.Create):
            return self.create(node, path, scope)
        if isinstance(node, tree.Activate):
            return self.activate(node, path, scope)
        assert isinstance(node, tree.Asked)
        return self.asked_of(node, path, scope)

    def asked_of(self, node: tree.Asked, path: Path, scope: Optional[Scope]) -> Form:
        refuse(node.at, f"`{node.word}` asks for something that is known only in a run")

    def create(self, node: tree.Create, path: Path, scope: Optional[Scope]) -> Form:
        refuse(node.at, "a component is created only in the test case's own body")

    def activate(self, node: tree.Activate, path: Path, scope: Optional[Scope]) -> Form:
        refuse(node.at, "a default is activated only in a body")

    def _name(self, node: tree.Name, path: Path, scope: Optional[Scope], type: Optional[Type]) -> Form:
        key = self.find(node.word, scope, path)
        if key is not None:
            value = self.slot(key, path).value
            if value is Mark.LOST:
                raise Refusal(node.at, "")
            return value
        if node.word in self.program.constants:
            return self._constant(self.program.constants[node.word], node.at)
        if node.word in self.program.templates:
            return self._by_template(node.word, [], node.at, path, scope)
        found = self._enumerated(node.word, type)
        if found is None:
            refuse(node.at, f"`{node.word}` isn't known here")
        return found

    def _constant(self, constant: tree.Constant, at: Token) -> Form:
        known = self.values.get(constant.name)
        if known is None:
            type = self.types.of(constant.type, constant.name)
            value = constant.value
            if constant.is_parameter and constant.name in self.parameters:
                value = self.parameters[constant.name]
            if value is None:
                refuse(at, f"the module parameter `{constant.name}` has no value: give one with --param")
            self.values[constant.name] = Mark.LOST
            known = self.evaluate(value, self.nowhere(), None, type)
            self.values[constant.name] = known
        return known

    def _enumerated(self, word: str, type: Optional[Type]) -> Optional[Form]:
        if type is not None and type.kind is Kind.ENUM:
            return Enumerated(word) if word in type.root.names else None
        listed = [
            definition for definition in self.types.definitions.values()
            if isinstance(definition.body, tree.EnumBody) and word in definition.body.names
        ]
        return Enumerated(word) if listed else None

    def _special(self, node: tree.Special, path: Path, type: Optional[Type]) -> Form:
        sign = node.sign
        if sign is Sign.SELF:
            return ComponentValue(self.own)
        if sign is Sign.GETVERDICT:
            return VerdictValue(path.state.verdict)
        simple: dict[Sign, Form] = {
            Sign.ANY: Wild.ANY, Sign.ANY_OR_NONE: Wild.ANY_OR_NONE, Sign.OMIT: Mark.OMIT,
            Sign.NULL: Mark.NULL, Sign.NOT_USED: Mark.NOT_USED, Sign.MTC: ComponentValue(0),
        }
        if sign not in simple:
            refuse(node.at, f"`{sign.value}` isn't allowed here")
        return simple[sign]

    def asked(
        self, node: Expression, path: Path, scope: Optional[Scope], type: Optional[Type], may_be_open: bool
    ) -> Form:
        """The value of a node that may be omitted, if only its presence or an equality is asked for."""
        if may_be_open and isinstance(node, tree.FieldOf):
            return self._part(node, path, scope, may_be_open)
        return self.evaluate(node, path, scope, type)

    def _part(
        self, node: Union[tree.FieldOf, tree.IndexOf], path: Path, scope: Optional[Scope], may_be_open: bool = False
    ) -> Form:
        of = self.type_of(node.value, path, scope)
        inner = node.value
        if isinstance(node, tree.FieldOf) and isinstance(inner, tree.Name) and self._is_module(inner, path, scope):
            return self._name(tree.Name(node.at, node.word), path, scope, None)
        whole = self.evaluate(node.value, path, scope)
        if isinstance(node, tree.FieldOf):
            found = self._field(node, whole, of)
            if isinstance(found, Received) and not may_be_open and may_be_left_out(self.said_of(found)):
                is_open = f"whether `{node.word}` was received is open here: ask `ispresent` before"
                self.split(found, node.at, is_open)
            return found
        index = self.settled(self.evaluate(node.index, path, scope), node.at, "the index isn't known here")
        if isinstance(index, bool) or not isinstance(index, int) or index < 0:
            refuse(node.at, "the index isn't known here")
        if isinstance(whole, str):
            return whole[index] if index < len(whole) else refuse(node.at, "the text isn't so long")
        if isinstance(whole, Received):
            self._look_at_length(whole, index, node.at)
        found = self.part(whole, (index,))
        if found is Mark.UNSET and not (isinstance(whole, Elements) and index < len(whole.items)):
            refuse(node.at, "there is no such element")
        return found

    def _look_at_length(self, whole: Received, index: int, at: Token) -> None:
        """A received element surely exists only if the template names all elements before it."""
        template = self.said_of(whole)
        items = template.items if isinstance(template, Elements) else ()
        if index >= len(items) or Wild.ANY_OR_NONE in items[: index + 1]:
            self.split(whole, at, "whether what was received has this element is open")

    def _is_module(self, name: tree.Name, path: Path, scope: Optional[Scope]) -> bool:
        is_module = any(module.name == name.word for module in self.program.modules)
        return is_module and self.find(name.word, scope, path) is None

    def _field(self, node: tree.FieldOf, whole: Form, of: Optional[Type]) -> Form:
        if isinstance(whole, Chosen):
            if whole.name != node.word:
                refuse(node.at, f"the alternative `{node.word}` isn't the chosen one")
            return whole.value
        number = of.field_number(node.word) if of and of.kind in (Kind.RECORD, Kind.UNION) else None
        if of is None or number is None:
            refuse(node.at, f"the field `{node.word}` isn't known here")
        if of.kind is Kind.UNION:
            self._look_at_chosen(node, whole, of)
        return self.part(whole, (number,))

    def _look_at_chosen(self, node: tree.FieldOf, whole: Form, of: Type) -> None:
        """Checks that a received value surely has this alternative: its template names it, or no other is possible."""
        template = self.said_of(whole) if isinstance(whole, Received) else None
        if isinstance(whole, Received) and not isinstance(template, Chosen):
            if open_alternatives(whole.symbol.facts, whole.steps, of) != [node.word]:
                self.split(whole, node.at, "which alternative it has isn't known here: ask `ischosen` before")
            self.fits(whole, Chosen(node.word, Wild.ANY), node.at)
        elif not isinstance(template, Chosen) or template.name != node.word:
            refuse(node.at, f"the alternative `{node.word}` isn't the chosen one")

    def _range_of_letters(self, node: tree.RangeOf, path: Path, scope: Optional[Scope]) -> Form:
        low, high = (self.settled(self.evaluate(item, path, scope), item.at) for item in (node.low, node.high))
        is_so = isinstance(low, str) and isinstance(high, str) and len(low) == len(high) == 1 and low <= high
        return Texts(letters_between(str(low), str(high))) if is_so else refuse(
            node.at, "a range of characters has one character at each of its ends, the lower one first"
        )

    def _range(self, node: tree.RangeOf, path: Path, scope: Optional[Scope], type: Optional[Type]) -> Form:
        if isinstance(node.low, tree.Literal) and isinstance(node.low.value, str) or type is not None and type.kind is Kind.CHARSTRING:
            return self._range_of_letters(node, path, scope)
        low, high = (self._limit(item, path, scope) for item in (node.low, node.high))
        if low is not None and high is not None and low > high:
            refuse(node.at, "the range has its lower bound above its upper")
        return Bounds(low, high)

    def _limit(self, node: Expression, path: Path, scope: Optional[Scope]) -> Optional[int]:
        inner = node.value if isinstance(node, tree.Unary) else node
        if isinstance(inner, tree.Special) and inner.sign is Sign.INFINITY:
            return None
        value = self.settled(self.evaluate(node, path, scope), node.at)
        if isinstance(value, bool) or not isinstance(value, int):
            refuse(node.at, "the bounds of a range are integers that are known before")
        return value

    # Operators

    def _binary(self, node: tree.Binary, path: Path, scope: Optional[Scope]) -> Form:
        is_asked = node.sign in ("==", "!=")
        left = self.asked(node.left, path, scope, None, is_asked)
        if node.sign in ("and", "or"):
            first = self.truth(left, node.left.at)
            if first is (node.sign == "or"):
                return first
            return self.truth(self.evaluate(node.right, path, scope), node.right.at)
        type = self.type_of(node.left, path, scope) or self.type_of(node.right, path, scope)
        if isinstance(node.left, (tree.Name, tree.Braces)):
            left = self.evaluate(node.left, path, scope, type)
        right = self.asked(node.right, path, scope, type, is_asked)
        if isinstance(left, Received) or isinstance(right, Received):
            return self._compared(node, left, right)
        for value, side in ((left, node.left), (right, node.right)):
            self.look_at_value(value, side.at)
        if type is not None and type.kind is Kind.ENUM and node.sign in ORDERED:
            left, right = (self.number_of(value, type, node.at) for value in (left, right))
        return computed(node.sign, left, right, node.at)

    def look_at_value(self, value: Form, at: Token) -> None:
        if value is Mark.LOST:
            raise Refusal(at, "")
        if value is Mark.UNSET:
            refuse(at, "this has no value yet")
        self.settled(value, at)
        if not is_value(value):
            refuse(at, "this is no value")

    def _compared(self, node: tree.Binary, left: Form, right: Form) -> Form:
        """The result for a part of a received message and a known value: the template that has the same meaning."""
        sign = node.sign
        if not isinstance(left, Received):
            left, right = right, left
            sign = {"<": ">", ">": "<", "<=": ">=", ">=": "<="}.get(sign, sign)
        if not isinstance(left, Received) or has_received(right):
            self.settled(left, node.at, "two parts of what was received are compared")
            self.settled(right, node.at, "two parts of what was received are compared")
            raise Refusal(node.at, "")
        self.look_at_value(right, node.at)
        if sign in ("==", "!="):
            return self.fits(left, right, node.at) is (sign == "==")
        if isinstance(right, bool) or not isinstance(right, int):
            self.split(left, node.at)
        bounds = {
            "<": Bounds(None, right - 1), "<=": Bounds(None, right),
            ">": Bounds(right + 1, None), ">=": Bounds(right, None),
        }
        if sign not in bounds:
            self.split(left, node.at)
        return self.fits(left, bounds[sign], node.at)

    def fits(self, received: Received, template: Form, at: Token) -> bool:
        """Whether a received message matches; if that is open, its branch is split."""
        symbol, steps = received.symbol, received.steps
        if steps == SENDER and not isinstance(template, ComponentValue):
            if template in (Wild.ANY, Mark.NULL):
                return template is Wild.ANY
            refuse(at, "what a sender is compared with isn't known here")
        if steps != SENDER:
            known = decided(self.said_of(received), template)
            if known is not None:
                return known
        if has_texts(template):
            self.split(received, at)
        fact = symbol.facts.get((steps, template))
        if fact is not None:
            return fact
        raise Split(symbol, steps, [template], at)

    def truth(self, value: Form, at: Token) -> bool:
        if isinstance(value, Received):
            return self.fits(value, True, at)
        self.look_at_value(value, at)
        if not isinstance(value, bool):
            refuse(at, "this is no boolean")
        return value

    def _unary(self, node: tree.Unary, path: Path, scope: Optional[Scope]) -> Form:
        value = self.evaluate(node.value, path, scope)
        if node.sign == "not":
            return not self.truth(value, node.at)
        self.look_at_value(value, node.at)
        return inverted(node.sign, value, node.at)

    def has_state(self, node: tree.Call, port: Expression, path: Path, scope: Optional[Scope]) -> bool:
        raise NotImplementedError

    # Calls

    def _call(self, node: tree.Call, path: Path, scope: Optional[Scope]) -> Form:
        word = tree.word_called(node)
        if word == "regexp":
            return self._group(node, path, scope)
        if word == "testcasename" and not node.arguments:
            return self.program.case_name
        if word in PREDEFINED:
            values = [self.evaluate(item.value, path, scope) for item in node.arguments]
            for value in values:
                self.look_at_value(value, node.at)
            return predefined(word, values, node.at)
        if word in ASKING:
            return self.asking(word, node, path, scope)
        if word in self.program.templates:
            return self._by_template(word, node.arguments, node.at, path, scope)
        if word in self.program.functions:
            return self.called_value(node, path, scope)
        if word == "checkstate" and isinstance(node.called, tree.FieldOf):
            return self.has_state(node, node.called.value, path, scope)
        if word in CODECS:
            refuse(node.at, f"`{word}` needs a codec, and a run encodes and decodes nothing")
        if word in ("rnd", "hostid"):
            refuse(node.at, f"`{word}` asks for something that is known only in a run")
        if isinstance(node.called, tree.Name) and self.find(word, scope, path) is not None:
            refuse(node.at, f"`{word}` is called through a variable")
        refuse(node.at, f"the function `{word}` isn't evaluated")

    def _group(self, node: tree.Call, path: Path, scope: Optional[Scope]) -> Form:
        """`regexp`: the part of a text that matches a group of a pattern (C.4.1), if there is only one possibility."""
        if len(node.arguments) != 3:
            refuse(node.at, "`regexp` has another number of arguments")
        text, pattern, number = (item.value for item in node.arguments)
        if isinstance(pattern, tree.Name) and self.find(pattern.word, scope, path) is None and pattern.word in self.program.templates:
            pattern = self.program.templates[pattern.word].body
        pattern = pattern.value if isinstance(pattern, tree.Typed) else pattern
        asked = [text, pattern.text if isinstance(pattern, tree.PatternOf) else pattern, number]
        values = [self.evaluate(item, path, scope) for item in asked]
        for value in values:
            self.look_at_value(value, node.at)
        return predefined("regexp", values, node.at)

    def called_value(self, node: tree.Call, path: Path, scope: Optional[Scope]) -> Form:
        refuse(node.at, "a function is called only in a body")

    def _by_template(
        self, word: str, arguments: list[tree.Argument], at: Token, path: Path, scope: Optional[Scope]
    ) -> Form:
        """A template by its name: its parameters are values or templates, and it sees nothing else."""
        definition = self.program.templates[word]
        type = self.types.of(definition.type, definition.name)
        bound = self.bind(definition.parameters, arguments, at, path, scope)
        inner = self.new_scope(None)
        for name, slot in bound:
            path.state.variables[inner.number, name] = slot
        try:
            found = self._template_body(definition, path, inner, type)
            look_at_restricted(found, definition.restriction, at)
            return found
        finally:
            for name, _ in bound:
                del path.state.variables[inner.number, name]

    def _template_body(
        self, definition: tree.TemplateDefinition, path: Path, scope: Scope, type: Type
    ) -> Form:
        if definition.base is None:
            return self.evaluate(definition.body, path, scope, type)
        base = self.program.templates.get(definition.base)
        if base is None:
            refuse(definition.at, f"the template `{definition.base}` isn't known")
        known = {parameter.name for parameter in definition.parameters}
        given = [
            tree.Argument(definition.at, item.name, tree.Name(definition.at, item.name))
            for item in base.parameters if item.name in known
        ]
        form = self._by_template(base.name, given, definition.at, path, scope)
        return self._modify(form, definition.body, path, scope, type)

    def _modify(
        self, base: Form, body: Expression, path: Path, scope: Optional[Scope], type: Optional[Type]
    ) -> Form:
        """The base, with the fields of the body replacing its own."""
        if not isinstance(body, tree.Braces) or not isinstance(base, (Fields, Chosen)):
            if isinstance(body, tree.Braces) and type is not None and type.kind is Kind.RECORD and base is Wild.ANY:
                base = opened(type)
            else:
                return self.evaluate(body, path, scope, type)
        if isinstance(base, Chosen) or type is None or body.items and not body.named:
            return self._positional(base, body, path, scope, type)
        items = list(base.items)
        for name, value in body.named:
            number = type.field_number(name) if isinstance(name, str) else None
            if number is None:
                refuse(body.at, f"there is no field `{name}`")
            of = type.root.fields[number].type
            items[number] = self._modify(items[number], value, path, scope, of)
        return Fields(tuple(items))

    def _positional(
        self, base: Form, body: tree.Braces, path: Path, scope: Optional[Scope], type: Optional[Type]
    ) -> Form:
        form = self.evaluate(body, path, scope, type)
        if isinstance(base, Fields) and isinstance(form, Fields):
            pairs = zip(base.items, form.items)
            return Fields(tuple(old if new in (Mark.NOT_USED, Mark.UNSET) else new for old, new in pairs))
        return form
