"""The behaviour of one component, as a generator: it yields its acts, and is sent the result of each.

The acts: `send` with a port, a message and a component or None; `alt` with tests, which is sent the place of the chosen
test, the message and its sender; `verdict`, `create`, `connect`, `start`, `timer`, and `operate` for a port. Everything
else that it does follows from these results.
"""
from __future__ import annotations

from typing import Any, Generator, NamedTuple, Optional

from grammar import Module, Parameter, Routine, Template, Tree
from values import UNARY, Among, Component, Fault, Mark, Range, Record, Series, Word, calculated, matches, predefined
from values import type_of, value_of

Acts = Generator[Tree, Any, Any]
VERDICTS = ("none", "pass", "inconc", "fail", "error")
MOST_TURNS = 2_000


class Endless(Exception):
    """A behaviour takes more turns than the oracle follows."""


class Leaves(Exception):
    """`break`, `continue`, `repeat`, `return` or `stop`."""

    def __init__(self, how: str, value: Any):
        super().__init__(how)
        self.how = how
        self.value = value


class Jumps(Exception):
    """`goto` with its label."""


class Cell:
    def __init__(self, type_name: str, value: Any):
        self.type = type_name
        self.value = value


class Scope:
    def __init__(self, outer: Optional["Scope"] = None):
        self.outer = outer
        self.cells: dict[str, Cell] = {}

    def find(self, name: str) -> Optional[Cell]:
        found = self.cells.get(name)
        return self.outer.find(name) if found is None and self.outer is not None else found


class Choice(NamedTuple):
    """A branch that may be chosen: its test, its event, its scope, and the blocks that follow, each with its scope."""

    test: Tree
    event: Tree
    scope: Scope
    bodies: tuple[tuple[tuple[Tree, ...], Scope], ...]


class Behaviour:
    def __init__(self, module: Module, number: int, type_name: str):
        self.module = module
        self.number = number
        self.type = type_name
        self.verdict = "none"
        self.defaults: dict[Component, tuple[Routine, Scope]] = {}
        self.activated = 0
        self.turns = 0
        self.own = Scope()
        self.is_interleaved = False

    def run(self, routine: Routine, arguments: tuple[Any, ...]) -> Acts:
        for declared in self.module.components[self.type]:
            yield from self.do(declared, self.own)
        scope = Scope(self.own)
        for parameter, value in zip(routine.parameters, arguments):
            scope.cells[parameter.name] = Cell(parameter.type, value)
        try:
            yield from self.block(routine.body, scope)
        except Leaves as leaves:
            if leaves.how not in ("return", "stop"):
                raise

    # Statements

    def block(self, statements: tuple[Tree, ...], outer: Scope) -> Acts:
        scope, at = Scope(outer), 0
        while at < len(statements):
            try:
                yield from self.do(statements[at], scope)
                at += 1
            except Jumps as jumps:
                label = ("label", str(jumps))
                if label not in statements:
                    raise
                at = statements.index(label)

    def do_label(self, scope: Scope, _: str) -> Acts:
        yield from ()

    def do_goto(self, scope: Scope, label: str) -> Acts:
        yield from ()
        raise Jumps(label)

    def do(self, statement: Tree, scope: Scope) -> Acts:
        self.turns += 1
        if self.turns > MOST_TURNS:
            raise Endless
        yield from getattr(self, f"do_{statement[0]}")(scope, *statement[1:])

    def do_log(self, scope: Scope, _: tuple[Tree, ...]) -> Acts:
        yield from ()

    def do_var(self, scope: Scope, type_name: str, variables: tuple[tuple[str, Optional[Tree]], ...]) -> Acts:
        for name, first in variables:
            value = Mark.UNSET if first is None else (yield from self.value(first, scope, type_name))
            scope.cells[name] = Cell(type_name, value)

    def do_if(self, scope: Scope, condition: Tree, then: tuple[Tree, ...], other: tuple[Tree, ...]) -> Acts:
        yield from self.block(then if (yield from self.value(condition, scope)) else other, scope)

    def do_loop(self, outer: Scope, first: Any, condition: Tree, step: Any, body: tuple[Tree, ...]) -> Acts:
        scope = Scope(outer)
        for statement in first:
            yield from self.do(statement, scope)
        while (yield from self.value(condition, scope)):
            try:
                yield from self.do(("block", body), scope)
            except Leaves as leaves:
                if leaves.how == "break":
                    return
                if leaves.how != "continue":
                    raise
            for statement in step:
                yield from self.do(statement, scope)

    def do_block(self, scope: Scope, body: tuple[Tree, ...]) -> Acts:
        yield from self.block(body, scope)

    def do_select(self, scope: Scope, chosen: Tree, cases: tuple[tuple[Optional[tuple[Tree, ...]], Any], ...]) -> Acts:
        wanted = yield from self.value(chosen, scope)
        for labels, body in cases:
            found = [] if labels is None else (yield from self.every(labels, scope))
            if labels is None or any(matches(label, wanted) for label in found):
                yield from self.block(body, scope)
                return

    def do_alt(self, scope: Scope, branches: tuple[Tree, ...]) -> Acts:
        while True:
            try:
                chosen = yield from self.choose((yield from self.choices(branches, scope)))
                if chosen is None:
                    # Another branch of its `interleave` has continued.
                    continue
                yield from self.take(*chosen)
                return
            except Leaves as leaves:
                if leaves.how == "break":
                    return
                if leaves.how != "repeat":
                    raise

    def do_interleave(self, scope: Scope, branches: tuple[Tree, ...]) -> Acts:
        """20.4: each branch continues from its own wait, whichever of the others has continued before. This is the same
        as nested `alt`s with everything that is still waited for, so that guards are evaluated again for each."""
        begun = [self.do_alt(scope, (branch,)) for branch in branches]
        while begun:
            waiting: list[tuple[tuple[Choice, ...], Acts]] = []
            for one in begun:
                waiting.append(((yield from self.until_it_waits(one, None)), one))
            chosen = yield from self.choose([choice for choices, _ in waiting for choice in choices])
            if chosen is None:
                continue
            taken = next((one for choices, one in waiting if chosen[0] in choices), None)
            if taken is None:
                yield from self.take(*chosen)
                return
            if (yield from self.until_it_waits(taken, chosen)) is None:
                begun.remove(taken)

    def until_it_waits(self, begun: Acts, answer: Any) -> Acts:
        """The choices for which a branch waits next, or None if it has ended. Other acts are passed on."""
        is_within = self.is_interleaved
        try:
            while True:
                self.is_interleaved = True
                act = begun.send(answer)
                self.is_interleaved = is_within
                if act[0] == "choices":
                    return act[1]
                answer = yield act
        except StopIteration:
            return None
        finally:
            self.is_interleaved = is_within

    def do_leave(self, scope: Scope, how: str, tree: Optional[Tree]) -> Acts:
        cell = scope.find("return")
        value = None if tree is None or cell is None else (yield from self.evaluate(tree, scope, cell.type))
        raise Leaves(how, value)

    def do_setverdict(self, scope: Scope, arguments: tuple[Tree, ...]) -> Acts:
        word = arguments[0][1]
        if VERDICTS.index(word) > VERDICTS.index(self.verdict):
            self.verdict = word
            yield "verdict", word

    def do_deactivate(self, scope: Scope, arguments: tuple[Tree, ...]) -> Acts:
        for default in (yield from self.every(arguments, scope)) if arguments else list(self.defaults):
            self.defaults.pop(default, None)

    def do_connect(self, scope: Scope, *ends: tuple[Tree, str]) -> Acts:
        components = yield from self.every([component for component, _ in ends], scope)
        yield ("connect", *((component.number, port) for component, (_, port) in zip(components, ends)))

    def do_start(self, scope: Scope, subject: Tree, name: str, arguments: tuple[Tree, ...]) -> Acts:
        component = yield from self.value(subject, scope)
        inner = yield from self.bound(self.module.routines[name].parameters, arguments, scope)
        yield "start", component.number, name, tuple(cell.value for cell in inner.cells.values())

    def do_operate(self, scope: Scope, word: str, port: str) -> Acts:
        yield "operate", word, port

    def do_timer(self, scope: Scope, word: str, name: str, arguments: tuple[Tree, ...]) -> Acts:
        yield "timer", word, name

    def do_evaluate(self, scope: Scope, tree: Tree) -> Acts:
        yield from self.evaluate(tree, scope)

    def do_send(self, scope: Scope, port: str, message: Tree, to: Optional[Tree]) -> Acts:
        value = yield from self.value(message, scope)
        yield "send", port, value, None if to is None else (yield from self.value(to, scope)).number

    def do_assign(self, scope: Scope, target: Tree, tree: Tree) -> Acts:
        yield from self.assign(target, (yield from self.evaluate(tree, scope, self.type_of_place(target, scope))), scope)

    def assign(self, target: Tree, value: Any, scope: Scope) -> Acts:
        if target[0] == "name":
            cell = scope.find(target[1])
            assert cell is not None
            cell.value = value
            return
        kind, whole, at = target
        type_name = self.type_of_place(whole, scope)
        held = yield from self.evaluate(whole, scope, None, is_place=True)
        if kind == "field":
            names = list(self.module.records[type_name])
            parts = list(held.fields) if isinstance(held, Record) else [Mark.UNSET] * len(names)
            parts[names.index(at)] = value
            yield from self.assign(whole, Record(type_name, tuple(parts)), scope)
            return
        place = yield from self.value(at, scope)
        parts = list(held.items) if isinstance(held, Series) else []
        parts += [Mark.UNSET] * (place + 1 - len(parts))
        parts[place] = value
        yield from self.assign(whole, Series(type_name, tuple(parts)), scope)

    def type_of_place(self, place: Tree, scope: Scope) -> str:
        if place[0] == "name":
            cell = scope.find(place[1])
            assert cell is not None
            return cell.type
        whole = self.type_of_place(place[1], scope)
        return self.module.records[whole][place[2]] if place[0] == "field" else self.module.lists[whole]

    # Branches

    def choices(self, branches: tuple[Tree, ...], scope: Scope) -> Acts:
        found: list[Choice] = []
        for _, guard, event, body in branches:
            if guard is not None and not (yield from self.value(guard, scope)):
                continue
            if event[0] == "altstep":
                routine = self.module.routines[event[1]]
                inner = yield from self.bound(routine.parameters, event[2], scope)
                found += yield from self.choices_of(routine, inner, ((body, scope),))
            else:
                found.append(Choice((yield from self.test(event, scope)), event, scope, ((body, scope),)))
        return found

    def choices_of(self, routine: Routine, inner: Scope, then: Any) -> Acts:
        """The choices in the branches of an altstep."""
        for declared in routine.variables:
            yield from self.do(declared, inner)
        found = yield from self.choices(routine.body, inner)
        return [choice._replace(bodies=(*choice.bodies, *then)) for choice in found]

    def test(self, event: Tree, scope: Scope) -> Acts:
        if event[0] in ("else", "timeout"):
            return event
        if event[0] == "done":
            return "done", None if event[1] is None else (yield from self.value(event[1], scope)).number
        _, how, port, wanted, origin, _, _ = event
        template = Mark.ANY if wanted is None else (yield from self.evaluate(wanted, scope))
        type_name = None if wanted is None else self.type_of_template(wanted, template)
        return how, port, type_name, template, None if origin is None else (yield from self.value(origin, scope)).number

    def type_of_template(self, wanted: Tree, template: Any) -> str:
        if wanted[0] == "typed":
            return str(wanted[1])
        named = self.module.templates.get(wanted[1]) if wanted[0] in ("name", "call") else None
        return type_of(template) if named is None else named.type

    def choose(self, choices: list[Choice]) -> Acts:
        if self.is_interleaved:
            return (yield "choices", tuple(choices))
        if not any(choice.test == ("else",) for choice in choices):
            for routine, inner in reversed(list(self.defaults.values())):
                fresh = Scope(self.own)
                fresh.cells = {name: Cell(cell.type, cell.value) for name, cell in inner.cells.items()}
                choices = choices + (yield from self.choices_of(routine, fresh, ()))
        if not choices:
            raise Fault("no branch can be chosen")
        place, message, sender = yield "alt", tuple(choice.test for choice in choices)
        return choices[place], message, sender

    def take(self, choice: Choice, message: Any, sender: Any) -> Acts:
        if choice.event[0] == "receive":
            for place, value in zip(choice.event[5:], (message, Component(sender))):
                if place is not None:
                    yield from self.assign(place, value, choice.scope)
        for body, scope in choice.bodies:
            yield from self.block(body, scope)

    # Calls

    def bound(self, parameters: tuple[Parameter, ...], arguments: tuple[Tree, ...], scope: Scope) -> Acts:
        inner = Scope(self.own)
        for at, (mode, type_name, name, default) in enumerate(parameters):
            given = arguments[at] if at < len(arguments) and arguments[at] != ("skip",) else default
            assert given is not None
            value = Mark.UNSET if mode == "out" else (yield from self.evaluate(given, scope, type_name, mode == "inout"))
            is_shared = mode in ("out", "inout") and given[0] == "name"
            cell = (scope.find(given[1]) if is_shared else None) or Cell(type_name, value)
            cell.value = value_of(value) if mode == "in" else value
            inner.cells[name] = cell
        return inner

    def call(self, routine: Routine, arguments: tuple[Tree, ...], scope: Scope) -> Acts:
        inner = yield from self.bound(routine.parameters, arguments, scope)
        inner.cells["return"] = Cell(str(routine.returned), Mark.UNSET)
        try:
            yield from self.block(routine.body, inner)
        except Leaves as leaves:
            if leaves.how != "return":
                raise
            inner.cells["return"].value = leaves.value
        for parameter, argument in zip(routine.parameters, arguments):
            if parameter.mode in ("out", "inout"):
                yield from self.assign(argument, inner.cells[parameter.name].value, scope)
        return inner.cells["return"].value

    def template(self, template: Template, inner: Scope) -> Acts:
        if template.base is None:
            return (yield from self.evaluate(template.value, inner, template.type))
        base = yield from self.template(self.module.templates[template.base], inner)
        return (yield from self.of_braces(inner, template.type, False, template.value[1], base.fields))

    # Values and templates

    def value(self, tree: Tree, scope: Scope, type_name: Optional[str] = None) -> Acts:
        return value_of((yield from self.evaluate(tree, scope, type_name)))

    def every(self, trees: Any, scope: Scope, type_name: Optional[str] = None) -> Acts:
        found = []
        for tree in trees:
            found.append((yield from self.evaluate(tree, scope, type_name)))
        return found

    def evaluate(self, tree: Tree, scope: Scope, type_name: Optional[str] = None, is_place: bool = False) -> Acts:
        """`type_name` is the type of a `{..}` at this place. A place may have no value yet."""
        if tree[0] in ("any", "any_or_none", "omit", "skip"):
            return Mark[tree[0].upper()]
        return (yield from getattr(self, f"of_{tree[0]}")(scope, type_name, is_place, *tree[1:]))

    def of_value(self, scope: Scope, type_name: str, is_place: bool, value: Any) -> Acts:
        yield from ()
        return value

    def of_name(self, scope: Scope, type_name: str, is_place: bool, name: str) -> Acts:
        cell = scope.find(name)
        if cell is not None:
            return cell.value
        if name in self.module.constants:
            of, tree = self.module.constants[name]
            return (yield from self.value(tree, Scope(), of))
        if name in self.module.templates:
            return (yield from self.of_call(scope, type_name, is_place, name, ()))
        if name in ("self", "mtc"):
            return Component(self.number if name == "self" else 0)
        return next(Word(of, name) for of, words in self.module.enumerated.items() if name in words)

    def of_field(self, scope: Scope, type_name: str, is_place: bool, whole: Tree, name: str) -> Acts:
        held = yield from self.evaluate(whole, scope, None, is_place)
        if isinstance(held, Record):
            return held.fields[list(self.module.records[held.type]).index(name)]
        if is_place:
            return Mark.UNSET
        raise Fault("a field of nothing")

    def of_index(self, scope: Scope, type_name: str, is_place: bool, whole: Tree, at: Tree) -> Acts:
        held = yield from self.evaluate(whole, scope, None, is_place)
        place = yield from self.value(at, scope)
        items = held.items if isinstance(held, Series) else held if isinstance(held, str) else ()
        if 0 <= place < len(items):
            return items[place]
        if is_place and place >= 0:
            return Mark.UNSET
        raise Fault("an index beyond the end")

    def of_typed(self, scope: Scope, _: str, is_place: bool, type_name: str, tree: Tree) -> Acts:
        return (yield from self.evaluate(tree, scope, type_name))

    def of_braces(self, scope: Scope, type_name: str, is_place: bool, items: Any, base: Any = None) -> Acts:
        if type_name in self.module.lists:
            elements = yield from self.every([item for _, item in items], scope, self.module.lists[type_name])
            return Series(type_name, tuple(elements))
        types = self.module.records[type_name]
        parts = dict(zip(types, base or [Mark.UNSET] * len(types)))
        for name, (given, item) in zip(types, items):
            value = yield from self.evaluate(item, scope, types[given or name])
            if value is not Mark.SKIP:
                parts[given or name] = value
        return Record(type_name, tuple(parts.values()))

    def of_range(self, scope: Scope, type_name: str, is_place: bool, *bounds: Tree) -> Acts:
        found = []
        for bound in bounds:
            is_open = bound in (("infinity",), ("unary", "-", ("infinity",)))
            found.append(None if is_open else (yield from self.value(bound, scope)))
        return Range(*found)

    def of_among(self, scope: Scope, type_name: str, is_place: bool, is_one: bool, templates: tuple[Tree, ...]) -> Acts:
        return Among(is_one, tuple((yield from self.every(templates, scope, type_name))))

    def of_unary(self, scope: Scope, type_name: str, is_place: bool, operator: str, tree: Tree) -> Acts:
        return UNARY[operator]((yield from self.value(tree, scope)))

    def of_binary(self, scope: Scope, type_name: str, is_place: bool, operator: str, left: Tree, right: Tree) -> Acts:
        first = yield from self.evaluate(left, scope)
        if operator in ("and", "or") and value_of(first) == (operator == "or"):
            return first
        return calculated(operator, first, (yield from self.evaluate(right, scope)))

    def of_create(self, scope: Scope, type_name: str, is_place: bool, created: str) -> Acts:
        return Component((yield "create", created))

    def of_activate(self, scope: Scope, type_name: str, is_place: bool, arguments: tuple[Tree, ...]) -> Acts:
        _, name, given = arguments[0]
        routine = self.module.routines[name]
        self.activated += 1
        self.defaults[Component(-self.activated)] = routine, (yield from self.bound(routine.parameters, given, scope))
        return Component(-self.activated)

    def of_call(self, scope: Scope, type_name: str, is_place: bool, name: str, arguments: tuple[Tree, ...]) -> Acts:
        if name in self.module.templates:
            template = self.module.templates[name]
            return (yield from self.template(template, (yield from self.bound(template.parameters, arguments, scope))))
        if name in self.module.routines:
            return (yield from self.call(self.module.routines[name], arguments, scope))
        given = yield from self.every(arguments, scope)
        if name == "enum2int":
            return self.module.enumerated[given[0].type][given[0].name]
        return predefined(name, given)
