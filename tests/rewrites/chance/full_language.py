"""The behaviour of one component in a script of the full language: a plain interpreter of the reader's tree.

A behaviour is a generator. It yields its acts, and is sent the result of each: for a look at branches the chosen branch
and the message, for `create` the component. So all its acts follow from the results before. Constructs that the random
programs don't have are left out (ES 201 873-1, 16, 19 and 20).
"""
from __future__ import annotations

from dataclasses import dataclass, field
from typing import Any, Generator, Optional

from full_expressions import Cell, Evaluator, Fault, Program, Scope
from full_values import Component, Default, Port, UNSET
from tpr_tools.rewrite import tree

Act = tuple[Any, ...]
Acts = Generator[Act, Any, Any]
VERDICTS = ("none", "pass", "inconc", "fail", "error")
MOST_TURNS = 200


class Leaves(Exception):
    """`break`, `continue`, `repeat`, `return` or `stop`."""

    def __init__(self, how: str, value: Any = UNSET):
        super().__init__(how)
        self.how = how
        self.value = value


@dataclass
class Option:
    """A branch: what it waits for, where its message is stored, and what is done then."""

    test: Act
    event: Any
    scope: Scope
    bodies: list[tuple[tree.Block, Scope]] = field(default_factory=list)
    source: Optional[tree.Branch] = None


class Behaviour(Evaluator):
    def __init__(self, program: Program, me: int, type: str):
        super().__init__(program, me)
        self.root = Scope(None)
        self.defaults: list[tuple[int, tree.Altstep, Scope]] = []
        self.activated = 0
        self.ports = program.ports_of(type)
        for name, value in program.port_names(type).items():
            self.root.cells[name] = Cell("", value)

    def acts(self, type: str, body: Any, arguments: tuple[Any, ...]) -> Acts:
        for member in self.program.members_of(type):
            yield from self.statement(member, self.root)
        scope = Scope(self.root)
        for parameter, value in zip(body.parameters, arguments):
            scope.cells[parameter.name] = Cell(parameter.type.word, value)
        try:
            yield from self.statements(body.body.statements, scope)
        except Leaves as leaves:
            if leaves.how not in ("return", "stop"):
                raise Fault(leaves.how) from None

    # Statements

    def statements(self, listed: list[tree.Statement], scope: Scope) -> Acts:
        for statement in listed:
            yield from self.statement(statement, scope)

    def statement(self, statement: tree.Statement, scope: Scope) -> Acts:
        do = _DO.get(type(statement).__name__)
        if do is None:
            raise Fault(type(statement).__name__)
        yield from do(self, statement, scope)

    def _block(self, statement: tree.Block, scope: Scope) -> Acts:
        yield from self.statements(statement.statements, Scope(scope))

    def _declaration(self, statement: tree.Declaration, scope: Scope) -> Acts:
        for variable in statement.variables:
            value = UNSET
            if variable.value is not None:
                value = yield from self.value(variable.value, scope, statement.type.word)
            scope.cells[variable.name] = Cell(statement.type.word, value)

    def _assignment(self, statement: tree.Assignment, scope: Scope) -> Acts:
        type = self.type_of(statement.target, scope)
        value = yield from self.value(statement.value, scope, type)
        self.store(statement.target, value, scope)

    def value(self, node: tree.Expression, scope: Scope, type: Optional[str]) -> Acts:
        """The value of an expression that may take acts: a call, or the creation of a component."""
        if isinstance(node, tree.Create):
            assert isinstance(node.type, tree.Name)
            number = yield ("create", node.type.word)
            return Component(number)
        if isinstance(node, tree.Activate):
            return self.activate(node, scope)
        function = self.function_of(node)
        if function is not None:
            return (yield from self.called(function, node, scope))
        return self.evaluate(node, scope, type)

    def called(self, function: tree.Function, node: Any, scope: Scope) -> Acts:
        inner = Scope(self.root if function.runs_on else None)
        self.bind(function.parameters, node.arguments, scope, inner)
        assert function.body is not None
        try:
            yield from self.statements(function.body.statements, inner)
        except Leaves as leaves:
            if leaves.how != "return":
                raise
            return leaves.value
        return UNSET

    def _call_statement(self, statement: tree.CallStatement, scope: Scope) -> Acts:
        node = statement.call
        if isinstance(node, tree.Activate):
            self.activate(node, scope)
        elif self.altstep_of(node) is not None:
            yield from self.choose([tree.Branch(node.at, None, False, statement, None)], scope)
        else:
            yield from self.value(node, scope, None)

    def activate(self, node: Any, scope: Scope) -> Default:
        altstep = self.altstep_of(node.call)
        if altstep is None:
            raise Fault("activate")
        inner = Scope(self.root if altstep.runs_on else None)
        self.bind(altstep.parameters, getattr(node.call, "arguments", []), scope, inner)
        self.activated += 1
        self.defaults.append((self.activated, altstep, inner))
        return Default(self.activated)

    def _deactivate(self, statement: tree.Deactivate, scope: Scope) -> Acts:
        which = None if statement.value is None else self.evaluate(statement.value, scope, None)
        self.defaults = [one for one in self.defaults if which is not None and one[0] != which.number]
        yield from ()

    def _if(self, statement: tree.If, scope: Scope) -> Acts:
        if self.evaluate(statement.condition, scope, None) is True:
            yield from self._block(statement.then, scope)
        elif statement.otherwise is not None:
            yield from self._block(statement.otherwise, scope)

    def _select(self, statement: tree.Select, scope: Scope) -> Acts:
        type = self.type_of(statement.value, scope)
        value = self.evaluate(statement.value, scope, type)
        for case in statement.cases:
            templates = case.templates
            if templates is None or any(self._is_case(statement, value, it, scope, type) for it in templates):
                yield from self._block(case.block, scope)
                return

    def _is_case(self, statement: tree.Select, value: Any, template: Any, scope: Scope, type: Optional[str]) -> bool:
        if statement.is_union:
            return bool(value.name == template.word)
        return self.is_match(value, self.evaluate(template, scope, type))

    def _for(self, statement: tree.For, scope: Scope) -> Acts:
        inner = Scope(scope)
        yield from self.statement(statement.first, inner)
        yield from self._turns(statement.condition, statement.block, statement.step, inner, False)

    def _while(self, statement: tree.While, scope: Scope) -> Acts:
        yield from self._turns(statement.condition, statement.block, None, scope, statement.is_first_done)

    def _turns(self, condition: Any, block: tree.Block, step: Any, scope: Scope, is_first_done: bool) -> Acts:
        for turn in range(MOST_TURNS):
            if not (is_first_done and turn == 0) and self.evaluate(condition, scope, None) is not True:
                return
            try:
                yield from self._block(block, scope)
            except Leaves as leaves:
                if leaves.how == "break":
                    return
                if leaves.how != "continue":
                    raise
            if step is not None:
                yield from self.statement(step, scope)
        raise Fault("a loop without end")

    def _leave(self, statement: tree.Leave, scope: Scope) -> Acts:
        yield from ()
        raise Leaves(statement.how.value)

    def _return(self, statement: tree.Return, scope: Scope) -> Acts:
        value = UNSET
        if statement.value is not None:
            value = yield from self.value(statement.value, scope, None)
        raise Leaves("return", value)

    def _dropped(self, statement: tree.Dropped, scope: Scope) -> Acts:
        yield from ()

    def _set_verdict(self, statement: tree.SetVerdict, scope: Scope) -> Acts:
        verdict = self.evaluate(statement.verdict, scope, None)
        self.verdict = max(self.verdict, verdict.word, key=VERDICTS.index)
        yield ("verdict", self.verdict)

    # Components and ports

    def _join(self, statement: tree.Join, scope: Scope) -> Acts:
        ends = []
        for place in statement.places:
            component = self.evaluate(place.component, scope, None)
            ends.append((component.number, self.port_name(place.port, scope)))
        yield ("join", *ends)

    def _operate(self, statement: tree.Operate, scope: Scope) -> Acts:
        act = statement.act.value
        if statement.target is None:
            for name in self.ports:
                yield ("port", act, name)
            return
        target = self.evaluate(statement.target, scope, None)
        if isinstance(target, Port):
            yield ("port", act, target.name)
        elif act == "stop" and target == Component(self.me):
            raise Leaves("stop")
        else:
            call = statement.arguments[0]
            assert isinstance(call, tree.Call), call
            function = self.function_of(call)
            if function is None or act != "start":
                raise Fault("start")
            inner = Scope(None)
            self.bind(function.parameters, call.arguments, scope, inner)
            values = tuple(inner.cells[parameter.name].value for parameter in function.parameters)
            yield ("start", target.number, function.name, values)

    def _send(self, statement: tree.Send, scope: Scope) -> Acts:
        port = self.evaluate(statement.port, scope, None).name
        type = self.message_type(statement.message, scope)
        value = self.evaluate(statement.message, scope, type)
        self.look_at_value(value)
        to: list[Any] = [None]
        if statement.to_all:
            to = yield ("peers", port)
        elif statement.to:
            to = [self.evaluate(node, scope, None).number for node in statement.to]
        for receiver in to:
            yield ("send", port, type, value, receiver)

    # Branches

    def _alt(self, statement: tree.Alt, scope: Scope) -> Acts:
        branches = list(statement.branches)
        while branches:
            chosen = yield from self.choose(branches, scope)
            if not statement.is_interleave or chosen is None:
                return
            branches.remove(chosen)

    def _alone(self, statement: Any, scope: Scope) -> Acts:
        yield from self.choose([tree.Branch(statement.at, None, False, statement, None)], scope)

    def choose(self, branches: list[tree.Branch], scope: Scope) -> Acts:
        """Chooses one branch. Those of the defaults are tried after the `alt`'s own, the last default first. Returns
        the branch; None if a `break` leaves it, or a default's branch was chosen."""
        for _ in range(MOST_TURNS):
            options = self.options(branches, scope)
            index, message, sender = yield ("look", tuple(option.test for option in options))
            option = options[index]
            self.redirect(option, message, sender)
            try:
                for block, inner in option.bodies:
                    yield from self._block(block, inner)
            except Leaves as leaves:
                if leaves.how == "repeat":
                    continue
                if leaves.how != "break":
                    raise
                return None
            return option.source
        raise Fault("a repeat without end")

    def options(self, branches: list[tree.Branch], scope: Scope) -> list[Option]:
        found: list[Option] = []
        for branch in branches:
            own = self._of_branch(branch, scope, [])
            for option in own:
                option.source = branch
            found += own
        for _, altstep, inner in reversed(self.defaults):
            found += self._of_altstep(altstep, Scope(inner), [])
        return found

    def _of_branch(self, branch: tree.Branch, scope: Scope, outer: list[tuple[tree.Block, Scope]]) -> list[Option]:
        if branch.guard is not None and self.evaluate(branch.guard, scope, None) is not True:
            return []
        bodies = ([(branch.block, scope)] if branch.block else []) + outer
        event = branch.event
        if event is None:
            return [Option(("else",), None, scope, bodies)]
        if isinstance(event, tree.Receive):
            return [Option(test, event, scope, bodies) for test in self._tests(event, scope)]
        if isinstance(event, tree.Find):
            return [Option(("done", self._asked(event, scope)), None, scope, bodies)]
        assert isinstance(event, tree.CallStatement)
        call: Any = event.call
        altstep = self.altstep_of(call)
        if altstep is None:
            raise Fault("a branch")
        inner = Scope(self.root if altstep.runs_on else None)
        self.bind(altstep.parameters, getattr(call, "arguments", []), scope, inner)
        return self._of_altstep(altstep, inner, bodies)

    def _of_altstep(self, altstep: tree.Altstep, scope: Scope, outer: list[tuple[tree.Block, Scope]]) -> list[Option]:
        for declaration in altstep.declarations:
            for _ in self._declaration(declaration, scope):
                raise Fault("an altstep's variable")
        return [option for branch in altstep.branches for option in self._of_branch(branch, scope, outer)]

    def _tests(self, event: tree.Receive, scope: Scope) -> list[Act]:
        """The tests of a receive, one for each port and sender: the port, the type, the template, the sender."""
        ports = self.ports if event.port is None else [self.evaluate(event.port, scope, None).name]
        type = template = None
        if event.template is not None:
            type = self.message_type(event.template, scope)
            template = self.evaluate(event.template, scope, type)
        senders = [self.evaluate(node, scope, None).number for node in event.senders] or [None]
        how = event.how.value
        return [(how, port, type, template, sender) for port in ports for sender in senders]

    def _asked(self, event: tree.Find, scope: Scope) -> Optional[int]:
        """The component whose end is waited for; None for all."""
        if event.is_timer or event.how is not tree.Finding.DONE or event.target is tree.Any.ANY:
            raise Fault("an end")
        if event.target is tree.Any.ALL:
            return None
        number = self.evaluate(event.target, scope, None).number
        assert isinstance(number, int)
        return number

    def redirect(self, option: Option, message: Any, sender: Any) -> None:
        redirect = option.event.redirect if option.event is not None else None
        if redirect is None:
            return
        if redirect.value is not None:
            self.store(redirect.value, message[1], option.scope)
        for target, part in redirect.parts:
            self.store(target, self.field(message[1], message[0], part.word), option.scope)
        if redirect.sender is not None:
            self.store(redirect.sender, Component(sender), option.scope)


_DO: dict[str, Any] = {
    "Block": Behaviour._block, "Declaration": Behaviour._declaration, "Assignment": Behaviour._assignment,
    "CallStatement": Behaviour._call_statement, "Deactivate": Behaviour._deactivate, "If": Behaviour._if,
    "Select": Behaviour._select, "For": Behaviour._for, "While": Behaviour._while, "Leave": Behaviour._leave,
    "Return": Behaviour._return, "Dropped": Behaviour._dropped, "SetVerdict": Behaviour._set_verdict,
    "Join": Behaviour._join, "Operate": Behaviour._operate, "Send": Behaviour._send, "Alt": Behaviour._alt,
    "Receive": Behaviour._alone, "Find": Behaviour._alone,
}
