"""The last two passes of the checks: the bodies, and the number of their statements."""
from __future__ import annotations

from typing import Optional

from .constructs import Construct
from .faults import RuleFault, a, listed, nearest
from .messages import MessageRules
from .names import BASE_TYPES, SUT, Names
from .refusal_rules import Rule
from .setup import Setup
from .tree import Alt, Body, Control, Declared, Loop, Message, Receive, Send, SetVerdict, Statement, TestCase

MOST_STATEMENTS = 100_000


def check_bodies(names: Names, setup: Setup) -> None:
    """The test case's body first, then those of the functions in the order of the text."""
    bodies = {SUT: 0}
    bodies[""] = BodyRules(names, setup, names.case).check()
    for name, function in names.functions.items():
        bodies[name] = BodyRules(names, setup, function).check()
    names.faults.stop()
    started = [names.word(start.function) for start in names.case.starts]
    total = sum(bodies[name] for name in ["", SUT, *started])
    if total > MOST_STATEMENTS:
        start = names.case.start
        sentence = (
            f"the components' bodies have {total:,} statements in all, but at most {MOST_STATEMENTS:,} are allowed"
        )
        raise RuleFault(15, start, start, sentence, Rule.FEW_STATEMENTS)


class BodyRules:
    """The rules on the statements of one body, and its names."""

    def __init__(self, names: Names, setup: Setup, body: Body):
        self.names = names
        self.body = body
        self.is_case = isinstance(body, TestCase)
        self.is_sut = not self.is_case and names.word(body.name) == SUT
        self.runs_on = names.word(body.runs_on)
        self.ports = names.ports_of(self.runs_on)
        self.components = {name: creation.name for name, creation in setup.created.items()}
        parameters: list[Declared] = [] if isinstance(body, TestCase) else body.parameters
        self.parameters = {names.word(it.name): it.name for it in parameters}
        self.variables: dict[str, Declared] = {}
        self.variable_places: dict[str, int] = {}
        self.loops: list[str] = []
        self.loop_places: dict[str, int] = {}

    def check(self) -> int:
        """Checks the body, and returns the number of its statements."""
        faults = self.names.faults
        before = len(faults.kept)
        for name, port in self.ports.items():
            with faults:
                if name in self.parameters:
                    sentence = f"the parameter `{name}` has the name of a port of `{self.runs_on}`"
                    fault = RuleFault(12, self.body.start, self.parameters[name], sentence, Rule.NEW_NAME)
                    raise fault.beside(port.name, "the port")
        for variable in self.body.variables:
            with faults:
                self._declare(variable)
        return self._block(self.body.statements) if len(faults.kept) == before else 0

    # Names

    def _declare(self, variable: Declared) -> None:
        type_name, name = self.names.word(variable.type), self.names.word(variable.name)
        if not self._is_message_type(type_name) and type_name not in self.names.components:
            what = self.names.kind_of(type_name)
            sentence = f"there is no type `{type_name}`{nearest(type_name, self.names.types)}"
            sentence = f"`{type_name}` is {what}, not a type of a variable" if what else sentence
            raise RuleFault(11, variable.start, variable.type, sentence, Rule.VARIABLE_TYPE)
        self._check_new(variable.start, variable.name)
        self.variables[name] = variable
        self.variable_places[name] = variable.name

    def _is_message_type(self, name: str) -> bool:
        return name in self.names.types or name in BASE_TYPES or self.names.is_unknown(name)

    def _check_new(self, told: int, place: int) -> None:
        """Checks that the name isn't used in this scope yet."""
        name = self.names.word(place)
        taken = [
            ({name: self.ports[name].name} if name in self.ports else {}, "a port"),
            (self.parameters, "a parameter"),
            (self.variable_places, "a variable"),
            (self.loop_places if name in self.loops else {}, "a loop variable"),
            (self.components if self.is_case else {}, "a component variable"),
        ]
        for places, what in taken:
            if name in places:
                sentence = f"there is {what} `{name}` here already"
                fault = RuleFault(12, told, place, sentence, Rule.NEW_NAME)
                raise fault.beside(places[name], what)

    def _port(self, told: int, place: int) -> Declared:
        name = self.names.word(place)
        port = self.ports.get(name)
        if port is None:
            sentence = f"`{self.runs_on}` has no port `{name}`{nearest(name, self.ports)}: it has {listed(self.ports)}"
            if name in self.variables or name in self.parameters or name in self.components:
                sentence = f"`{name}` isn't a port: `{self.runs_on}` has {listed(self.ports)}"
            fault = RuleFault(11, told, place, sentence, Rule.BODY_PORT)
            runs_on = self.names.components[self.runs_on]
            raise fault.beside(runs_on.name, "the type that the body runs on")
        return port

    # Statements

    def _block(self, statements: list[Statement]) -> int:
        size = len(statements)
        for statement in statements:
            with self.names.faults:
                size += self._inner(statement)
        return size

    def _inner(self, statement: Statement) -> int:
        """The number of statements in it."""
        if isinstance(statement, Alt):
            return self._alt(statement)
        if isinstance(statement, Loop):
            return self._loop(statement)
        if isinstance(statement, Send):
            self._send(statement)
        elif isinstance(statement, Receive):
            self._receive(statement.start, statement)
        elif isinstance(statement, Control):
            self._control(statement)
        else:
            self._set_verdict(statement)
        return 0

    def _not_in_sut(self, told: int, what: str) -> None:
        if self.is_sut:
            sentence = f"`sut` {what}: it plays the system, which only sends and receives"
            fault = RuleFault(16, told, told, sentence, Rule.NOT_IN_SUT)
            raise fault.beside(self.body.name, "`sut`")

    def _control(self, statement: Control) -> None:
        operation = self.names.word(statement.operation)
        self._not_in_sut(statement.start, f"can't {operation} a port")
        if statement.port is None:
            return
        try:
            self._port(statement.start, statement.port)
        except RuleFault as fault:
            if operation == "stop" and self._is_component(self.names.word(statement.port)):
                fault.meant(Construct.KILL)
            raise fault

    def _is_component(self, name: str) -> bool:
        held = self.names.word(self.variables[name].type) if name in self.variables else ""
        return held in self.names.components or name in self.parameters or name in self.components

    def _set_verdict(self, statement: SetVerdict) -> None:
        self._not_in_sut(statement.start, "sets no verdict")
        if self.names.word(statement.verdict) == "error":
            sentence = "`error` can't be set: only a run gives that verdict"
            fault = RuleFault(13, statement.start, statement.verdict, sentence, Rule.NOT_ERROR)
            raise fault.write("`setverdict(fail)` or `setverdict(inconc)`")

    def _alt(self, statement: Alt) -> int:
        size = 0
        for branch in statement.branches:
            with self.names.faults:
                self._receive(branch.start, branch.receive)
            size += self._block(branch.block)
        return size + (self._block(statement.otherwise.block) if statement.otherwise else 0)

    def _loop(self, statement: Loop) -> int:
        name = self.names.word(statement.name)
        self._check_new(statement.start, statement.name)
        self.loops.append(name)
        self.loop_places[name] = statement.name
        size = self._block(statement.block)
        self.loops.pop()
        return max(0, self.names.number(statement.bound) - self.names.number(statement.first)) * size

    # Messages

    def _rules(self, told: int) -> MessageRules:
        return MessageRules(self.names, told, self.loops, self.variable_places)

    def _check_listed(self, told: int, place: int, port: Declared, type_name: str, is_sent: bool) -> None:
        """Whether the port's type lists the type of the message."""
        way = "out" if is_sent != self.is_sut else "in"
        port_type = self.names.word(port.type)
        allowed = self.names.listed_names(port_type, way)
        if type_name in allowed or self.names.is_unknown(type_name, *allowed):
            return
        name, verb = self.names.word(port.name), "sends" if is_sent else "receives"
        sentence = f"`{name}` {verb} no `{type_name}`: its port type `{port_type}` lists {listed(allowed, 'nothing')}"
        sentence += f" as `{way}`" + (": `sut` exchanges `in` and `out`" if self.is_sut else "")
        fault = RuleFault(14, told, place, sentence, Rule.LISTED)
        raise fault.beside(self.names.ports[port_type].name, "the port type")

    def _message(self, told: int, port: Declared, message: Message, is_sent: bool) -> str:
        type_name = self.names.word(message.type)
        if not self._is_message_type(type_name):
            what = self.names.kind_of(type_name)
            sentence = f"there is no type `{type_name}`{nearest(type_name, self.names.types)}"
            sentence = f"`{type_name}` is {what}, not a type of a message" if what else sentence
            raise RuleFault(11, told, message.type, sentence, Rule.BODY_TYPE)
        self._check_listed(told, message.type, port, type_name, is_sent)
        self._rules(told).check(type_name, message.value)
        return type_name

    def _send(self, statement: Send) -> None:
        told = statement.start
        port = self._port(told, statement.port)
        if statement.message is not None:
            self._message(told, port, statement.message, True)
        else:
            place = statement.variable
            assert place is not None
            held = self._held(told, place, Rule.SENT_VARIABLE, is_sent=True)
            self._check_listed(told, place, port, held, True)
        if statement.to is not None and self.names.word(statement.to) != "all":
            self._to(told, statement.to)

    def _held(self, told: int, place: int, rule: Rule, is_sent: bool = False) -> str:
        """The type of the messages that a variable holds."""
        name = self.names.word(place)
        if name in self.loops:
            if is_sent:
                return "integer"
            sentence = f"`{name}` is a loop variable, which only its loop sets"
            fault = RuleFault(13, told, place, sentence, rule)
            raise fault.beside(self.loop_places[name], "the loop")
        type_name = self._type_of_variable(told, place, rule)
        if type_name in self.names.components:
            sentence = f"`{name}` holds a component, not a message"
            fault = RuleFault(13, told, place, sentence, rule)
            raise fault.beside(self.variable_places[name], "the variable")
        return type_name

    def _type_of_variable(self, told: int, place: int, rule: Rule) -> str:
        name = self.names.word(place)
        if name in self.variables:
            return self.names.word(self.variables[name].type)
        others = ((self.parameters, "a parameter"), (self.components, "a component variable"))
        for places, what in others:
            if name in places:
                sentence = f"`{name}` is {what}, not a variable of this body"
                raise RuleFault(13, told, place, sentence, rule).beside(places[name], what)
        sentence = f"there is no variable `{name}` here{nearest(name, self.variables)}"
        fault = RuleFault(11, told, place, sentence, rule)
        if rule is Rule.SENT_VARIABLE:
            instead = "the message itself with its type, `send(TYPE:{..})`: templates have no names in the profile"
            fault.write(instead)
        raise fault

    def _is_reference(self, word: str) -> bool:
        if word in ("mtc", "self"):
            return True
        hidden = word in self.loops or word in self.variables
        return not hidden and (word in self.parameters or word in self.components)

    def _to(self, told: int, place: int) -> None:
        name = self.names.word(place)
        if name not in self.loops and name in self.variables:
            if self.names.word(self.variables[name].type) not in self.names.components:
                sentence = f"`{name}` holds a message, not a component to send to"
                fault = RuleFault(13, told, place, sentence, Rule.PEER)
                raise fault.beside(self.variable_places[name], "the variable")
        elif not self._is_reference(name):
            raise self._no_peer(11, told, place)

    def _from(self, told: int, place: int) -> None:
        name = self.names.word(place)
        if self._is_reference(name):
            return
        if name in self.variables:
            sentence = f"`{name}` is a variable, but `from` needs a component that is known before the run"
            fault = RuleFault(13, told, place, sentence, Rule.PEER)
            raise fault.beside(self.variable_places[name], "the variable")
        raise self._no_peer(11, told, place)

    def _no_peer(self, number: int, told: int, place: int) -> RuleFault:
        name = self.names.word(place)
        known = [*self.parameters, *self.components]
        sentence = f"there is no component `{name}` here{nearest(name, known)}: {listed(known + ['mtc', 'self'])}"
        if name in self.loops:
            sentence = f"`{name}` is a loop variable, not a component"
        return RuleFault(number, told, place, sentence, Rule.PEER)

    def _receive(self, told: int, receive: Receive) -> None:
        port = self._port(told, receive.port)
        wanted: Optional[str] = None
        if receive.message is not None:
            wanted = self._message(told, port, receive.message, False)
        if receive.sender is not None:
            self._from(told, receive.sender)
        if receive.value_to is not None:
            self._value_to(told, receive, wanted)
        if receive.sender_to is not None:
            self._sender_to(told, receive.sender_to)

    def _value_to(self, told: int, receive: Receive, wanted: Optional[str]) -> None:
        place = receive.value_to
        assert place is not None
        held = self._held(told, place, Rule.VALUE_TO)
        name, how = self.names.word(place), self.names.word(receive.how)
        operation = f"{how}({{}}:?) -> value {{}}"
        if how == "check":
            operation = "check(receive({}:?) -> value {})"
        if wanted is None:
            sentence = f"`-> value {name}` needs a template before it, with the type of the message"
            fault = RuleFault(13, told, place, sentence, Rule.VALUE_TO)
            fault.write(f"`{self.names.word(receive.port)}.{operation.format(held, name)}`")
            raise fault.beside(self.variables[name].type, f"`{name}` is {a(held)}")
        if wanted != held and not self.names.is_unknown(wanted, held):
            sentence = f"`{name}` is {a(held)}, but {a(wanted)} is received"
            fault = RuleFault(13, told, place, sentence, Rule.VALUE_TO)
            raise fault.beside(self.variables[name].type, "the variable")

    def _sender_to(self, told: int, place: int) -> None:
        name = self.names.word(place)
        if name in self.loops:
            sentence = f"`{name}` is a loop variable, which can't hold a component"
            fault = RuleFault(13, told, place, sentence, Rule.SENDER_TO)
            raise fault.beside(self.loop_places[name], "the loop")
        held = self._type_of_variable(told, place, Rule.SENDER_TO)
        if held not in self.names.components:
            sentence = f"`{name}` is {a(held)}, but the sender is a component"
            fault = RuleFault(13, told, place, sentence, Rule.SENDER_TO)
            raise fault.beside(self.variables[name].type, "the variable")
