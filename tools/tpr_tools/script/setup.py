"""The third pass of the checks: the setup of the test case, and the starts of its components."""
from __future__ import annotations

from ..words import counted
from .faults import RuleFault, a, listed, nearest, there_are
from .names import SUT, Names
from .refusal_rules import Rule
from .tree import ComponentStart, Creation, End, Function, Pair

MOST_COMPONENTS = 64
MTC, SYSTEM = "mtc", "system"

# A port of a component, by the names of both.
Port = tuple[str, str]


class Setup:
    """The components so far, their types, and the connections of their ports."""

    def __init__(self, names: Names):
        self.names = names
        self.case = names.case
        self.types = {MTC: names.word(self.case.runs_on)}
        self.created: dict[str, Creation] = {}
        self.connected: dict[Port, dict[Port, Pair]] = {}
        self.mapped: dict[Port, Pair] = {}
        self.started: dict[str, ComponentStart] = {}
        # The list of a port type for a direction, without repeats: a script may have a long list, and connect many
        # ports of the type.
        self.lists: dict[tuple[str, str], dict[str, None]] = {}

    def check(self) -> None:
        if self.case.system is not None:
            self.types[SYSTEM] = self.names.word(self.case.system)
        faults = self.names.faults
        before = len(faults.kept)
        for statement in self.case.setups:
            if isinstance(statement, Creation):
                self._create(statement)  # if this fails, hardly anything can be said about the rest
                continue
            with faults:
                if self.names.word(statement.start) == "connect":
                    self._connect(statement)
                else:
                    self._map(statement)
        for start in self.case.starts:
            with faults:
                self._start(start)
        if len(faults.kept) == before:
            self._check_all_started()

    # Components

    def _create(self, creation: Creation) -> None:
        name, type_name = self.names.word(creation.name), self.names.word(creation.type)
        start = creation.start
        if name in self.created:
            sentence = f"there is a component `{name}` already"
            fault = RuleFault(12, start, creation.name, sentence, Rule.CREATED_NAME)
            raise fault.beside(self.created[name].name, "the first one")
        ports = self.names.ports_of(self.types[MTC])
        if name in ports:
            sentence = f"`{name}` is a port of `{self.types[MTC]}`, on which the test case runs"
            fault = RuleFault(12, start, creation.name, sentence, Rule.CREATED_NAME)
            raise fault.beside(ports[name].name, "the port")
        if type_name not in self.names.components:
            what = self.names.kind_of(type_name)
            sentence = f"there is no component type `{type_name}`{nearest(type_name, self.names.components)}"
            sentence = f"`{type_name}` is {what}, not a component type" if what else sentence
            raise RuleFault(11, start, creation.type, sentence, Rule.CREATED_TYPE)
        created = self.names.word(creation.created)
        if created != type_name:
            sentence = f"`{name}` is {a(type_name)}, but {a(created)} is created"
            fault = RuleFault(13, start, creation.created, sentence, Rule.CREATED_SAME)
            raise fault.beside(creation.type, "the type of the variable")
        if len(self.types) >= MOST_COMPONENTS:
            sentence = (
                f"`{name}` is one component too many: at most {MOST_COMPONENTS} are allowed, including"
                f" {self._counted()}"
            )
            raise RuleFault(15, start, creation.name, sentence, Rule.FEW_COMPONENTS)
        self.created[name] = creation
        self.types[name] = type_name

    def _counted(self) -> str:
        return "`mtc` and `system`" if SYSTEM in self.types else "`mtc`"

    # Ports that are joined

    def _end(self, pair: Pair, end: End) -> Port:
        component, port = self.names.word(end.component), self.names.word(end.port)
        component = MTC if component == "self" else component
        if component not in self.types:
            sentence = f"there is no component `{component}` here{nearest(component, self.types)}"
            if component == SYSTEM:
                sentence = "the test case has no `system` clause"
            elif component in self._created_anywhere():
                sentence = f"`{component}` is created only after this line"
            raise RuleFault(11, pair.start, end.component, sentence, Rule.KNOWN_COMPONENT)
        type_name = self.types[component]
        ports = self.names.ports_of(type_name)
        if port not in ports:
            sentence = (
                f"`{component}` has no port `{port}`{nearest(port, ports)}: its type `{type_name}` has {listed(ports)}"
            )
            fault = RuleFault(11, pair.start, end.port, sentence, Rule.KNOWN_PORT)
            raise fault.beside(self.names.components[type_name].name, "its type")
        return component, port

    def _created_anywhere(self) -> list[str]:
        return [self.names.word(it.name) for it in self.case.setups if isinstance(it, Creation)]

    def _fault(self, number: int, pair: Pair, end: End, sentence: str, rule: Rule) -> RuleFault:
        return RuleFault(number, pair.start, end.component, sentence, rule)

    def _connect(self, pair: Pair) -> None:
        first, second = self._end(pair, pair.first), self._end(pair, pair.second)
        for port, end in ((first, pair.first), (second, pair.second)):
            if port[0] == SYSTEM:
                sentence = f"`{told(port)}` is a port of `system`, which is mapped, not connected"
                fault = self._fault(25, pair, end, sentence, Rule.NO_SYSTEM_PORT)
                raise fault.write(f"`map({told(first)}, {told(second)})`")
        if first == second:
            sentence = f"both are the port `{told(first)}`"
            raise self._fault(26, pair, pair.second, sentence, Rule.DIFFERENT_PORTS).beside(
                pair.first.component, "`self` is `mtc` in a test case"
            )
        if second in self.connected.get(first, {}):
            sentence = f"`{told(first)}` and `{told(second)}` are connected already, and a connection goes both ways"
            fault = self._fault(27, pair, pair.first, sentence, Rule.NOT_YET)
            raise fault.beside(self.connected[first][second].start, "here")
        self._check_mapped(22, pair, first, second)
        self._check_others(pair, pair.first, first, second)
        self._check_others(pair, pair.second, second, first)
        self._check_received(pair, first, second)
        self._check_received(pair, second, first)
        self.connected.setdefault(first, {})[second] = pair
        self.connected.setdefault(second, {})[first] = pair

    def _check_mapped(self, number: int, pair: Pair, first: Port, second: Port) -> None:
        for port, end in ((first, pair.first), (second, pair.second)):
            if port in self.mapped:
                sentence = f"`{told(port)}` is mapped already"
                is_mapped_once = ", and each port is mapped once"
                sentence += ", so it can't be connected" if number == 22 else is_mapped_once
                fault = self._fault(number, pair, end, sentence, Rule.NOT_MAPPED)
                raise fault.beside(self.mapped[port].start, "here")

    def _check_others(self, pair: Pair, end: End, port: Port, partner: Port) -> None:
        for other, before in self.connected.get(port, {}).items():
            if other[0] == partner[0]:
                sentence = (
                    f"`{told(port)}` is connected with `{told(other)}`, so it can't be with `{told(partner)}`,"
                    f" another port of `{partner[0]}`"
                )
                fault = self._fault(21, pair, end, sentence, Rule.ONE_OF_EACH)
                raise fault.beside(before.start, "here")

    def _listed(self, port: Port, way: str) -> tuple[str, dict[str, None]]:
        """The port's type, and its list without repeats."""
        declared = self.names.ports_of(self.types[port[0]])[port[1]]
        type_name = self.names.word(declared.type)
        if (type_name, way) not in self.lists:
            self.lists[type_name, way] = dict.fromkeys(self.names.listed_names(type_name, way))
        return type_name, self.lists[type_name, way]

    def _check_received(self, pair: Pair, sender: Port, receiver: Port) -> None:
        sender_type, sent = self._listed(sender, "out")
        receiver_type, received = self._listed(receiver, "in")
        missing = [name for name in sent if name not in received]
        if missing and not self.names.is_unknown(*sent, *received):
            sentence = (
                f"`{told(sender)}` sends {listed(missing)}, which `{told(receiver)}` doesn't receive:"
                f" `{receiver_type}` has {listed(received)} as `in`"
            )
            fault = self._fault(20, pair, pair.first, sentence, Rule.ALL_RECEIVED)
            fault.beside(self.names.ports[sender_type].name, f"the type of `{told(sender)}`")
            if receiver_type != sender_type:
                fault.beside(self.names.ports[receiver_type].name, f"the type of `{told(receiver)}`")
            raise fault

    def _map(self, pair: Pair) -> None:
        first, second = self._end(pair, pair.first), self._end(pair, pair.second)
        if (first[0] == SYSTEM) == (second[0] == SYSTEM):
            are_both = first[0] == SYSTEM
            which = "both are ports of `system`" if are_both else "neither is a port of `system`"
            fault = self._fault(28, pair, pair.first, which, Rule.ONE_SYSTEM_PORT)
            if not are_both:
                fault.write(f"`connect({told(first)}, {told(second)})`, or a port of `system`")
            raise fault
        for port, end in ((first, pair.first), (second, pair.second)):
            if self.connected.get(port):
                sentence = f"`{told(port)}` is connected already, so it can't be mapped"
                before = next(iter(self.connected[port].values()))
                fault = self._fault(22, pair, end, sentence, Rule.NOT_CONNECTED)
                raise fault.beside(before.start, "here")
        self._check_mapped(23, pair, first, second)
        system, other = (first, second) if first[0] == SYSTEM else (second, first)
        self._check_map_lists(pair, system, other, "out")
        self._check_map_lists(pair, system, other, "in")
        self.mapped[first] = self.mapped[second] = pair

    def _check_map_lists(self, pair: Pair, system: Port, other: Port, way: str) -> None:
        """A port of `system` lists as `out` what is sent to the system, like the mapped port."""
        system_type, of_system = self._listed(system, way)
        other_type, of_other = self._listed(other, way)
        wider, narrower = (of_other, of_system) if way == "out" else (of_system, of_other)
        missing = [name for name in wider if name not in narrower]
        if not missing or self.names.is_unknown(*wider, *narrower):
            return
        has, lacks = (other, system) if way == "out" else (system, other)
        sentence = (
            f"`{told(has)}` lists {listed(missing)} as `{way}`, and `{told(lacks)}` doesn't:"
            " both list as `out` what goes to the system"
        )
        fault = self._fault(24, pair, pair.first, sentence, Rule.MAP_DIRECTIONS)
        fault.beside(self.names.ports[other_type].name, f"the type of `{told(other)}`")
        if system_type != other_type:
            fault.beside(self.names.ports[system_type].name, f"the type of `{told(system)}`")
        raise fault

    # Starts

    def _start(self, start: ComponentStart) -> None:
        component = self.names.word(start.component)
        if component not in self.created:
            sentence = f"there is no component `{component}`{nearest(component, self.created)}"
            raise RuleFault(11, start.start, start.component, sentence, Rule.STARTED_VARIABLE)
        if component in self.started:
            sentence = f"`{component}` is started already"
            fault = RuleFault(18, start.start, start.component, sentence, Rule.STARTED_ONCE)
            raise fault.beside(self.started[component].start, "here")
        self.started[component] = start
        function = self._started_function(start)
        self._check_started_type(start, component, function)
        self._check_arguments(start, function)

    def _started_function(self, start: ComponentStart) -> Function:
        name = self.names.word(start.function)
        function = self.names.functions.get(name)
        if function is None:
            sentence = f"there is no function `{name}`{nearest(name, self.names.functions)}"
            raise RuleFault(11, start.start, start.function, sentence, Rule.STARTED_FUNCTION)
        if name == SUT:
            sentence = "`sut` plays the system, so no statement starts it"
            raise RuleFault(16, start.start, start.function, sentence, Rule.STARTED_FUNCTION)
        return function

    def _check_started_type(self, start: ComponentStart, component: str, function: Function) -> None:
        runs_on, type_name = self.names.word(function.runs_on), self.types[component]
        if runs_on != type_name:
            name = self.names.word(start.function)
            sentence = f"`{name}` runs on `{runs_on}`, but `{component}` is {a(type_name)}"
            fault = RuleFault(13, start.start, start.function, sentence, Rule.STARTED_TYPE)
            fault.beside(function.runs_on, f"`{name}`")
            raise fault.beside(self.created[component].type, f"`{component}`")

    def _check_arguments(self, start: ComponentStart, function: Function) -> None:
        name, parameters = self.names.word(start.function), function.parameters
        if len(parameters) != len(start.arguments):
            sentence = (
                f"`{name}` has {counted(len(parameters), 'parameter')},"
                f" but {there_are(len(start.arguments), 'argument')} here"
            )
            fault = RuleFault(13, start.start, start.function, sentence, Rule.ARGUMENT_COUNT)
            raise fault.beside(function.name, f"`{name}`")
        for parameter, argument in zip(parameters, start.arguments):
            word = self.names.word(argument)
            component = MTC if word in (MTC, "self") else word
            if component not in self.types or component == SYSTEM:
                sentence = f"there is no component `{word}`{nearest(word, self.created)}"
                raise RuleFault(11, start.start, argument, sentence, Rule.ARGUMENTS)
            wanted = self.names.word(parameter.type)
            if self.types[component] != wanted:
                sentence = (
                    f"the parameter `{self.names.word(parameter.name)}` is {a(wanted)},"
                    f" but `{word}` is {a(self.types[component])}"
                )
                fault = RuleFault(13, start.start, argument, sentence, Rule.ARGUMENTS)
                raise fault.beside(parameter.type, "the parameter")

    def _check_all_started(self) -> None:
        for name, creation in self.created.items():
            with self.names.faults:
                if name not in self.started:
                    sentence = f"`{name}` is created, but never started"
                    fault = RuleFault(18, creation.start, creation.name, sentence, Rule.ALL_STARTED)
                    raise fault.write(f"`{name}.start(FUNCTION());` after the setup")
        if self.created and not self.case.has_done:
            sentence = f"the test case creates {listed(self.created)}, but doesn't end with `all component.done`"
            fault = RuleFault(17, self.case.start, self.case.start, sentence, Rule.DONE)
            with self.names.faults:
                raise fault.write("`all component.done;` as the last statement of the test case")


def told(port: Port) -> str:
    return f"{port[0]}:{port[1]}"
