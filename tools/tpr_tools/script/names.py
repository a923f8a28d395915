"""The first two passes of the checks: no name is used twice, and all names that are used are defined."""
from __future__ import annotations

from typing import Optional

from .faults import Faults, RuleFault, nearest
from .refusal_rules import Rule
from .tokens import Text
from .tree import ComponentType, Declared, Definition, Function, ListType, Module, PortType, Record, TestCase

BASE_TYPES = ("integer", "boolean", "charstring")
MOST_PORTS = 64
SUT = "sut"


class Names:
    """The definitions of a module by their names, and its faults in the order of docs/REFUSALS.md."""

    def __init__(self, text: Text, module: Module, faults: Faults):
        self.tokens = text.tokens
        self.faults = faults
        self.module = module
        self.types: dict[str, Record | ListType] = {}
        self.ports: dict[str, PortType] = {}
        self.components: dict[str, ComponentType] = {}
        self.functions: dict[str, Function] = {}
        self.unknown: set[str] = set()  # names reported as not being message types: their uses cause no further faults
        self.case = self._only_case()

    def _only_case(self) -> TestCase:
        cases = [it for it in self.module.definitions if isinstance(it, TestCase)]
        if not cases:
            start = self.module.start
            raise RuleFault(11, start, start, "the module has no test case", Rule.A_TEST_CASE).write(
                "a `testcase NAME() runs on TYPE { .. }`"
            )
        return cases[0]

    def word(self, place: int) -> str:
        return self.tokens[place]

    def number(self, place: int) -> int:
        """The number whose sign or first digit is at the place."""
        word = self.tokens[place]
        return -int(self.tokens[place + 1]) if word == "-" else int(word)

    def check(self) -> None:
        given: dict[str, int] = {}
        for definition in self.module.definitions:
            with self.faults:
                self._check_given_once(definition, given)
        self.faults.stop()
        for definition in self.module.definitions:
            self._sort(definition)
        for definition in self.module.definitions:
            with self.faults:
                self._check_definition(definition)
        if any(fault.rule is not Rule.MESSAGE_TYPE for fault in self.faults.kept):
            self.faults.stop()

    def _sort(self, definition: Definition) -> None:
        name = self.word(definition.name)
        if isinstance(definition, (Record, ListType)):
            self.types[name] = definition
        elif isinstance(definition, PortType):
            self.ports[name] = definition
        elif isinstance(definition, ComponentType):
            self.components[name] = definition
        elif isinstance(definition, Function):
            self.functions[name] = definition

    # The first pass

    def _check_given_once(self, definition: Definition, given: dict[str, int]) -> None:
        name = self.word(definition.name)
        if name in given:
            sentence = f"`{name}` is defined twice"
            fault = RuleFault(12, definition.start, definition.name, sentence, Rule.ONE_NAME)
            raise fault.beside(given[name], "the first one")
        given[name] = definition.name
        self._check_inner(definition)
        if isinstance(definition, TestCase) and definition is not self.case:
            raise self._second_case(definition)

    def _second_case(self, definition: TestCase) -> RuleFault:
        sentence = f"`{self.word(definition.name)}` is a second test case, and a module has one"
        fault = RuleFault(12, definition.start, definition.name, sentence, Rule.ONE_TEST_CASE)
        fault.beside(self.case.name, "the first one")
        return fault.write("a module for each, in a file of its own")

    def _check_inner(self, definition: Definition) -> None:
        """Checks the names inside a definition."""
        inner, what = _inner(definition)
        given: dict[str, int] = {}
        for declared in inner:
            name = self.word(declared.name)
            if name in given:
                sentence = f"`{self.word(definition.name)}` has two {what} `{name}`"
                # A fault in a field is reported on the line of its name, as for a port and a parameter.
                fault = RuleFault(12, declared.name, declared.name, sentence, Rule.ONE_INNER_NAME)
                raise fault.beside(given[name], "the first one")
            given[name] = declared.name

    # The second pass

    def _check_definition(self, definition: Definition) -> None:
        start = definition.start
        if isinstance(definition, Record):
            for field in definition.fields:
                self._check_type(start, field.type)
        elif isinstance(definition, ListType):
            self._check_type(start, definition.element)
        elif isinstance(definition, PortType):
            for direction in definition.directions:
                for place in direction.types:
                    self._check_type(start, place)
        elif isinstance(definition, ComponentType):
            self._check_component_type(definition)
        elif isinstance(definition, Function):
            self._check_function(definition)
        else:
            self._check_component_name(start, definition.runs_on)
            if definition.system is not None:
                self._check_component_name(start, definition.system)

    def _check_type(self, start: int, place: int) -> None:
        name = self.word(place)
        if name in BASE_TYPES or name in self.types:
            return
        self.unknown.add(name)
        what = self.kind_of(name)
        sentence = f"`{name}` is {what}, not a type of a message or a field"
        if what is None:
            sentence = f"there is no type `{name}`{nearest(name, [*self.types, *BASE_TYPES])}"
        raise RuleFault(11, start, place, sentence, Rule.MESSAGE_TYPE)

    def _check_component_type(self, definition: ComponentType) -> None:
        for port in definition.ports:
            name = self.word(port.type)
            if name not in self.ports:
                sentence = f"there is no port type `{name}`{nearest(name, self.ports)}"
                if what := self.kind_of(name):
                    sentence = f"`{name}` is {what}, not a port type"
                raise RuleFault(11, definition.start, port.type, sentence, Rule.COMPONENT_TYPE)
        if len(definition.ports) > MOST_PORTS:
            count = (
                f"`{self.word(definition.name)}` has {len(definition.ports)} ports, but at most"
                f" {MOST_PORTS} are allowed"
            )
            place = definition.ports[MOST_PORTS].name
            raise RuleFault(15, definition.start, place, count, Rule.FEW_PORTS)

    def _check_component_name(self, start: int, place: int) -> None:
        name = self.word(place)
        if name in self.components:
            return
        sentence = f"there is no component type `{name}`{nearest(name, self.components)}"
        if what := self.kind_of(name):
            sentence = f"`{name}` is {what}, not a component type"
        raise RuleFault(11, start, place, sentence, Rule.COMPONENT_TYPE)

    def _check_function(self, function: Function) -> None:
        self._check_component_name(function.start, function.runs_on)
        for parameter in function.parameters:
            self._check_component_name(function.start, parameter.type)
        if self.word(function.name) == SUT:
            self._check_sut(function)

    def _check_sut(self, function: Function) -> None:
        """Checks whether it can play the system."""
        if self.case.system is None:
            sentence = "`sut` plays the system, but the test case has no `system` clause"
            fault = RuleFault(16, function.start, function.name, sentence, Rule.SUT)
            raise fault.beside(self.case.name, "`system TYPE` is missing after its `runs on`")
        system = self.word(self.case.system)
        if function.parameters:
            sentence = "`sut` plays the system, so it can't have parameters"
            raise RuleFault(16, function.start, function.parameters[0].type, sentence, Rule.SUT)
        if self.word(function.runs_on) != system:
            sentence = f"`sut` plays the system, so it runs on `{system}`, not on `{self.word(function.runs_on)}`"
            fault = RuleFault(16, function.start, function.runs_on, sentence, Rule.SUT)
            raise fault.beside(self.case.system, "the type of the system")

    # What the later passes ask

    def kind_of(self, name: str) -> Optional[str]:
        """The kind of the definition with this name."""
        if name in self.types:
            return "a record" if isinstance(self.types[name], Record) else "a record of"
        if name in self.ports:
            return "a port type"
        if name in self.components:
            return "a component type"
        if name in self.functions:
            return "a function"
        if name in BASE_TYPES:
            return "a type"
        return "the test case" if name == self.word(self.case.name) else None

    def ports_of(self, component: str) -> dict[str, Declared]:
        """The ports of a component type, by their names."""
        return {self.word(port.name): port for port in self.components[component].ports}

    def lists(self, port_type: str, way: str) -> list[int]:
        """The places of the types that a port type lists for `in` or `out`."""
        directions = self.ports[port_type].directions
        listing = [it for it in directions if self.word(it.way) in (way, "inout")]
        return [place for it in listing for place in it.types]

    def is_unknown(self, *types: str) -> bool:
        """Whether one of the types was reported as not being one."""
        return not self.unknown.isdisjoint(types)

    def listed_names(self, port_type: str, way: str) -> list[str]:
        return [self.word(place) for place in self.lists(port_type, way)]


def _inner(definition: Definition) -> tuple[list[Declared], str]:
    """The names inside a definition, and their kind."""
    if isinstance(definition, Record):
        return definition.fields, "fields"
    if isinstance(definition, ComponentType):
        return definition.ports, "ports"
    if isinstance(definition, Function):
        return definition.parameters, "parameters"
    return [], ""
