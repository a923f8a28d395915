"""Reads a script's module and its definitions (docs/PROFILE.md, "Grammar")."""
from __future__ import annotations

from typing import Union

from .cursor import A_DEFINITION, MOST_BRACKETS, THE_END, GrammarFault
from .statements import StatementReader
from .tokens import Text, is_name
from .tree import (
    ComponentStart,
    ComponentType,
    Creation,
    Declared,
    Definition,
    Direction,
    End,
    Function,
    ListType,
    Module,
    Pair,
    PortType,
    Record,
    TestCase,
)


def read_module(text: Text) -> Module:
    """The module in the text. Raises GrammarFault with all tokens that would fit at its place."""
    try:
        return ModuleReader(text).whole()
    except GrammarFault as fault:
        second = ModuleReader(text, fault.place)
        try:
            second.whole()
        except GrammarFault:
            fault.wanted = list(dict.fromkeys(second.wanted))
        raise fault


class ModuleReader(StatementReader):
    """Reads the module, its definitions, and the parts of a test case."""

    def whole(self) -> Module:
        module = self.module()
        if self.tokens[self.place]:
            self.begin, self.part = self.place, "the end of the module"
            self.refuse(THE_END)
        return module

    def module(self) -> Module:
        start = self.expect("module")
        name = self.name("the name of the module")
        inner = self.open("{", MOST_BRACKETS)
        definitions = []
        while not self.is_at("}"):
            definitions.append(self.definition(inner))
            self.begin = self.place
        self.expect("}")
        self.begin, self.part = self.place, "the end of the module"
        self.end(True)
        return Module(start, name, definitions)

    def definition(self, left: int) -> Definition:
        self.begin, self.part = self.place, "a definition"
        token = self.tokens[self.place]
        if token == "function":
            definition: Definition = self.function(left)
        elif token == "testcase":
            definition = self.test_case(left)
        elif token == "type":
            definition = self.type_definition()
        else:
            self.refuse(A_DEFINITION)
        self.end(not isinstance(definition, ListType))
        return definition

    def type_definition(self) -> Definition:
        start = self.expect("type")
        word = self.tokens[self.one_of(("record", "port", "component"))]
        if word == "port":
            return self.port_type(start)
        if word == "component":
            return self.component_type(start)
        if not self.has("of"):
            return self.record(start)
        element = self.type_name()
        return ListType(start, element, self.name("the name of the type"))

    def record(self, start: int) -> Record:
        name = self.name("the name of the type")
        self.expect("{")
        self.part = "a field"
        fields: list[Declared] = []
        if not self.is_at("}"):
            fields.append(self.field())
            while self.has(","):
                fields.append(self.field())
        self.expect("}")
        return Record(start, name, fields)

    def field(self) -> Declared:
        self.begin = self.place
        type_name = self.type_name()
        return Declared(self.begin, type_name, self.name("the name of the field"))

    def port_type(self, start: int) -> PortType:
        name = self.name("the name of the type")
        self.expect("message")
        self.expect("{")
        directions = [self.direction()]
        while not self.is_at("}"):
            directions.append(self.direction())
        self.expect("}")
        return PortType(start, name, directions)

    def direction(self) -> Direction:
        self.begin, self.part = self.place, "the types of a port"
        way = self.one_of(("in", "out", "inout"))
        types = [self.type_name()]
        while self.has(","):
            types.append(self.type_name())
        self.end(False)
        return Direction(way, types)

    def component_type(self, start: int) -> ComponentType:
        name = self.name("the name of the type")
        self.expect("{")
        ports: list[Declared] = []
        while not self.is_at("}"):
            self.begin, self.part = self.place, "the ports of a component type"
            self.expect("port")
            type_name = self.name("the name of a port type")
            ports.append(Declared(self.place, type_name, self.name("the name of the port")))
            while self.has(","):
                ports.append(Declared(self.place, type_name, self.name("the name of the port")))
            self.end(False)
        self.expect("}")
        return ComponentType(start, name, ports)

    def function(self, left: int) -> Function:
        start = self.expect("function")
        name = self.name("the name of the function")
        self.expect("(")
        parameters = self.parameters()
        self.expect(")")
        self.expect("runs")
        self.expect("on")
        runs_on = self.name("the name of a component type")
        inner = self.open("{", left)
        self.part = "a body"
        variables = self.variables()
        statements = self.statements(inner, False)
        self.expect("}")
        return Function(start, name, parameters, runs_on, variables, statements)

    def parameters(self) -> list[Declared]:
        parameters: list[Declared] = []
        if self.is_at(")"):
            return parameters
        while True:
            type_name = self.name("the name of a component type")
            parameters.append(Declared(self.place, type_name, self.name("the name of the parameter")))
            if not self.has(","):
                return parameters

    def test_case(self, left: int) -> TestCase:
        start = self.expect("testcase")
        name = self.name("the name of the test case")
        self.expect("(")
        self.expect(")")
        self.expect("runs")
        self.expect("on")
        runs_on = self.name("the name of a component type")
        system = self.name("the name of a component type") if self.has("system") else None
        inner = self.open("{", left)
        self.part = "a body"
        setups = self.setups()
        starts = self.starts()
        variables = self.variables()
        statements = self.statements(inner, True)
        has_done = self.done()
        self.expect("}")
        return TestCase(start, name, runs_on, system, setups, starts, variables, statements, has_done)

    def setups(self) -> list[Union[Creation, Pair]]:
        setups: list[Union[Creation, Pair]] = []
        while self.is_setup():
            self.begin, self.part = self.place, "the setup"
            setups.append(self.creation() if self.tokens[self.place] == "var" else self.pair())
            self.end(False)
            self.begin = self.place
        return setups

    def is_setup(self) -> bool:
        if self.is_at("connect") or self.is_at("map"):
            return True
        ahead = self.tokens[self.place : self.place + 4]
        return ahead[0] == "var" and is_name(ahead[1]) and is_name(ahead[2]) and ahead[3] == ":="

    def creation(self) -> Creation:
        start = self.expect("var")
        type_name = self.name()
        name = self.name()
        self.expect(":=")
        created = self.name("the name of a component type")
        self.expect(".")
        self.expect("create")
        return Creation(start, type_name, name, created)

    def pair(self) -> Pair:
        start = self.one_of(("connect", "map"))
        self.expect("(")
        first = self.pair_end()
        self.expect(",")
        second = self.pair_end()
        self.expect(")")
        return Pair(start, first, second)

    def pair_end(self) -> End:
        component = self.component("system")
        self.expect(":")
        return End(component, self.name("the name of a port"))

    def starts(self) -> list[ComponentStart]:
        starts = []
        while self.is_start():
            self.begin, self.part = self.place, "the start of a component"
            starts.append(self.component_start())
            self.end(False)
            self.begin = self.place
        return starts

    def is_start(self) -> bool:
        ahead = self.tokens[self.place : self.place + 4]
        return is_name(ahead[0]) and ahead[1:] == [".", "start", "("]

    def component_start(self) -> ComponentStart:
        start = self.place
        component = self.name()
        self.expect(".")
        self.expect("start")
        self.expect("(")
        function = self.name("the name of a function")
        self.expect("(")
        arguments = []
        if not self.is_at(")"):
            arguments.append(self.component())
            while self.has(","):
                arguments.append(self.component())
        self.expect(")")
        self.expect(")")
        return ComponentStart(start, component, function, arguments)

    def done(self) -> bool:
        """`all component.done`, if it is there."""
        if not self.is_at("all"):
            return False
        self.begin, self.part = self.place, "the end of the test case"
        for word in ("all", "component", ".", "done"):
            self.expect(word)
        self.end(False)
        return True
