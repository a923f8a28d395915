"""Reads modules and their definitions (ES 201 873-1, 8, 10, 15, 16); reports parts that can't be read."""
from __future__ import annotations

from collections import Counter
from typing import Callable, Optional, TypeVar

from ..script.constructs import Construct

from . import tree
from .cursor import ReadFault
from .reading_statements import StatementReader
from .tokens import Kind, Token, refused_at
from .tree import Direction, Parameter

_BEGINS = (
    "type", "const", "template", "modulepar", "function", "altstep", "testcase", "import", "group",
    "signature", "external", "control", "friend", "public", "private",
)


Found = TypeVar("Found")


class ModuleReader(StatementReader):
    def modules(self) -> list[tree.Module]:
        """All modules of a file; there must be at least one."""
        found: list[tree.Module] = []
        while not self.is_at_end():
            place = self.place
            try:
                found.append(self._module())
            except ReadFault as fault:
                self.tell(fault)
                self.nested = 0
                self.place = max(self.place, place + 1)
                while not self.is_at_end() and not self.is_at("module"):
                    self.take()
        if not found and not self.faults:
            self.faults.append(refused_at(self.token, "there is no module"))
        return found

    def _module(self) -> tree.Module:
        at = self.expect("module")
        name = self.name("the name of the module").text
        self.module_names.add(name)
        if self.is_at("language"):
            self.note(Construct.LANGUAGE, self.take())
            while self.accept(",") or self.token.kind is Kind.TEXT:
                self.take() if self.token.kind is Kind.TEXT else None
        module = tree.Module(at, name, [], [], [], [])
        self.expect("{")
        self._definitions(module)
        self.expect("}")
        self._with()
        self.accept(";")
        return module

    def _definitions(self, module: tree.Module) -> None:
        while not self.is_at("}") and self.token.kind is not Kind.END:
            place, nested = self.place, self.nested
            try:
                self._definition(module)
            except ReadFault as fault:
                self.tell(fault)
                self.nested = nested
                self._to_next(place)

    def _to_next(self, place: int) -> None:
        """Skips to the next word that begins a definition, at the beginning of a line."""
        self.place = max(self.place, place + 1)
        while self.token.kind is not Kind.END:
            before = self.tokens[self.place - 1]
            if self.is_at(*_BEGINS) and before.line < self.token.line and before.text in ("}", ";", ")"):
                return
            self.take()

    def _definition(self, module: tree.Module) -> None:
        while self.is_at("public", "private", "friend") and self.ahead(1).text != "module":
            self.note(Construct.VISIBILITY, self.take())
        read = _DEFINITIONS.get(self.token.text)
        if read is None:
            self.fail("a definition is expected here")
        read(self, module)
        self._with()
        self.accept(";")

    def _with(self) -> None:
        if self.is_at("with"):
            self.note(Construct.WITH, self.take())
            if not self.is_at("{"):
                self.fail("`{` is expected here")
            self.skip_brackets()

    def _type(self, module: tree.Module) -> None:
        module.definitions.append(self.type_definition(self.expect("type")))

    def _constants(self, module: tree.Module) -> None:
        at = self.take()
        self.note(Construct.CONST, at)
        self._values(module, at, False)

    def _values(self, module: tree.Module, at: Token, is_parameter: bool) -> None:
        of = self.type_name()
        while True:
            name = self.name()
            sizes = self.sizes()
            value = self.expression() if self.accept(":=") else None
            typed = tree.TypeName(of.at, of.word, of.body, sizes)
            module.definitions.append(tree.Constant(name, name.text, typed, value, is_parameter))
            if not self.accept(","):
                return

    def _module_parameters(self, module: tree.Module) -> None:
        at = self.take()
        self.note(Construct.MODULEPAR, at)
        if not self.accept("{"):
            self._values(module, at, True)
            return
        while not self.is_at("}"):
            self._values(module, at, True)
            if not self.accept(";"):
                break
        self.expect("}")

    def _template(self, module: tree.Module) -> None:
        at = self.take()
        self.note(Construct.TEMPLATE, at)
        restriction = self.template_restriction()
        self.modifiers()
        of = self.type_name()
        name = self.name("the name of the template")
        parameters = self._parameters() if self.is_at("(") else []
        base = None
        if self.accept("modifies"):
            self.note(Construct.MODIFIES, self.tokens[self.place - 1])
            base = self.name("the name of a template").text
        self.expect(":=")
        body = self.expression()
        module.definitions.append(
            tree.TemplateDefinition(name, name.text, of, parameters, base, body, restriction)
        )

    def _parameters(self) -> list[Parameter]:
        self.expect("(")
        return self.listed(self._parameter, ")")

    def _parameter(self) -> Parameter:
        at = self.token
        direction = Direction(self.take().text) if self.is_at("in", "out", "inout") else Direction.IN
        restriction = self.template_restriction() if self.accept("template") else ""
        self.modifiers()
        of = tree.TypeName(self.take(), "timer") if self.is_at("timer") else self.type_name()
        name = self.name("the name of the parameter").text
        of.sizes = self.sizes()
        value = None
        if self.accept(":="):
            value = self.expression()
        return Parameter(at, direction, of, name, value, restriction)

    def _runs_on(self) -> Optional[str]:
        if not self.accept("runs"):
            return None
        self.expect("on")
        return self.type_name().word

    def _runs_on_alone(self) -> Optional[str]:
        """Reads `runs on`. The types of `mtc` and of `system` may follow, which aren't used here."""
        runs_on = self._runs_on()
        while self.is_at("mtc", "system"):
            self.take()
            self.type_name()
        return runs_on

    def _function(self, module: tree.Module) -> None:
        self.take()
        while self.token.kind is Kind.MODIFIER:
            self.known_modifier(("@deterministic", "@control"))
        name = self.name("the name of the function")
        parameters = self._parameters()
        runs_on = self._runs_on_alone()
        if runs_on is None:
            self.note(Construct.NO_RUNS_ON, name)
        self._note_parameters(parameters)
        result = self._result()
        body = self.block()
        module.definitions.append(
            tree.Function(name, name.text, parameters, runs_on, result, body, module.name)
        )

    def _note_parameters(self, parameters: list[Parameter]) -> None:
        """Notes parameters of a function that surely aren't components. The name of a type alone doesn't show whether
        it is a component type."""
        bases = ("integer", "boolean", "charstring", "float", "timer", "default")
        for parameter in parameters:
            if parameter.type.word in bases or parameter.direction is not Direction.IN:
                self.note(Construct.VALUE_PARAMETER, parameter.at)

    def _result(self) -> Optional[tree.TypeName]:
        if not self.accept("return"):
            return None
        self.note(Construct.RETURN, self.tokens[self.place - 1])
        restriction = self.template_restriction() if self.accept("template") else ""
        found = self.type_name()
        return tree.TypeName(found.at, found.word, found.body, found.sizes, restriction)

    def _altstep(self, module: tree.Module) -> None:
        start, at = self.place, self.take()
        self.note(Construct.ALTSTEP, at)
        name = self.name("the name of the altstep")
        parameters = self._parameters()
        runs_on = self._runs_on_alone()
        declarations, branches = self._altstep_body()
        module.definitions.append(
            tree.Altstep(
                name, name.text, parameters, runs_on, declarations, branches, (start, self.place)
            )
        )

    def _altstep_body(self) -> tuple[list[tree.Declaration], list[tree.Branch]]:
        self.expect("{")
        declarations: list[tree.Declaration] = []
        while self.is_at("var", "const", "timer", "template"):
            declarations.append(self.declaration())
        return declarations, self.up_to_brace(self._recovered_branch)

    def _testcase(self, module: tree.Module) -> None:
        self.take()
        name = self.name("the name of the test case")
        parameters = self._parameters()
        runs_on = self._runs_on()
        system = self.type_name().word if self.accept("system") else None
        if parameters:
            self.note(Construct.CASE_PARAMETER, parameters[0].at)
        body = self.block()
        module.definitions.append(
            tree.TestCase(name, name.text, parameters, runs_on, system, body)
        )

    def _import(self, module: tree.Module) -> None:
        self.note(Construct.IMPORT, self.take())
        self.expect("from")
        name = self.name("the name of a module")
        module.imports.append(tree.Name(name, name.text))
        while not self.is_at(";", "{", "with") and self.token.kind is not Kind.END:
            if self.token.line > name.line and self.is_at(*_BEGINS, "}"):
                return
            self.take()
        if self.is_at("{"):
            self.skip_brackets()

    def _group(self, module: tree.Module) -> None:
        self.note(Construct.GROUP, self.take())
        self.name("the name of the group")
        self.expect("{")
        self.deeper()
        self._definitions(module)
        self.shallower()
        self.expect("}")

    def _signature(self, module: tree.Module) -> None:
        at = self.take()
        self.note(Construct.SIGNATURE, at)
        name = self.name("the name of the signature").text
        reason = "a signature is of procedures: ports have messages alone"
        module.definitions.append(tree.TypeDefinition(at, name, tree.OtherBody(at, reason)))
        while not self.is_at(";", "with", "}") and self.token.kind is not Kind.END:
            if self.is_at("("):
                self.skip_brackets()
            elif self.is_at(*_BEGINS):
                return
            else:
                self.take()

    def _external(self, module: tree.Module) -> None:
        self.note(Construct.EXTERNAL, self.take())
        self.expect("function")
        while self.token.kind is Kind.MODIFIER:
            self.known_modifier(("@deterministic", "@control"))
        name = self.name("the name of the function")
        parameters = self._parameters()
        module.definitions.append(
            tree.Function(name, name.text, parameters, None, self._result(), None, module.name)
        )

    def _control(self, module: tree.Module) -> None:
        self.note(Construct.CONTROL, self.take())
        start = self.place
        module.control += self._control_body(module.known).statements
        # A variable that is set twice, or passed to a call, may have another value.
        tokens = self.tokens[start : self.place]
        set_there = Counter(token.text for token, behind in zip(tokens, tokens[1:]) if behind.text == ":=")
        calls = [place for place, token in enumerate(tokens[:-1]) if token.kind is Kind.NAME and tokens[place + 1].text == "("]
        handed = {token.text for place in calls if tokens[place - 2].text != "execute" for token in _in_brackets(tokens, place + 1)}
        module.known = [one for one in module.known if set_there[one.name] == 1 and one.name not in handed]

    def _control_body(self, known: list[tree.Constant]) -> tree.Block:
        """Reads the body of the control part, only for its `execute` and its variables."""
        start = self.place
        at = self.token
        statements: list[tree.Statement] = []
        types: dict[str, tree.TypeName] = {}
        depth = 0
        while self.token.kind is not Kind.END:
            token = self.take()
            depth += {"{": 1, "}": -1}.get(token.text, 0) if token.kind is Kind.SIGN else 0
            if token.text == "execute" and self.is_at("("):
                self.note(Construct.EXECUTE, token)
                statements.append(self._executed())
            if depth == 1 and (token.text in ("var", "const") or token.text in types and self.is_at(":=")):
                self.place -= 1
                known += self._tried(lambda: self._known_there(types), [])
                self.place += 1
            if depth == 0:
                break
        return tree.Block(at, statements, (start, self.place))

    def _executed(self) -> tree.Statement:
        """Reads the test case of an `execute`, with its arguments; parts that can't be read are ignored."""
        token = self.ahead(1)
        return self._tried(self._execution, tree.CallStatement(token, tree.Name(token, token.text), (self.place, self.place)))

    def _execution(self) -> tree.CallStatement:
        start = self.place
        self.expect("(")
        name = self.name()
        return tree.CallStatement(name, self._postfix(tree.Name(name, name.text)), (start + 1, self.place))

    def _known_there(self, types: dict[str, tree.TypeName]) -> list[tree.Constant]:
        """Variables of the control part that are set here, with the types of those that are declared here."""
        if self.token.text in types:
            at = self.name()
            self.expect(":=")
            return [tree.Constant(at, at.text, types[at.text], self.expression(), False)]
        declared = self.declaration()
        types.update({one.name: declared.type for one in declared.variables if not one.sizes})
        return []

    def _tried(self, read: Callable[[], Found], otherwise: Found) -> Found:
        """Tries to read something, or returns `otherwise`. Notes nothing, because the text is read again later."""
        start, noted, called, nested = self.place, len(self.noted), len(self.called), self.nested
        try:
            return read()
        except ReadFault:
            return otherwise
        finally:
            self.place, self.nested = start, nested
            del self.noted[noted:], self.called[called:]

    def _friend(self, module: tree.Module) -> None:
        self.note(Construct.VISIBILITY, self.take())
        self.expect("module")
        self.name()
        while self.accept(","):
            self.name()


def _in_brackets(tokens: list[Token], start: int) -> list[Token]:
    """The tokens after a bracket, up to the closing one."""
    depth = 0
    for place in range(start, len(tokens)):
        depth += {"(": 1, ")": -1}.get(tokens[place].text, 0)
        if depth == 0:
            return tokens[start:place]
    return tokens[start:]


_DEFINITIONS: dict[str, Callable[[ModuleReader, tree.Module], None]] = {
    "type": ModuleReader._type,
    "const": ModuleReader._constants,
    "modulepar": ModuleReader._module_parameters,
    "template": ModuleReader._template,
    "function": ModuleReader._function,
    "altstep": ModuleReader._altstep,
    "testcase": ModuleReader._testcase,
    "import": ModuleReader._import,
    "group": ModuleReader._group,
    "signature": ModuleReader._signature,
    "external": ModuleReader._external,
    "control": ModuleReader._control,
    "friend": ModuleReader._friend,
}
