"""A program: the definitions of all its modules, by their names."""
from __future__ import annotations

from typing import Iterator, Mapping, Optional, Union

from . import tree
from .reading_modules import ModuleReader
from .tokens import Kind, Refused, Source, Token, refused_at
from .types import Types

_Body = Union[tree.Function, tree.Altstep, tree.TestCase, tree.TemplateDefinition, tree.Constant]


# A function with one of these words waits; with one of the others it does more than compute.
_WAITING = frozenset("receive trigger check alt interleave done killed timeout".split())
_WRITING = _WAITING | frozenset("send setverdict start stop halt clear create connect map".split())


class Program:
    def __init__(self, sources: list[Source]):
        self.faults: list[Refused] = []
        self.constants: dict[str, tree.Constant] = {}
        self.templates: dict[str, tree.TemplateDefinition] = {}
        self.functions: dict[str, tree.Function] = {}
        self.altsteps: dict[str, tree.Altstep] = {}
        self.cases: dict[str, tree.TestCase] = {}
        self.controlled: dict[str, list[tree.Constant]] = {}
        self.executed: list[Token] = []
        # The name of the test case that is followed.
        self.case_name = ""
        self.modules: list[tree.Module] = []
        self._tokens: dict[str, list[Token]] = {}
        self._types: dict[str, tree.TypeDefinition] = {}
        self._names: dict[int, frozenset[str]] = {}
        self._asked: dict[int, frozenset[str]] = {}
        self._reached: dict[str, frozenset[str]] = {}
        self._having: dict[tuple[str, frozenset[str]], bool] = {}
        self._timers: Optional[frozenset[str]] = None
        for source in sources:
            self._read(source)
        self._look_at_imports()
        # If nothing else in a body has the name of a variable of the control part, that variable is a constant here.
        alone = {name: found[0] for name, found in self.controlled.items() if len(found) == 1 and not self._is_defined(name)}
        changing = [one for case in self.cases.values() for one in case.parameters if one.direction is not tree.Direction.IN]
        self.constants.update({} if changing else alone)
        self.types = Types(self._types)

    def _read(self, source: Source) -> None:
        reader = ModuleReader(source)
        modules = reader.modules()
        self.faults += reader.faults
        self.faults += [refused_at(token, "a name begins with a letter") for token in source.begun]
        self._tokens[source.file] = source.tokens
        for module in modules:
            self.modules.append(module)
            for definition in module.definitions:
                self._add(definition)
            for known in module.known:
                self.controlled.setdefault(known.name, []).append(known)
        tokens = source.tokens
        for place, token in enumerate(tokens[:-2]):
            if token.text == "execute" and token.kind is Kind.KEYWORD:
                self.executed += tokens[place + 2 : place + 5]

    def _add(self, definition: tree.Definition) -> None:
        name, table = definition.name, self._table(definition)
        if self._is_defined(name):
            reason = f"`{name}` is defined twice in the modules that were given"
            self.faults.append(refused_at(definition.at, reason))
        table[name] = definition

    def _table(self, definition: tree.Definition) -> dict[str, object]:
        tables: dict[type, object] = {
            tree.TypeDefinition: self._types,
            tree.Constant: self.constants,
            tree.TemplateDefinition: self.templates,
            tree.Function: self.functions,
            tree.Altstep: self.altsteps,
            tree.TestCase: self.cases,
        }
        return tables[type(definition)]  # type: ignore[return-value]

    def _is_defined(self, name: str) -> bool:
        values: list[Mapping[str, object]] = [
            self._types, self.constants, self.templates, self.functions, self.altsteps, self.cases,
        ]
        return any(name in table for table in values)

    def _look_at_imports(self) -> None:
        known = {module.name for module in self.modules}
        for module in self.modules:
            for name in module.imports:
                if name.word not in known:
                    reason = f"the module `{name.word}` isn't among the files that were given"
                    self.faults.append(refused_at(name.at, reason))

    def names_in(self, statement: tree.Statement) -> frozenset[str]:
        """All names in a statement, and in the functions and altsteps that it can reach."""
        found = self._names.get(id(statement))
        if found is None:
            found = self._reach(self._spelled(statement.at.file, statement.span))
            self._names[id(statement)] = found
        return found

    def asked_in(self, statement: tree.Statement) -> frozenset[str]:
        """The names in a statement, except variables that are always set by a receive before they are used."""
        if id(statement) not in self._asked:
            tokens, places = self._tokens[statement.at.file], dict[str, set[int]]()
            for place in range(*statement.span):
                places.setdefault(tokens[place].text, set()).add(place)
            for event, behind in self._received_in(statement):
                for target in (event.redirect.value, event.redirect.sender) if event.redirect else ():
                    if isinstance(target, tree.Name) and len(places[target.word].intersection(range(*event.span))) == 1:
                        places[target.word] -= behind
            set_first = {name for name, left in places.items() if not left}
            self._asked[id(statement)] = self._reach(self._spelled(statement.at.file, statement.span) - set_first)
        return self._asked[id(statement)]

    def _received_in(self, statement: tree.Statement) -> Iterator[tuple[tree.Receive, set[int]]]:
        """The receives in a statement, each with all places that are reached only through it."""
        for branch in statement.branches if isinstance(statement, tree.Alt) and not statement.is_interleave else ():
            if isinstance(branch.event, tree.Receive):
                yield branch.event, {*range(*branch.event.span), *range(*(branch.block.span if branch.block else (0, 0)))}
        for block, inner in [(block, inner) for block in tree.blocks_of(statement) for inner in block.statements]:
            if isinstance(inner, tree.Receive) and not self.has_word("activate") and not self.has_word("label"):
                yield inner, {*range(inner.span[0], block.span[1])}
            yield from self._received_in(inner)

    def calls_of(self, case: str) -> list[tree.Call]:
        """The executions of a test case with arguments, one for each different list of arguments."""
        found: dict[tuple[str, ...], tree.Call] = {}
        for module in self.modules:
            for statement in module.control:
                call = statement.call if isinstance(statement, tree.CallStatement) else None
                if isinstance(call, tree.Call) and tree.word_called(call) == case and call.arguments:
                    start, end = statement.span
                    found.setdefault(tuple(token.text for token in self._tokens[call.at.file][start:end]), call)
        return list(found.values())

    def has_word(self, word: str) -> bool:
        """Whether the word occurs anywhere in the modules."""
        return any(token.text == word for tokens in self._tokens.values() for token in tokens)

    def names_of_timers(self) -> frozenset[str]:
        """The names of all timers if `any timer` or `all timer` occurs, which may mean each of them; otherwise none."""
        if self._timers is None:
            tokens = [token for listed in self._tokens.values() for token in listed]
            pairs = zip(tokens, tokens[1:])
            is_so = any(token.text == "timer" and before.text in ("any", "all") for before, token in pairs)
            self._timers = frozenset(token.text for token in tokens if is_so and token.kind is Kind.NAME)
        return self._timers

    def communicates(self, name: str) -> bool:
        """Whether a function, or one that it reaches, may do something for which a statement is written."""
        return self._comes_to(name, _WRITING)

    def waits(self, name: str) -> bool:
        """Whether a function, or one that it reaches, may wait."""
        return self._comes_to(name, _WAITING)

    def _comes_to(self, name: str, words: frozenset[str]) -> bool:
        found = self._having.get((name, words))
        if found is None:
            bodies = [word for word in self.reached_by(name) if self._has_body(word)]
            found = self._having[name, words] = any(self._has(one, words) for one in [name, *bodies])
        return found

    def _has(self, name: str, words: frozenset[str]) -> bool:
        function = self.functions.get(name)
        if function is None or function.body is None:
            return name in self.altsteps
        start, end = function.body.span
        return any(token.text in words for token in self._tokens[function.at.file][start:end])

    def reached_by(self, name: str) -> frozenset[str]:
        return self._reach(frozenset([name]))

    def _spelled(self, file: str, span: tuple[int, int]) -> frozenset[str]:
        tokens = self._tokens[file][span[0] : span[1]]
        return frozenset(
            token.text for token in tokens if token.kind is Kind.NAME or token.text == "getverdict"
        )

    def _reach(self, names: frozenset[str]) -> frozenset[str]:
        found, open_names = set(names), [name for name in names if self._has_body(name)]
        while open_names:
            for name in self._of_body(open_names.pop()):
                if name not in found:
                    found.add(name)
                    if self._has_body(name):
                        open_names.append(name)
        return frozenset(found)

    def _has_body(self, name: str) -> bool:
        return name in self.functions or name in self.altsteps

    def _of_body(self, name: str) -> frozenset[str]:
        found = self._reached.get(name)
        if found is None:
            function, altstep = self.functions.get(name), self.altsteps.get(name)
            found = frozenset()
            if function and function.body:
                found = self._spelled(function.at.file, function.body.span)
            if altstep:
                found |= self._spelled(altstep.at.file, altstep.span)
            self._reached[name] = found
        return found

    def chosen_case(self, name: Optional[str]) -> tree.TestCase | str:
        """The test case with this name, or the only one, or the only one that is executed; otherwise what is wrong."""
        if name is not None:
            return self.cases.get(name) or f"there is no test case `{name}`"
        if len(self.cases) == 1:
            return next(iter(self.cases.values()))
        executed = {token.text for token in self.executed if token.text in self.cases}
        if len(executed) == 1:
            return self.cases[executed.pop()]
        if not self.cases:
            return "there is no test case"
        listed = ", ".join(sorted(self.cases))
        return f"there are several test cases; name one with --case: {listed}"
