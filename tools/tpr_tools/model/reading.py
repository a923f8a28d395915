"""Makes plain lists of a script (docs/PROFILE.md, "A script"), from the tree that the tools read.

It is for scripts that `tpr check` accepts: it doesn't look for broken rules.
"""
from __future__ import annotations

from typing import Iterable, Optional, TypeVar

from ..script import tree
from ..script.cursor import GrammarFault
from ..script.faults import Faults, RuleFault
from ..script.forms import Forms
from ..script.grammar import read_module
from ..script.names import Names
from ..script.tokens import Text
from .tree import EVERYONE, Block, Choice, Control, Function, Guard, Loop, Script, Send, Setverdict, Variable

Node = TypeVar("Node")


class Unreadable(Exception):
    """The script isn't one of the profile."""


def read_script(path: str) -> Script:
    """The script in a file."""
    with open(path, "rb") as file:
        return Reader(Text(file.read())).script


class Reader:
    """The lists, and where in the text the parts of bodies begin."""

    def __init__(self, text: Text):
        try:
            self.names = Names(text, read_module(text), Faults())
            self.names.check()
        except (GrammarFault, RuleFault) as fault:
            raise Unreadable(f"token {fault.place} is {text.spelling(fault.place)}") from None
        self.word, self.forms = self.names.word, Forms(self.names)
        # The token of a node, by the node's id, and the token of the `[else]` of an `alt`.
        self.places: dict[object, int] = {}
        self.script = Script(self.forms)
        for name in self.names.components:
            self.script.component_types[name] = tuple(self.names.ports_of(name))
        for name, it in self.names.functions.items():
            self.script.functions[name] = self.function(it, it.parameters)
        self.add_case(self.names.case)

    def words(self, places: Iterable[int]) -> tuple[str, ...]:
        return tuple(map(self.word, places))

    def noted(self, node: Node, place: int) -> Node:
        self.places[id(node)] = place
        return node

    def add_case(self, it: tree.TestCase) -> None:
        script, word = self.script, self.word
        for setup in it.setups:
            if isinstance(setup, tree.Creation):
                script.created.append((word(setup.name), word(setup.type)))
            else:
                script.pairs.append(tuple((word(end.component), word(end.port)) for end in (setup.first, setup.second)))
        for start in it.starts:
            script.starts.append((word(start.component), word(start.function), self.words(start.arguments)))
        script.system = self.word_at(it.system)
        script.case = self.function(it, [])

    def function(self, it: tree.Body, parameters: list[tree.Declared]) -> Function:
        variables = tuple(self.noted(Variable(self.word(one.name)), one.start) for one in it.variables)
        block = variables + self.block(it.statements)
        return Function(self.words(one.name for one in parameters), self.word(it.runs_on), block)

    # Statements

    def block(self, statements: list[tree.Statement]) -> Block:
        return tuple(self.noted(self.statement(it), it.start) for it in statements)

    def statement(self, it: tree.Statement) -> object:
        if isinstance(it, tree.Send):
            return self.send(it)
        if isinstance(it, tree.Receive):
            return Choice(((self.guard(it), ()),), None)
        if isinstance(it, tree.Control):
            return Control(self.word_at(it.port), self.word(it.operation))
        if isinstance(it, tree.SetVerdict):
            return Setverdict(self.word(it.verdict))
        if isinstance(it, tree.Loop):
            first, bound = self.names.number(it.first), self.names.number(it.bound)
            return Loop(self.word(it.name), first, bound, self.block(it.block))
        branches = tuple((self.guard(branch.receive), self.block(branch.block)) for branch in it.branches)
        if it.otherwise is None:
            return Choice(branches, None)
        made = Choice(branches, self.block(it.otherwise.block))
        self.places["else", id(made)] = it.otherwise.start
        return made

    def send(self, it: tree.Send) -> Send:
        receiver = self.word_at(it.to)
        receiver = EVERYONE if receiver == "all" else receiver
        return Send(self.word(it.port), it.message, self.word_at(it.variable) or "", receiver)

    def guard(self, it: tree.Receive) -> Guard:
        type_name = template = None
        if it.message is not None:
            type_name = self.word(it.message.type)
            template = self.forms.test_of(it.message.value, type_name)
        others = map(self.word_at, (it.sender, it.value_to, it.sender_to))
        return self.noted(Guard(self.word(it.how), self.word(it.port), type_name, template, *others), it.port)

    def word_at(self, place: Optional[int]) -> Optional[str]:
        return None if place is None else self.word(place)
