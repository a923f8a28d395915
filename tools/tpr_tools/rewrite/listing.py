"""Lists everything in a script that isn't in the profile, each with its place (`explain --every`)."""
from __future__ import annotations

from dataclasses import dataclass
from typing import Union

from ..script.constructs import Construct

from . import tree
from .compatible import given_by_structure
from .reading_modules import ModuleReader
from .tokens import Refused, Source, Token

# ES 201 873-1, 16.1.2. A name that isn't listed is a function of this module or of one that it imports.
_PREDEFINED = frozenset(
    "any2unistr bit2hex bit2int bit2oct bit2str char2int char2oct decvalue decvalue_o decvalue_unichar encvalue"
    " encvalue_o encvalue_unichar enum2int float2int get_stringencoding hex2bit hex2int hex2oct hex2str hostid"
    " int2bit int2char int2enum int2float int2hex int2oct int2str int2unichar isbound ischosen ispresent"
    " istemplatekind isvalue lengthof oct2bit oct2char oct2hex oct2int oct2str oct2unichar regexp remove_bom"
    " replace rnd sizeof str2float str2hex str2int str2oct substr testcasename unichar2int unichar2oct".split()
)
# Calls that are constructs of their own, and so reported as these.
_TOLD_ELSEWHERE = ("match", "valueof", "checkstate")
_WORDS = {"port": "p", "operation": "send", "type": "T", "value": "1", "name": "f", "verdict": "fail"}


@dataclass(frozen=True)
class Listed:
    construct: Construct
    at: Token

    def _told(self, text: str) -> str:
        for key, word in {**_WORDS, "word": f"`{self.at.text}`"}.items():
            text = text.replace("{" + key + "}", word)
        return text

    def title(self) -> str:
        return self._told(self.construct.title)

    def instead(self) -> str:
        return self._told(self.construct.instead)

    def text(self) -> str:
        clause = f"(ES 201 873-1, {self.construct.clause})"
        return f"{self.at.place()}: {self.title()} isn't supported {clause}\n  instead: {self.instead()}\n"


def constructs_of(file: str, data: bytes) -> tuple[list[Listed], list[Refused]]:
    """All constructs, in the order of the text, and the places that can't be read."""
    reader = ModuleReader(Source(file, data))
    modules = reader.modules()
    found = [Listed(construct, at) for construct, at in reader.noted]
    found += _of_messages(reader, modules)
    found += _of_calls(reader, modules)
    found += [Listed(Construct.COMPATIBLE, at) for at in given_by_structure(modules)]
    for module in modules:
        for definition in module.definitions:
            if isinstance(definition, (tree.Function, tree.TestCase)) and definition.body:
                found += _of_order(definition)
    once = dict.fromkeys(found)
    return sorted(once, key=lambda one: (one.at.line, one.at.column)), reader.faults


def _of_messages(reader: ModuleReader, modules: list[tree.Module]) -> list[Listed]:
    """Messages without their type, or templates given only by name. A variable may be sent by its name."""
    definitions = [item for module in modules for item in module.definitions]
    named = {item.name for item in definitions if isinstance(item, (tree.TemplateDefinition, tree.Constant))}
    found: list[Listed] = []
    for message, is_sent in reader.messages:
        called = message.called if isinstance(message, tree.Call) else message
        if isinstance(message, tree.Typed):
            continue
        if isinstance(called, tree.Name) and (called.word in named or not is_sent):
            found.append(Listed(Construct.TEMPLATE_BY_NAME, message.at))
        elif not isinstance(called, tree.Name):
            found.append(Listed(Construct.NO_TYPE, message.at))
    return found


def _of_calls(reader: ModuleReader, modules: list[tree.Module]) -> list[Listed]:
    """Calls of functions, but not of altsteps or templates with parameters."""
    definitions = [item for module in modules for item in module.definitions]
    others = {item.name for item in definitions if not isinstance(item, tree.Function)}
    called = [at for at in reader.called if at.text not in others and at.text not in _TOLD_ELSEWHERE]
    return [Listed(Construct.PREDEFINED if at.text in _PREDEFINED else Construct.CALL_FUNCTION, at) for at in called]


def _of_order(body: Union[tree.Function, tree.TestCase]) -> list[Listed]:
    """Checks the order: setup, starts, variables and statements, and `all component.done` last."""
    statements = body.body.statements if body.body else []
    found: list[Listed] = []
    is_behind = has_variables = False
    for number, statement in enumerate(statements):
        if isinstance(statement, tree.Declaration):
            if is_behind:
                found.append(Listed(Construct.LATE_VARIABLE, statement.at))
            has_variables = has_variables or not _is_setup(statement)
        elif _is_setup(statement):
            if is_behind or has_variables:
                found.append(Listed(Construct.LATE_SETUP, statement.at))
        else:
            is_behind = True
        if isinstance(statement, tree.Find) and number + 1 < len(statements) and _is_all_done(statement):
            found.append(Listed(Construct.ALL_DONE, statement.at))
    return found


def _is_all_done(statement: tree.Find) -> bool:
    return statement.target is tree.Any.ALL and statement.how is tree.Finding.DONE


def _is_setup(statement: tree.Statement) -> bool:
    if isinstance(statement, tree.Declaration):
        return any(isinstance(variable.value, tree.Create) for variable in statement.variables)
    if isinstance(statement, tree.Operate):
        return any(isinstance(item, tree.Call) for item in statement.arguments)
    return isinstance(statement, tree.Join) and statement.how in (tree.Joining.CONNECT, tree.Joining.MAP)
