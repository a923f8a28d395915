"""A reader of the subset of TTCN-3 that oracle.py follows. It shares nothing with tools/.

A statement, an expression or a template becomes a tuple: its kind and its parts. The reader assumes a valid script. A
script with constructs that aren't in the subset raises `Unread`.
"""
from __future__ import annotations

import re
from typing import Any, Callable, NamedTuple, NoReturn, Optional

Tree = tuple[Any, ...]
_TOKENS = re.compile(
    r"""(?P<space>\s+|//[^\n]*|/\*.*?\*/)"""
    r"""|(?P<token>"(?:[^"]|"")*"|\d+\.\d+|\d+|[A-Za-z]\w*|:=|\.\.|->|==|!=|<=|>=|[-+*/&<>=(){}\[\],;:.?])""",
    re.DOTALL,
)
# The operators, from the lowest precedence up (7.1)
_LEVELS = (
    ("or",), ("xor",), ("and",), ("not",), ("==", "!="), ("<", ">", "<=", ">="), ("+", "-", "&"), ("*", "/", "mod", "rem"),
)
_EVENTS = ("receive", "trigger", "check", "done", "timeout")
_ATOMS = {"?": "any", "*": "any_or_none", "omit": "omit", "infinity": "infinity"}


class Unread(Exception):
    """The script isn't in the subset."""


class Parameter(NamedTuple):
    mode: str
    type: str
    name: str
    default: Optional[Tree]


class Routine(NamedTuple):
    """A function, an altstep or a test case. The body of an altstep has its branches."""

    parameters: tuple[Parameter, ...]
    runs_on: str
    returned: Optional[str]
    body: tuple[Tree, ...]
    variables: tuple[Tree, ...] = ()


class Template(NamedTuple):
    type: str
    parameters: tuple[Parameter, ...]
    base: Optional[str]
    value: Tree


class Module:
    def __init__(self) -> None:
        self.enumerated: dict[str, dict[str, int]] = {}
        self.records: dict[str, dict[str, str]] = {}  # the fields, each with its type
        self.lists: dict[str, str] = {}
        self.components: dict[str, tuple[Tree, ...]] = {}
        self.constants: dict[str, tuple[str, Tree]] = {}
        self.templates: dict[str, Template] = {}
        self.routines: dict[str, Routine] = {}
        self.testcase = ""


class Reader:
    def __init__(self, text: str):
        found = list(_TOKENS.finditer(text))
        if sum(len(it.group()) for it in found) != len(text):
            raise Unread("a sign that no token has")
        self.tokens = [*(it.group() for it in found if it.lastgroup == "token"), ""]
        self.at = 0
        self.module = Module()
        self.timers: set[str] = set()

    # Tokens

    def ahead(self, distance: int = 0) -> str:
        return self.tokens[min(self.at + distance, len(self.tokens) - 1)]

    def take(self) -> str:
        self.at += 1
        return self.tokens[self.at - 1]

    def has(self, *texts: str) -> bool:
        """Takes the next tokens if they are these."""
        if any(self.ahead(place) != text for place, text in enumerate(texts)):
            return False
        self.at += len(texts)
        return True

    def must(self, *texts: str) -> None:
        if not self.has(*texts):
            self.fail(f"{' '.join(texts)} expected")

    def fail(self, why: str) -> NoReturn:
        raise Unread(f"{why} at {' '.join(self.tokens[self.at : self.at + 8])}")

    def name(self) -> str:
        if not self.ahead()[:1].isalpha():
            self.fail("a name expected")
        return self.take()

    def several(self, one: Callable[[], Any], end: str) -> tuple[Any, ...]:
        """Reads items separated by commas, and the token `end` after them."""
        found = []
        while not self.has(end):
            found.append(one())
            if not self.has(","):
                self.must(end)
                break
        return tuple(found)

    # Definitions

    def read(self) -> Module:
        self.must("module")
        self.name()
        self.must("{")
        while not self.has("}"):
            self.definition(self.take())
            self.has(";")
        return self.module

    def definition(self, word: str) -> None:
        if word == "type":
            self.type_definition(self.take())
        elif word == "control":
            self.block()
        elif word in ("const", "modulepar"):
            type_name, name = self.name(), self.name()
            self.must(":=")
            self.module.constants[name] = type_name, self.expression()
        elif word == "template":
            type_name, name, parameters = self.name(), self.name(), self.parameters()
            base = self.name() if self.has("modifies") else None
            self.must(":=")
            self.module.templates[name] = Template(type_name, parameters, base, self.expression())
        elif word in ("function", "testcase", "altstep"):
            self.routine(word)
        else:
            self.fail(f"no definition: {word}")

    def type_definition(self, kind: str) -> None:
        element = self.name() if self.has("of") else None
        name = self.name()
        if element is not None:
            self.module.lists[name] = element
        elif kind in ("record", "set"):
            self.must("{")
            self.module.records[name] = dict(self.several(self.field, "}"))
        elif kind == "enumerated":
            self.must("{")
            words = self.several(self.word, "}")
            free = (number for number in range(2 * len(words)) if number not in dict(words).values())
            self.module.enumerated[name] = {word: next(free) if at is None else at for word, at in words}
        elif kind == "port":
            self.at = self.tokens.index("}", self.at) + 1
        elif kind == "component":
            self.module.components[name] = self.block()
        else:
            self.fail(f"no type: {kind}")

    def field(self) -> tuple[str, str]:
        type_name, name = self.name(), self.name()
        self.has("optional")
        return name, type_name

    def word(self) -> tuple[str, Optional[int]]:
        name = self.name()
        return (name, self.bracketed()[1]) if self.ahead() == "(" else (name, None)

    def parameters(self) -> tuple[Parameter, ...]:
        return self.several(self.parameter, ")") if self.has("(") else ()

    def parameter(self) -> Parameter:
        mode = self.take() if self.ahead() in ("in", "out", "inout", "template") else "in"
        return Parameter(mode, self.name(), self.name(), self.expression() if self.has(":=") else None)

    def routine(self, word: str) -> None:
        name, parameters = self.name(), self.parameters()
        runs_on = self.name() if self.has("runs", "on") else ""
        returned = self.name() if self.has("return") else None
        variables = []
        if word == "altstep":
            self.must("{")
            while self.ahead() == "var":
                variables.append(self.statement())
        body = self.branches() if word == "altstep" else self.block()
        self.module.routines[name] = Routine(parameters, runs_on, returned, body, tuple(variables))
        if word == "testcase":
            self.module.testcase = name

    # Statements

    def block(self) -> tuple[Tree, ...]:
        self.must("{")
        found = []
        while not self.has("}"):
            found.append(self.statement())
        return tuple(found)

    def statement(self) -> Tree:
        found = self.one_statement()
        while self.has(";"):
            pass
        return found

    def one_statement(self) -> Tree:
        word = self.ahead()
        read = getattr(self, f"read_{word}", None)
        if read is not None and self.ahead(1) not in (".", ":=", "["):
            self.take()
            found: Tree = read()
            return found
        if word in ("log", "setverdict", "deactivate") and self.ahead(1) == "(":
            return self.take(), self.arguments()
        if word in ("break", "continue", "repeat", "stop"):
            return "leave", self.take(), None
        if word in ("label", "goto"):
            return self.take(), self.name()
        if self.is_event():
            return "alt", (("branch", None, self.event(), ()),)
        if self.ahead(1) == ".":
            operated = self.operation(self.ahead(2))
            if operated is not None:
                return operated
        target = self.atom()
        return ("assign", target, self.expression()) if self.has(":=") else ("evaluate", target)

    def is_event(self) -> bool:
        return self.ahead() in ("all", "any") or (self.ahead(1) == "." and self.ahead(2) in _EVENTS)

    def operation(self, word: str) -> Optional[Tree]:
        """An operation of a port, or the start of a component."""
        if word not in ("send", "start", "stop", "halt", "clear"):
            return None
        subject, _, _ = self.take(), self.take(), self.take()
        if subject in self.timers:
            return "timer", word, subject, self.arguments() if self.ahead() == "(" else ()
        if word == "send":
            ((message,), to) = self.arguments(), self.reference() if self.has("to") else None
            return "send", subject, message, to
        if word == "start" and self.has("("):
            name, arguments = self.name(), self.arguments()
            self.must(")")
            return "start", ("name", subject), name, arguments
        return "operate", word, subject

    def read_var(self) -> Tree:
        type_name = self.name()
        found: list[tuple[str, Optional[Tree]]] = []
        while not found or self.has(","):
            found.append((self.name(), self.expression() if self.has(":=") else None))
        return "var", type_name, tuple(found)

    def read_port(self) -> Tree:
        while self.ahead() not in (";", "}"):
            self.take()
        return "log", ()

    def read_timer(self) -> Tree:
        while True:
            self.timers.add(self.name())
            if self.has(":="):
                self.expression()
            if not self.has(","):
                return "log", ()

    def read_if(self) -> Tree:
        condition, then = self.bracketed(), self.block()
        if not self.has("else"):
            return "if", condition, then, ()
        return "if", condition, then, (self.statement(),) if self.ahead() == "if" else self.block()

    def bracketed(self) -> Tree:
        ((found),) = self.arguments()
        return found

    def read_while(self) -> Tree:
        return "loop", (), self.bracketed(), (), self.block()

    def read_for(self) -> Tree:
        self.must("(")
        first, condition = self.statement(), self.expression()
        self.must(";")
        step = self.statement()
        self.must(")")
        return "loop", (first,), condition, (step,), self.block()

    def read_select(self) -> Tree:
        chosen, cases = self.bracketed(), []
        self.must("{")
        while self.has("case"):
            cases.append((None if self.has("else") else self.arguments(), self.block()))
        self.must("}")
        return "select", chosen, tuple(cases)

    def read_alt(self) -> Tree:
        self.must("{")
        return "alt", self.branches()

    def read_interleave(self) -> Tree:
        return "interleave", self.read_alt()[1]

    def read_return(self) -> Tree:
        return "leave", "return", None if self.ahead() in (";", "}") else self.expression()

    def read_connect(self) -> Tree:
        self.must("(")
        return ("connect", *self.several(self.port_of_component, ")"))

    def port_of_component(self) -> tuple[Tree, str]:
        component = self.reference()
        self.must(":")
        return component, self.name()

    # Branches

    def branches(self) -> tuple[Tree, ...]:
        found = []
        while not self.has("}"):
            self.must("[")
            guard = None if self.ahead() in ("]", "else") else self.expression()
            event: Tree = ("else",) if self.has("else") else ()
            self.must("]")
            event = event or self.event()
            found.append(("branch", guard, event, self.block() if self.ahead() == "{" else ()))
            self.has(";")
        return tuple(found)

    def event(self) -> Tree:
        if self.has("all", "component", ".", "done"):
            return "done", None
        if self.ahead(1) == "(":
            return "altstep", self.name(), self.arguments()
        port = None if self.has("any", "port") else self.name()
        self.must(".")
        word = how = self.take()
        if word == "done":
            return "done", ("name", port)
        if word == "timeout":
            return word, port
        if word == "check":
            self.must("(")
            word = self.take()
        if word not in ("receive", "trigger"):
            self.fail("no event")
        wanted = self.bracketed() if self.ahead() == "(" else None
        origin = self.reference() if self.has("from") else None
        is_redirected = self.has("->")
        value = self.reference() if is_redirected and self.has("value") else None
        sender = self.reference() if is_redirected and self.has("sender") else None
        if how == "check":
            self.must(")")
        return "receive", how, port, wanted, origin, value, sender

    # Expressions and templates

    def arguments(self) -> tuple[Tree, ...]:
        self.must("(")
        return self.several(self.expression, ")")

    def expression(self, level: int = 0) -> Tree:
        if level == len(_LEVELS):
            return self.unary()
        if _LEVELS[level] == ("not",):
            return ("unary", self.take(), self.expression(level)) if self.ahead() == "not" else self.expression(level + 1)
        left = self.expression(level + 1)
        while self.ahead() in _LEVELS[level]:
            left = "binary", self.take(), left, self.expression(level + 1)
        return left

    def unary(self) -> Tree:
        if self.has("-"):
            return ("skip",) if self.ahead() in (",", ")", "}") else ("unary", "-", self.unary())
        found = self.atom()
        return ("among", True, (("omit",), found)) if self.has("ifpresent") else found

    def atom(self) -> Tree:
        token = self.ahead()
        if token in _ATOMS:
            return (_ATOMS[self.take()],)
        if token[:1].isdigit() and "." in token:
            return "value", float(self.take())
        if token.isdigit() or token in ("true", "false"):
            return "value", self.take() == "true" if token.isalpha() else int(self.take())
        if token[:1] == '"':
            return "value", self.take()[1:-1].replace('""', '"')
        if self.has("("):
            return self.bracket()
        if self.has("{"):
            return "braces", self.several(self.element, "}")
        if self.has("complement"):
            return "among", False, self.arguments()
        if token == "activate":
            return self.take(), self.arguments()
        if token == "pattern":
            return "unary", self.take(), self.atom()
        return self.reference()

    def bracket(self) -> Tree:
        """Reads the rest after `(`: an expression in brackets, a range, or a list of templates."""
        first = self.expression()
        if self.has(".."):
            last = self.expression()
            self.must(")")
            return "range", first, last
        if self.has(")"):
            return first
        self.must(",")
        return "among", True, (first, *self.several(self.expression, ")"))

    def element(self) -> tuple[Optional[str], Tree]:
        name = self.name() if self.ahead(1) == ":=" else None
        if name is not None:
            self.must(":=")
        return name, self.expression()

    def reference(self) -> Tree:
        name = self.name()
        types = {"integer", "boolean", "charstring", *self.module.records, *self.module.lists, *self.module.enumerated}
        if name in types and self.has(":"):
            return "typed", name, self.expression()
        found: Tree = ("call", name, self.arguments()) if self.ahead() == "(" else ("name", name)
        while self.ahead() in (".", "["):
            if self.has(".", "create"):
                found = "create", name
            elif self.has("."):
                found = "field", found, self.name()
            else:
                self.take()
                found = "index", found, self.expression()
                self.must("]")
        return found
