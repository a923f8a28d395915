"""Reads the statements of a script (docs/PROFILE.md, "Grammar")."""
from __future__ import annotations

from typing import Optional

from .cursor import A_NAME, A_STATEMENT, PORT_CONTROL, quoted
from .tokens import is_name
from .tree import Alt, Branch, Control, Declared, Loop, Message, Otherwise, Receive, Send, SetVerdict, Statement
from .values import ValueReader

VERDICTS = ("none", "pass", "inconc", "fail", "error")
CONTROLS = ("start", "stop", "halt", "clear")
RECEIVING = ("receive", "trigger", "check")


class StatementReader(ValueReader):
    """Reads statements, and the variables before them."""

    def variables(self) -> list[Declared]:
        variables = []
        while self.is_at("var"):
            self.begin, self.part = self.place, "a variable"
            start = self.expect("var")
            type_name = self.type_name()
            name = self.name("the name of a variable")
            self.end(False)
            variables.append(Declared(start, type_name, name))
            self.begin = self.place
        return variables

    def statements(self, left: int, is_case: bool) -> list[Statement]:
        """Reads the statements up to the end of the block, or those of a test case."""
        statements = []
        while not self.is_at("}") and not (is_case and self.is_all_component()):
            statements.append(self.statement(left))
            self.begin = self.place
        return statements

    def is_all_component(self) -> bool:
        if self.place == self.watched:
            self.wanted.append("`all component.done`")
        return self.tokens[self.place] == "all" and self.tokens[self.place + 1] == "component"

    def statement(self, left: int) -> Statement:
        self.begin, self.part = self.place, "a statement"
        start = self.place
        token = self.tokens[start]
        if token == "alt":
            statement: Statement = self.alt(left)
            self.end(True)
            return statement
        if token == "for":
            statement = self.loop(left)
            self.end(True)
            return statement
        if token == "setverdict":
            statement = self.set_verdict(left)
        elif token == "all":
            statement = self.all_ports()
        else:
            statement = self.operation(left)
        self.end(False)
        return statement

    def set_verdict(self, left: int) -> SetVerdict:
        start = self.expect("setverdict")
        self.open("(", left)
        verdict = self.one_of(VERDICTS)
        self.expect(")")
        return SetVerdict(start, verdict)

    def all_ports(self) -> Control:
        start = self.expect("all")
        self.expect("port")
        self.expect(".")
        return Control(start, None, self.one_of(CONTROLS, PORT_CONTROL))

    def operation(self, left: int) -> Statement:
        """Reads a statement that begins with the name of a port."""
        port = self.name(A_STATEMENT)
        self.expect(".")
        word = self.tokens[self.place]
        if word == "send":
            return self.send(port, left)
        if word in RECEIVING:
            return self.receiving(port, port, left)
        if word not in CONTROLS:
            self.refuse("`send`", *[quoted(word) for word in RECEIVING], PORT_CONTROL)
        self.place += 1
        return Control(port, port, self.place - 1)

    def send(self, port: int, left: int) -> Send:
        self.expect("send")
        inner = self.open("(", left)
        message = variable = to = None
        if is_name(self.tokens[self.place]) and self.tokens[self.place + 1] == ")":
            variable = self.name()
        else:
            message = self.sent(inner)
        self.expect(")")
        if self.has("to"):
            to = self.component("all")
            if self.tokens[to] == "all":
                self.expect("component")
        return Send(port, port, message, variable, to)

    def sent(self, left: int) -> Message:
        """Reads a message. A variable could be here too, but isn't."""
        if self.place == self.watched:
            self.wanted.append("the name of a variable")
        return self.message(left, False)

    def receiving(self, start: int, port: int, left: int) -> Receive:
        """Reads the rest of a receiving operation, after the name of its port and the dot."""
        how = self.one_of(RECEIVING)
        if self.tokens[how] != "check":
            return self.received(start, port, how, left)
        inner = self.open("(", left)
        self.expect("receive")
        receive = self.received(start, port, how, inner)
        self.expect(")")
        return receive

    def received(self, start: int, port: int, how: int, left: int) -> Receive:
        message = sender = None
        if self.is_at("("):
            inner = self.open("(", left)
            message = self.message(inner, True)
            self.expect(")")
        if self.has("from"):
            sender = self.component()
        value_to, sender_to = self.redirect()
        return Receive(start, port, how, message, sender, value_to, sender_to)

    def redirect(self) -> tuple[Optional[int], Optional[int]]:
        if not self.has("->"):
            return None, None
        if self.has("value"):
            value_to = self.name("the name of a variable")
            return value_to, self.name("the name of a variable") if self.has("sender") else None
        self.expect("sender")
        return None, self.name("the name of a variable")

    def block(self, left: int) -> list[Statement]:
        inner = self.open("{", left)
        statements = self.statements(inner, False)
        self.expect("}")
        return statements

    def alt(self, left: int) -> Alt:
        start = self.expect("alt")
        inner = self.open("{", left)
        if not self.is_at("["):
            self.refuse()
        branches = []
        while self.is_at("[") and self.tokens[self.place + 1] != "else":
            branches.append(self.branch(inner))
            self.begin = self.place
        otherwise = self.otherwise(inner)
        self.begin = self.place
        if otherwise is not None and self.tokens[self.place] == "[":
            self.refuse("`}`", sentence="no branch can follow `[else]`")
        self.expect("}")
        return Alt(start, branches, otherwise)

    def branch(self, left: int) -> Branch:
        self.begin, self.part = self.place, "a branch"
        start = self.place
        self.open("[", left)
        if self.place == self.watched:
            self.wanted.append("`else`")
        self.expect("]")
        port = self.name("the name of a port")
        self.expect(".")
        receive = self.receiving(start, port, left)
        is_closed = self.is_at("{")
        block = self.block(left) if is_closed else []
        self.end(is_closed)
        return Branch(start, receive, block)

    def otherwise(self, left: int) -> Optional[Otherwise]:
        if not self.is_at("["):
            return None
        start = self.place
        self.begin, self.part = start, "a branch"
        self.open("[", left)
        self.expect("else")
        self.expect("]")
        block = self.block(left)
        self.end(True)
        return Otherwise(start, block)

    def loop(self, left: int) -> Loop:
        start = self.expect("for")
        self.open("(", left)
        self.expect("var")
        self.expect("integer")
        name = self.name(A_NAME)
        self.expect(":=")
        first = self.integer()
        self.expect(";")
        self.same(name)
        self.expect("<")
        bound = self.integer()
        self.expect(";")
        self.step(name)
        self.expect(")")
        return Loop(start, name, first, bound, self.block(left))

    def step(self, name: int) -> None:
        self.same(name)
        self.expect(":=")
        self.same(name)
        self.expect("+")
        self.expect("1")

    def same(self, name: int) -> None:
        """Reads the name of the loop's variable again."""
        wanted = self.tokens[name]
        if is_name(self.tokens[self.place]) and self.tokens[self.place] != wanted:
            sentence = f"the four names in the head of a loop must be the same, here `{wanted}`"
            self.refuse(quoted(wanted), sentence=sentence)
        self.expect(wanted)
