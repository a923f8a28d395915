"""Reads operations on ports, components and timers (ES 201 873-1, 21 to 23), each after its target."""
from __future__ import annotations

from typing import Optional, Union

from ..script.constructs import Construct

from . import tree
from .reading_types import TypeReader
from .tokens import Kind, Token
from .tree import Any, Expression, Finding, PortAct, Receiving, Statement

_RECEIVING = ("receive", "trigger", "check")
_PROCEDURES = ("call", "getcall", "reply", "getreply", "raise", "catch")
_FINDING = ("done", "killed", "timeout")
_ACTS = ("start", "stop", "halt", "clear")
_ENDS = {"kill": "`kill` ends a behaviour from outside; here each runs to its own end"}


class OperationReader(TypeReader):
    def operation(self, target: Optional[Expression], any_of: Optional[Any], of: str, start: int) -> Statement:
        """Reads the operation after the `.`. `of` is the kind of things after `any` or `all`, or empty."""
        at = self.expect(".")
        word = self.take()
        if word.text == "send":
            return self._send(target, word, start)
        if word.text in _RECEIVING:
            return self._receiving(target, of == "from", word, start)
        if word.text in _FINDING:
            return self._finding(target if target and of != "from" else any_of, of, word, start)
        if word.text in _ACTS:
            return self._operate(target, of, word, start)
        if word.text in _PROCEDURES:
            self.note(Construct.CALL, word)
            return self._unsupported(word, f"`{word.text}` is of a procedure: ports have messages alone", start)
        if word.text in _ENDS:
            self.note(Construct.KILL, word)
            return self._unsupported(word, _ENDS[word.text], start)
        if word.text in ("setstate", "checkstate", "setencode", "unicast"):
            return self._unsupported(word, f"`{word.text}` has no place in the profile", start)
        self.place -= 1
        return self._fail_at(at)

    def _fail_at(self, at: Token) -> Statement:
        self.fail("an operation is expected here")

    def _unsupported(self, at: Token, reason: str, start: int) -> tree.Unsupported:
        """Skips the rest of the operation, but reads the answers of a call."""
        while self.token.kind is not Kind.END and not self.is_at(";", "}", "{"):
            if self.is_at("(", "["):
                self.skip_brackets()
            else:
                self.take()
        if self.is_at("{") and at.text == "call":
            self.answers()
        return tree.Unsupported(at, reason, (start, self.place))

    def answers(self) -> None:
        self.skip_brackets()

    def _send(self, port: Optional[Expression], at: Token, start: int) -> Statement:
        if port is None:
            self.fail("`send` needs a port")
        self.expect("(")
        message = self.expression()
        self.expect(")")
        self.messages.append((message, True))
        to: list[Expression] = []
        to_all = False
        if self.accept("to"):
            if self.is_at("all"):
                self.take()
                self.expect("component")
                to_all = True
            else:
                to = self._who(Construct.TO_LIST)
        return tree.Send(at, port, message, to, to_all, (start, self.place))

    def _who(self, several: Construct) -> list[Expression]:
        value = self.expression()
        if isinstance(value, tree.Special) and value.sign is tree.Sign.SYSTEM:
            self.note(Construct.TO_SYSTEM, value.at)
        if not isinstance(value, tree.OneOf):
            return [value]
        if len(value.items) > 1:
            self.note(several, value.at)
        return value.items

    def _receiving(self, port: Optional[Expression], is_each: bool, at: Token, start: int) -> Statement:
        how = Receiving(at.text)
        if port is None or is_each:
            self.note(Construct.ANY_PORT, at)
        if how is not Receiving.CHECK:
            return self._received(port, is_each, how, at, start)
        if not self.is_at("("):
            self.note(Construct.CHECK, at)
            return tree.Receive(at, how, port, is_each, None, [], None, (start, self.place))
        if self.ahead(1).text in ("getcall", "getreply", "catch"):
            self.note(Construct.CALL, self.ahead(1))
            word = self.ahead(1)
            return self._unsupported(word, f"`{word.text}` is of a procedure: ports have messages alone", start)
        self.expect("(")
        if not self.accept("receive"):
            self.note(Construct.CHECK, at)
            found = self._behind_template(port, is_each, how, None, at, start)
        else:
            found = self._received(port, is_each, how, at, start)
        self.expect(")")
        found.span = (start, self.place)
        return found

    def _received(
        self, port: Optional[Expression], is_each: bool, how: Receiving, at: Token, start: int
    ) -> tree.Receive:
        template = None
        if self.accept("("):
            template = self.expression()
            self.expect(")")
            self.messages.append((template, False))
        return self._behind_template(port, is_each, how, template, at, start)

    def _behind_template(
        self, port: Optional[Expression], is_each: bool, how: Receiving,
        template: Optional[Expression], at: Token, start: int,
    ) -> tree.Receive:
        senders: list[Expression] = []
        if self.accept("from"):
            if self.is_at("any") and self.ahead(1).text == "component":
                self.note(Construct.FROM_ANY, self.take())
                self.take()
            else:
                senders = self._who(Construct.FROM_ANY)
        redirect = self._redirect() if self.is_at("->") else None
        return tree.Receive(at, how, port, is_each, template, senders, redirect, (start, self.place))

    def _redirect(self) -> tree.Redirect:
        redirect = tree.Redirect(self.expect("->"), None, [], None, None)
        while True:
            if self.accept("value"):
                self._redirected_value(redirect)
            elif self.accept("sender"):
                redirect.sender = self.reference()
            elif self.token.kind is Kind.MODIFIER and self.token.text == "@index":
                self.note(Construct.REDIRECT, self.take())
                self.accept("value")
                redirect.index = self.reference()
            elif self.is_at("timestamp", "@timestamp"):
                self.fail("a redirected time stamp isn't carried over: there is no time in a run")
            elif self.token.kind is Kind.MODIFIER:
                self.fail(f"`{self.token.text}` of a redirect isn't carried over")
            elif not self.accept(","):
                return redirect

    def _redirected_value(self, redirect: tree.Redirect) -> None:
        if not self.is_at("("):
            redirect.value = self.reference()
            return
        self.note(Construct.REDIRECT, self.take())
        while not self.is_at(")"):
            target = self.reference()
            self.expect(":=")
            if self.token.kind is Kind.MODIFIER:
                self.fail(f"`{self.token.text}` of a redirect isn't carried over: nothing is decoded in a run")
            redirect.parts.append((target, self._postfix(self._primary())))
            if not self.accept(","):
                break
        self.expect(")")

    def reference(self) -> Expression:
        at = self.name("a variable")
        return self._postfix(tree.Name(at, at.text))

    def _finding(
        self, target: Union[Expression, Any, None], of: str, at: Token, start: int
    ) -> tree.Find:
        is_timer = at.text == "timeout"
        is_all = target is Any.ALL and at.text == "done"
        if not is_all:
            self.note(Construct.TIMER if is_timer else Construct.DONE_OF_ONE, at)
        has_more = of == "from"
        if self.is_at("->") or self.is_at("("):
            has_more = True
            if self.is_at("("):
                self.skip_brackets()
            if self.is_at("->"):
                self._redirect()
        return tree.Find(at, Finding(at.text), target or Any.ANY, is_timer, has_more, (start, self.place))

    def _operate(self, target: Optional[Expression], of: str, at: Token, start: int) -> Statement:
        arguments: list[Expression] = []
        if self.is_at("(") and self.ahead(1).text == ")":
            self.note(Construct.PORT_BRACKETS, at)
            self.skip_brackets()
        elif self.is_at("("):
            arguments = self.in_parentheses()
        if isinstance(target, tree.Special) and at.text == "stop":
            self.note(Construct.STOP, at)
        if isinstance(target, tree.Name) and target.word in self.created and at.text != "start":
            self.note(Construct.KILL, at)
        for item in arguments:
            self._note_arguments(item)
        if of == "component":
            self.note(Construct.KILL, at)
            return tree.Unsupported(at, f"`all {of}.{at.text}` ends behaviours from outside", (start, self.place))
        if of == "timer":
            self.note(Construct.TIMER, at)
        return tree.Operate(at, target, PortAct(at.text), arguments, (start, self.place), of == "timer")

    def _note_arguments(self, call: Expression) -> None:
        """Notes the arguments of a start. A component may be started only with components as arguments. The function of
        the start isn't called here."""
        if isinstance(call, tree.Call):
            self.called = [at for at in self.called if at is not call.at]
        for item in call.arguments if isinstance(call, tree.Call) else []:
            if not isinstance(item.value, (tree.Name, tree.Special)):
                self.note(Construct.START_ARGUMENT, item.at)
