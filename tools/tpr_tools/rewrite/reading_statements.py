"""Reads statements (ES 201 873-1, 19 to 25)."""
from __future__ import annotations

from typing import Callable

from ..script.constructs import Construct

from . import tree
from .cursor import ReadFault
from .reading_operations import OperationReader
from .tokens import Kind, Token
from .tree import Any, Block, Leaving, Statement

_LEAVES = {
    "break": (Leaving.BREAK, Construct.BREAK),
    "continue": (Leaving.CONTINUE, Construct.BREAK),
    "repeat": (Leaving.REPEAT, Construct.REPEAT),
    "stop": (Leaving.STOP, Construct.STOP),
}
_JOINS = ("connect", "map", "disconnect", "unmap")


class StatementReader(OperationReader):
    def block(self) -> Block:
        start = self.place
        self.deeper()
        at = self.expect("{")
        statements = self.up_to_brace(self._recovered)
        self.shallower()
        return Block(at, statements, (start, self.place))

    def _recovered(self) -> Statement:
        """Reads a statement. If it can't be read, reports that, and continues after its `;`."""
        start, nested = self.place, self.nested
        try:
            return self.statement()
        except ReadFault as fault:
            self.tell(fault)
            self.nested = nested
            self.place = max(self.place, start + 1)
            self._to_end(start)
            return tree.Unsupported(fault.token, "", (start, self.place))

    def _close(self, start: int) -> bool:
        """Closes the braces that were opened since then. Returns whether there were any."""
        read = [token.text for token in self.tokens[start : self.place] if token.kind is Kind.SIGN]
        is_open = read.count("{") - read.count("}")
        if is_open <= 0:
            return False
        while is_open > 0 and not self.is_at_end():
            is_open += {"{": 1, "}": -1}.get(self.take().text, 0)
        return True

    def _to_end(self, start: int) -> None:
        """Skips to the end of the statement that began there: everything that it has opened is closed first."""
        if self._close(start):
            return
        while not self.is_at_end() and not self.is_at("}"):
            if self.is_at("{", "(", "["):
                self.skip_brackets()
                continue
            if self.take().text == ";":
                return

    def statement(self) -> Statement:
        token = self.token
        if token.kind is Kind.KEYWORD or token.kind is Kind.SIGN:
            read = _STATEMENTS.get(token.text)
            if read:
                return read(self)
            if token.text in _LEAVES:
                return self._leave()
            if token.text in _JOINS:
                return self._join()
            if token.text in ("any", "all"):
                found = self._of_all()
                self.end()
                return found
        found = self._of_name()
        self.end()
        return found

    def _leave(self) -> Statement:
        at = self.take()
        how, construct = _LEAVES[at.text]
        self.note(construct, at)
        self.end()
        return tree.Leave(at, how, (self.place - 1, self.place))

    def _of_all(self) -> Statement:
        """Reads `any port.receive`, `all component.done`, `any from p.receive` and the like."""
        start, at = self.place, self.take()
        any_of = Any(at.text)
        of = self.take()
        if of.text == "from":
            value = self._postfix(tree.Name(self.name(), self.tokens[self.place - 1].text))
            return self.operation(value, any_of, "from", start)
        if of.text not in ("port", "component", "timer"):
            self.fail("`port`, `component`, `timer` or `from` is expected before this")
        return self.operation(None, any_of, of.text, start)

    def _of_name(self) -> Statement:
        """Reads an assignment, a call, or an operation on a name."""
        start = self.place
        if self.is_at("self", "mtc", "system"):
            value: tree.Expression = self._sign()
        elif self.is_at("testcase"):
            return self._case_stop()
        elif self.token.kind is Kind.NAME:
            at = self.take()
            value = tree.Name(at, at.text)
        elif self.token.kind is Kind.KEYWORD and self.ahead(1).text == "(":
            at = self.take()
            value = tree.Name(at, at.text)
        else:
            self.fail("a statement is expected here")
        value = self._postfix(value)
        if self.is_at(":="):
            at = self.take()
            self.note(Construct.ASSIGNMENT, at)
            assigned = self.expression()
            if isinstance(value, tree.Name) and isinstance(assigned, tree.Create):
                self.created.add(value.word)
            return tree.Assignment(at, value, assigned, (start, self.place))
        if self.is_at("."):
            return self.operation(value, None, "", start)
        if isinstance(value, tree.Call):
            self.note(Construct.CALL_FUNCTION, value.at)
            return tree.CallStatement(value.at, value, (start, self.place))
        if isinstance(value, (tree.Asked, tree.Create)):
            return tree.CallStatement(value.at, value, (start, self.place))
        self.fail("`:=`, `(` or `.` is expected here")

    def _case_stop(self) -> Statement:
        start, at = self.place, self.take()
        self.expect(".")
        self.expect("stop")
        if self.is_at("("):
            self.skip_brackets()
        self.note(Construct.STOP, at)
        return tree.Unsupported(at, "`testcase.stop` ends all behaviours from outside", (start, self.place))

    def _declared_statement(self) -> Statement:
        return self.declaration()

    def _block_statement(self) -> Statement:
        self.note(Construct.BLOCK, self.token)
        return self.block()

    def _if(self) -> Statement:
        start, at = self.place, self.take()
        self.note(Construct.IF, at)
        self.expect("(")
        condition = self.expression()
        self.expect(")")
        then = self.block()
        otherwise = None
        if self.accept("else"):
            otherwise = self._else()
        return tree.If(at, condition, then, otherwise, (start, self.place))

    def _else(self) -> Block:
        if not self.is_at("if"):
            return self.block()
        at = self.token
        self.deeper()
        nested = self._if()
        self.shallower()
        return Block(at, [nested], nested.span)

    def _select(self) -> Statement:
        start, at = self.place, self.take()
        self.note(Construct.SELECT, at)
        is_union = self.accept("union")
        self.expect("(")
        value = self.expression()
        self.expect(")")
        self.expect("{")
        cases: list[tree.Case] = []
        while not self.is_at("}"):
            cases.append(self._case())
        self.expect("}")
        return tree.Select(at, value, cases, is_union, (start, self.place))

    def _case(self) -> tree.Case:
        at = self.expect("case")
        templates = None
        if not self.accept("else"):
            templates = self.in_parentheses()
        found = tree.Case(at, templates, self.block())
        self.accept(";")
        return found

    def _for(self) -> Statement:
        start, at = self.place, self.take()
        self.expect("(")
        noted = len(self.noted)
        first = self.declaration() if self.is_at("var") else self._step()
        if isinstance(first, tree.Assignment):
            self.expect(";")
        condition = self.expression()
        self.expect(";")
        step = self._step()
        self.expect(")")
        del self.noted[noted:]
        if not _is_plain_loop(self.tokens[start : self.place]):
            self.note(Construct.LOOP, at)
        return tree.For(at, first, condition, step, self.block(), (start, self.place))

    def _step(self) -> Statement:
        start = self.place
        target = self.reference()
        at = self.expect(":=")
        return tree.Assignment(at, target, self.expression(), (start, self.place))

    def _while(self) -> Statement:
        start, at = self.place, self.take()
        self.note(Construct.WHILE, at)
        self.expect("(")
        condition = self.expression()
        self.expect(")")
        return tree.While(at, condition, self.block(), False, (start, self.place))

    def _do(self) -> Statement:
        start, at = self.place, self.take()
        self.note(Construct.WHILE, at)
        block = self.block()
        self.expect("while")
        self.expect("(")
        condition = self.expression()
        self.expect(")")
        self.end()
        return tree.While(at, condition, block, True, (start, self.place))

    def _return(self) -> Statement:
        start, at = self.place, self.take()
        self.note(Construct.RETURN, at)
        value = None if self.is_at(";", "}") else self.expression()
        self.end()
        return tree.Return(at, value, (start, self.place))

    def _log(self) -> Statement:
        start, at = self.place, self.take()
        self.note(Construct.LOG, at)
        arguments = [item.value for item in self.arguments()]
        self.end()
        return tree.Dropped(at, arguments, (start, self.place))

    def _setverdict(self) -> Statement:
        start, at = self.place, self.take()
        self.expect("(")
        verdict = self.expression()
        reasons: list[tree.Expression] = []
        while self.accept(","):
            self.note(Construct.REASON, at) if not reasons else None
            reasons.append(self.expression())
        self.expect(")")
        self.end()
        return tree.SetVerdict(at, verdict, reasons, (start, self.place))

    def _activate_statement(self) -> Statement:
        start = self.place
        value = self._activate()
        self.end()
        return tree.CallStatement(value.at, value, (start, self.place))

    def _deactivate(self) -> Statement:
        start, at = self.place, self.take()
        self.note(Construct.DEFAULT, at)
        value = None
        if self.is_at("("):
            self.take()
            value = None if self.is_at(")") else self.expression()
            self.expect(")")
        self.end()
        return tree.Deactivate(at, value, (start, self.place))

    def _join(self) -> Statement:
        start, at = self.place, self.take()
        places: list[tree.Place] = []
        if at.text in ("disconnect", "unmap"):
            self.note(Construct.UNMAP, at)
        if self.accept("("):
            places.append(self._place())
            while self.accept(","):
                places.append(self._place())
            self.expect(")")
        has_parameters = self.is_at("param")
        if has_parameters:
            self.note(Construct.PARAM, self.take())
            self.skip_brackets()
        self.end()
        return tree.Join(at, tree.Joining(at.text), places, has_parameters, (start, self.place))

    def _place(self) -> tree.Place:
        at = self.token
        if self.is_at("all"):
            self.take()
            self.expect("component")
            self.expect(":")
            self.expect("all")
            self.expect("port")
            return tree.Place(at, None, None)
        name = self._sign() if self.is_at("self", "mtc", "system") else self._joined_component()
        self.expect(":")
        if self.is_at("all"):
            self.take()
            self.expect("port")
            return tree.Place(at, name, None)
        return tree.Place(at, name, self.reference())

    def _joined_component(self) -> tree.Expression:
        at = self.name("a component")
        value: tree.Expression = tree.Name(at, at.text)
        while self.is_at("["):
            bracket = self.take()
            value = tree.IndexOf(bracket, value, self.expression())
            self.expect("]")
        if self.is_at("("):
            value = tree.Call(at, value, self.arguments())
        return value

    def _alt(self) -> Statement:
        start, at = self.place, self.take()
        if at.text == "interleave":
            self.note(Construct.INTERLEAVE, at)
        branches = self.branches()
        return tree.Alt(at, branches, at.text == "interleave", (start, self.place))

    def branches(self) -> list[tree.Branch]:
        self.deeper()
        self.expect("{")
        found = self.up_to_brace(self._recovered_branch)
        self.shallower()
        return found

    def answers(self) -> None:
        """Reads the answers of a `call`: none of them is carried over, but their contents are reported."""
        self.branches()

    def _recovered_branch(self) -> tree.Branch:
        """Reads a branch. If its event can't be read, reports that, and reads its block."""
        start, nested = self.place, self.nested
        try:
            return self._branch()
        except ReadFault as fault:
            self.tell(fault)
            self.nested = nested
            self._close(start)
            while not self.is_at_end() and not self.is_at("{", "}", ";"):
                self.skip_brackets() if self.is_at("(", "[") else self.take()
            block = self.block() if self.is_at("{") else None
            self.accept(";")
            return tree.Branch(fault.token, None, False, tree.Unsupported(fault.token, ""), block)

    def _branch(self) -> tree.Branch:
        at = self.expect("[")
        if self.accept("else"):
            self.expect("]")
            return tree.Branch(at, None, True, None, self.block() if self.is_at("{") else self._single())
        guard = None
        if not self.is_at("]"):
            self.note(Construct.GUARD, self.token)
            guard = self.expression()
        self.expect("]")
        event = self._event()
        block = self.block() if self.is_at("{") else None
        self.accept(";")
        return tree.Branch(at, guard, False, event, block)

    def _single(self) -> Block:
        """Reads the block after `[else]`, where an altstep may be called without a block."""
        start = self.place
        found = self.statement()
        return Block(found.at, [found], (start, self.place))

    def _event(self) -> Statement:
        at = self.token
        found = self._of_all() if self.is_at("any", "all") else self._of_name()
        if isinstance(found, tree.CallStatement):
            self.note(Construct.BRANCH_ALTSTEP, at)
        return found

    def _jump(self) -> Statement:
        start, at = self.place, self.take()
        self.note(Construct.GOTO, at)
        name = self.name("a label").text
        self.end()
        span = (start, self.place)
        return tree.Label(at, name, span) if at.text == "label" else tree.Goto(at, name, span)

    def _outside(self) -> Statement:
        """Reads a statement that can't be carried over, whatever it contains."""
        reasons = {
            "action": (Construct.ACTION, "`action` asks for something outside the run"),
            "execute": (Construct.EXECUTE, "`execute` is allowed only in a control part"),
            "kill": (Construct.KILL, "`kill` ends a behaviour from outside; here each runs to its own end"),
        }
        start, at = self.place, self.take()
        construct, reason = reasons[at.text]
        self.note(construct, at)
        while not self.is_at(";", "}") and self.token.kind is not Kind.END:
            if self.is_at("(", "{", "["):
                self.skip_brackets()
            else:
                self.take()
        self.end()
        return tree.Unsupported(at, reason, (start, self.place))


def _is_plain_loop(tokens: list[Token]) -> bool:
    """Whether a `for` has the form of the profile: two numbers, `<`, and steps of 1."""
    words = [token.text for token in tokens if token.text != "-"]
    form = "for ( var integer i := 0 ; i < 0 ; i := i + 1 )".split()
    if len(words) != len(form) or words[16] != "1":
        return False
    name = words[4]
    for word, wanted in zip(words, form):
        if not (word.isdecimal() if wanted == "0" else word == (name if wanted == "i" else wanted)):
            return False
    return True


_Read = Callable[[StatementReader], Statement]
_STATEMENTS: dict[str, _Read] = {
    "var": StatementReader._declared_statement,
    "const": StatementReader._declared_statement,
    "template": StatementReader._declared_statement,
    "timer": StatementReader._declared_statement,
    "{": StatementReader._block_statement,
    "if": StatementReader._if,
    "select": StatementReader._select,
    "for": StatementReader._for,
    "while": StatementReader._while,
    "do": StatementReader._do,
    "return": StatementReader._return,
    "log": StatementReader._log,
    "setverdict": StatementReader._setverdict,
    "activate": StatementReader._activate_statement,
    "deactivate": StatementReader._deactivate,
    "alt": StatementReader._alt,
    "interleave": StatementReader._alt,
    "goto": StatementReader._jump,
    "label": StatementReader._jump,
    "action": StatementReader._outside,
    "execute": StatementReader._outside,
    "kill": StatementReader._outside,
}
