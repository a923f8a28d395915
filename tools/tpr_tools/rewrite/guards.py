"""The branches of an `alt`, one by one, also those of its altsteps and of active defaults (ES 201 873-1, 20)."""
from __future__ import annotations

from dataclasses import dataclass, field
from typing import Optional

from . import tree
from .closed import Closed
from .emitted import Message, Who
from .evaluating import SENDER
from .interleaving import Opened
from .paths import ActiveDefault, Path, Scope, Split
from .refusing import Refusal, refuse
from .run import Reading
from .timers import Place
from .tokens import Token
from .tree import Any, Expression, Leaving, Receiving
from .values import ComponentValue, Elements, Form, PortValue, Received, TimerValue

MOST_GUARDS = 500


@dataclass
class Body:
    """The block after a branch's operation, in its scope; `is_of_altstep` for an altstep's own branch."""

    block: tree.Block
    scope: Scope
    is_of_altstep: bool


@dataclass
class Guard:
    """A branch with one operation at one port. Without an operation it is open whenever it is reached."""

    at: Token
    how: Optional[Receiving]
    bodies: list[Body]
    port: str = ""
    message: Optional[Message] = None
    sender: Optional[Who] = None
    redirect: Optional[tree.Redirect] = None
    redirect_scope: Optional[Scope] = None
    component: Optional[int] = None
    # The timer whose timeout it waits for, and whether the timeout is sure to come.
    timer: Optional[tuple[Place, TimerValue]] = None
    is_sure: bool = False
    # It waits for the end of the test case.
    is_end: bool = False
    index: Optional[Form] = None
    # Its number among the branches that don't come from defaults.
    source: Optional[int] = None
    number: int = 0

    @property
    def is_always(self) -> bool:
        waits = self.how is not None or self.component is not None or self.is_end
        return not waits and (self.timer is None or self.is_sure)


@dataclass
class Expansion:
    """The branches so far, and whether one of them is open whenever it is reached."""

    guards: list[Guard] = field(default_factory=list)
    scopes: list[Scope] = field(default_factory=list)

    @property
    def is_closed(self) -> bool:
        return bool(self.guards) and self.guards[-1].is_always

    def add(self, guard: Guard) -> None:
        if len(self.guards) >= MOST_GUARDS:
            refuse(guard.at, f"this `alt` has more than {MOST_GUARDS} branches")
        self.guards.append(guard)


class Expander(Closed):
    def expand(self, branches: list[Opened], path: Path) -> Expansion:
        """All branches in the order in which they are tried. Branches after one that is always open are left out."""
        found = Expansion()
        self.is_looking = True
        for number, opened in enumerate(branches):
            if not found.is_closed:
                first = len(found.guards)
                self._add(opened.branch, path, opened.scope, [], found)
                for guard in found.guards[first:]:
                    guard.source = number
        for default in reversed(path.state.defaults):
            if not found.is_closed:
                self._add_default(default, path, found)
        self.is_looking = False
        if self.reading is Reading.NEVER:
            found.guards = without_timeouts(found.guards)
        return found

    def _add(
        self, branch: tree.Branch, path: Path, scope: Scope, outer: list[Body], found: Expansion
    ) -> None:
        if branch.guard is not None:
            if not self.truth(self.evaluate(branch.guard, path, scope), branch.guard.at):
                return
        own = [Body(branch.block, scope, bool(outer))] if branch.block else []
        bodies = own + outer
        event = branch.event
        if event is None:
            found.add(Guard(branch.at, None, bodies))
        elif isinstance(event, tree.Receive):
            self._add_receive(event, path, scope, bodies, found)
        elif isinstance(event, tree.Find):
            self._add_find(event, path, scope, bodies, found)
        elif isinstance(event, tree.CallStatement):
            self._add_altstep(event.call, path, scope, bodies, found)
        elif isinstance(event, tree.Unsupported):
            raise Refusal(event.at, event.reason)
        else:
            refuse(event.at, "this isn't an operation that a branch can wait for")

    def altstep_of(self, call: Expression, at: Token) -> tuple[tree.Altstep, list[tree.Argument]]:
        """The altstep that is called, and its arguments."""
        word = tree.word_called(call)
        altstep = self.program.altsteps.get(word)
        if altstep is None:
            refuse(at, f"`{word}` is no altstep that is known")
        return altstep, call.arguments if isinstance(call, tree.Call) else []

    def _add_altstep(
        self, call: Expression, path: Path, scope: Scope, bodies: list[Body], found: Expansion
    ) -> None:
        altstep, arguments = self.altstep_of(call, call.at)
        self.look_at_runs_on(altstep.runs_on, call.at)
        bound = self.bind(altstep.parameters, arguments, call.at, path, scope)
        inner = self.new_scope(self.root if altstep.runs_on else None)
        for name, slot in bound:
            path.state.variables[inner.number, name] = slot
        # An empty block separates the altstep's branches from those of the `alt`.
        outer = bodies or [Body(tree.Block(call.at, []), scope, False)]
        self._add_branches(altstep, path, inner, outer, found)

    def _add_default(self, default: ActiveDefault, path: Path, found: Expansion) -> None:
        inner = self.new_scope(self.root if default.altstep.runs_on else None)
        for name, slot in default.arguments:
            path.state.variables[inner.number, name] = slot
        block = tree.Block(default.at, [])
        self._add_branches(default.altstep, path, inner, [Body(block, inner, False)], found)

    def _add_branches(
        self, altstep: tree.Altstep, path: Path, inner: Scope, outer: list[Body], found: Expansion
    ) -> None:
        found.scopes.append(inner)
        if len(found.scopes) > MOST_GUARDS:
            refuse(altstep.at, "this altstep calls itself again and again")
        for declaration in altstep.declarations:
            written = len(path.code)
            if self.declare(declaration, path, inner) != [path] or len(path.code) != written:
                refuse(declaration.at, "the call that computes this value does more than compute it")
        for branch in altstep.branches:
            if not found.is_closed:
                self._add(branch, path, inner, outer, found)

    # Receiving

    def _add_receive(
        self, event: tree.Receive, path: Path, scope: Scope, bodies: list[Body], found: Expansion
    ) -> None:
        for index, port in self._ports(event, path, scope):
            if not self.received_types(port):
                continue
            for sender in self._senders(event, path, scope):
                message = self._wanted(event, port, path, scope)
                if message is None and event.template is not None:
                    continue
                guard = Guard(event.at, event.how, bodies, port, message, sender, event.redirect, scope)
                guard.index = index
                found.add(guard)

    def _ports(self, event: tree.Receive, path: Path, scope: Scope) -> list[tuple[Optional[Form], str]]:
        if event.port is None:
            return [(None, name) for name in self.ports]
        value = self.evaluate(event.port, path, scope)
        if event.is_each and isinstance(value, Elements):
            return [(_index(steps), name) for steps, name in _ports_in(value, ())]
        if not isinstance(value, PortValue) or event.is_each:
            refuse(event.port.at, "which port is meant isn't known here")
        return [(None, value.name)]

    def _senders(self, event: tree.Receive, path: Path, scope: Scope) -> list[Optional[Who]]:
        if not event.senders:
            return [None]
        return [self._sender(node, path, scope) for node in event.senders]

    def _sender(self, node: Expression, path: Path, scope: Scope) -> Who:
        """The component after `from`. If it is the sender of an earlier message, that message gets a branch for each
        sender, because the profile has no such variable after `from`."""
        value = self.evaluate(node, path, scope)
        if not isinstance(value, Received) or not value.symbol.is_sender:
            return self.who(node, path, scope)
        symbol = value.symbol
        known = {asked: is_so for (steps, asked), is_so in symbol.facts.items() if steps == SENDER}
        for asked, is_so in known.items():
            if is_so and isinstance(asked, ComponentValue):
                return asked.number
        left = [number for number in symbol.peers if ComponentValue(number) not in known]
        if not left or -1 in left:
            refuse(node.at, "which component is meant isn't known here")
        if len(left) == 1:
            return left[0]
        raise Split(symbol, SENDER, [ComponentValue(left[0])], node.at)

    def _wanted(self, event: tree.Receive, port: str, path: Path, scope: Scope) -> Optional[Message]:
        if event.template is None:
            return None
        if event.port is None and not self._can_come(event.template, port, path, scope):
            return None
        return self.wanted(event.template, port, path, scope)

    def _can_come(self, node: Expression, port: str, path: Path, scope: Scope) -> bool:
        """For `any port`: whether this port receives the type at all."""
        type = self.type_of(node, path, scope)
        return type is None or type.root in [one.root for one in self.received_types(port)]

    # Done and timeouts

    def _add_find(
        self, event: tree.Find, path: Path, scope: Scope, bodies: list[Body], found: Expansion
    ) -> None:
        if event.is_timer:
            for place in self.expiring(event, path, scope):
                found.add(Guard(event.at, None, bodies, timer=place))
            return
        if event.has_more:
            refuse(event.at, f"this form of `{event.how.value}` isn't carried over")
        open_ones = [number for number in self.asked_done(event, path, scope) if number not in path.state.done]
        open_ones = [number for number in open_ones if number not in path.state.awaited]
        if not open_ones:
            self.flush(path, event.at)
            found.add(Guard(event.at, None, bodies))
        else:
            # If there are several, the `alt` waits for the first and then repeats, to wait for the others.
            is_last = len(open_ones) == 1
            self.ask_done(open_ones[0], event.at, path)
            again = [Body(tree.Block(event.at, [tree.Leave(event.at, Leaving.REPEAT)]), scope, False)]
            found.add(Guard(event.at, None, bodies if is_last else again, component=open_ones[0]))

    def asked_done(self, event: tree.Find, path: Path, scope: Scope) -> list[int]:
        raise NotImplementedError

    def ask_done(self, number: int, at: Token, path: Path) -> None:
        raise NotImplementedError


def without_timeouts(guards: list[Guard]) -> list[Guard]:
    """No timer expires while the `alt` waits for something else. If the `alt` waits only for one timer, the timer
    expires when no default has a message to take."""
    others = [guard for guard in guards if guard.timer is None]
    sure = [guard for guard in guards if guard.timer is not None and guard.source is not None]
    if not sure or any(guard.source is not None for guard in others):
        return others
    if len({guard.timer[0] for guard in sure if guard.timer is not None}) > 1:
        refuse(guards[0].at, "several timers alone are waited for here: which of them expires first is open")
    sure[0].is_sure = True
    return [*others, sure[0]]


def _ports_in(value: Form, steps: tuple[int, ...]) -> list[tuple[tuple[int, ...], str]]:
    """The ports of a possibly nested array, each with its indices."""
    if isinstance(value, PortValue):
        return [(steps, value.name)]
    items = value.items if isinstance(value, Elements) else ()
    return [port for number, item in enumerate(items) for port in _ports_in(item, (*steps, number))]


def _index(steps: tuple[int, ...]) -> Form:
    return steps[0] if len(steps) == 1 else Elements(steps)


def is_repeat_alone(bodies: list[Body]) -> bool:
    """Whether the only effect is to repeat the `alt`."""
    statements = [statement for body in bodies for statement in body.block.statements]
    if not statements or any(isinstance(item, tree.Dropped) and item.arguments for item in statements[:-1]):
        statements = [item for item in statements if not _is_plain_log(item)]
    if len(statements) != 1 or not isinstance(statements[0], tree.Leave):
        return False
    return statements[0].how is Leaving.REPEAT


def _is_plain_log(statement: tree.Statement) -> bool:
    return isinstance(statement, tree.Dropped) and all(
        isinstance(item, (tree.Literal, tree.Name)) for item in statement.arguments
    )


def may_repeat(block: tree.Block) -> bool:
    """Whether the block contains a `repeat` of the `alt` around it."""
    inner = [one for one in block.statements if not isinstance(one, tree.Alt)]
    is_there = any(isinstance(one, tree.Leave) and one.how is Leaving.REPEAT for one in inner)
    return is_there or any(may_repeat(found) for one in inner for found in tree.blocks_of(one))
