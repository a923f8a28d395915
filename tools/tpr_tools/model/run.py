"""A model of runs, in which one thing happens at a time: lists, a message queue for each port with its halt mark, and
no thread. It is written from docs/PROFILE.md ("A run"), docs/MODEL.md and the clauses that they name, and says what
`tpr run` must print for a script in a known order of steps.

A step is what a gate counts (docs/DECISIONS.md, "The steps that a gate counts"). It consists of acts: between two acts
another component may act. A send on one route is an act, and so are one look at the branches of an `alt`, and an
operation on all ports.
"""
from __future__ import annotations

from collections.abc import Iterable
from dataclasses import dataclass, field
from enum import Enum
from typing import Any, TypeVar

from ..refusals import Refusal
from .bodies import Begun, Jump, TestCase, Tried, Turn
from .tree import EVERYONE, Control, Guard, Send, Setverdict, Variable

It = TypeVar("It")

VERDICTS = ("none", "pass", "inconc", "fail", "error")
DONE_BY = {"start": "started", "stop": "stopped", "halt": "halted", "clear": "cleared"}


class Act(Enum):
    """What an act did with a statement: it is done; it has further acts; or it waits, and nothing happened."""

    DONE = 0
    MORE = 1
    WAITS = 2


@dataclass(frozen=True)
class Message:
    """A message in a queue: its type and value, who sent it, and its number on its route."""

    type: str
    value: Any
    sender: int
    number: int


@dataclass
class Port:
    """A port: its status, its queue with the oldest message first, and, while the port is halted, the number of
    messages ahead of the mark (22.5)."""

    status: str = "started"
    queue: list[Message] = field(default_factory=list)
    ahead: int = 0

    def copy(self) -> "Port":
        return Port(self.status, self.queue[:], self.ahead)

    def top(self) -> Message | None:
        """The message that a receiving operation sees (22.2.2)."""
        reached = {"started": len(self.queue), "halted": self.ahead, "stopped": 0}[self.status]
        return self.queue[0] if reached > 0 else None

    def take(self) -> None:
        del self.queue[0]
        self.ahead = max(self.ahead - 1, 0)

    def operate(self, operation: str) -> None:
        if operation in ("start", "clear"):
            self.queue, self.ahead = [], 0
        if operation == "halt" and self.status == "started":
            self.status, self.ahead = "halted", len(self.queue)
        if operation == "start":
            self.status = "started"
        if operation == "stop":
            self.status = "stopped"


@dataclass
class Component:
    """The state of a component. `place` is the place of its next statement, `sent` the number of routes on which that
    statement has sent, `steps` the number of steps done, `failed` the fault of the send that ended it; `numbers` has
    the next number on each route, `lines` the lines of its history in the report."""

    ports: dict[str, Port]
    place: int = 0
    sent: int = 0
    # For each look of the current statement that discarded a message, how many branches it tried.
    looked: tuple[int, ...] = ()
    failed: Refusal | None = None
    steps: int = 0
    loops: dict[str, int] = field(default_factory=dict)
    variables: dict[str, Any] = field(default_factory=dict)
    numbers: dict[tuple[int, str], int] = field(default_factory=dict)
    verdict: str = "none"
    lines: list[str] = field(default_factory=list)

    def copy(self) -> "Component":
        other = alike(self)
        other.ports = {name: port.copy() for name, port in self.ports.items()}
        other.loops, other.variables = self.loops.copy(), self.variables.copy()
        other.numbers, other.lines = self.numbers.copy(), self.lines[:]
        return other


def alike(it: It) -> It:
    """An object with the same fields, in a third of the time of `copy.copy`: a search makes many copies."""
    other = object.__new__(type(it))
    other.__dict__.update(it.__dict__)
    return other


class Run:
    """A test case during its run."""

    def __init__(self, case: TestCase):
        self.case = case
        self.components = [Component({name: Port() for name in it.ports}) for it in case.bodies]
        for place in range(len(self.components)):
            self.settle(place)

    def copy(self) -> "Run":
        return self.copy_of(range(len(self.components)))

    def copy_of(self, places: Iterable[int]) -> "Run":
        """A copy in which only the components at these places may be changed, because it shares the others."""
        other = alike(self)
        other.components = self.components[:]
        for place in places:
            other.components[place] = self.components[place].copy()
        return other

    def reached(self, who: int) -> set[int]:
        """The components that the next step of this one may change: itself, and those to which it sends."""
        statement = self.statement(who)
        return {who, *(end[0] for end in self.routes(who, statement))} if isinstance(statement, Send) else {who}

    def statement(self, who: int) -> Any:
        """The component's next statement, or None if it has ended."""
        me, code = self.components[who], self.case.bodies[who].code
        return code[me.place] if me.failed is None and me.place < len(code) else None

    def step(self, who: int) -> bool:
        """Carries out the next statement; if it waits, as many of its acts as possible, and returns False."""
        act = self.act(who)
        while act is Act.MORE:
            act = self.act(who)
        return act is Act.DONE

    def act(self, who: int) -> Act:
        """Carries out the next act of the component, which hasn't ended."""
        statement, me = self.statement(who), self.components[who]
        act = Act.DONE
        if isinstance(statement, Tried):
            act = self.look(who, statement)
        elif isinstance(statement, Send):
            act = self.send(who, statement)
        elif isinstance(statement, Begun):
            self.begin(me, statement)
        else:
            self.carry_out(who, statement)
            me.place += 1
        if act is Act.DONE:
            me.steps += 1
            self.settle(who)
        return act

    def settle(self, who: int) -> None:
        """Moves to the next statement that is a step: ends of blocks and of turns aren't steps."""
        me = self.components[who]
        while isinstance(statement := self.statement(who), (Jump, Turn)):
            if isinstance(statement, Jump):
                me.place = statement.place
                continue
            me.loops[statement.loop.variable] += 1
            again = me.loops[statement.loop.variable] < statement.loop.bound
            me.place = statement.place if again else me.place + 1

    def begin(self, me: Component, begun: Begun) -> None:
        me.loops[begun.loop.variable] = begun.loop.first
        me.place = me.place + 1 if begun.loop.first < begun.loop.bound else begun.behind

    def carry_out(self, who: int, statement: Variable | Setverdict | Control) -> None:
        me = self.components[who]
        if isinstance(statement, Variable):
            me.variables[statement.name] = None
        elif isinstance(statement, Setverdict):
            me.lines.append(f"set {statement.verdict}")
            me.verdict = max(me.verdict, statement.verdict, key=VERDICTS.index)
        else:
            for port in self.case.bodies[who].ports if statement.port is None else (statement.port,):
                me.ports[port].operate(statement.operation)
                me.lines.append(f"{DONE_BY[statement.operation]} {port}")

    # Sends (22.2.1)

    def receiver(self, who: int, name: str) -> int | None:
        """The component after `to`, or None if it is a variable without a value."""
        me = self.components[who]
        held: int | None = me.variables[name] if name in me.variables else self.case.bodies[who].components[name]
        return held

    def routes(self, who: int, send: Send) -> list[tuple[int, str]]:
        ends = self.case.partners.get((who, send.port), [])
        if send.receiver is None or send.receiver == EVERYONE:
            return ends
        receiver = self.receiver(who, send.receiver)
        return [end for end in ends if end[0] == receiver]

    def fault_of(self, who: int, send: Send) -> Refusal | None:
        """The first reason why the send can't be carried out, or None."""
        me = self.components[who]
        if me.ports[send.port].status != "started":
            return Refusal.NOT_SENDING
        if send.variable and self.held(me, send.variable) is None:
            return Refusal.UNSET_VARIABLE
        receiver = send.receiver
        if receiver is not None and receiver != EVERYONE and self.receiver(who, receiver) is None:
            return Refusal.UNSET_VARIABLE
        routes = self.routes(who, send)
        if not routes:
            return Refusal.NO_ROUTE
        return Refusal.NEEDS_TO if len(routes) > 1 and send.receiver is None else None

    def send(self, who: int, send: Send) -> Act:
        """Sends one message on one route."""
        me = self.components[who]
        me.failed = self.fault_of(who, send)
        if me.failed is not None:
            me.lines.append(f"failed {me.failed:d}")
            return Act.DONE
        routes = self.routes(who, send)
        component, port = routes[me.sent]
        number = me.numbers.get((component, port), 0)
        me.numbers[component, port] = number + 1
        message = Message(*self.message(me, send), who, number)
        self.deliver(component, port, message)
        me.lines.append(f"sent {self.case.names[component]}.{port} {number} {self.text(message)}")
        me.sent += 1
        if me.sent < len(routes):
            return Act.MORE
        me.sent = 0
        me.place += 1
        return Act.DONE

    def deliver(self, component: int, port: str, message: Message) -> None:
        """The only function in which a component changes another."""
        self.components[component].ports[port].queue.append(message)

    def held(self, me: Component, name: str) -> tuple[str, Any] | None:
        """The type and the value that a send of this name sends; None if the variable has no value. A loop variable
        holds an integer."""
        if name in me.variables:
            held: tuple[str, Any] | None = me.variables[name]
            return held
        return "integer", me.loops[name]

    def message(self, me: Component, send: Send) -> tuple[str, Any]:
        """The type and the value that are sent."""
        if send.message is not None:
            forms, type_name = self.case.forms, self.case.forms.names.word(send.message.type)
            return type_name, forms.filled(send.message.value, type_name, me.loops)
        held = self.held(me, send.variable)
        assert held is not None, "a send of a variable without a value fails"
        return held

    # Receiving operations (20.2, 22.2.2, 22.2.3, 22.4)

    def look(self, who: int, tried: Tried) -> Act:
        """Looks at the branches once, from the top."""
        me = self.components[who]
        for at, ((guard, _), place) in enumerate(zip(tried.choice.branches, tried.places), 1):
            top = me.ports[guard.port].top()
            if top is None:
                continue
            if self.wants(who, guard, top):
                self.get(me, guard, top)
                me.place, me.looked = place, ()
                return Act.DONE
            if guard.how == "trigger":
                self.note(me, "dropped", guard.port, top)
                me.ports[guard.port].take()
                me.looked += (at,)
                return Act.MORE
        if tried.choice.otherwise is None:
            return Act.WAITS
        me.lines.append("else")
        me.place, me.looked = tried.places[-1], ()
        return Act.DONE

    def wants(self, who: int, guard: Guard, top: Message) -> bool:
        me, body = self.components[who], self.case.bodies[who]
        if guard.sender is not None and body.components[guard.sender] != top.sender:
            return False
        return guard.template is None or guard.type == top.type and guard.template(top.value, me.loops)

    def get(self, me: Component, guard: Guard, top: Message) -> None:
        """Takes or finds a message, and sets the variables of the redirect."""
        self.note(me, "found" if guard.how == "check" else "took", guard.port, top)
        if guard.how != "check":
            me.ports[guard.port].take()
        if guard.value_into is not None:
            me.variables[guard.value_into] = (top.type, top.value)
        if guard.sender_into is not None:
            me.variables[guard.sender_into] = top.sender

    # The report

    def text(self, message: Message) -> str:
        return f"{message.type}:{self.case.forms.written(message.value, message.type)}"

    def note(self, me: Component, what: str, port: str, message: Message) -> None:
        me.lines.append(self.line(what, port, message))

    def line(self, what: str, port: str, message: Message) -> str:
        return f"{what} {port} {self.case.names[message.sender]} {message.number} {self.text(message)}"

    def verdict(self, who: int) -> str:
        return self.components[who].verdict if self.components[who].failed is None else "error"

    def end(self, who: int) -> str:
        """How the component ended. A component that hasn't reached its end waits."""
        failed = self.components[who].failed
        if failed is not None:
            return f"error {failed:d}"
        return "done" if self.statement(who) is None else "waiting"

    def lines_of(self, who: int) -> list[str]:
        """The component's part of the report."""
        me, body = self.components[who], self.case.bodies[who]
        end = [f"end {self.end(who)}", f"verdict {self.verdict(who)}"]
        left = [self.line("left", name, it) for name in body.ports for it in me.ports[name].queue]
        return [f"component {body.name}", *me.lines, *end, *left]

    def report(self) -> str:
        """The report, once no component can go on."""
        lines = [line for place in range(len(self.components)) for line in self.lines_of(place)]
        return "".join(f"{line}\n" for line in [*lines, f"result {self.result()}"])

    def result(self) -> str:
        """The overall verdict, once no component can go on."""
        places = range(len(self.components))
        if "waiting" in [self.end(place) for place in places]:
            return "error"
        return max((self.verdict(place) for place in places), key=VERDICTS.index)
