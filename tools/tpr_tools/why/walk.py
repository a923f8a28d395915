"""The way of a component through its body: which statement each entry of its history comes from.

docs/MODEL.md ("Paths") defines the entries that statements make in a history. Each makes entries that no other could
make at its place: a send, a port operation and a `setverdict` their own, `[else]` an `else`. Only one branch of an
`alt` can take, find or discard the message at the top of a port: the first at that port which it satisfies, or which is
a `trigger`. So a history has one way through a body, or none, and each entry comes from exactly one statement.
"""
from __future__ import annotations

from dataclasses import dataclass, field
from enum import Enum
from typing import NamedTuple, Optional

from ..origins import Line
from ..refusals import Refusal
from ..report.messages import value_of
from ..report.report import Component, Entry, Failed, Operation, Otherwise, Received, Sent, VerdictSet
from ..script.case import Case, End, Player
from ..script.forms import Test
from ..script.tree import Alt, Branch, Control, Loop, Receive, Send, SetVerdict, Statement

# The values of the loop variables around a statement, the outermost first.
Turns = tuple[tuple[str, int], ...]

_DONE_BY = {"start": "started", "stop": "stopped", "halt": "halted", "clear": "cleared"}
_WORDS = {"receive": "took", "trigger": "took", "check": "found"}


class DoesNotFit(Exception):
    """The script can't have this report: from this line on, and these lines of the script were possible next."""

    def __init__(self, line: int, component: str, text: str, possible: list[Line], reason: str):
        super().__init__(reason)
        self.line = line
        self.component = component
        self.text = text
        self.possible = sorted(set(possible))
        self.reason = reason


@dataclass(frozen=True)
class Chosen:
    """A branch that was chosen: its first token, the entry that chose it, and the chosen branch around it."""

    alt: Alt
    branch: Optional[Branch]  # None for `[else]`
    entry: int
    outer: Optional["Chosen"]

    def start(self) -> int:
        if self.branch is not None:
            return self.branch.start
        assert self.alt.otherwise is not None
        return self.alt.otherwise.start


class Origin(NamedTuple):
    """The origin of an entry: the token of the statement or branch, the branch that it is in, and the values of the
    loop variables."""

    start: int
    within: Optional[Chosen]
    turns: Turns


class StopKind(Enum):
    """How a behaviour stopped before its end."""

    FAILED = "a send that can't be carried out"
    WAITS = "a wait that isn't answered"


@dataclass(frozen=True)
class Stop:
    """Where a behaviour stopped: a send, or the receiving operations, none of which was open."""

    kind: StopKind
    start: int
    send: Optional[Send]
    receives: tuple[Receive, ...]
    turns: Turns
    variables: dict[str, Optional[str]]


@dataclass
class Watched:
    """What a history shows of a port: its status and the entry that caused it, and its top if a `found` has shown it.
    The mark may be known to be at the top."""

    status: str = "started"
    since: Optional[int] = None
    top: Optional[Received] = None
    nothing_ahead: bool = False

    def operate(self, word: str, entry: int) -> None:
        if word in ("cleared", "started"):
            self.top = None
            self.nothing_ahead = word == "cleared" and self.status == "halted"
        if word == "cleared" or word == self.status or (word, self.status) == ("halted", "stopped"):
            return
        self.status, self.since = word, entry


@dataclass
class Walk:
    """A component's way: the origin of each entry, where it stopped, and how often it reached each token."""

    player: Player
    component: Component
    origins: list[Origin] = field(default_factory=list)
    stop: Optional[Stop] = None
    visits: dict[int, int] = field(default_factory=dict)  # by the token of a statement or a branch
    ports: dict[str, Watched] = field(default_factory=dict)


class Walker:
    """Follows a history through the body of one component."""

    def __init__(self, case: Case, player: Player, component: Component):
        self.case = case
        self.player = player
        self.component = component
        self.entries = component.entries
        self.place = 0
        self.walk = Walk(player, component, ports={port: Watched() for port in player.ports})
        self.loops: dict[str, int] = {}
        self.turns: Turns = ()
        self.within: Optional[Chosen] = None
        self.variables: dict[str, Optional[str]] = {case.word(it): None for it in player.variables()}
        self.texts: dict[int, str] = {}
        self.tests: dict[int, Optional[Test]] = {}

    def whole(self) -> Walk:
        """The way to the end that is reported. Raises DoesNotFit."""
        try:
            self.block(self.player.statements())
        except _Stopped:
            return self.walk
        if self.place < len(self.entries) or self.component.end.word != "done":
            raise self.misfit([], "the body ends here")
        return self.walk

    # The entries

    def next(self) -> Optional[Entry]:
        return self.entries[self.place] if self.place < len(self.entries) else None

    def note(self, start: int) -> None:
        """Notes that the next entry comes from this statement."""
        self.walk.origins.append(Origin(start, self.within, self.turns))
        self.place += 1

    def come_to(self, start: int) -> None:
        self.walk.visits[start] = self.walk.visits.get(start, 0) + 1

    def misfit(self, possible: list[int], reason: str) -> DoesNotFit:
        """The next entry isn't possible; these are the tokens of possible ones."""
        entry = self.next()
        line = entry.line if entry else self.component.end.line
        lines = [self.case.line(start) for start in possible]
        return DoesNotFit(line.number, self.component.name, line.text, lines, reason)

    # Statements

    def block(self, statements: list[Statement]) -> None:
        for statement in statements:
            if isinstance(statement, Alt):
                self.alt(statement)
            elif isinstance(statement, Loop):
                self.loop(statement)
            else:
                self.come_to(statement.start)
                self.single(statement)

    def single(self, statement: Statement) -> None:
        if isinstance(statement, Send):
            self.send(statement)
        elif isinstance(statement, Receive):
            self.redirect(statement, self.choose([statement], [statement.start], None))
        elif isinstance(statement, Control):
            self.control(statement)
        else:
            assert isinstance(statement, SetVerdict)
            self.set_verdict(statement)

    def loop(self, loop: Loop) -> None:
        self.come_to(loop.start)
        if not loop.block:
            return  # such a loop may have more turns than can be counted
        name, outer = self.case.word(loop.name), self.turns
        for turn in range(self.case.names.number(loop.first), self.case.names.number(loop.bound)):
            self.loops[name] = turn
            self.turns = (*outer, (name, turn))
            self.block(loop.block)
        self.loops.pop(name, None)
        self.turns = outer

    def set_verdict(self, statement: SetVerdict) -> None:
        verdict, entry = self.case.word(statement.verdict), self.next()
        if not isinstance(entry, VerdictSet) or entry.verdict != verdict:
            raise self.misfit([statement.start], f"`set {verdict}` is next")
        self.note(statement.start)

    def control(self, statement: Control) -> None:
        """Reads one entry for the port, or one for each port of the component."""
        word = _DONE_BY[self.case.word(statement.operation)]
        ports = self.player.ports if statement.port is None else (self.case.word(statement.port),)
        for port in ports:
            entry = self.next()
            if not isinstance(entry, Operation) or (entry.word, entry.port) != (word, port):
                raise self.misfit([statement.start], f"`{word} {port}` is next")
            self.walk.ports[port].operate(word, self.place)
            self.note(statement.start)

    # Sends (22.2.1)

    def send(self, statement: Send) -> None:
        fault = self.fault_of(statement)
        if fault is not None:
            entry = self.next()
            if not isinstance(entry, Failed) or entry.fault != fault:
                raise self.misfit([statement.start], f"`failed {fault:d}` is next")
            self.note(statement.start)
            self.stop(StopKind.FAILED, statement.start, statement, ())
        text = self.text_of(statement)
        for receiver, port in self.routes(statement):
            entry = self.next()
            wanted = (receiver, port, text)
            if not isinstance(entry, Sent) or (entry.receiver, entry.port, entry.message) != wanted:
                raise self.misfit([statement.start], f"`sent {receiver}.{port}` of `{text}` is next")
            self.note(statement.start)

    def fault_of(self, send: Send) -> Optional[Refusal]:
        """The first reason why the send can't be carried out, or None."""
        if self.walk.ports[self.case.word(send.port)].status != "started":
            return Refusal.NOT_SENDING
        if send.variable is not None and self.held(send.variable) is None:
            return Refusal.UNSET_VARIABLE
        if self.is_to_one(send) and self.receiver(send) is None:
            return Refusal.UNSET_VARIABLE
        routes = self.routes(send)
        if not routes:
            return Refusal.NO_ROUTE
        return Refusal.NEEDS_TO if len(routes) > 1 and send.to is None else None

    def is_to_one(self, send: Send) -> bool:
        return send.to is not None and self.case.word(send.to) != "all"

    def receiver(self, send: Send) -> Optional[str]:
        """The component after `to`, or None if it is a variable without a value."""
        assert send.to is not None
        name = self.case.word(send.to)
        return self.variables[name] if name in self.variables else self.player.references[name]

    def routes(self, send: Send) -> list[End]:
        ends = self.case.partners.get((self.player.name, self.case.word(send.port)), [])
        if not self.is_to_one(send):
            return ends
        receiver = self.receiver(send)
        return [end for end in ends if end[0] == receiver]

    def held(self, place: int) -> Optional[str]:
        """The message that is sent by the name of a variable or a loop variable."""
        name = self.case.word(place)
        return f"integer:{self.loops[name]}" if name in self.loops else self.variables[name]

    def text_of(self, send: Send) -> str:
        if send.message is None:
            assert send.variable is not None
            return self.held(send.variable) or ""
        known = self.texts.get(send.start)
        if known is None:
            known = self.case.forms.text_of(send.message, self.loops)
            if not self.case.forms.has_loop_variable(send.message.value):
                self.texts[send.start] = known
        return known

    # Receiving operations (20.2, 22.2.2, 22.2.3, 22.4)

    def alt(self, alt: Alt) -> None:
        self.come_to(alt.start)
        receives = [branch.receive for branch in alt.branches]
        starts = [branch.receive.start for branch in alt.branches]
        place = self.choose(receives, starts, alt)
        outer = self.within
        branch = alt.branches[place] if place is not None else None
        self.within = Chosen(alt, branch, self.place - 1, outer)
        if branch is not None:
            self.come_to(branch.receive.start)
            self.redirect(branch.receive, place)
            self.block(branch.block)
        else:
            assert alt.otherwise is not None
            self.come_to(alt.otherwise.start)
            self.block(alt.otherwise.block)
        self.within = outer

    def choose(self, receives: list[Receive], starts: list[int], alt: Optional[Alt]) -> Optional[int]:
        """The branch by which a message is taken or found; None for `[else]`. Messages may be discarded before."""
        otherwise = alt.otherwise if alt else None
        possible = starts + ([otherwise.start] if otherwise else [])
        while True:
            entry = self.next()
            if isinstance(entry, Received):
                place = self.branch_of(receives, entry, possible)
                self.note(starts[place])
                if entry.word != "dropped":
                    return place
            elif isinstance(entry, Otherwise) and otherwise is not None:
                self.check_none_open(receives)
                self.note(otherwise.start)
                return None
            elif entry is None and otherwise is None and self.component.end.word == "waiting":
                self.wait(receives, starts, alt)
            else:
                raise self.misfit(possible, f"a message{' or `[else]`' if otherwise else ''} is next")

    def branch_of(self, receives: list[Receive], entry: Received, possible: list[int]) -> int:
        """The only branch that can have got the message, because no branch before it was open."""
        for place, receive in enumerate(receives):
            if self.case.word(receive.port) != entry.port:
                self.check_none_open([receive])
                continue
            how, is_wanted = self.case.word(receive.how), self.wants(receive, entry)
            if not is_wanted and how != "trigger":
                continue
            word = _WORDS[how] if is_wanted else "dropped"
            if entry.word != word:
                raise self.misfit([receive.start], f"a message that is `{word}` is next")
            self.got(entry)
            return place
        raise self.misfit(possible, "this message doesn't match")

    def got(self, entry: Received) -> None:
        port = self.walk.ports[entry.port]
        port.top = entry if entry.word == "found" else None

    def check_none_open(self, receives: list[Receive]) -> None:
        """Checks that none of the operations is known to be open, because its port's top is known and satisfies it."""
        for receive in receives:
            port = self.walk.ports[self.case.word(receive.port)]
            if port.status != "stopped" and port.top is not None and self.is_open(receive, port.top):
                raise self.misfit([receive.start], f"`{port.top.message}` was at the top, and this branch open")

    def is_open(self, receive: Receive, top: Received) -> bool:
        return self.case.word(receive.how) == "trigger" or self.wants(receive, top)

    def wants(self, receive: Receive, entry: Received) -> bool:
        """Whether the message satisfies the receiving operation."""
        if receive.sender is not None:
            if self.player.references[self.case.word(receive.sender)] != entry.sender:
                return False
        return receive.message is None or self.matches(receive, entry.message)

    def matches(self, receive: Receive, text: str) -> bool:
        assert receive.message is not None
        type_name = text.partition(":")[0]
        if type_name != self.case.word(receive.message.type):
            return False
        test = self.tests.get(receive.start)
        if test is None:
            test = self.tests[receive.start] = self.case.forms.test_of(receive.message.value, type_name)
        return test(value_of(text), self.loops)

    def redirect(self, receive: Receive, place: Optional[int]) -> None:
        """Sets the variables after `->` to the message that was taken or found last."""
        entry = self.entries[self.place - 1]
        assert place is not None and isinstance(entry, Received)
        values = ((receive.value_to, entry.message), (receive.sender_to, entry.sender))
        for variable, value in values:
            if variable is not None:
                self.variables[self.case.word(variable)] = value

    # Ends

    def wait(self, receives: list[Receive], starts: list[int], alt: Optional[Alt]) -> None:
        """The history ends here. Checks that none of the operations is open at the end."""
        for receive, start in zip(receives, starts):
            top = self.top_in_the_end(self.case.word(receive.port))
            if top and self.is_open(receive, top):
                raise self.misfit([start], f"`{top.line.text}` is what it waits for")
        self.stop(StopKind.WAITS, alt.start if alt else starts[0], None, tuple(receives))

    def top_in_the_end(self, name: str) -> Optional[Received]:
        """The top of a port at the end, if it is known to have one: at a halted port it may be after the mark."""
        port = self.walk.ports[name]
        left = next((it for it in self.component.left if it.port == name), None)
        if port.status == "started":
            return left
        return port.top if port.status == "halted" else None

    def stop(self, kind: StopKind, start: int, send: Optional[Send], receives: tuple[Receive, ...]) -> None:
        self.walk.stop = Stop(kind, start, send, receives, self.turns, dict(self.variables))
        raise _Stopped


class _Stopped(Exception):
    """The behaviour ended before its last statement."""
