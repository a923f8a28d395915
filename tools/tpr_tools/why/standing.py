"""What a component waits for, and what was in its queues at the end."""
from __future__ import annotations

from typing import Optional

from ..origins import Line
from ..report.deliveries import Message, Route
from ..report.report import Received
from ..script.tree import Receive, Send, operations_in
from .walk import Turns, Walk, Walker, Watched
from .ways import Ways

_MOST_TOLD = 3  # messages of one queue
_GOT = {"took": "taken", "found": "found", "dropped": "dropped"}


class Standing:
    """The queues of a component; the receiving operations that it reached, with the values of its loop variables; and
    the operations by which it waits at the end."""

    def __init__(self, ways: Ways, walk: Walk, turns: Turns, waits: tuple[Receive, ...] = ()):
        self.ways = ways
        self.case = ways.case
        self.walk = walk
        self.component = walk.component
        self.walker = Walker(ways.case, walk.player, walk.component)
        self.walker.loops = dict(turns)
        self.waits = waits

    # What is waited for

    def wanted(self, receive: Receive) -> str:
        """`integer:2` at port p, from a."""
        word, told = self.case.word, "any message"
        if receive.message is not None:
            type_name = word(receive.message.type)
            form = self.case.forms.told(receive.message.value, type_name, self.walker.loops)
            told = f"`{type_name}:{form}`"
        sender = ""
        if receive.sender is not None:
            sender = f", from {self.walk.player.references[word(receive.sender)]}"
        return f"{told} at port {word(receive.port)}{sender}"

    # What was there

    def told(self, receive: Receive) -> str:
        """Why the port had nothing for the operation in the end."""
        name = self.case.word(receive.port)
        port, left = self.walk.ports[name], self.left_at(name)
        told = []
        if port.status != "started":
            told.append(f"that port was {port.status} at line {self.line_of_own(port.since)}")
        if port.status == "stopped":
            told[0] += f" and delivers nothing: {self.listed(left) or 'its queue is empty'}"
        elif left:
            told.append(self.first(receive, left))
        else:
            told += ["its queue is empty", self.gone(receive, name)]
        if not any(self.walker.wants(receive, it) for it in left):
            told += self.elsewhere(receive, name)
        *first, last = told
        return f"{', '.join(first)}, and {last}" if first else last

    def left_at(self, name: str) -> list[Received]:
        return [it for it in self.component.left if it.port == name]

    def line_of_own(self, entry: Optional[int]) -> Line:
        assert entry is not None
        return self.case.line(self.walk.origins[entry].start)

    def of(self, entry: Received) -> str:
        """The message, its sender, and the line of its send."""
        return self.told_message(self.ways.sending_of(entry, self.component.name))

    def told_message(self, message: Message) -> str:
        line = self.ways.line(message.sent)
        return f"`{message.text}` (sent by {message.route.sender} at line {line})"

    def listed(self, left: list[Received]) -> str:
        """The messages in a queue, the oldest first."""
        if not left:
            return ""
        more = f" and {len(left) - _MOST_TOLD} more" if len(left) > _MOST_TOLD else ""
        are = "is" if len(left) == 1 else "are"
        return f"{', '.join(self.of(it) for it in left[:_MOST_TOLD])}{more} {are} there"

    def first(self, receive: Receive, left: list[Received]) -> str:
        """The top of a queue, and why the operation doesn't accept it."""
        top, is_wanted = left[0], self.walker.wants(receive, left[0])
        told = self.of(top)
        if self.walk.ports[top.port].status == "halted":
            told += f" {self.side_of_mark(top)}"
        else:
            told += " is first there"
        if is_wanted:
            return told
        told += f": {self.unlike(receive, top)}"
        wanted = next((it for it in left if self.walker.wants(receive, it)), None)
        return f"{told}; after it comes {self.of(wanted)}" if wanted else told

    def side_of_mark(self, top: Received) -> str:
        """On which side of the mark the top of a halted port is. If it were ahead of the mark, it would be got, or a
        `found` would show it."""
        port = self.walk.ports[top.port]
        at_port = [it for it in self.waits if self.case.word(it.port) == top.port]
        would_be_got = any(self.walker.is_open(it, top) for it in at_port)
        if would_be_got or port.nothing_ahead or self.is_own(top, port, False):
            return "came after the mark"
        if port.top is not None or self.is_own(top, port, True):
            return "is first there, before the mark"
        return "is first there, before the mark or after it"

    def is_own(self, top: Received, port: Watched, ahead: bool) -> bool:
        """Whether the component sent the message to itself before the port was halted, if `ahead`, or else after that.
        Messages that the component sent itself before a `halt` are ahead of the mark."""
        if top.sender != self.component.name or port.since is None:
            return False
        return (self.ways.sending_of(top, top.sender).sent.entry < port.since) == ahead

    def unlike(self, receive: Receive, entry: Received) -> str:
        """In which respects the message differs from what the operation accepts."""
        kinds = []
        if receive.message is not None and not self.walker.matches(receive, entry.message):
            same_type = entry.message.partition(":")[0] == self.case.word(receive.message.type)
            kinds.append("another value" if same_type else "another type")
        if receive.sender is not None:
            if self.walk.player.references[self.case.word(receive.sender)] != entry.sender:
                kinds.append("another sender")
        return " and ".join(kinds)

    def elsewhere(self, receive: Receive, name: str) -> list[str]:
        """A message that the operation would accept, at another port."""
        found = [it for it in self.component.left if it.port != name and self.walker.wants(receive, it)]
        return [f"{self.of(it)} is at another port, {it.port}" for it in found[:1]]

    def later(self, receive: Receive, entry: int) -> str:
        """The message for the operation that the component got at this port after the entry, or that is left there."""
        name = self.case.word(receive.port)
        for place in range(entry + 1, len(self.component.entries)):
            got = self.component.entries[place]
            if isinstance(got, Received) and got.port == name and self.walker.wants(receive, got):
                return f"{self.of(got)} was {_GOT[got.word]} there later, at line {self.line_of_own(place)}"
        left = next((it for it in self.left_at(name) if self.walker.wants(receive, it)), None)
        return f"{self.of(left)} is left there" if left else ""

    # Messages that arrived, and messages that never did

    def gone(self, receive: Receive, name: str) -> str:
        """What happened to the messages that were sent to the port."""
        routes = [route for route in self.ways.of_route if self.is_into(route, name)]
        sent = [message for route in routes for message in self.ways.of_route[route]]
        wanted = [it for it in sent if self.walker.wants(receive, self.as_received(it))]
        lost = [it for it in wanted if it.fate != "took"]
        if lost:
            return f"{self.told_message(lost[-1])} was {self.fate(lost[-1])}"
        if unsent := self.unsent(receive, name):
            return f"line {unsent[1]} of {unsent[0]}, which would send it, was never reached"
        if wanted:
            return f"the last such message, {self.told_message(wanted[-1])}, was {self.fate(wanted[-1])}"
        return "nothing was sent to it" if not sent else "no such message was sent to it"

    def is_into(self, route: Route, name: str) -> bool:
        return (route.receiver, route.port) == (self.component.name, name)

    def as_received(self, message: Message) -> Received:
        line = self.ways.deliveries.entry(message.sent).line
        return Received(line, "left", message.route.port, message.route.sender, message.number, message.text)

    def fate(self, message: Message) -> str:
        """How a message left the queue, and at which line."""
        lines = self.ways.lines_gone(message)
        word = _GOT.get(message.fate, message.fate)
        return f"{word} at line {' or '.join(map(str, lines))}"

    def unsent(self, receive: Receive, name: str) -> Optional[tuple[str, Line]]:
        """A send of a matching message that its component never reached: the component and the line."""
        for walk in self.ways.walks:
            walker = Walker(self.case, walk.player, walk.component)
            for send in operations_in(walk.player.statements()):
                if not isinstance(send, Send) or send.start in walk.visits or send.message is None:
                    continue
                if self.case.forms.has_loop_variable(send.message.value) or not self.leads(walker, send, name):
                    continue
                text = self.case.forms.text_of(send.message, {})
                line = self.component.end.line
                if self.walker.wants(receive, Received(line, "left", name, walk.player.name, 0, text)):
                    return walk.player.name, self.case.line(send.start)
        return None

    def leads(self, walker: Walker, send: Send, name: str) -> bool:
        """Whether the send may go to the port. If `to` names a variable, its component isn't known."""
        if send.to is not None and walker.is_to_one(send) and self.case.word(send.to) in walker.variables:
            return False
        return (self.component.name, name) in walker.routes(send)
