"""Matches the entries of a report: each message, from its send to its end.

The sender, the receiver and the receiver's port identify a route: with the number they identify one message. So `sent`
on one side is matched with `took`, `found`, `dropped` and `left` on the other. A message with none of these entries was
discarded by a `cleared` or `started` of its port; the search for an order of all entries decides by which one
(order.py).

An era of a port is the time between two emptyings: it holds the messages that the port delivered or kept in this time,
in their order of arrival.
"""
from __future__ import annotations

from dataclasses import dataclass, field
from typing import NamedTuple, Optional

from .report import Component, Entry, NotAReport, Operation, Received, Report, Sent


class Place(NamedTuple):
    """An entry: the component's place in the report, and the entry's in its history."""

    component: int
    entry: int


class Route(NamedTuple):
    """The way of messages: from the sending component to the receiving component and port."""

    sender: str
    receiver: str
    port: str


class Message:
    """A message that was sent, and what happened to it."""

    __slots__ = ("route", "number", "text", "sent", "index", "fate", "gone", "found", "era", "turn", "latest")

    def __init__(self, route: Route, number: int, text: str, sent: Place, index: int):
        self.route = route
        self.number = number
        self.text = text
        self.sent = sent
        self.index = index  # among all messages
        self.fate = ""  # took, dropped, discarded or left
        self.gone: Optional[Place] = None  # the entry by which it left the queue; none if it is left
        self.found: list[Place] = []
        self.era: Optional[int] = None  # the era in which it arrived; possibly unknown for a discarded one
        self.turn = 0  # its place among the messages that the port had in that era
        self.latest = 0  # the last emptying, counted from 1, that can have discarded it

    def told(self) -> str:
        """The message by its route and number, for a message to the user."""
        return f"message {self.number} from {self.route.sender} to {self.route.receiver}.{self.route.port}"


@dataclass
class Era:
    """The time from one emptying of a port to the next: the entry that began it, and the messages that were delivered
    or kept."""

    began: Optional[Place]
    queue: list[Message] = field(default_factory=list)


@dataclass
class Port:
    """A port of a component: its eras, and its state while the history is read."""

    eras: list[Era] = field(default_factory=lambda: [Era(None)])
    discarded: list[Message] = field(default_factory=list)  # by an emptying that isn't known
    status: str = "started"
    halted: Optional[Place] = None
    nothing_ahead: bool = False  # the mark is at the top, or the port is stopped
    emptied: Optional[int] = None  # the entry of the last emptying
    top: Optional[Message] = None  # the top, as shown by a `found`

    def queue(self, message: Message) -> None:
        """Adds the next message that arrived in this era and was delivered or kept."""
        message.era, message.turn = len(self.eras) - 1, len(self.eras[-1].queue)
        self.eras[-1].queue.append(message)


@dataclass
class Deliveries:
    """A report's messages, in the order of their lines, and each by the entries that name it."""

    report: Report
    messages: list[Message]
    at: list[list[Optional[Message]]]  # by component and entry
    ports: dict[tuple[int, str], Port]
    behind_mark: dict[Place, Message]  # the last message that was delivered after a `halted`
    discarded: dict[Place, list[Message]]  # by the entry that discarded them, once there is an order

    def entry(self, place: Place) -> Entry:
        return self.report.components[place.component].entries[place.entry]

    def message(self, place: Place) -> Optional[Message]:
        """The message that was sent or got by this entry; None for other entries."""
        return self.at[place.component][place.entry]

    def discard(self, message: Message, place: Place) -> None:
        message.fate, message.gone = "discarded", place
        self.discarded.setdefault(place, []).append(message)

    def told_line(self, place: Place) -> str:
        line = self.entry(place).line
        name = self.report.components[place.component].name
        return f"line {line.number} ({name}: {line.text})"


def deliveries_of(report: Report) -> Deliveries:
    """The messages of the report. Raises NotAReport if the components don't agree on them."""
    at: list[list[Optional[Message]]] = [[None] * len(it.entries) for it in report.components]
    made = Deliveries(report, [], at, {}, {}, {})
    routes: Routes = {}
    for place in range(len(report.components)):
        _read_sendings(made, place, routes)
    into: dict[str, list[Route]] = {}
    for route in routes:
        into.setdefault(route.receiver, []).append(route)
    for place, component in enumerate(report.components):
        _Receiver(component, place, routes, made).read(into.get(component.name, []))
    return made


Routes = dict[Route, list[Message]]


def _read_sendings(made: Deliveries, component_place: int, routes: Routes) -> None:
    """Reads the messages that a component has sent: on each route they are numbered from 0."""
    component = made.report.components[component_place]
    names = set(made.report.names())
    at, messages = made.at[component_place], made.messages
    for entry_place, entry in enumerate(component.entries):
        if not isinstance(entry, Sent):
            continue
        if entry.receiver not in names:
            raise NotAReport(entry.line.number, f"there is no component {entry.receiver}")
        route = Route(component.name, entry.receiver, entry.port)
        on_route = routes.setdefault(route, [])
        if entry.number != len(on_route):
            raise NotAReport(entry.line.number, f"the number on this route is {len(on_route)}")
        sent = Place(component_place, entry_place)
        message = Message(route, entry.number, entry.message, sent, len(messages))
        on_route.append(message)
        messages.append(message)
        at[entry_place] = message


class _Receiver:
    """Reads the history of one component, as the receiver of its messages."""

    def __init__(self, component: Component, place: int, routes: Routes, made: Deliveries):
        self.component = component
        self.place = place
        self.routes = routes
        self.made = made
        self.ports: dict[str, Port] = {}
        self.next: dict[Route, int] = {}  # how many messages of a route are no longer queued
        self.since: dict[Route, int] = {}  # the entry after which the next message of a route can leave the queue

    def read(self, into: list[Route]) -> None:
        for place, entry in enumerate(self.component.entries):
            if isinstance(entry, Received):
                self.receive(place, entry)
            elif isinstance(entry, Operation):
                self.operate(Place(self.place, place), entry)
        self.read_left()
        self.discard_the_rest(into)

    def port(self, name: str) -> Port:
        port = self.ports.get(name)
        if port is None:
            port = self.ports[name] = self.made.ports[self.place, name] = Port()
        return port

    def message(self, entry: Received) -> Message:
        """The message that the entry names, which must have been sent, and must still be queued."""
        number = entry.line.number
        route = Route(entry.sender, self.component.name, entry.port)
        sent = self.routes.get(route, [])
        if entry.number >= len(sent):
            raise NotAReport(number, f"{entry.sender} has sent no such message")
        message = sent[entry.number]
        if message.text != entry.message:
            raise NotAReport(number, f"{message.told()} was another one when it was sent")
        if entry.number < self.next.get(route, 0):
            raise NotAReport(number, f"{message.told()} is no longer queued")
        return message

    def receive(self, place: int, entry: Received) -> None:
        message = self.message(entry)
        port = self.port(entry.port)
        if port.nothing_ahead:
            raise NotAReport(entry.line.number, f"the port {entry.port} delivers nothing here")
        if port.top is not None and port.top is not message:
            raise NotAReport(entry.line.number, f"{port.top.told()} is at the top")
        if port.top is None:
            self.discard_up_to(message, entry.line.number)
            port.queue(message)
        here = Place(self.place, place)
        self.made.at[self.place][place] = message
        self.since[message.route] = place
        if port.halted is not None:
            self.made.behind_mark[port.halted] = message
        if entry.word == "found":
            message.found.append(here)
            port.top = message
            return
        message.fate, message.gone = entry.word, here
        port.top = None
        self.next[message.route] = message.number + 1

    def operate(self, here: Place, entry: Operation) -> None:
        port = self.port(entry.port)
        if entry.empties():
            self.empty(port, here)
        if entry.word == "started":
            port.status, port.nothing_ahead, port.halted = "started", False, None
        elif entry.word == "stopped":
            port.status, port.nothing_ahead, port.halted = "stopped", True, None
        elif entry.word == "halted" and port.status == "started":
            port.status, port.halted = "halted", here
        elif entry.word == "cleared" and port.status == "halted":
            port.nothing_ahead = True

    def empty(self, port: Port, here: Place) -> None:
        """Discards a message that was found and not taken, and begins a new era."""
        if port.top is not None:
            self.made.discard(port.top, here)
            self.next[port.top.route] = port.top.number + 1
            self.since[port.top.route] = here.entry
        port.eras.append(Era(here))
        port.emptied, port.top = here.entry, None

    def discard_up_to(self, message: Message, line: int) -> None:
        """Discards the earlier messages on the same route that are still queued."""
        route = message.route
        first = self.next.get(route, 0)
        if first == message.number:
            return
        self.discard(route, first, message.number, line)

    def discard(self, route: Route, first: int, behind: int, line: int) -> None:
        """Marks messages as discarded. It isn't known by which emptying; the last one so far is the latest possible."""
        port = self.port(route.port)
        if port.emptied is None or port.emptied < self.since.get(route, 0):
            told = self.routes[route][first].told()
            raise NotAReport(line, f"{told} is neither taken, dropped, discarded nor left")
        for message in self.routes[route][first:behind]:
            message.fate, message.latest = "discarded", len(port.eras) - 1
            port.discarded.append(message)
        self.next[route] = behind

    def read_left(self) -> None:
        """Reads the messages that are left. They are listed port by port; on each route all after the first are
        left."""
        read: dict[str, None] = {}
        last = ""
        for entry in self.component.left:
            message = self.message(entry)
            port = self.port(entry.port)
            if entry.port != last and entry.port in read:
                raise NotAReport(entry.line.number, f"what is left at {entry.port} stands above")
            if port.top is not None and entry.port not in read and port.top is not message:
                raise NotAReport(entry.line.number, f"{port.top.told()} is at the top")
            read[entry.port] = None
            last = entry.port
            self.discard_up_to(message, entry.line.number)
            if message is not port.top:
                port.queue(message)
            message.fate = "left"
            self.next[message.route] = message.number + 1
            self.since[message.route] = len(self.component.entries)

    def discard_the_rest(self, into: list[Route]) -> None:
        """Discards the messages of each route that neither left the queue nor are left."""
        for route in into:
            sent = self.routes[route]
            first = self.next.get(route, 0)
            if first < len(sent):
                line = self.made.entry(sent[first].sent).line.number
                self.discard(route, first, len(sent), line)
