"""Finds where a trace breaks the three rules (docs/TRACES.md): ports, delivery, no circle. Each place is a RULE and a
line. The rules are written from the definitions, with one list or one comparison for each, and not for speed.
"""
from collections.abc import Iterator
from dataclasses import dataclass, field
from typing import NamedTuple

from circles import firsts_of_circles
from form import TAKING, Line, Section, Trace

# The order of several rules at one line.
RULES = (
    "Stopped",
    "Behind",
    "NotTop",
    "Left",
    "Numbering",
    "Lost",
    "Doubled",
    "Invented",
    "Changed",
    "Reordered",
    "Circle",
)


class Place(NamedTuple):
    """A place where a trace isn't lawful: the number of a line, and the rule."""

    line: int
    rule: str

    def order(self) -> tuple[int, int]:
        return self.line, RULES.index(self.rule)


def places_of(trace: Trace) -> Iterator[list[Place]]:
    """The places that may be reported, by their lines: the first of each port, that of each route, and, if delivery
    holds, the first line of a circle. If there are several circles, there is a list for each."""
    found = [place for section in trace.sections.values() for place in places_of_ports(section)]
    undelivered = [place for route in routes_of(trace) if (place := place_of_route(route)) is not None]
    circles = [] if undelivered else [Place(line, "Circle") for line in firsts_of_circles(happens_before(trace))]
    for circle in [[it] for it in circles] or [[]]:
        yield sorted([*found, *undelivered, *circle], key=Place.order)


# Ports (ES 201 873-1, 22.2, 22.5)


@dataclass
class Port:
    """A port after its lines so far. If it is halted, `ahead` is the number of its messages ahead of the mark."""

    status: str = "started"
    queue: list[tuple[bytes, int, bytes]] = field(default_factory=list)
    ahead: int = 0

    def do(self, line: Line) -> None:
        """Applies the effect of the line."""
        if line.word == b"came":
            self.queue.append(line.envelope())
        elif line.word in (b"took", b"dropped"):
            del self.queue[0]
            self.ahead = max(self.ahead - 1, 0)
        elif line.word in (b"cleared", b"started"):
            self.queue, self.ahead = [], 0
        if line.word == b"halted" and self.status == "started":
            self.status, self.ahead = "halted", len(self.queue)
        elif line.word in (b"started", b"stopped"):
            self.status = line.word.decode()

    def refuses(self, line: Line) -> str | None:
        """The rule that is broken by a line that takes, finds or drops a message, or None."""
        if self.status == "stopped":
            return "Stopped"
        reached = self.ahead if self.status == "halted" else len(self.queue)
        if line.envelope() in self.queue[:reached][:1]:
            return None
        return "Behind" if line.envelope() in self.queue[reached:] else "NotTop"


def places_of_ports(section: Section) -> Iterator[Place]:
    """The first place of each port of the section."""
    names = {line.port for line in section.lines if line.word != b"sent" and line.port}
    for name in sorted(names):
        lines = [line for line in section.lines if line.word != b"sent" and line.port == name]
        if (place := place_of_port(section, lines)) is not None:
            yield place


def place_of_port(section: Section, lines: list[Line]) -> Place | None:
    """The first place of a port with these lines, or None."""
    port = Port()
    for line in lines:
        if line.word in TAKING and (rule := port.refuses(line)) is not None:
            return Place(line.place, rule)
        if line.word != b"left":
            port.do(line)
    return None if section.is_open() else place_of_left(section, port, [it for it in lines if it.word == b"left"])


def place_of_left(section: Section, port: Port, left: list[Line]) -> Place | None:
    """The first line `left` that differs from the queue. If one is missing, it is the section's `end`, and without an
    `end` the section's last line."""
    for place, line in enumerate(left):
        if port.queue[place : place + 1] != [line.envelope()]:
            return Place(line.place, "Left")
    if len(left) == len(port.queue):
        return None
    ends = [line for line in section.lines if line.word == b"end"]
    return Place((ends or section.lines[-1:])[0].place, "Left")


# Delivery


@dataclass
class Route:
    """A sender and a port of a receiver, both of which have a section: what was sent, and what came."""

    sent: list[Line] = field(default_factory=list)
    came: list[Line] = field(default_factory=list)

    def first_sendings(self) -> dict[int, int]:
        """The place of the first sending of each number that was sent."""
        places: dict[int, int] = {}
        for place, line in enumerate(self.sent):
            places.setdefault(line.number, place)
        return places


def routes_of(trace: Trace) -> list[Route]:
    """The routes whose ends both have a section."""
    routes: dict[tuple[bytes, bytes, bytes], Route] = {}
    for section in trace.sections.values():
        for line in section.lines:
            if line.partner in trace.sections and line.word == b"sent":
                routes.setdefault((section.name, line.partner, line.port), Route()).sent.append(line)
            elif line.partner in trace.sections and line.word == b"came":
                routes.setdefault((line.partner, section.name, line.port), Route()).came.append(line)
    return list(routes.values())


def place_of_route(route: Route) -> Place | None:
    """The place to report for the route: its first sending with a wrong number; otherwise the fault at the first place
    in its order where the arrival differs from the sending."""
    for place, line in enumerate(route.sent):
        if line.number != place:
            return Place(line.place, "Numbering")
    for place in range(max(len(route.sent), len(route.came))):
        sent, came = route.sent[place : place + 1], route.came[place : place + 1]
        if [line.parcel() for line in sent] != [line.parcel() for line in came]:
            return place_told(route, place)
    return None


def place_told(route: Route, place: int) -> Place:
    """The place to report if another message arrived here than was sent here, or none did: the fault of the arrival. If
    the arrival is a message that was sent later, it is the fault of the message that was sent here."""
    at = {told.line: told for told in places_of_route(route)}
    came = [line.place for line in route.came[place:]]
    if came and came[0] in at:
        return at[came[0]]
    sent = route.sent[place]
    return at.get(sent.place) or next(at[it.place] for it in route.came[place:] if it.number == sent.number)


def places_of_route(route: Route) -> Iterator[Place]:
    """All places of the route."""
    yield from places_of_sendings(route)
    yield from places_of_arrivals(route)


def places_of_sendings(route: Route) -> Iterator[Place]:
    """Each sending whose number isn't the next; and each one whose number no arrival has, if in its place in the order
    of arrivals there is none, or a message that was sent later."""
    came = {line.number for line in route.came}
    last_that_came = max((place for place, line in enumerate(route.sent) if line.number in came), default=-1)
    behind = {(line.number, line.message): place for place, line in enumerate(route.sent)}
    for place, line in enumerate(route.sent):
        taker = route.came[place] if place < len(route.came) else None
        is_overtaken = taker is not None and behind.get((taker.number, taker.message), -1) > place
        if line.number != place:
            yield Place(line.place, "Numbering")
        elif line.number not in came and (last_that_came < place or is_overtaken):
            yield Place(line.place, "Lost")


def places_of_arrivals(route: Route) -> Iterator[Place]:
    """The first rule that each arrival breaks: its number had arrived before; was never sent; was sent with another
    message; was sent before the number of an earlier arrival."""
    sent, messages = route.first_sendings(), {(line.number, line.message) for line in route.sent}
    before: set[int] = set()
    latest = -1
    for line in route.came:
        if line.number in before:
            yield Place(line.place, "Doubled")
        elif line.number not in sent:
            yield Place(line.place, "Invented")
        elif (line.number, line.message) not in messages:
            yield Place(line.place, "Changed")
        elif sent[line.number] < latest:
            yield Place(line.place, "Reordered")
        before.add(line.number)
        latest = max(latest, sent.get(line.number, -1))


# No circle


def happens_before(trace: Trace) -> dict[int, list[int]]:
    """For each line of a section, by its number, the lines that it happens before: the next line of the section, and
    the arrivals of a sending."""
    behind: dict[int, list[int]] = {line.place: [] for section in trace.sections.values() for line in section.lines}
    for section in trace.sections.values():
        for line, after in zip(section.lines, section.lines[1:]):
            behind[line.place].append(after.place)
    for route in routes_of(trace):
        sent = route.first_sendings()
        for came in route.came:
            if came.number in sent:
                behind[route.sent[sent[came.number]].place].append(came.place)
    return behind
