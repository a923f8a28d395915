"""Finds by which emptying of its port a message was discarded that was neither got nor left, because a report doesn't
say it. Only some orders of arrival are known: that of messages on one route, and that of two messages of which one was
sent in the past of the other."""
from __future__ import annotations

from bisect import bisect_left, bisect_right
from typing import Callable, NamedTuple

from ..report.deliveries import Deliveries, Message, Place, Route
from .past import Past


class Emptyings(NamedTuple):
    """The entries that empty a port, and the range of those that may have discarded a message, the last one excluded:
    several if the report leaves it open."""

    places: list[Place]
    first: int
    behind: int


class Emptied:
    """All discarded messages of a report, and the emptyings that may have discarded each."""

    def __init__(self, deliveries: Deliveries):
        self.deliveries = deliveries
        self.columns = {name: place for place, name in enumerate(deliveries.report.names())}
        self.of_route: dict[Route, list[Message]] = {}
        for message in deliveries.messages:
            self.of_route.setdefault(message.route, []).append(message)
        self.into: dict[tuple[str, str], list[Had]] = {}
        for route, sent in self.of_route.items():
            had = Had(self.columns[route.sender], [it for it in sent if it.era is not None])
            self.into.setdefault(route[1:], []).append(had)
        self.places: dict[tuple[str, str], list[Place]] = {}
        self.first: dict[int, int] = {}
        self.pasts: dict[int, Past] = {}

    def by(self, message: Message) -> Emptyings:
        """The emptyings that may have discarded the message. They are numbered by the eras that they begin, from 1."""
        first, latest = self._first_on_route(message), message.latest
        if first < latest:
            first, latest = self._between_others(message, first, latest)
        places = self._places(message)
        if first < latest:
            return self._around(message, Emptyings(places, first - 1, latest))
        return Emptyings(places, first - 1, first)

    def _places(self, message: Message) -> list[Place]:
        key = message.route[1:]
        if key not in self.places:
            eras = self.deliveries.ports[self.columns[message.route.receiver], message.route.port].eras
            self.places[key] = [era.began for era in eras if era.began is not None]
        return self.places[key]

    def _first_on_route(self, message: Message) -> int:
        """The first emptying after which the message can have arrived: it arrived after all messages that were sent
        before it on its route."""
        if message.index not in self.first:
            first = 1
            for on_route in self.of_route[message.route]:
                self.first[on_route.index] = first
                first = first if on_route.era is None else on_route.era + 1
        return self.first[message.index]

    def _between_others(self, message: Message, first: int, latest: int) -> tuple[int, int]:
        """Narrows the range. The message arrived after those that were sent in its past, and before those that have its
        send in their past. If the port delivered or kept one of the latter, it had discarded the message before
        that."""
        sender, entry = message.sent
        own = self.past(sender)
        for had in self.into[message.route[1:]]:
            if had.sender == sender or not had.messages:
                continue
            ahead = bisect_right(had.sent, self.past(had.sender).last[sender][entry])
            if ahead > 0:
                first = max(first, had.eras[ahead - 1] + 1)
            behind = bisect_left(had.known_of(own), entry)
            if behind < len(had.eras):
                latest = min(latest, had.eras[behind])
        return first, max(first, latest)

    def _around(self, message: Message, all_of_them: Emptyings) -> Emptyings:
        """The emptyings that aren't in the past of the send, up to the first one that has the send in its past."""
        places, first, behind = all_of_them
        sender, entry = message.sent
        owner, own = self.past(places[0].component), self.past(sender)
        known = Place(sender, entry)
        first = first_of(first, behind - 1, lambda it: not owner.has(known, places[it].entry))
        last = first_of(first, behind - 1, lambda it: own.has(places[it], entry))
        return Emptyings(places, first, last + 1)

    def past(self, component: int) -> Past:
        if component not in self.pasts:
            self.pasts[component] = Past(self.deliveries, component)
        return self.pasts[component]


def first_of(low: int, high: int, holds: Callable[[int], bool]) -> int:
    """The first number from which on it holds; `high` if there is none below."""
    while low < high:
        middle = (low + high) // 2
        if holds(middle):
            high = middle
        else:
            low = middle + 1
    return low


class Had:
    """The messages of one route that a port delivered or kept: where each was sent, and in which era it arrived. Both
    only grow."""

    def __init__(self, sender: int, messages: list[Message]):
        self.sender = sender
        self.messages = messages
        self.sent = [message.sent.entry for message in messages]
        self.eras = [message.era or 0 for message in messages]
        self.known: dict[int, list[int]] = {}

    def known_of(self, past: Past) -> list[int]:
        """For each message, the last entry of the component that is in the past of its send."""
        if past.component not in self.known:
            last = past.last[self.sender]
            self.known[past.component] = [last[entry] for entry in self.sent]
        return self.known[past.component]
