"""One order of all entries that the ports allow. It keeps the order of each history. If it is played on the ports
(docs/MODEL.md), and each message is queued when it is sent, every port delivers, discards and keeps what the report
says.

There are many such orders. This one continues with a message as soon as possible, so that a chart has short arrows, and
delays messages that no component waits for. A report doesn't say at which ports an `else` looked, or a branch above the
chosen one, or on which side of a mark a message is left. So an `else` or a `halted` may come after a send that it
missed.

search.py decides what an order must have. Whatever a component can do is done at once, because it can't prevent
anything else, with one exception: an emptying of a port that still has to discard messages which aren't sent yet. Such
emptyings wait until nothing else can be done. If there are several then, each is tried. If no order is found, the text
isn't a report of tpr.
"""
from __future__ import annotations

from dataclasses import dataclass
from typing import Optional

from .deliveries import Deliveries, Message, Place
from .report import NotAReport, Operation
from .search import Search

_MOST_TRIES = 20_000


class NoOrderFound(NotAReport):
    """The search ended after too many tries: it isn't known whether there is an order."""


@dataclass(frozen=True)
class Row:
    """One entry, or a send together with what was done with its message directly after it."""

    first: Place
    second: Optional[Place] = None

    def places(self) -> list[Place]:
        return [self.first] if self.second is None else [self.first, self.second]


def rows_of(deliveries: Deliveries) -> list[Row]:
    """All entries in an order that the ports allow. Also stores in the deliveries which entry discarded each message.
    Raises NotAReport if there is no such order."""
    search = Search(deliveries)
    _find(search)
    for message, place in search.discardings():
        deliveries.discard(message, place)
    for messages in deliveries.discarded.values():
        messages.sort(key=lambda message: search.moment[message.index])
    return _paired(deliveries, search.order)


def rows_in(deliveries: Deliveries, order: list[Place], apart: int) -> list[Row]:
    """All entries in a known order, for example that of a forced run. Also stores in the deliveries which messages an
    emptying discards. No row combines an entry before the place `apart` with one after it."""
    columns = {name: place for place, name in enumerate(deliveries.report.names())}
    queues: dict[tuple[int, str], list[Message]] = {}
    for place in order:
        message, entry = deliveries.message(place), deliveries.entry(place)
        if message is not None:
            queue = queues.setdefault((columns[message.route.receiver], message.route.port), [])
            if message.sent == place:
                queue.append(message)
            elif message.gone == place:
                queue.remove(message)
        elif isinstance(entry, Operation) and entry.word in ("cleared", "started"):
            for discarded in queues.pop((place.component, entry.port), []):
                deliveries.discard(discarded, place)
    return _paired(deliveries, order[:apart]) + _paired(deliveries, order[apart:])


def _find(search: Search) -> None:
    """Searches to the end, and goes back to the last choice if there is no way on."""
    choices: list[tuple[int, int]] = []  # the number of entries done, and the components still to be tried
    dead: set[tuple[int, ...]] = set()
    first: Optional[NotAReport] = None
    tries = 0
    while True:
        choice = search.go_on()
        if choice == 0 and search.is_done():
            return
        if choice != 0 and not (dead and search.places() in dead):
            choices.append((len(search.order), choice))
        elif choice == 0:
            first, tries = first or search.circle(), tries + 1
        if first and tries > _MOST_TRIES:
            told = f"no order of the entries was found in {_MOST_TRIES} tries: there may be one"
            raise NoOrderFound(first.line, told)
        if not _try_next(search, choices, dead):
            assert first is not None
            raise first


def _try_next(search: Search, choices: list[tuple[int, int]], dead: set[tuple[int, ...]]) -> bool:
    """Goes back to the last choice that has something left, and tries the next component."""
    while choices:
        done, left = choices.pop()
        search.go_back(done)
        if left:
            component = search.best_of(left)
            choices.append((done, left & ~(1 << component)))
            search.carry_out(component)
            return True
        dead.add(search.places())
    return False


def _paired(deliveries: Deliveries, order: list[Place]) -> list[Row]:
    """Combines a send with what is done with its message directly after it."""
    rows: list[Row] = []
    waiting: Optional[Place] = None
    for place in order:
        if waiting is not None:
            same = deliveries.message(waiting) is deliveries.message(place)
            rows.append(Row(waiting, place if same else None))
            waiting = None
            if same:
                continue
        if _is_sending(deliveries, place):
            waiting = place
        else:
            rows.append(Row(place))
    return rows + ([Row(waiting)] if waiting is not None else [])


def _is_sending(deliveries: Deliveries, place: Place) -> bool:
    message = deliveries.message(place)
    return message is not None and message.sent == place

