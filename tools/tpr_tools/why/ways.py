"""A report matched with its script: the line of each entry, and both ends of each message."""
from __future__ import annotations

from bisect import bisect_left
from typing import Optional

from ..origins import Line
from ..report.deliveries import Deliveries, Message, Place, Route, deliveries_of
from ..report.report import Component, Received, Report, VerdictSet
from ..script.case import Case
from .emptied import Emptied
from .walk import DoesNotFit, Walker


class Ways:
    """The way of each component through its body, and the messages between them."""

    def __init__(self, case: Case, report: Report):
        self.case = case
        self.report = report
        self.deliveries: Deliveries = deliveries_of(report)
        self._check_names()
        pairs = zip(case.players, report.components)
        self.walks = [Walker(case, player, component).whole() for player, component in pairs]
        self.emptied = Emptied(self.deliveries)
        self.of_route = self.emptied.of_route
        self._emptying_lines: dict[tuple[str, str], dict[Line, list[int]]] = {}

    def _check_names(self) -> None:
        names, played = self.report.names(), [player.name for player in self.case.players]
        for place, component in enumerate(self.report.components):
            if place >= len(played) or component.name != played[place]:
                line = component.line
                reason = f"the components of the script are {', '.join(played)}"
                raise DoesNotFit(line.number, component.name, line.text, [], reason)
        if len(names) < len(played):
            line, reason = self.report.result_line, f"`component {played[len(names)]}` is next"
            raise DoesNotFit(line.number, names[-1], line.text, [], reason)

    # Lines of the script

    def line(self, place: Place) -> Line:
        """The line that an entry comes from."""
        return self.case.line(self.walks[place.component].origins[place.entry].start)

    def line_of_body(self, component: int) -> Optional[Line]:
        body = self.walks[component].player.body
        return self.case.line(body.start) if body else None

    def line_of_stop(self, component: int) -> Optional[Line]:
        """The line of the send that ended the behaviour, or of its last wait."""
        stop = self.walks[component].stop
        return self.case.line(stop.start) if stop else None

    def line_of_verdict(self, component: int) -> Optional[Line]:
        """The line of the `setverdict` that determined the local verdict, or of the send that failed."""
        walk, verdict = self.walks[component], self.report.components[component].verdict
        if verdict == "error":
            return self.line_of_stop(component)
        place = first_of_verdict(walk.component, verdict) if verdict != "none" else None
        return None if place is None else self.line(Place(component, place))

    # Messages

    def sending_of(self, entry: Received, receiver: str) -> Message:
        return self.of_route[Route(entry.sender, receiver, entry.port)][entry.number]

    def lines_gone(self, message: Message) -> list[Line]:
        """The line by which the message was taken or discarded; all lines that may have discarded it, if that is open;
        none if it is left."""
        if message.gone is not None or message.fate != "discarded":
            return [self.line(message.gone)] if message.gone else []
        places, first, behind = self.emptied.by(message)
        if behind - first == 1:
            return [self.line(places[first])]
        of_lines = self._lines_of(message.route[1:], places).items()
        return sorted(line for line, at in of_lines if bisect_left(at, first) < bisect_left(at, behind))

    def _lines_of(self, port: tuple[str, str], places: list[Place]) -> dict[Line, list[int]]:
        """For each line, the emptyings of a port that it made. There may be many more emptyings than lines."""
        if port not in self._emptying_lines:
            of_lines = self._emptying_lines.setdefault(port, {})
            for number, place in enumerate(places):
                of_lines.setdefault(self.line(place), []).append(number)
        return self._emptying_lines[port]


def first_of_verdict(component: Component, verdict: str) -> Optional[int]:
    """The entry at which the local verdict became this one."""
    for place, entry in enumerate(component.entries):
        if isinstance(entry, VerdictSet) and entry.verdict == verdict:
            return place
    return None
