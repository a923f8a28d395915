"""Which messages of a closed test case can reach a branch, and what is known about those that were taken."""
from __future__ import annotations

from dataclasses import dataclass
from typing import Iterable, Optional, Protocol

from .emitted import Message, Who
from .evaluating import SENDER
from .flowing import ENDLESS, Flows, part_at
from .messages import Messages
from .paths import End, Path, Span
from .tree import Receiving
from .types import Type
from .values import Coming, ComponentValue, Facts, matches


class Wanting(Protocol):
    """A branch with an operation at a port."""

    how: Optional[Receiving]
    port: str
    message: Optional[Message]
    sender: Optional[Who]


@dataclass(frozen=True)
class Awaited:
    """A branch, the facts about its message, the earlier branches at its port, and whether messages that it doesn't
    accept are discarded."""

    branch: Wanting
    facts: Facts
    before: list[Wanting]
    is_dropping: bool


class Closed(Messages):
    def coming_to(self, awaited: Awaited, path: Path) -> list[Coming]:
        flows = self.flows
        assert flows is not None
        found: list[Coming] = []
        for end in dict.fromkeys(self.peers_of(awaited.branch.port, path)):
            span = self._span(flows, awaited, end, path)
            for one in flows.within((end, End(self.own, awaited.branch.port)), span):
                if wants(awaited.branch, awaited.facts, one) and not takes(awaited.before, one):
                    found.append(one)
        return found

    def _span(self, flows: Flows, awaited: Awaited, end: End, path: Path) -> Span:
        """The numbers of the messages on the route that can be next."""
        port = awaited.branch.port
        low, high = path.state.got.get((port, end), (0, 0))
        if not awaited.is_dropping:
            return low, high
        last = flows.first((end, End(self.own, port)), (low, high), lambda one: wants(awaited.branch, {}, one))
        return low, last[1]

    def note_got(self, awaited: Awaited, coming: list[Coming], path: Path) -> None:
        """After a branch: updates how many messages were taken on each route."""
        flows, port, got = self.flows, awaited.branch.port, path.state.got
        assert flows is not None
        if awaited.branch.how is Receiving.CHECK and not awaited.is_dropping:
            return
        ends = {one.sender for one in coming}
        for end in dict.fromkeys(self.peers_of(port, path)):
            low, high = got.get((port, end), (0, 0))
            if end not in ends:
                got[port, end] = (low, ENDLESS if awaited.is_dropping else high)
                continue
            if awaited.is_dropping:
                is_it = (end, End(self.own, port))
                low, high = flows.first(is_it, (low, high), lambda one: wants(awaited.branch, {}, one))
            got[port, end] = (low + 1 if len(ends) == 1 else low, high + 1)

    def note_discarded(self, ports: Iterable[str], path: Path) -> None:
        """Handles the emptying of a queue: the number of discarded messages isn't known."""
        for port in ports:
            for end in self.peers_of(port, path):
                low, _ = path.state.got.get((port, end), (0, 0))
                path.state.got[port, end] = (low, ENDLESS)


def wants(branch: Wanting, facts: Facts, one: Coming) -> bool:
    """Whether the branch accepts a message, and the facts hold for it. The latest fact, which excludes most, comes
    first."""
    if isinstance(branch.sender, int) and branch.sender != one.sender.component:
        return False
    message = branch.message
    if message is not None and (message.type.root is not one.type or not matches(one.form, message.form)):
        return False
    for (steps, asked), is_so in reversed(facts.items()):
        if steps == SENDER:
            is_it = asked == ComponentValue(one.sender.component)
        else:
            of = one.type
            is_it = matches(part_at(one.form, of if isinstance(of, Type) else None, steps), asked)
        if is_it is not is_so:
            return False
    return True


def takes(before: list[Wanting], one: Coming) -> bool:
    """Whether an earlier branch takes or discards it."""
    for branch in before:
        if branch.how is Receiving.TRIGGER:
            return True
        is_sure = branch.sender is None or isinstance(branch.sender, int)
        if is_sure and wants(branch, {}, one):
            return True
    return False
