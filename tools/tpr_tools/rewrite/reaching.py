"""How far the components can have come at most when one of them reaches a send: each continues only if the messages
that it takes may have been sent by then. This is a least fixed point, starting with no messages sent."""
from __future__ import annotations

from collections import Counter
from typing import Optional

from .emitted import Came, Code, Failed, Got, GotDone, GotEnd, Sent, Way, Ways, Went
from .flowing import ENDLESS
from .following import Followed
from .paths import End, peers
from .sending import Sends, What, count_sent, sum_of
from .values import Wild

MOST_STEPS = 400_000
_Takes = Counter[tuple[str, What]]


class TooFar(Exception):
    """This takes too many steps to be followed."""


class Reach:
    """The state when `mover` reaches a send, and has sent `sent` by then."""

    def __init__(self, followed: Followed, mover: int, sent: Sends):
        self.followed = followed
        self.mover = mover
        self.sent: dict[int, Sends] = {part.number: Counter() for part in followed.parts}
        self.sent[mover] = sent
        self.ended: set[int] = set()
        self.steps = 0
        self._supplies: dict[tuple[int, str, What], int] = {}
        # The counts on each path that is reached and ends with a number.
        self._went: dict[int, list[tuple[_Takes, Sends]]] = {}

    def may_end(self, component: int) -> bool:
        """Whether it can have ended by then."""
        is_new = True
        while is_new:
            is_new = False
            self._supplies.clear()
            for part in self.followed.parts:
                if part.number != self.mover:
                    is_new = self._settle(part.number, part.code) or is_new
        return component in self.ended

    def _settle(self, number: int, code: Code) -> bool:
        """Follows one component. Returns whether anything new was found."""
        before, was_ended = Counter(self.sent[number]), number in self.ended
        self._went.clear()
        if self._follow(number, code, Counter(), Counter()):
            self.ended.add(number)
        return self.sent[number] != before or was_ended is not (number in self.ended)

    def _follow(self, number: int, code: Code, takes: _Takes, sent: Sends) -> bool:
        """Whether the end of these statements may be reached. The counts are those before them, and are updated."""
        for statement in code:
            self.steps += 1
            if self.steps > MOST_STEPS:
                raise TooFar()
            if isinstance(statement, Failed) or not self._passes(number, statement, takes):
                return False
            if isinstance(statement, Went):
                self._went.setdefault(statement.number, []).append((takes, sent))
                return False
            if isinstance(statement, Sent):
                count_sent(sent, self.followed, number, statement)
                self.sent[number] |= sent
            elif isinstance(statement, Ways) and not self._follow_ways(number, statement, takes, sent):
                return False
        return True

    def _follow_ways(self, number: int, statement: Ways, takes: _Takes, sent: Sends) -> bool:
        behind: list[tuple[_Takes, Sends]] = []
        before = set(self._went)
        for way in statement.branches:
            inner = self._inner(way, takes, sent)
            if inner and self._passes(number, way.operation, inner[0]) and self._follow(number, way.code, *inner):
                behind.append(inner)
        if not behind:
            # Paths with a number continue in the `alt` after this one.
            return bool(set(self._went) - before)
        least, most = _all_of(behind)
        takes.clear()
        takes.update(least)
        sent |= most
        return True

    def _inner(self, way: Way, takes: _Takes, sent: Sends) -> Optional[tuple[_Takes, Sends]]:
        """The counts at the beginning of a branch; None if no path with its number was reached."""
        if not isinstance(way.operation, Came):
            return Counter(takes), Counter(sent)
        came = self._went.pop(way.operation.number, None)
        return _all_of(came) if came else None

    def _passes(self, number: int, operation: object, takes: _Takes) -> bool:
        """Whether the message that it waits for may be there."""
        if isinstance(operation, GotEnd):
            # After the end of the test case no message is sent to it.
            return False
        if isinstance(operation, GotDone):
            return operation.component in self.ended
        if not isinstance(operation, Got) or operation.how == "check":
            return True
        whats: list[What] = [None]
        if operation.message is not None:
            type = operation.message.type.root
            whats += {(type, operation.message.form): None, (type, Wild.ANY): None}
        for what in whats:
            takes[operation.port, what] += 1
            if takes[operation.port, what] > self._supply(number, operation.port, what):
                return False
        return True

    def _supply(self, number: int, port: str, what: What) -> int:
        """How many such messages can have arrived at the port."""
        key = (number, port, what)
        found: Optional[int] = self._supplies.get(key)
        if found is None:
            end = End(number, port)
            ends = dict.fromkeys(peers(self.followed.joins, end))
            known = [one for one in ends if one.component in self.sent]
            # Nothing is known of messages from outside the script.
            found = sum(sum_of(self.sent[one.component], one.port, end, what) for one in known) + ENDLESS * (len(ends) - len(known))
            self._supplies[key] = found
        return found


def _all_of(several: list[tuple[_Takes, Sends]]) -> tuple[_Takes, Sends]:
    """The least number taken and the most sent on several paths."""
    least, most = Counter(several[0][0]), Counter(several[0][1])
    for takes, sent in several[1:]:
        least &= takes
        most |= sent
    return least, most
