"""Finds sends to a component that has ended: they are errors in the full language (ES 201 873-1, 21.3.4, 22.1), but in
the profile the message stays queued. A send is carried over if the receiver still waits for something that comes after
it.
"""
from __future__ import annotations

from collections import Counter
from dataclasses import dataclass, field
from typing import Iterable, Optional

from .emitted import Came, Code, Failed, Got, GotDone, GotEnd, Sent, StillRuns, Way, Ways, Went
from .following import Followed, Part
from .paths import End, peers
from .reaching import Reach, TooFar
from .sending import Sends, What, count_sent, receivers, sum_of
from .tokens import Token
from .values import Wild



# How often Reach is asked what all components can have done.
MOST_ASKED = 300


@dataclass(frozen=True)
class LateSend:
    """A send that comes after the end of its receiver, certainly or possibly."""

    at: Token
    receiver: str
    is_sure: bool

    @property
    def reason(self) -> str:
        when = "this comes after the end of" if self.is_sure else "this may come after the end of"
        return f"{when} `{self.receiver}`: in the full language that is an error, but here the message stays queued"


@dataclass
class _Ended:
    """What all paths of a component have in common: the least number of messages that it takes at each port, in total,
    of each type and of each template; and the components whose end it waits for."""

    takes: Counter[tuple[str, What]]
    awaited: frozenset[int]


@dataclass
class _Walk:
    part: Part
    sent: Sends = field(default_factory=Counter)
    done: frozenset[int] = frozenset()
    # The state at the end of each path with a number.
    went: dict[int, list[_Walk]] = field(default_factory=dict)

    def inner(self, way: Way) -> _Walk:
        """The state at the beginning of a branch."""
        if isinstance(way.operation, Came):
            return self.all_of(self.went[way.operation.number])
        done = self.done | ({way.operation.component} if isinstance(way.operation, GotDone) else set())
        return _Walk(self.part, Counter(self.sent), done, self.went)

    def all_of(self, several: list[_Walk]) -> _Walk:
        """What holds on each of several paths."""
        sent: Sends = Counter()
        for one in several:
            sent |= one.sent
        return _Walk(self.part, sent, frozenset.intersection(*(one.done for one in several)), self.went)


class EndedFinder:
    def __init__(self, followed: Followed):
        self.followed = followed
        self.parts = {part.number: part for part in followed.parts}
        self.ends = {number: _ended(part.code, _Ended(Counter(), frozenset()), {}) for number, part in self.parts.items()}
        self.most = {number: _most_of(followed, number, part.code, Counter(), {}) for number, part in self.parts.items()}
        self.found: dict[tuple[Token, str], LateSend] = {}
        # The places that say a component runs although it may have ended.
        self.unsure: set[Token] = set()
        self.asked = 0

    def all(self) -> list[LateSend]:
        for part in self.followed.parts:
            self._walk(_Walk(part), part.code)
        return list(self.found.values())

    def _walk(self, walk: _Walk, code: Code) -> bool:
        """Follows the code. Returns whether a path continues after it."""
        for statement in code:
            if isinstance(statement, Sent):
                self._look_at(walk, statement)
                count_sent(walk.sent, self.followed, walk.part.number, statement)
            elif isinstance(statement, GotDone):
                walk.done |= {statement.component}
            elif isinstance(statement, StillRuns):
                if all(self._may_have_ended(walk, number) for number in statement.components):
                    self.unsure.add(statement.at)
            elif isinstance(statement, Went):
                walk.went.setdefault(statement.number, []).append(walk)
                return False
            elif isinstance(statement, Ways):
                self._walk_ways(walk, statement)
        return True

    def _walk_ways(self, walk: _Walk, statement: Ways) -> None:
        inner = [(walk.inner(way), way) for way in statement.branches]
        behind = [one for one, way in inner if self._walk(one, way.code)]
        if behind:
            found = walk.all_of(behind)
            walk.sent, walk.done = walk.sent | found.sent, found.done

    def _look_at(self, walk: _Walk, statement: Sent) -> None:
        for end in receivers(self.followed, walk.part.number, statement):
            part = self.parts.get(end.component)
            if part is None or end.component <= 0 or part.started is None or part.is_alive:
                continue
            is_sure = end.component in walk.done
            if is_sure or self._may_have_ended(walk, end.component):
                late = LateSend(statement.at, part.hint, is_sure)
                self.found.setdefault((statement.at, part.hint), late)

    def _may_have_ended(self, walk: _Walk, component: int) -> bool:
        """Whether it may have ended, by what all components can have done until then."""
        if self._is_before_end(walk, component, frozenset()):
            return False
        self.asked += 1
        if self.asked > MOST_ASKED:
            return True
        try:
            return Reach(self.followed, walk.part.number, walk.sent).may_end(component)
        except TooFar:
            return True

    def _is_before_end(self, walk: _Walk, receiver: int, seen: frozenset[int]) -> bool:
        """Whether the receiver, on each of its paths, still waits for something that only comes after this."""
        if receiver == walk.part.number:
            return True
        ended = self.ends.get(receiver)
        if ended is None or receiver in seen:
            # None: it never ends. Otherwise this is being asked already.
            return ended is None
        if any(self._needs(walk, End(receiver, port), what, count) for (port, what), count in ended.takes.items()):
            return True
        return any(self._is_before_end(walk, other, seen | {receiver}) for other in ended.awaited)

    def _needs(self, walk: _Walk, end: End, what: What, count: int) -> bool:
        """Whether it takes more such messages than the others send there in total, together with those that were sent
        until now."""
        came = 0
        is_sender = False
        for other in set(peers(self.followed.joins, end)):
            if other.component == walk.part.number:
                is_sender = True
                came += sum_of(walk.sent, other.port, end, what)
            elif other.component in self.most:
                came += sum_of(self.most[other.component], other.port, end, what)
        return is_sender and came < count


def _most_of(followed: Followed, sender: int, code: Code, behind: Sends, came: dict[int, Sends]) -> Sends:
    """The most messages that are sent from here to the end of a path; also for each path with a number."""
    found = Counter(behind)
    for statement in reversed(code):
        if isinstance(statement, Sent):
            count_sent(found, followed, sender, statement)
        elif isinstance(statement, Went):
            found = Counter(came[statement.number])
        elif isinstance(statement, Ways):
            most: Sends = Counter()
            for way in statement.branches:
                inner = _most_of(followed, sender, way.code, found, came)
                if isinstance(way.operation, Came):
                    came[way.operation.number] = inner
                most |= inner
            found = most
    return found


_Came = dict[int, Optional[_Ended]]


def _ended(code: Code, behind: Optional[_Ended], came: _Came) -> Optional[_Ended]:
    """What all paths have in common that reach an end from here on, including what follows; None if no path does."""
    found = behind
    for statement in reversed(code):
        if isinstance(statement, Failed):
            found = None
        elif isinstance(statement, Went):
            found = came[statement.number]
        elif isinstance(statement, Ways):
            inner = [one for one in [_ended_way(way, found, came) for way in statement.branches] if one is not None]
            awaited = frozenset.intersection(*(one.awaited for one in inner)) if inner else frozenset[int]()
            found = _Ended(_least(one.takes for one in inner), awaited) if inner else None
        elif found is not None and isinstance(statement, (Got, GotDone)):
            found = _taken(found, statement)
    return found


def _ended_way(way: Way, behind: Optional[_Ended], came: _Came) -> Optional[_Ended]:
    # After the end of the test case no message is sent to it.
    found = _ended(way.code, behind, came) if not isinstance(way.operation, GotEnd) else None
    if isinstance(way.operation, Came):
        came[way.operation.number] = found
    if found is not None and isinstance(way.operation, (Got, GotDone)):
        return _taken(found, way.operation)
    return found


def _taken(behind: _Ended, operation: Got | GotDone) -> _Ended:
    found = _Ended(Counter(behind.takes), behind.awaited)
    _take(found, operation)
    return found


def _take(found: _Ended, operation: Got | GotDone) -> None:
    if isinstance(operation, GotDone):
        found.awaited |= {operation.component}
    elif operation.how != "check":
        found.takes[operation.port, None] += 1
        if operation.message is not None:
            type = operation.message.type.root
            for form in {operation.message.form, Wild.ANY}:
                found.takes[operation.port, (type, form)] += 1


def _least(counts: Iterable[Counter[tuple[str, What]]]) -> Counter[tuple[str, What]]:
    found: Optional[Counter[tuple[str, What]]] = None
    for one in counts:
        found = Counter(one) if found is None else found & one
    return found or Counter()
