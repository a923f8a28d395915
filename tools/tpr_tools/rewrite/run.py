"""The state that all behaviours of a rewrite share: the program, the refusals, and the counts that limit the work."""
from __future__ import annotations

import time
from dataclasses import dataclass, field
from enum import Enum
from typing import Callable, NoReturn, Optional

from . import tree
from .flowing import Flows
from .program import Program
from .refusing import Refusal, refuse
from .sorting import MOST_OF_TREE
from .tokens import Refused, Token, refused_at
from .tree import Expression
from .types import Kind, Type, Types
from .values import Elements, Form, PortValue

MOST_STEPS = 150_000
# Limits of the first attempt, in which the messages that can come aren't known: if something was refused that may be
# carried over once they are, and otherwise.
MOST_OPEN_STEPS = 2_000
MOST_FIRST_STEPS = 10_000
# The most that tpr check accepts.
MOST_STATEMENTS = 100_000
MOST_REFUSALS = 100
MOST_PORTS = 64


class TooMany(Exception):
    """There are so many refusals that the rest isn't followed."""


class Reading(Enum):
    """How a running timer is read: it is refused; it never expires while something else is waited for; or it expires at
    any moment after its start."""

    REFUSED = ""
    NEVER = "never"
    ANY = "any"


@dataclass(frozen=True)
class Options:
    """The options, and the limits."""

    encodes: bool = False
    timers: Reading = Reading.REFUSED
    # A send to a component that has ended is carried over, though its message stays queued here.
    queues_ended: bool = False
    # The most values by which a receive is split, the most statements that are written, and the most seconds.
    values: int = 64
    statements: int = 40_000
    seconds: int = 60
    # Called each second with the progress.
    tell: Callable[[str], None] = lambda told: None


@dataclass
class Run:
    program: Program
    parameters: dict[str, Expression]
    options: Options = Options()
    # The most messages that can come to a port, by the number of its component and its name.
    most: dict[tuple[int, str], int] = field(default_factory=dict)
    refused: dict[tuple[str, int, int], Refused] = field(default_factory=dict)
    # The places that may be carried over once the messages that can come are known.
    open: set[tuple[str, int, int]] = field(default_factory=set)
    # Whether an end from outside, or a send to an ended component, is refused after a wait that perhaps no message can
    # end.
    is_behind: bool = False
    # The messages that can come, if they are computed.
    flows: Optional[Flows] = None
    # The components that the end of the test case ends if they still wait.
    ending: set[int] = field(default_factory=set)
    lost: Optional[Token] = None
    # Notes about parts that are carried over; the sends among them that go to components that may have ended.
    notes: list[Refused] = field(default_factory=list)
    queued: set[Token] = field(default_factory=set)
    # The places that ask whether a component runs which may have ended.
    unsure: set[Token] = field(default_factory=set)
    begun: float = field(default_factory=time.process_time)
    # The time of the last report of progress, by the wall clock.
    told: float = field(default_factory=time.monotonic)
    # Whether anything was waited for (if not, the messages that can come change nothing), and whether a message decided
    # how a path continues.
    has_waited: bool = False
    has_forked: bool = False
    # Whether equivalent paths are written once; whether a script that becomes large is given up for that; and whether
    # it was.
    sorts: bool = False
    may_sort: bool = False
    is_large: bool = False
    # Whether following may stop early, to be repeated once the messages that can come are known, and whether it did.
    may_leave: bool = False
    has_left: bool = False
    steps: int = 0
    written: int = 0
    # How much was written at the last estimate of the rest.
    looked_ahead: int = 0
    # The ports at which a `repeat` counts the messages that can come.
    counted: set[tuple[int, str]] = field(default_factory=set)

    def tell(self, refusal: Refusal) -> None:
        if not refusal.reason:
            self.lost = self.lost or refusal.at
            return
        told = refused_at(refusal.at, refusal.reason)
        place = (told.file, told.line, told.column)
        self.refused.setdefault(place, told)
        if refusal.is_open:
            self.open.add(place)
        is_unsure = any(words in refusal.reason for words in ("from outside", "after the end of"))
        self.is_behind = self.is_behind or self.has_waited and is_unsure
        if len(self.refused) >= MOST_REFUSALS:
            raise TooMany()

    def step(self, at: Token) -> None:
        self.steps += 1
        if self.steps % 256 == 0:
            self._look_at_time(at)
        if self.may_leave and self.has_waited:
            self._look_at_steps()
        if self.steps > MOST_STEPS:
            self._stop(at, f"to follow the script to here takes more than {MOST_STEPS:,} steps")

    def _look_at_steps(self) -> None:
        if self.steps > (MOST_OPEN_STEPS if self.open else MOST_FIRST_STEPS) and (self.open or self.has_forked):
            self.has_left = True
            raise TooMany()

    def _look_at_time(self, at: Token) -> None:
        """Reports the progress to a waiting user, and ends if it takes too long."""
        took = int(time.process_time() - self.begun)
        most = self.options.seconds
        if took >= most:
            self._stop(at, f"this takes more than {most} seconds: --seconds {2 * most} gives it twice as many")
        if time.monotonic() >= self.told + 1:
            self.told = time.monotonic()
            self.options.tell(
                f"{took} s of {most}: line {at.line}, {self.written:,} of {self.options.statements:,} statements"
            )

    def write(self, at: Token) -> None:
        self.written += 1
        if self.may_sort and self.written > MOST_OF_TREE:
            self.is_large = True
            raise TooMany()
        if self.written > self.options.statements:
            self._stop(at, self._too_many())

    def look_ahead(self, at: Token, more: int, is_growing: bool) -> None:
        """Ends early if a loop is going to write this many more statements: more than twice the limit, because paths
        also end, or more than the limit if each turn writes more than all before."""
        if self.written + more > (1 if is_growing else 2) * self.options.statements:
            self._stop(at, self._too_many(self.written + more))

    def _too_many(self, wanted: int = 0) -> str:
        most = self.options.statements
        reason = f"more than {most:,} statements would be written"
        if most >= MOST_STATEMENTS or wanted > 2 * MOST_STATEMENTS:
            return f"{reason}, and a script of the profile has at most {MOST_STATEMENTS:,}"
        return f"{reason}: --statements {min(max(2 * most, wanted), MOST_STATEMENTS)} lets it write more"

    def _stop(self, at: Token, reason: str) -> NoReturn:
        """Ends here: nothing after such a place is followed."""
        self.tell(Refusal(at, reason, self.has_waited))
        raise TooMany()

    def anew(self, flows: Optional[Flows] = None, sorts: bool = False, may_sort: bool = False) -> Run:
        """A new run with other settings, within the same time limit."""
        found = Run(self.program, self.parameters, self.options, flows=flows, sorts=sorts, may_sort=may_sort)
        found.begun, found.told = self.begun, self.told
        return found

    def begin(self, at: Token) -> None:
        """Forgets the results of an earlier round."""
        self.counted.clear()
        self.refused.clear()
        self.open.clear()
        self.lost = None
        self.steps = self.written = self.looked_ahead = 0
        self._look_at_time(at)


@dataclass(frozen=True)
class PortOf:
    """A port of a component type: its name in the written script, and its type."""

    name: str
    type: Type


@dataclass
class Members:
    """The members of a component type: ports, arrays of ports by their names, and variables."""

    ports: dict[str, PortOf] = field(default_factory=dict)
    arrays: dict[str, Form] = field(default_factory=dict)
    others: list[tree.Declaration] = field(default_factory=list)


_SizeOf = Callable[[Expression], Form]


def members_of(types: Types, component: Type, at: Token, size_of: _SizeOf) -> Members:
    """The members of a component type, and of those that it extends."""
    found = Members()
    for body in _bodies(types, component, at, []):
        for member in body.members:
            if member.kind is not tree.Declared.PORT:
                found.others.append(member)
                continue
            type = types.of(member.type, "")
            if type.kind is not Kind.PORT:
                refuse(member.type.at, f"`{member.type.word}` is no type of ports")
            for variable in member.variables:
                _add_ports(found, variable, type, size_of)
    return found


def _add_ports(found: Members, variable: tree.Variable, type: Type, size_of: _SizeOf) -> None:
    sizes: list[int] = []
    for node in variable.sizes:
        size = size_of(node)
        if isinstance(size, bool) or not isinstance(size, int) or not 0 < size <= MOST_PORTS:
            refuse(node.at, f"an array of ports has at most {MOST_PORTS}, and its size is known before")
        sizes.append(size)
    names = [variable.name]
    for size in sizes:
        names = [f"{name}_{number}" for name in names for number in range(size)]
    if len(found.ports) + len(names) > MOST_PORTS:
        refuse(variable.at, f"a component has at most {MOST_PORTS} ports")
    for name in names:
        found.ports[name] = PortOf(name, type)
    if sizes:
        found.arrays[variable.name] = _nested([PortValue(name) for name in names], sizes)


def _nested(values: list[Form], sizes: list[int]) -> Form:
    """The ports as a possibly nested array."""
    for size in reversed(sizes):
        groups = range(0, len(values), size)
        values = [Elements(tuple(values[first : first + size])) for first in groups]
    return values[0]


def _bodies(types: Types, component: Type, at: Token, seen: list[Type]) -> list[tree.ComponentBody]:
    body = component.root.component
    if body is None or component in seen:
        refuse(at, f"`{component.name}` is no component type that can be read")
    found: list[tree.ComponentBody] = []
    for above in body.extends:
        assert isinstance(above, tree.Name)
        for other in _bodies(types, types.named(above.word, above.at), above.at, [*seen, component]):
            if other not in found:
                found.append(other)
    return [*found, body]
