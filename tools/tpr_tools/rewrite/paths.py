"""The state of an execution: its variables, what it has set up, and the code that was written for it.

An execution forks if a message decides how it continues. The paths join again after the `alt` if they agree.
"""
from __future__ import annotations

from copy import copy
from dataclasses import dataclass, field, replace
from enum import Enum
from typing import Callable, Hashable, Iterable, Optional, TypeVar

from . import tree
from .emitted import Code
from .tokens import Token
from .types import Type
from .values import End as End, Form, Mark, Reference, Symbol

Key = tuple[int, str]
Route = tuple[End, End]
Span = tuple[int, int]
Counted = TypeVar("Counted", bound=Hashable)


@dataclass(frozen=True)
class Slot:
    """A variable, with its type. A constant `is_fixed`, and a value that is evaluated at its use `is_late`."""

    type: Optional[Type]
    value: Form
    is_fixed: bool = False
    is_late: bool = False
    restriction: str = ""


class Scope:
    """A block in which names are declared; other names are looked up in the block around it."""

    def __init__(self, number: int, above: Optional[Scope]):
        self.number = number
        self.above = above


@dataclass(frozen=True)
class ActiveDefault:
    number: int
    altstep: tree.Altstep
    arguments: tuple[tuple[str, Slot], ...]
    at: Token


@dataclass(frozen=True)
class Created:
    """A component: its type, and the name under which it was created."""

    type: Type
    hint: str
    at: Token
    is_alive: bool


@dataclass(frozen=True)
class Joined:
    is_map: bool
    one: End
    other: End
    at: Token
    # The components that were already running: they may not have used these ports before.
    running: frozenset[int]


def peers(joins: Iterable[Joined], end: End) -> list[End]:
    """The ports that a port is joined with."""
    found = [join.other for join in joins if join.one == end]
    return found + [join.one for join in joins if join.other == end and join.one != end]


@dataclass(frozen=True)
class Started:
    body: tree.Function | tree.Altstep
    arguments: tuple[tuple[str, Slot], ...]
    at: Token
    # It waits for a message before it begins, because something came before its start.
    is_told: bool


@dataclass
class State:
    variables: dict[Key, Slot] = field(default_factory=dict)
    defaults: tuple[ActiveDefault, ...] = ()
    activated: int = 0
    verdict: str = "none"
    components: tuple[Created, ...] = ()
    joins: tuple[Joined, ...] = ()
    started: tuple[tuple[int, Started], ...] = ()
    # Components that are surely done, and those that must be waited for before it continues.
    done: frozenset[int] = frozenset()
    awaited: frozenset[int] = frozenset()
    used: frozenset[str] = frozenset()
    left: frozenset[str] = frozenset()
    taken: tuple[tuple[str, int], ...] = ()
    # The least and the most messages that it took, by its port and the port that they were sent from.
    got: dict[tuple[str, End], Span] = field(default_factory=dict)
    # How many messages it may have sent on each route. The comparison leaves this out, because a turn of a loop that
    # only sends changes nothing else.
    sent: dict[Route, Span] = field(default_factory=dict, compare=False)

    def copy(self) -> State:
        found = copy(self)
        found.variables, found.got, found.sent = dict(self.variables), dict(self.got), dict(self.sent)
        return found

    def setup(self) -> tuple[object, ...]:
        """Everything except the variables and the counts."""
        return (self.defaults, self.components, self.joins, self.started, self.done, self.awaited)


class Exit(Enum):
    """How a list of statements was left."""

    ON = "on"
    BREAK = "break"
    CONTINUE = "continue"
    REPEAT = "repeat"
    RETURN = "return"
    END = "end"
    # Jumping to a label; or waiting at the end of the list with that label, while other paths jump.
    JUMP = "goto"
    BEHIND = "behind"
    # Never reached, or waiting forever: the behaviour doesn't end here.
    STUCK = "stuck"


@dataclass
class Fork:
    """An `alt` that paths come from: the code that contains it, and the number of paths."""

    code: Code
    above: Optional[Fork]
    ways: int
    depth: int


@dataclass
class Path:
    code: Code
    state: State
    fork: Optional[Fork]
    exit: Exit = Exit.ON
    result: Optional[Form] = None
    label: str = ""

    def copy(self) -> Path:
        return Path(self.code, self.state.copy(), self.fork, self.exit, self.result, self.label)


@dataclass
class Checkpoint:
    """The paths before a statement, and the amount that was written, for each and in total."""

    index: int
    counted: int
    statements: int
    ways: list[Path]
    written: list[tuple[Code, int]]

    def restored(self) -> list[Path]:
        for code, length in self.written:
            del code[length:]
        return [path.copy() for path in self.ways]


def checkpoint(index: int, counted: int, statements: int, paths: list[Path]) -> Checkpoint:
    codes = {id(code): code for path in paths for code in _codes_of(path)}
    written = [(code, len(code)) for code in codes.values()]
    return Checkpoint(index, counted, statements, [path.copy() for path in paths], written)


def _codes_of(path: Path) -> list[Code]:
    """The code written for the path, and the code where it continues after joining others."""
    found, fork = [path.code], path.fork
    while fork is not None:
        found.append(fork.code)
        fork = fork.above
    return found


def joined(
    paths: list[Path], live: frozenset[str], has_verdict: bool, leave: Callable[[Path, set[Key]], None],
    counts: bool = False,
) -> list[Path]:
    """Joins the paths of one `alt` that agree in everything that is still used; `leave` is called for each of them
    before. If `counts`, they must also agree in the messages that they took."""
    while True:
        groups: dict[int, list[Path]] = {}
        for path in paths:
            groups.setdefault(id(path.fork), []).append(path)
        merged = {
            key: _merged(group, live, leave) for key, group in groups.items()
            if _is_whole(group) and _agree(group, live, has_verdict) and not (counts and _took_apart(group))
        }
        if not merged:
            return paths
        # The joined path takes the place of the first path of its group.
        paths = [
            merged.get(id(path.fork), path) for path in paths
            if id(path.fork) not in merged or path is groups[id(path.fork)][0]
        ]


def _is_whole(group: list[Path]) -> bool:
    """Whether these are all paths of their `alt`."""
    fork = group[0].fork
    return fork is not None and len(group) == fork.ways


def _merged(group: list[Path], live: frozenset[str], leave: Callable[[Path, set[Key]], None]) -> Path:
    fork = group[0].fork
    assert fork is not None
    for path in group:
        leave(path, live_keys(path.state, live))
    return Path(fork.code, common(group, live), fork.above)


def _agree(group: list[Path], live: frozenset[str], has_verdict: bool) -> bool:
    first = group[0]
    if any(path.exit is not Exit.ON for path in group):
        return False
    told = _told(first.state, live, has_verdict)
    return all(_told(path.state, live, has_verdict) == told for path in group[1:])


def _took_apart(group: list[Path]) -> bool:
    return any(path.state.got != group[0].state.got for path in group)


def _told(state: State, live: frozenset[str], has_verdict: bool) -> tuple[object, ...]:
    kept = live_keys(state, live)
    variables = {key: slot.value for key, slot in state.variables.items() if key in kept}
    # `True == 1` in Python, so the types are compared too.
    kinds = {key: type(value) for key, value in variables.items()}
    verdict = state.verdict if has_verdict else ""
    return (variables, kinds, state.setup(), verdict)


def live_keys(state: State, live: frozenset[str]) -> set[Key]:
    """The variables that are still used, and those that they refer to."""
    found: set[Key] = set()
    for key, slot in state.variables.items():
        if key[1] in live or isinstance(slot.value, Reference):
            found.add(key)
            if isinstance(slot.value, Reference):
                found.add((slot.value.scope, slot.value.name))
    return found


def common(group: list[Path], live: frozenset[str]) -> State:
    """The common state: variables that aren't used any more are forgotten, and of the numbers of messages taken the
    least counts."""
    state = group[0].state.copy()
    kept = live_keys(state, live)
    state.variables = {
        key: slot if key in kept else replace(slot, value=Mark.LOST)
        for key, slot in state.variables.items()
    }
    state.used = frozenset().union(*(path.state.used for path in group))
    state.left = frozenset().union(*(path.state.left for path in group))
    counts = [dict(path.state.taken) for path in group]
    ports = set(counts[0]).intersection(*counts[1:])
    state.taken = tuple(sorted((port, min(count[port] for count in counts)) for port in ports))
    state.got = _spans_of_all([path.state.got for path in group])
    state.sent = _spans_of_all([path.state.sent for path in group])
    worst = {path.state.verdict for path in group}
    state.verdict = worst.pop() if len(worst) == 1 else "none"
    return state


def _spans_of_all(several: list[dict[Counted, Span]]) -> dict[Counted, Span]:
    """The bounds that hold on each of several paths."""
    found: dict[Counted, Span] = {}
    for key in dict.fromkeys(key for one in several for key in one):
        spans = [one.get(key, (0, 0)) for one in several]
        found[key] = (min(low for low, _ in spans), max(high for _, high in spans))
    return found


class Split(Exception):
    """The continuation depends on a part of a received message: the message gets a branch for each case."""

    def __init__(self, symbol: Symbol, steps: tuple[int, ...], templates: Iterable[Form], at: Token):
        super().__init__("a branch for each case")
        self.symbol = symbol
        self.steps = steps
        self.templates = tuple(templates)
        self.at = at
