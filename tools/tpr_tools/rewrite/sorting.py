"""Writes equivalent paths once, if not all paths of their `alt` are equivalent.

The profile has no calls, and none of its variables holds a computed number. So each path ends with a number that its
component sends to itself, and after the `alt` there is a branch for each number, where all paths that sent it continue.
The message is there when the branches are tried, and nothing else is received at its port.
"""
from __future__ import annotations

from typing import Callable, Hashable, NamedTuple, Optional

from .emitted import Came, Code, Way, Ways, Went
from .paths import Exit, Fork, Key, Path, common, live_keys
from .tokens import Token

# A script with more statements is written again, with sorted paths.
MOST_OF_TREE = 4_000


class Sorted(NamedTuple):
    """A path, and whether it continues in a loop."""

    path: Path
    goes_on: bool


class Asked(NamedTuple):
    """The criteria for comparing paths."""

    live: frozenset[str]
    has_verdict: bool
    leave: Callable[[Path, set[Key]], None]
    next_number: Callable[[], int]
    write: Callable[[Token], None]


def sorted_ways(ways: list[Sorted], above: Optional[Fork], at: Token, asked: Asked) -> list[Sorted]:
    """The paths, with equivalent ones joined. They are all paths that come from the one with the fork `above`."""
    moving = [way for way in ways if way.path.exit is not Exit.STUCK]
    roots = {id(fork): fork for fork in (_root(way.path, above) for way in moving)}
    fork = next(iter(roots.values()), None)
    if len(moving) < 2 or len(roots) != 1 or fork is None:
        return ways
    groups: dict[Hashable, list[Sorted]] = {}
    for way in moving:
        groups.setdefault(_told(way, asked), []).append(way)
    if len(groups) == len(moving):
        return ways
    stuck = [way for way in ways if way.path.exit is Exit.STUCK]
    if len(groups) == 1:
        return [*stuck, _joined(moving, fork.code, fork.above, asked)]
    behind = Fork(fork.code, fork.above, len(groups), fork.depth)
    branches = Ways(at, [])
    found = [_one(group, branches, behind, at, asked) for group in groups.values()]
    fork.code.append(branches)
    return [*stuck, *found]


def _root(path: Path, above: Optional[Fork]) -> Optional[Fork]:
    """The first fork below `above` that the path comes from."""
    fork = path.fork
    while fork is not None and fork.above is not above:
        fork = fork.above
    return fork


def _one(group: list[Sorted], branches: Ways, fork: Fork, at: Token, asked: Asked) -> Sorted:
    number = asked.next_number()
    branch = Way(at, Came(at, number), [])
    branches.branches.append(branch)
    found = _joined(group, branch.code, fork, asked)
    for way in group:
        asked.write(at)
        way.path.code.append(Went(at, number))
    asked.write(at)
    return found


def _joined(group: list[Sorted], code: Code, fork: Optional[Fork], asked: Asked) -> Sorted:
    """One path for all of the group, with this code."""
    paths = [way.path for way in group]
    for path in paths:
        asked.leave(path, live_keys(path.state, asked.live))
    first = paths[0]
    path = Path(code, common(paths, asked.live), fork, first.exit, first.result, first.label)
    return Sorted(path, group[0].goes_on)


def _told(way: Sorted, asked: Asked) -> Hashable:
    path, state = way.path, way.path.state
    whole = (way.goes_on, path.exit, path.label, path.result, type(path.result), state.setup())
    verdict = state.verdict if asked.has_verdict else ""
    if path.exit is Exit.END:
        return (*whole, verdict)
    kept = live_keys(state, asked.live)
    # `True == 1` in Python, so the types are compared too.
    variables = frozenset((key, slot.value, type(slot.value)) for key, slot in state.variables.items() if key in kept)
    return (*whole, verdict, variables, frozenset(state.got.items()))
