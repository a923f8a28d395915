"""Follows all behaviours of a test case: its own, and those of the components that it starts."""
from __future__ import annotations

from collections import Counter
from dataclasses import dataclass, field
from typing import Iterator, Optional

from . import tree
from .components import SYSTEM, Behaviour
from .flowing import Flows
from .emitted import Came, Code, EndTold, Emitted, Got, GotDone, GotEnd, Operated, Sent, Ticked, Told, Verdict, Ways
from .labels import lost_label
from .paths import End, Exit, Joined, Path, Route, Started, State, peers
from .refusing import Refusal, refuse, refuse_open
from .run import Run
from .tokens import Token
from .types import Kind, Type
from .values import VERDICTS

MOST_ROUNDS = 8
MOST_KNOWN_ROUNDS = 2_000
# A round takes long if paths are sorted.
MOST_SORTED_ROUNDS = 5
_Counts = Counter[tuple[int, str]]


class NotClosed(Exception):
    """The messages that can come aren't known, because the system sends too."""


@dataclass
class Part:
    """A component: its type, and the code written for its behaviour."""

    number: int
    type: Type
    hint: str
    at: Token
    behaviour: Behaviour
    code: Code
    started: Optional[Started] = None
    # It still exists after its behaviour has ended.
    is_alive: bool = False


@dataclass
class Followed:
    case: tree.TestCase
    parts: list[Part]
    joins: tuple[Joined, ...]
    system: Optional[Type]
    # Components whose end is awaited on every path of the test case.
    done: frozenset[int] = frozenset()
    # For each component, the least local verdict of the test case on paths that end without waiting for that component.
    least: dict[int, str] = field(default_factory=dict)


class CaseBehaviour(Behaviour):
    can_set_up = True


class SystemBehaviour(Behaviour):
    """The function `sut`: it sends the messages that its ports list as received, and receives those listed as sent."""

    def sent_types(self, port: str) -> list[Type]:
        return super().received_types(port)

    def received_types(self, port: str) -> list[Type]:
        return super().sent_types(port)


def follow(run: Run, case: tree.TestCase) -> Followed:
    """Follows all behaviours. If a `repeat` counts the messages that can come, does it again until the counts hold."""
    if run.flows is not None:
        return _follow_flows(run, case, run.flows)
    for _ in range(MOST_ROUNDS):
        run.counted.clear()
        run.steps = run.written = run.looked_ahead = 0
        followed = _follow_once(run, case)
        counts = _most(followed)
        short = [key for key in run.counted if counts[key] > run.most.get(key, 0)]
        if not short or run.refused or run.lost:
            return followed
        for key in short:
            run.most[key] = counts[key]
    refuse_open(case.at, "the number of times that a `repeat` is reached has no bound that is known before the run")


def _follow_flows(run: Run, case: tree.TestCase, flows: Flows) -> Followed:
    """Follows all behaviours, again and again until they send nothing new. They may compute messages in a cycle."""
    growing: Counter[tuple[Route, int]] = Counter()
    while max(growing.values(), default=0) < (MOST_SORTED_ROUNDS if run.sorts else MOST_KNOWN_ROUNDS):
        run.begin(case.at)
        flows.grown.clear()
        followed = _follow_once(run, case)
        if not is_closed(run, followed):
            raise NotClosed()
        if not flows.grown:
            return followed
        growing = Counter({place: growing[place] + 1 for place in flows.grown})
    refuse(case.at, f"what the components send goes on and on: {max(growing.values())} rounds in a row add to what one can take")


def is_closed(run: Run, followed: Followed) -> bool:
    """Whether nothing comes from outside: `sut` plays the system, or nothing is mapped."""
    if "sut" in run.program.functions:
        return True
    return all(SYSTEM not in (join.one.component, join.other.component) for join in followed.joins)


def _follow_once(run: Run, case: tree.TestCase) -> Followed:
    if case.runs_on is None:
        refuse(case.at, "a test case has `runs on`")
    system = _component_type(run, case.system, case.at) if case.system else None
    own = _component_type(run, case.runs_on, case.at)
    behaviour = CaseBehaviour(run, 0, own, case.at)
    behaviour.system = case.system or case.runs_on
    path = Path([], State(), None)
    ways = _from_the_start(behaviour, path, case)
    state = ways[0].state
    if system is None and any(SYSTEM in (join.one.component, join.other.component) for join in state.joins):
        # Without a `system` clause the test system interface has the test case's own type (9.2).
        system = own
    parts = [Part(0, own, "mtc", case.at, behaviour, path.code)]
    started = dict(state.started)
    for number in range(1, len(state.components) + 1):
        parts.append(_part(run, number, state, started))
    if system is not None:
        parts += _system_part(run, system, state)
    # A path that waits forever doesn't end the test case.
    ending = [way for way in ways if way.exit is not Exit.STUCK]
    for way in ending:
        _tell_ends(behaviour, way, case.at)
    done = frozenset(started).intersection(*(way.state.done | way.state.awaited for way in ending))
    least = {number: _least_without(number, ending) for number in started}
    return Followed(case, parts, state.joins, system, done, least)


def _least_without(number: int, ending: list[Path]) -> str:
    ways = [way.state for way in ending if number not in way.state.done | way.state.awaited]
    return min((state.verdict for state in ways), key=VERDICTS.index, default="error")


def _component_type(run: Run, word: str, at: Token) -> Type:
    type = run.program.types.named(word, at)
    if type.kind is not Kind.COMPONENT:
        refuse(at, f"`{word}` is no component type")
    return type


def _from_the_start(behaviour: Behaviour, path: Path, case: tree.TestCase) -> list[Path]:
    behaviour.begin(path)
    scope = behaviour.new_scope(behaviour.root)
    for name, slot in behaviour.bind(case.parameters, _arguments_of(behaviour.run, case), case.at, path, None):
        path.state.variables[scope.number, name] = slot
    ways = behaviour.statements(case.body.statements, path, scope)
    _look_at_exits(behaviour.run, ways, case.at)
    return ways


def _tell_ends(behaviour: Behaviour, way: Path, at: Token) -> None:
    """After everything that a path of the test case waits for, tells the components that it doesn't wait for that it
    has ended."""
    started = {number for number, _ in way.state.started}
    told = sorted(behaviour.run.ending & started - way.state.done - way.state.awaited)
    if told:
        behaviour.flush(way, at)
        way.code += [EndTold(at, number) for number in told]


def _arguments_of(run: Run, case: tree.TestCase) -> list[tree.Argument]:
    """The arguments of the test case from its `execute`; values from the command line replace them."""
    calls = run.program.calls_of(case.name)
    names = [parameter.name for parameter in case.parameters]
    known = {name: run.parameters[name] for name in names if name in run.parameters}
    given = calls[0].arguments if calls else []
    if len(calls) > 1 and any(parameter.name not in known for parameter in case.parameters):
        refuse(case.at, "the test case is executed with several lists of arguments: give one with --param for each parameter")
    by_name = {item.name: item for item in given if item.name is not None}
    in_order = dict(zip(names, (item for item in given if item.name is None)))
    found: list[tree.Argument] = []
    for parameter in case.parameters:
        item = in_order.get(parameter.name) or by_name.get(parameter.name)
        value = known.get(parameter.name) or (item.value if item else parameter.value)
        if value is None:
            refuse(parameter.at, f"the parameter `{parameter.name}` of the test case has no value: give one with --param")
        found.append(tree.Argument(parameter.at, parameter.name, value))
    return found


def _look_at_exits(run: Run, ways: list[Path], at: Token) -> None:
    if any(way.exit in (Exit.BREAK, Exit.CONTINUE, Exit.REPEAT) for way in ways):
        run.tell(Refusal(at, "a `break`, `continue` or `repeat` isn't inside a statement that it could leave"))
    lost = lost_label(ways)
    if lost is not None:
        run.tell(Refusal(at, f"a `goto` has no label `{lost}` here that it may jump to"))


def _part(run: Run, number: int, state: State, started: dict[int, Started]) -> Part:
    created = state.components[number - 1]
    behaviour = Behaviour(run, number, created.type, created.at)
    behaviour.known_started = frozenset(started) - {number}
    behaviour.known_joins = state.joins
    path = Path([], State(), None)
    own = started.get(number)
    part = Part(number, created.type, created.hint, created.at, behaviour, path.code, own, created.is_alive)
    if own is None:
        return part
    try:
        _perform(run, behaviour, path, own)
    except Refusal as refusal:
        run.tell(refusal)
    return part


def _perform(run: Run, behaviour: Behaviour, path: Path, started: Started) -> None:
    behaviour.begin(path)
    body = started.body
    if isinstance(body, tree.Function):
        ways = behaviour.perform(body, list(started.arguments), path, started.at)
    else:
        if started.arguments:
            refuse(started.at, "a component is started with an altstep that has parameters")
        call = tree.Call(started.at, tree.Name(started.at, body.name), [])
        statement = tree.CallStatement(started.at, call)
        ways = behaviour.statements([statement], path, behaviour.root)
    _look_at_exits(run, ways, started.at)


def _system_part(run: Run, system: Type, state: State) -> list[Part]:
    function = run.program.functions.get("sut")
    if function is None:
        return []
    behaviour = SystemBehaviour(run, SYSTEM, system, function.at)
    behaviour.known_joins = state.joins
    path = Path([], State(), None)
    started = Started(function, (), function.at, False)
    _perform(run, behaviour, path, started)
    return [Part(SYSTEM, system, "system", function.at, behaviour, path.code, started)]


# How much can come


def statements_of(code: Code) -> Iterator[Emitted]:
    for statement in code:
        yield statement
        if isinstance(statement, Ways):
            for way in statement.branches:
                if way.operation is not None:
                    yield way.operation
                yield from statements_of(way.code)


def _most(followed: Followed) -> _Counts:
    """The most messages that can come to each port."""
    found: _Counts = Counter()
    for part in followed.parts:
        for port, count in _sends(part.code).items():
            for end in peers(followed.joins, End(part.number, port)):
                found[end.component, end.port] += count
    return found


def _sends(code: Code) -> Counter[str]:
    """The most sends at each port on any path."""
    found: Counter[str] = Counter()
    for statement in code:
        if isinstance(statement, Sent):
            found[statement.port] += 1
        elif isinstance(statement, Ways):
            most: Counter[str] = Counter()
            for way in statement.branches:
                most |= _sends(way.code)
            found += most
    return found


def waits(code: Code) -> bool:
    """Whether anything in it waits for a message."""
    for statement in code:
        if isinstance(statement, (Got, GotDone)):
            return True
        if isinstance(statement, Ways):
            # A timeout and the end of the test case are sure to come.
            sure = (type(None), Ticked, GotEnd, Came)
            goes_on = any(isinstance(way.operation, sure) for way in statement.branches)
            if not goes_on or any(waits(way.code) for way in statement.branches):
                return True
    return False


def ports_used(code: Code) -> set[str]:
    return {
        statement.port for statement in statements_of(code) if isinstance(statement, (Sent, Got))
    }


def with_ends(run: Run, case: tree.TestCase) -> Followed:
    """Follows all behaviours. Components that may still wait when the test case ends get a branch for that."""
    followed = follow(run, case)
    while not run.refused and run.lost is None:
        waiting = {part.number for part in followed.parts if _is_left(followed, part) and waits(part.code)}
        if not waiting - run.ending:
            break
        run.ending |= waiting
        followed = follow(run, case)
    return followed


def _is_left(followed: Followed, part: Part) -> bool:
    """Whether the test case may end without waiting for the end of the component."""
    return part.started is not None and part.number > 0 and part.number not in followed.done


def look_at_ends(run: Run, followed: Followed) -> None:
    """Refuses what depends on the moment when a component begins or ends, if the order in the profile differs."""
    by_number = {part.number: part for part in followed.parts}
    for part in followed.parts:
        if part.started and _is_left(followed, part):
            reason = _reason_to_wait(followed, part)
            if reason:
                run.tell(Refusal(part.started.at, f"{reason}: wait for its end with `.done`", True))
    for join in followed.joins:
        for end in (join.one, join.other):
            joined = by_number.get(end.component)
            if joined and end.component in join.running and end.port in ports_used(joined.code):
                run.tell(Refusal(join.at, f"a component that runs already uses `{end.port}`, maybe before this"))


def _reason_to_wait(followed: Followed, part: Part) -> str:
    """Why it matters whether the end of the test case ends this component; empty if it doesn't matter."""
    if waits(part.code):
        return "the test case may end while this component still waits: that would end it, but here it is an error"
    words = [one.word for one in statements_of(part.code) if isinstance(one, Verdict)]
    if any(VERDICTS.index(word) > VERDICTS.index(followed.least[part.number]) for word in words):
        return "the test case may end before this component sets its verdict, but here that verdict always counts"
    if any(_may_fail(followed, part, one) for one in statements_of(part.code)):
        return "the test case may end before this component reaches a send that fails, but here that send always counts"
    return ""


def _may_fail(followed: Followed, part: Part, statement: Emitted) -> bool:
    """A send may fail from a port that was stopped, that leads nowhere, or that leads to several receivers without
    naming one."""
    if isinstance(statement, Operated):
        return statement.act in ("stop", "halt")
    if not isinstance(statement, Sent) or statement.to_all:
        return False
    others = [end.component for end in peers(followed.joins, End(part.number, statement.port))]
    return sum(statement.to in (None, other) for other in others) != 1


def tells_of(code: Code) -> set[int]:
    return {one.component for one in statements_of(code) if isinstance(one, (GotDone, Told, EndTold))}
