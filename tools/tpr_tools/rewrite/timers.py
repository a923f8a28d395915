"""Timers (ES 201 873-1, 23) in the reading that the option chooses.

`never`: no timer expires while something else is waited for; a timer that is waited for alone expires, because nothing
else can end that wait. `any`: each timer may expire at any moment after its start. A component for each timer answers
the starts, and `t.timeout` and `t.stop` receive this answer. The duration of a timer counts in neither reading.
"""
from __future__ import annotations

from typing import Iterator, Optional

from . import tree
from .behaviours import Follower
from .emitted import Ticked, Ticking
from .paths import Exit, Key, Path, Scope
from .refusing import Refusal, refuse
from .run import Reading
from .tokens import Token
from .tree import Any, Expression, PortAct
from .types import Kind, Type
from .values import Elements, Form, Mark, TimerValue

# A timer: its variable, and the steps to it in an array.
Place = tuple[Key, tuple[int, ...]]
MOST_TIMERS = 64


class Timers(Follower):
    # The declaration of each timer's name.
    timers: dict[str, Token]

    @property
    def reading(self) -> Reading:
        return self.run.options.timers

    # Declared, and gone

    def new_timers(self, variable: tree.Variable, type: Type, path: Path) -> Form:
        """A timer, or an array of timers. A timer that exists already keeps its name for itself."""
        taken = {timer.name.partition("[")[0] for _, timer in _timers_of(path)}
        name, number = variable.name, 2
        while name in taken or self.timers.setdefault(name, variable.at) is not variable.at:
            name, number = f"{variable.name}_{number}", number + 1
        return _array_of(name, type, variable.at)

    def end_timers(self, scope: Scope, path: Path) -> None:
        """Stops the running timers of a block that is left."""
        if path.exit in (Exit.END, Exit.STUCK):
            return
        for place, timer in _timers_of(path):
            if place[0][0] == scope.number:
                self._stop_timer(place, timer, self._declared_at(timer), path)

    def leave_behind(self, path: Path, kept: set[Key]) -> None:
        """Stops timers that aren't used any more before the paths join, even if they don't run on all of them."""
        for (key, _), timer in _timers_of(path):
            if key not in kept and timer.is_running and self.reading is Reading.ANY:
                self.run.write(self._declared_at(timer))
                path.code.append(Ticked(self._declared_at(timer), timer.name, Ticking.STOP))

    def _declared_at(self, timer: TimerValue) -> Token:
        return self.timers[timer.name.partition("[")[0]]

    # Operations

    def operate_timer(self, statement: tree.Operate, path: Path, scope: Scope) -> None:
        assert statement.target is not None
        calls = bool(self.program.names_in(statement) & set(self.program.functions))
        for node in statement.arguments:
            self._look_at_duration(node, calls, path, scope)
        place, timer = self._timer_of(statement.target, path, scope)
        if statement.act not in (PortAct.START, PortAct.STOP):
            refuse(statement.at, "this operation on a timer isn't carried over")
        self._stop_timer(place, timer, statement.at, path)
        if statement.act is PortAct.START:
            self._tick(timer, Ticking.START, statement.at, path)
            self.set_timer(place, timer, True, path, statement.at)

    def _timer_of(self, node: Expression, path: Path, scope: Optional[Scope]) -> tuple[Place, TimerValue]:
        key, steps = self.target(node, path, scope)
        timer = self.part(path.state.variables[key].value, steps)
        if timer is Mark.LOST:
            raise Refusal(node.at, "")
        if not isinstance(timer, TimerValue):
            refuse(node.at, "which timer is meant isn't known here")
        return (key, steps), timer

    def stop_all_timers(self, at: Token, path: Path, scope: Scope) -> None:
        for place, timer in self._visible(at, path, scope):
            self._stop_timer(place, timer, at, path)

    def _look_at_duration(self, node: Expression, calls: bool, path: Path, scope: Scope) -> None:
        """Checks the duration. Its length doesn't matter, but a negative one is an error (23.2)."""
        looked_at = path if calls else Path([], path.state.copy(), path.fork)
        try:
            value = self.evaluate(node, looked_at, scope)
        except Refusal:
            if calls:
                raise
            return
        if isinstance(value, float) and not value >= 0:
            refuse(node.at, "a timer is started with a time below 0, which is an error")

    def _stop_timer(self, place: Place, timer: TimerValue, at: Token, path: Path) -> None:
        if timer.is_running:
            self._tick(timer, Ticking.STOP, at, path)
            self.set_timer(place, timer, False, path, at)

    def _tick(self, timer: TimerValue, act: Ticking, at: Token, path: Path) -> None:
        if self.reading is Reading.ANY:
            self.emit(path, Ticked(at, timer.name, act))

    def set_timer(self, place: Place, timer: TimerValue, is_running: bool, path: Path, at: Token) -> None:
        key, steps = place
        self.store(key, steps, TimerValue(timer.name, is_running), path, at)

    # Timeouts

    def expiring(self, event: tree.Find, path: Path, scope: Scope) -> list[tuple[Place, TimerValue]]:
        """Those of the awaited timers that may expire."""
        if event.has_more:
            refuse(event.at, "this form of `timeout` isn't carried over")
        if isinstance(event.target, Any):
            found = list(self._visible(event.at, path, scope))
        else:
            found = [self._timer_of(event.target, path, scope)]
        found = [(place, timer) for place, timer in found if timer.is_running]
        if found and self.reading is Reading.REFUSED:
            is_one = not isinstance(event.target, Any)
            refuse(event.at, f"{'this timer may run here' if is_one else 'a timer runs here'}, and there is no time in a run")
        return found

    def asked_of_timer(self, node: tree.Asked, path: Path, scope: Optional[Scope]) -> Form:
        """Whether a timer runs. A started timer runs as long as it doesn't expire."""
        if node.target is None:
            timers = [timer for _, timer in self._visible(node.at, path, scope)]
        else:
            timers = [self._timer_of(node.target, path, scope)[1]]
        if node.word != "running":
            refuse(node.at, f"`{node.word}` asks for something that is known only in a run")
        is_started = any(timer.is_running for timer in timers)
        if is_started and self.reading is not Reading.NEVER:
            refuse(node.at, "whether this timer still runs is open here, and there is no time in a run")
        return is_started

    def _visible(self, at: Token, path: Path, scope: Optional[Scope]) -> list[tuple[Place, TimerValue]]:
        """All timers whose names are known here (23.3, 23.6). Other running timers aren't considered."""
        found = []
        for place, timer in _timers_of(path):
            if self.find(place[0][1], scope, path) == place[0]:
                found.append((place, timer))
            elif timer.is_running:
                refuse(at, f"whether this timer statement means `{timer.name}` too, whose name isn't known here, is open")
        return found


def _timers_of(path: Path) -> list[tuple[Place, TimerValue]]:
    """All timers that exist."""
    found: list[tuple[Place, TimerValue]] = []
    for key, slot in path.state.variables.items():
        if slot.type is not None and _is_of_timers(slot.type):
            found += [((key, steps), timer) for steps, timer in _timers_in(slot.value, ())]
    return found


def _is_of_timers(type: Type) -> bool:
    return type.kind is Kind.TIMER or type.element is not None and type.size is not None and _is_of_timers(type.element)


def _timers_in(value: Form, steps: tuple[int, ...]) -> Iterator[tuple[tuple[int, ...], TimerValue]]:
    """The timers of a possibly nested array, each with its indices."""
    if isinstance(value, TimerValue):
        yield steps, value
    elif isinstance(value, Elements):
        for number, item in enumerate(value.items):
            yield from _timers_in(item, (*steps, number))


def _array_of(name: str, type: Type, at: Token) -> Form:
    if type.kind is Kind.TIMER:
        return TimerValue(name)
    assert type.element is not None and type.size is not None
    if type.size > MOST_TIMERS:
        refuse(at, f"an array of timers has at most {MOST_TIMERS} here")
    return Elements(tuple(_array_of(f"{name}[{number}]", type.element, at) for number in range(type.size)))
