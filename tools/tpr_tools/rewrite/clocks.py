"""The components by which timers expire at any moment: each answers the starts of one timer, one after the other."""
from __future__ import annotations

from collections import Counter
from dataclasses import dataclass
from typing import Callable

from .emitted import Code, Failed, Ticked, Ticking, Unstarted, Ways
from .layout import Names


def count_starts(code: Code) -> Counter[str]:
    """How often each timer is started. Paths with fewer starts get an `Unstarted`, so that all have the same number."""
    found: Counter[str] = Counter()
    for statement in code:
        if isinstance(statement, Ticked) and statement.act is Ticking.START:
            found[statement.timer] += 1
        elif isinstance(statement, Ways):
            counts = [count_starts(way.code) for way in statement.branches]
            most: Counter[str] = Counter()
            for count in counts:
                most |= count
            for way, count in zip(statement.branches, counts):
                if not any(isinstance(one, Failed) for one in way.code):
                    lacking = most - count
                    way.code += [Unstarted(way.at, timer, number) for timer, number in lacking.items()]
            found += most
    return found


def without_unasked(code: Code) -> None:
    """Removes timers whose timeout nothing waits for, because they have no effect."""
    _keep(code, _asked(code))


def _asked(code: Code) -> set[str]:
    found: set[str] = set()
    for statement in code:
        if isinstance(statement, Ticked) and statement.act is Ticking.EXPIRE:
            found.add(statement.timer)
        for way in statement.branches if isinstance(statement, Ways) else []:
            found |= {way.operation.timer} if isinstance(way.operation, Ticked) else set()
            found |= _asked(way.code)
    return found


def _keep(code: Code, asked: set[str]) -> None:
    code[:] = [one for one in code if not isinstance(one, Ticked) or one.timer in asked]
    for statement in code:
        for way in statement.branches if isinstance(statement, Ways) else []:
            _keep(way.code, asked)


@dataclass(frozen=True)
class Clock:
    """The component of a timer: its own port, the timer's port, and how often the timer is started."""

    name: str
    owner: str
    port: str
    starts: int


class ClockWriter:
    """Writes the clocks: their type, a function for each number of starts, and their statements in the test case."""

    def __init__(self, names: Names, add: Callable[[str], None]):
        self.names = names
        self.add = add
        self.clocks: list[Clock] = []
        self.functions: dict[int, str] = {}
        self.type = ""
        self.port = ""

    def new_port(self, owner: str, timer: str, starts: int) -> str:
        """The port of a timer at the component that owns it."""
        word = timer.replace("[", "_").replace("]", "")
        port = self.names.free(f"{word}_timer")
        self.clocks.append(Clock(self.names.free(f"{owner}_{word}"), owner, port, starts))
        return port

    def write_type(self, control_type: str) -> None:
        if self.clocks:
            self.type, self.port = self.names.free("Timer"), self.names.free("starts")
            self.add(f"  type component {self.type} {{ port {control_type} {self.port}; }}")

    def write_functions(self) -> None:
        for clock in self.clocks:
            if clock.starts not in self.functions:
                self.functions[clock.starts] = self.names.free(f"expire_{clock.starts}")
                self._write_function(clock.starts)

    def _write_function(self, starts: int) -> None:
        turn = self.names.free("turn")
        self.add(f"  function {self.functions[starts]}() runs on {self.type} {{")
        self.add(f"    for (var integer {turn} := 0; {turn} < {starts}; {turn} := {turn} + 1) {{")
        self.add("      alt {")
        self.add(f"        [] {self.port}.receive(boolean:true) {{ {self.port}.send(boolean:true); }} // it may expire from here on")
        self.add(f"        [] {self.port}.receive(boolean:false) {{ }} // not started on this way")
        self.add("      }")
        self.add("    }")
        self.add("  }")

    def write_creates(self) -> None:
        for clock in self.clocks:
            self.add(f"    var {self.type} {clock.name} := {self.type}.create;")

    def write_connects(self) -> None:
        for clock in self.clocks:
            self.add(f"    connect({clock.owner}:{clock.port}, {clock.name}:{self.port});")

    def write_starts(self) -> None:
        for clock in self.clocks:
            self.add(f"    {clock.name}.start({self.functions[clock.starts]}());")
