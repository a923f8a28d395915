"""Where two runs of a script diverge: the first thing that a component did only in one, in the words of the script."""
from __future__ import annotations

from dataclasses import dataclass
from typing import NamedTuple, Optional

from ..model.bodies import Tried
from ..model.run import Message, Run, alike
from ..model.tree import Control, Send
from ..origins import Origins
from .forced_order import carry_out, finish, words_of
from .placed import PlacedCase

Name = tuple[int, str, int, int]  # of a message: the component and port to which it is sent, its sender and its number


@dataclass(frozen=True)
class Done:
    """What a component did in a step: its statement and line, the lines of the report, the messages that it
    got, and those that a port operation emptied or put ahead of its mark."""

    who: int
    statement: object
    line: int
    lines: tuple[str, ...]
    touched: tuple[tuple[str, Message], ...]

    def names(self) -> dict[Name, Message]:
        return {(self.who, port, it.sender, it.number): it for port, it in self.touched}

    def sign(self) -> tuple[object, ...]:
        return self.line, self.lines, tuple(self.names())


@dataclass(frozen=True)
class Deed:
    """A line of the script, and what was done there."""

    line: Optional[int]
    text: str

    def as_json(self, origins: Origins) -> dict[str, object]:
        return {**_place_as_json(self.line, origins), "text": self.text}


class Unordered(NamedTuple):
    """Two lines that don't wait for each other: those of two sends, or of another statement and a send."""

    line: int
    sent: int
    statement: object = None  # at the first line, if that isn't a send

    def text(self, origins: Origins) -> str:
        one, other = origins.line(self.line), origins.line(self.sent)
        if self.statement is not None:
            what = "the look at " if isinstance(self.statement, Tried) else ""
            return f"line {other} can send before or after {what}line {one}"
        if one == other:
            return f"either component can be first at line {one}"
        return f"line {one} and line {other} can come in either order"


@dataclass(frozen=True)
class Parting:
    """What a component did in each run, and two lines that don't wait for each other, if only they differ."""

    component: str
    first: Deed
    second: Deed
    unordered: Optional[Unordered]

    def text(self, origins: Origins) -> str:
        first, second = (None if deed.line is None else origins.line(deed.line) for deed in (self.first, self.second))
        where = "" if first is None else f"line {first}: "
        other = "" if second in (None, first) else f", at line {second},"
        told = f"{where}{self.component} {self.first.text};\n  in the other run{other} it {self.second.text}\n"
        return told + ("" if self.unordered is None else f"{self.unordered.text(origins)}\n")

    def as_json(self, origins: Origins) -> dict[str, object]:
        first, second = self.first.as_json(origins), self.second.as_json(origins)
        lines = None if self.unordered is None else [_place_as_json(line, origins) for line in self.unordered[:2]]
        return {"component": self.component, "first": first, "second": second, "unordered": lines}


def _place_as_json(line: Optional[int], origins: Origins) -> dict[str, object]:
    """The script's own line, and where it comes from, under the names of `tools/explain --json`."""
    return {"line": line, "origin": (origins.place(line) if line is not None else "") or None}


class Told:
    """A run of the forced script in an order, step by step, and the order as the program that forces it reads it."""

    def __init__(self, case: PlacedCase, components: tuple[int, ...]):
        self.case = case
        self.components = components
        self.steps: list[Done] = []
        self.of_each: list[list[Done]] = [[] for _ in case.names]
        self.sent: dict[Name, int] = {}  # the line of the send of each message
        self.put: dict[Name, int] = {}  # and the number of steps before it
        self.words: list[str] = []
        self.run = Run(case)
        for who in components:
            self.follow(who)
        finish(self.run)

    def order(self) -> str:
        return " ".join(self.words)

    def follow(self, who: int) -> None:
        """Carries out the component's next step."""
        run, before, length = self.run, before_step(self.run, who), len(self.run.components[who].lines)
        names = names_of_send(run, who)
        self.words.append(words_of(run, who))
        carry_out(run, who)
        line = self.line_of(before, run, who)
        for name in names:
            self.sent[name], self.put[name] = line, len(self.steps)
        lines = tuple(run.components[who].lines[length:])
        told = Done(who, before.statement(who), line, lines, tuple(touched_by(before, run, who)))
        self.steps.append(told)
        self.of_each[who].append(told)

    def line_of(self, run: Run, after: Run, who: int) -> int:
        """The line of the statement; for an `alt`, the line of the branch that was chosen, or that discarded last."""
        statement = run.statement(who)
        if isinstance(statement, Tried) and not after.components[who].lines[-1] == "else":
            guard = chosen_guard(run, who, statement, after)
            return self.case.line(guard) or 0
        return self.case.line(statement) or 0

    def is_put_behind(self, name: Name, who: int, at: int) -> bool:
        """Whether the message was sent after this step of the component, or never."""
        place = [place for place, step in enumerate(self.steps) if step.who == who][at]
        return self.put.get(name, len(self.steps)) > place

    def waits_at(self, who: int) -> Optional[int]:
        """The line at which the component waits forever."""
        statement = self.run.statement(who)
        return (self.case.line(statement) or 0) if isinstance(statement, Tried) else None

    def failed_at(self, who: int) -> Optional[int]:
        """The line of the send that failed."""
        component = self.run.components[who]
        return None if component.failed is None else self.case.line(self.case.bodies[who].code[component.place])


def before_step(run: Run, who: int) -> Run:
    """The run before the component's next step, for comparison after the step. It shares the component's lines."""
    before, component = alike(run), alike(run.components[who])
    component.ports = {name: port.copy() for name, port in component.ports.items()}
    component.loops = component.loops.copy()
    before.components = run.components[:]
    before.components[who] = component
    return before


def names_of_send(run: Run, who: int) -> list[Name]:
    """The messages that the component sends in its next step."""
    send = run.statement(who)
    if not isinstance(send, Send):
        return []
    numbers = run.components[who].numbers
    return [(*route, who, numbers.get(route, 0)) for route in run.routes(who, send)]


def chosen_guard(run: Run, who: int, tried: Tried, after: Run) -> object:
    """The branch that was chosen: the first that matches the message taken or found, or else the one that discarded."""
    looked = after.components[who].looked
    if looked:
        return tried.choice.branches[looked[-1] - 1][0]
    what, port = after.components[who].lines[-1].split(" ")[:2]
    top = got(run, after, who, port, what == "took")
    for guard, _ in tried.choice.branches:
        if guard.port == port and run.wants(who, guard, top):
            return guard
    return tried.choice.branches[0][0]


def got(run: Run, after: Run, who: int, port: str, taken: bool) -> Message:
    before, behind = run.components[who].ports[port].queue, after.components[who].ports[port].queue
    return before[len(before) - len(behind) - (1 if taken else 0)]


def touched_by(run: Run, after: Run, who: int) -> list[tuple[str, Message]]:
    """The messages that a look took, dropped or found, or that an operation emptied or put ahead of its mark."""
    statement = run.statement(who)
    before, behind = run.components[who].ports, after.components[who].ports
    if isinstance(statement, Control):
        named = before if statement.port is None else [statement.port]
        if statement.operation in ("start", "clear"):
            return [(port, it) for port in named for it in before[port].queue]
        marked = [it for it in named if before[it].status == "started" and behind[it].status == "halted"]
        return [(port, it) for port in marked for it in before[port].queue]
    if not isinstance(statement, Tried):
        return []
    removed = {port: len(before[port].queue) - len(behind[port].queue) for port in before}
    messages = [(port, it) for port in before for it in before[port].queue[: removed[port]]]
    last = after.components[who].lines[-1].split(" ")
    return messages + ([(last[1], got(run, after, who, last[1], False))] if last[0] == "found" else [])


def parting_of(one: Told, other: Told) -> Optional[Parting]:
    """Where one run diverges from the other."""
    found = _first_unlike(one, other) or _first_unlike(other, one)
    if found is None:
        return None
    who, at = found
    deeds = _deed(one, who, at), _deed(other, who, at)
    return Parting(one.case.names[who], *deeds, _unordered_lines(one, other, who, at))


def _first_unlike(one: Told, other: Told) -> Optional[tuple[int, int]]:
    """The first step of one run that the other doesn't have at its place: its component, and its number among the
    component's steps."""
    counts = [0 for _ in one.case.names]
    for step in one.steps:
        at = counts[step.who]
        counts[step.who] += 1
        others = other.of_each[step.who]
        if at >= len(others) or others[at].sign() != step.sign():
            return step.who, at
    return None


def _unordered_lines(one: Told, other: Told, who: int, at: int) -> Optional[Unordered]:
    """The lines of two sends to one port, or of a send and a look or operation, in another order in each run."""
    mine, others = (told.of_each[who][at] if at < len(told.of_each[who]) else None for told in (one, other))
    messages = [{} if it is None else it.names() for it in (mine, others)]
    only_one = [name for name in messages[0] if name not in messages[1]]
    only_other = [name for name in messages[1] if name not in messages[0]]
    if mine is None or others is None:
        return None
    if not only_one or not only_other:
        told, names, step = (one, only_one, mine) if only_one else (other, only_other, others)
        return Unordered(step.line, told.sent[names[0]], step.statement) if names else None
    first, second = only_one[0], only_other[0]
    if first[:2] == second[:2] and first[2] != second[2]:
        return Unordered(one.sent[first], other.sent[second])
    if one.is_put_behind(second, who, at):
        return Unordered(others.line, other.sent[second], others.statement)
    is_behind = other.is_put_behind(first, who, at)
    return Unordered(mine.line, one.sent[first], mine.statement) if is_behind else None


def _deed(told: Told, who: int, at: int) -> Deed:
    """What the component does in its step of this number."""
    steps = told.of_each[who]
    if at < len(steps):
        return Deed(steps[at].line, _words(told, steps[at]))
    if (line := told.failed_at(who)) is not None:
        return Deed(line, f"ended by {told.run.end(who)}")
    line = told.waits_at(who)
    return Deed(line, "ended" if line is None else "waits forever")


def _words(told: Told, step: Done) -> str:
    if isinstance(step.statement, Control):
        return _operation(told, step.statement, step)
    if isinstance(step.statement, Tried):
        return _look(told, step)
    return " and ".join(step.lines) or "went on"


def _operation(told: Told, control: Control, step: Done) -> str:
    port = control.port or "all port"
    messages = " and ".join(_message(told, name, it) for name, (_, it) in zip(step.names(), step.touched))
    if control.operation == "halt":
        return f"halted {port} after {messages}" if messages else f"halted {port} with no message ahead of the mark"
    word = {"start": "started", "clear": "cleared"}.get(control.operation, "stopped")
    return f"{word} {port}, which discarded {messages or 'nothing'}"


def _look(told: Told, step: Done) -> str:
    deeds = {"took": "took", "found": "found", "dropped": "discarded"}
    otherwise = "found no message that it accepts and chose [else]"
    words = [deeds.get(line.split(" ", 1)[0], otherwise) for line in step.lines]
    messages = [f" {_message(told, name, it)}" for name, (_, it) in zip(step.names(), step.touched)]
    return ", then ".join(word + message for word, message in zip(words, [*messages, ""]))


def _message(told: Told, name: Name, message: Message) -> str:
    sender = told.case.names[message.sender]
    line = told.case.told(told.sent[name])
    return f"{told.run.text(message)} from {sender} at port {name[1]}, sent at line {line}"
