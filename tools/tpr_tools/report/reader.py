"""Reads a report, and refuses what `tpr run` doesn't print.

The lines are read here, one by one. deliveries.py checks that they agree with each other in their messages and ports.
"""
from __future__ import annotations

import re
from typing import Callable, Optional

from ..refusals import SEND_FAULTS, Refusal
from ..words import MOST_COMPONENTS, MOST_ON_A_ROUTE, is_component_name, is_name, worst
from .messages import is_message
from .report import (
    Component,
    End,
    Entry,
    Failed,
    Line,
    NotAReport,
    Operation,
    Otherwise,
    Received,
    Report,
    Sent,
    VerdictSet,
)

_FOREIGN = re.compile(rb"[^\n -~]")
_SENT = re.compile(r"sent ([^ .]+)\.([^ ]+) (0|[1-9][0-9]{0,5}) (.+)")
_RECEIVED = re.compile(r"(took|found|dropped|left) ([^ ]+) ([^ ]+) (0|[1-9][0-9]{0,5}) (.+)")
_OPERATION = re.compile(r"(cleared|started|stopped|halted) ([^ ]+)")
_SET = re.compile(r"set (none|pass|inconc|fail)")
_FAILED = re.compile(r"failed ([1-9][0-9])")
_END = re.compile(r"end (?:(done|waiting)|error ([1-9][0-9]))")
_VERDICT = re.compile(r"verdict (none|pass|inconc|fail|error)")
_RESULT = re.compile(r"result (none|pass|inconc|fail|error)")
_NO_REPORT = re.compile(r"(refused|fault) [0-9]+ .*|accepted|usage: .*")


def read_report(data: bytes) -> Report:
    """The report that the bytes are, or NotAReport."""
    reader = _Reader(_lines_of(data))
    report = reader.report()
    reader.expect_nothing()
    _check_components(report)
    return report


def _lines_of(data: bytes) -> list[Line]:
    """The lines up to the last line feed. The text after it isn't a line, because each line ends with one."""
    if foreign := _FOREIGN.search(data):
        number = data.count(b"\n", 0, foreign.start()) + 1
        raise NotAReport(number, f"a report has no byte {foreign[0][0]}")
    texts = data.decode("ascii").split("\n")
    lines = [Line(number, text) for number, text in enumerate(texts[:-1], 1)]
    if texts[-1]:
        raise NotAReport(len(texts), "it has no end")
    return lines


class _Reader:
    """The lines, and the place of the next one."""

    def __init__(self, lines: list[Line]):
        self.lines = lines
        self.place = 0

    def next(self) -> Optional[Line]:
        return self.lines[self.place] if self.place < len(self.lines) else None

    def refuse(self, wanted: str) -> NotAReport:
        line = self.next()
        if line is None:
            return NotAReport(len(self.lines) + 1, f"the text ends where {wanted} is needed")
        if self.place == 0 and _NO_REPORT.fullmatch(line.text):
            return NotAReport(line.number, f"{line.text!r} is an answer of tpr, but not a report")
        if self.place == 0 and not line.text.startswith("component"):
            told = "this isn't a report of `tpr run`, which begins with `component mtc`: it begins with"
            return NotAReport(line.number, f"{told} {_short(line.text)}")
        if line.text.startswith("came "):
            told = "this is a trace, as `tpr trace` prints it for `tpr judge`; a report of `tpr run` is needed"
            return NotAReport(line.number, told)
        return NotAReport(line.number, f"{wanted} is needed, but {_short(line.text)} is there")

    def take(self, form: re.Pattern[str], wanted: str) -> tuple[Line, re.Match[str]]:
        line = self.next()
        found = form.fullmatch(line.text) if line else None
        if line is None or found is None:
            raise self.refuse(wanted)
        self.place += 1
        return line, found

    def expect_nothing(self) -> None:
        line = self.next()
        if line is not None:
            raise NotAReport(line.number, "the report has ended on the line before")

    def report(self) -> Report:
        components = [self.component()]
        while (line := self.next()) is not None and line.text.startswith("component "):
            components.append(self.component())
        line, found = self.take(_RESULT, "a component or the result")
        return Report(tuple(components), found[1], line)

    def component(self) -> Component:
        line, found = self.take(re.compile(r"component ([^ ]+)"), "a component")
        name = found[1]
        if not is_component_name(name):
            raise NotAReport(line.number, f"{_short(name)} isn't the name of a component")
        entries = self.entries()
        end = self.end()
        verdict_line, verdict = self.take(_VERDICT, "the component's verdict")
        left = self.left()
        return Component(name, line, entries, end, verdict[1], verdict_line, left)

    def entries(self) -> tuple[Entry, ...]:
        entries: list[Entry] = []
        lines, first = self.lines, self.place
        for place in range(first, len(lines)):
            self.place = place
            entry = _entry(lines[place])
            if entry is None:
                if lines[place].text.startswith("end "):
                    return tuple(entries)
                raise self.refuse("an entry of the component or its end")
            entries.append(entry)
        self.place = len(lines)
        return tuple(entries)

    def end(self) -> End:
        line, found = self.take(_END, "the end of the component's behaviour")
        if found[1]:
            return End(line, found[1], None)
        return End(line, "error", _fault(line, found[2]))

    def left(self) -> tuple[Received, ...]:
        left = []
        while (line := self.next()) is not None and line.text.startswith("left "):
            received = _received(line)
            if received is None:
                raise self.refuse("a message that is left")
            left.append(received)
            self.place += 1
        return tuple(left)


def _short(text: str) -> str:
    return repr(text if len(text) <= 60 else text[:57] + "...")


def _entry(line: Line) -> Optional[Entry]:
    """The entry on the line, or None."""
    kind = line.text.partition(" ")[0]
    read = _ENTRIES.get(kind)
    return read(line) if read else None


def _sent(line: Line) -> Optional[Sent]:
    found = _SENT.fullmatch(line.text)
    if found is None:
        return None
    receiver, port, digits, message = found.groups()
    if not is_component_name(receiver):
        return None
    _check_message(line, port, digits, message)
    return Sent(line, receiver, port, int(digits), message)


def _received(line: Line) -> Optional[Received]:
    found = _RECEIVED.fullmatch(line.text)
    if found is None:
        return None
    word, port, sender, digits, message = found.groups()
    if not is_component_name(sender):
        return None
    _check_message(line, port, digits, message)
    return Received(line, word, port, sender, int(digits), message)


def _check_message(line: Line, port: str, number: str, message: str) -> None:
    if not is_name(port):
        raise NotAReport(line.number, f"{_short(port)} isn't the name of a port")
    if int(number) >= MOST_ON_A_ROUTE:
        raise NotAReport(line.number, f"no message has the number {number}")
    if not is_message(message):
        raise NotAReport(line.number, f"{_short(message)} isn't a message")


def _operation(line: Line) -> Optional[Operation]:
    found = _OPERATION.fullmatch(line.text)
    if found is None or not is_name(found[2]):
        return None
    return Operation(line, found[1], found[2])


def _verdict_set(line: Line) -> Optional[VerdictSet]:
    found = _SET.fullmatch(line.text)
    return VerdictSet(line, found[1]) if found else None


def _failed(line: Line) -> Optional[Failed]:
    found = _FAILED.fullmatch(line.text)
    return Failed(line, _fault(line, found[1])) if found else None


def _fault(line: Line, digits: str) -> Refusal:
    if int(digits) not in SEND_FAULTS:
        raise NotAReport(line.number, f"no behaviour ends with the number {digits}")
    return Refusal(int(digits))


_ENTRIES: dict[str, Callable[[Line], Optional[Entry]]] = {
    "sent": _sent,
    "took": _received,
    "found": _received,
    "dropped": _received,
    "cleared": _operation,
    "started": _operation,
    "stopped": _operation,
    "halted": _operation,
    "else": lambda line: Otherwise(line) if line.text == "else" else None,
    "set": _verdict_set,
    "failed": _failed,
}


def _check_components(report: Report) -> None:
    """Checks that the lines of each component agree with each other, and the components with the whole."""
    seen: set[str] = set()
    for place, component in enumerate(report.components):
        number = component.line.number
        if (component.name == "mtc") != (place == 0):
            raise NotAReport(number, "the first component is mtc, and no other")
        if "system" in seen:
            raise NotAReport(number, "no component follows system")
        if component.name in seen:
            raise NotAReport(number, f"there are two components {component.name}")
        if place >= MOST_COMPONENTS:
            raise NotAReport(number, f"there are more than {MOST_COMPONENTS} components")
        seen.add(component.name)
        _check_failure(component)
        _check_system(component)
        _check_verdict(component)
    _check_result(report)


def _check_failure(component: Component) -> None:
    """A behaviour that fails ends there, with the number of its failure."""
    for entry in component.entries[:-1]:
        if isinstance(entry, Failed):
            raise NotAReport(entry.line.number + 1, "the behaviour has ended on the line before")
    last = component.entries[-1] if component.entries else None
    failed = last.fault if isinstance(last, Failed) else None
    if failed != component.end.fault:
        raise NotAReport(component.end.line.number, "this is not how the behaviour ended")


def _check_system(component: Component) -> None:
    if component.name != "system":
        return
    for entry in component.entries:
        if isinstance(entry, (Operation, VerdictSet)):
            raise NotAReport(entry.line.number, "system sets no verdict and operates on no port")


def _check_verdict(component: Component) -> None:
    verdicts = [entry.verdict for entry in component.entries if isinstance(entry, VerdictSet)]
    local = "error" if component.end.word == "error" else worst(verdicts)
    if component.verdict != local:
        raise NotAReport(component.verdict_line.number, f"the local verdict is {local}")


def _check_result(report: Report) -> None:
    waits = any(component.end.word == "waiting" for component in report.components)
    overall = worst([component.verdict for component in report.components])
    result = "error" if waits else overall
    if report.result != result:
        raise NotAReport(report.result_line.number, f"the overall verdict is {result}")
