"""The result of a run, and which components caused it."""
from __future__ import annotations

import time
from dataclasses import dataclass, replace
from typing import Optional

from ..report.deliveries import deliveries_of
from ..report.order import NoOrderFound, rows_of
from ..report.reader import read_report
from ..report.report import Component, Failed, NotAReport, Report, VerdictSet
from ..words import VERDICTS
from .runs import Printed, Stopped

# The possible results of a run, from the best to the worst: a report with its verdict, a refused script, a fault of the
# run, a run that was stopped at its time limit, and anything else.
RESULTS = (*VERDICTS, "refused", "fault", "stopped", "broken")

_MOST_TOLD = 3
_LONGEST_SAID = 200


@dataclass(frozen=True)
class Reason:
    """A part of the reason for a result, and the entry before it."""

    what: str
    behind: str = ""

    def text(self, most: Optional[int] = None) -> str:
        """The whole text, or the text with at most this many letters of the entry."""
        if not self.behind:
            return self.what
        is_cut = most is not None and len(self.behind) > most
        return f"{self.what}, after: {self.behind[:most - 2] + '..' if is_cut and most else self.behind}"


@dataclass(frozen=True)
class Judged:
    """The result of a run, and its report if it has one."""

    result: str
    reasons: tuple[Reason, ...]
    report: Optional[Report] = None
    seconds: float = 0.0  # the time for judging


def judge(run: Printed) -> Judged:
    began = time.monotonic()
    return replace(_judge(run), seconds=time.monotonic() - began)


def _judge(run: Printed) -> Judged:
    if run.status is None:
        return _other("broken" if run.stopped is Stopped.MUCH else "stopped", run.told, run)
    line = run.printed.decode("utf-8", "replace").rstrip("\n") if len(run.printed) < 1000 else ""
    if run.status == 2 and line.startswith("refused ") and "\n" not in line:
        return _other("refused", _told_refusal(line), run)
    if run.status == 3 and line.startswith("fault ") and "\n" not in line:
        return _other("fault", line.removeprefix("fault "), run)
    if run.status < 0:
        return _other("broken", f"ended by signal {-run.status}", run)
    if run.status != 0:
        return _other("broken", f"ended with status {run.status}", run)
    try:
        report = read_report(run.printed)
        _look_for_order(report)
    except NotAReport as fault:
        return _other("broken", f"what was printed isn't a report of tpr, report {fault}", run)
    return Judged(report.result, reasons_of(report), report)


def _look_for_order(report: Report) -> None:
    """Checks that the entries have an order. A report for which that isn't known is accepted."""
    try:
        rows_of(deliveries_of(report))
    except NoOrderFound:
        pass


def _other(result: str, what: str, run: Printed) -> Judged:
    """Any other result. The first line on standard error is added to the reason."""
    said = run.said.decode("utf-8", "replace").strip().partition("\n")[0]
    return Judged(result, (Reason(f"{what}, and said: {said[:_LONGEST_SAID]}" if said else what),))


def _told_refusal(line: str) -> str:
    """`10 Syntax, script line 9`: the number belongs to the script, not to the report."""
    what, found, number = line.removeprefix("refused ").partition(" line ")
    return f"{what}, script line {number}" if found else what


def reasons_of(report: Report) -> tuple[Reason, ...]:
    """Which components caused the result, and at which lines of the report."""
    if report.result in ("none", "pass"):
        return ()
    told = [reason for reason in (_reason(it, report.result) for it in report.components) if reason]
    if len(told) > _MOST_TOLD:
        told[_MOST_TOLD:] = [Reason(f"and {len(told) - _MOST_TOLD} more")]
    return tuple(told)


def _reason(component: Component, result: str) -> Optional[Reason]:
    """What this component did to cause the result, if anything."""
    if result == "error":
        return _error_of(component)
    if component.verdict != result:
        return None
    for place, entry in enumerate(component.entries):
        if isinstance(entry, VerdictSet) and entry.verdict == result:
            return _behind(component, place, f"{component.name} set {result}, report line {entry.line.number}")
    return None


def _error_of(component: Component) -> Optional[Reason]:
    last = component.entries[-1] if component.entries else None
    if isinstance(last, Failed):
        what = f"{component.name} failed {last.fault.told()}, report line {last.line.number}"
        return _behind(component, len(component.entries) - 1, what)
    if component.end.word == "waiting":
        what = f"{component.name} waits, report line {component.end.line.number}"
        return _behind(component, len(component.entries), what)
    return None


def _behind(component: Component, place: int, what: str) -> Reason:
    """The reason, with the entry before this place."""
    return Reason(what, component.entries[place - 1].line.text if place > 0 else "")
