"""Whether the verdict of a script depends on the schedule, by the proof of `tpr verdicts`, and where the runs diverge,
in the words of tools/explore."""
from __future__ import annotations

import os
from dataclasses import dataclass, replace
from typing import Optional

from ..explore.answers import Answer, first_line, read_answer
from ..words import shown
from .runs import Printed, Runner
from .wanted import Wanted

_DIVERGE = "Where the runs diverge "
_FAULT = "a fault in tpr or its tools"
# The statuses of tools/explore that come with an answer.
_ONE_VERDICT, _SEVERAL, _UNDECIDED = 0, 5, 6


@dataclass(frozen=True)
class Asked:
    """What is checked for each script: `tpr verdicts`; tools/explore, by its path; and whether `always` is the only
    expected answer."""

    verdicts: bool = False
    explore: Optional[str] = None
    always: bool = False

    def anything(self) -> bool:
        return self.verdicts or self.explore is not None


@dataclass(frozen=True)
class Schedule:
    """The answer about a script."""

    answer: str  # the first line: `always pass`, `pass or fail`, `undecided`
    orders: str = ""  # for each verdict, the components by whose steps the model reaches it
    explored: str = ""  # the first line of tools/explore
    diverging: str = ""  # its text about where the runs diverge
    fault: str = ""  # why this isn't as expected
    is_broken: bool = False  # there is no answer
    proved: Optional[Answer] = None  # what `tpr verdicts` answered

    def depends(self) -> bool:
        return " or " in self.answer

    def text(self) -> str:
        """The text about an unexpected answer, after its fault."""
        return "".join(f"{piece}\n" for piece in (self.orders, self.diverging) if piece)


def schedule_of(runner: Runner, script: str, asked: Asked, wanted: Wanted) -> Schedule:
    """The answer about a script that isn't refused."""
    schedule = _by_the_program(runner, script) if asked.verdicts else Schedule("")
    if asked.explore is not None and not schedule.is_broken:
        schedule = _explored(runner, script, asked.explore, schedule)
    if schedule.fault or not asked.verdicts:
        return schedule
    return replace(schedule, fault=_fault_of(schedule, asked, wanted))


def _fault_of(schedule: Schedule, asked: Asked, wanted: Wanted) -> str:
    """Why the answer isn't as expected. A file beside the script may have the expected answer."""
    if wanted.answers:
        return "" if schedule.answer in wanted.answers else f"{schedule.answer} isn't the expected answer"
    if schedule.depends():
        return f"the verdict depends on the schedule: {schedule.answer}"
    if asked.always and not schedule.answer.startswith("always "):
        return f"the verdict may depend on the schedule: {schedule.answer}"
    return ""


def _by_the_program(runner: Runner, script: str) -> Schedule:
    ended = runner.ended(runner.program, "verdicts", script)
    answer = read_answer(ended.printed.decode("latin-1"))
    if answer is None or answer.fault() is not None or answer.status() != ended.status:
        return _broken("tpr verdicts", ended)
    orders = "\n".join(f"{verdict}: {' '.join(names)}" for verdict, names in answer.orders)
    return Schedule(first_line(answer), orders, proved=answer)


def _explored(runner: Runner, script: str, explore: str, schedule: Schedule) -> Schedule:
    ended = runner.ended(explore, script, variables={**os.environ, "TPR": runner.program})
    text = ended.printed.decode("utf-8", "replace")
    if ended.status not in (_ONE_VERDICT, _SEVERAL, _UNDECIDED) or not text:
        return _broken("tools/explore", ended)
    line = text.partition("\n")[0]
    _, found, behind = text.partition(_DIVERGE)
    diverging = (found + behind).partition("\n\n")[0].rstrip("\n")
    return replace(schedule, answer=schedule.answer or line, explored=line, diverging=diverging)


def _broken(what: str, ended: Printed) -> Schedule:
    """A failure. If the command broke off, the last line on standard error says why, like that of a traceback; if it
    found a fault, it has printed that."""
    said = ended.said.decode("utf-8", "replace").strip().rpartition("\n")[2]
    lines = ended.printed.decode("utf-8", "replace").splitlines()
    printed = next((line for line in lines if _FAULT in line), lines[0] if lines else "")
    how = ended.told or f"ended with status {ended.status}"
    told = f"{what} failed: {how}" + "".join(f", {shown(it[:200])}" for it in (said or printed,) if it)
    return Schedule("failed", fault=told, is_broken=True)
