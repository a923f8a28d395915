"""The cases of a suite: each script with its runs, and the table of them."""
from __future__ import annotations

import os
from dataclasses import dataclass, field, replace
from typing import TYPE_CHECKING, Callable, Optional

from ..command import REFUSED, Stop
from ..words import counted, shown
from .judging import RESULTS, Reason
from .schedule import Schedule
from .wanted import ENDING
from .workers import Run

if TYPE_CHECKING:
    from .pictures import Pictures


_ANSWER = 14  # the width of the column about the schedule


@dataclass
class Case:
    """A script, and its finished runs by their numbers. It is reported once all are done."""

    script: str
    runs: list[Run] = field(default_factory=list)
    is_done: bool = False

    def name(self) -> str:
        return os.path.basename(self.script).removesuffix(ENDING)

    def add(self, run: Run, drop: Callable[[tuple[str, ...]], None]) -> None:
        """Adds a run. Among runs with the same output only the first one's files are kept."""
        self.runs.append(run)
        same = sorted((it for it in self.runs if it.digest == run.digest and it.kept), key=lambda it: it.number)
        for other in same[1:]:
            drop(other.kept)
            self.runs[self.runs.index(other)] = replace(other, kept=())

    def schedule(self) -> Optional[Schedule]:
        """The answer about the schedule, if there is one."""
        return next((run.schedule for run in self.runs if run.schedule is not None), None)

    def pictures(self) -> list[Pictures]:
        """The additional pictures of its runs on a page."""
        return [run.pictures for run in sorted(self.runs, key=lambda run: run.number) if run.pictures is not None]

    def is_wanted(self) -> bool:
        schedule = self.schedule()
        return self.has_wanted_results() and (schedule is None or not schedule.fault)

    def has_wanted_results(self) -> bool:
        return all(run.is_wanted for run in self.runs)

    def worst(self) -> Run:
        """The run that stands for the case: the worst unexpected one, or else the worst of all."""
        unwanted = [run for run in self.runs if not run.is_wanted]
        return max(unwanted or self.runs, key=lambda run: (RESULTS.index(run.result), -run.number))

    def seconds(self) -> float:
        return sum(run.seconds for run in self.runs)

    def judging(self) -> float:
        return sum(run.judging for run in self.runs)

    def counts(self) -> list[str]:
        """If the runs differ, how many had each result, and how many different reports there are."""
        told = []
        results = [run.result for run in self.runs]
        if len(set(results)) > 1:
            worst = self.worst().result
            others = [f"{results.count(it)} {it}" for it in RESULTS if it in results and it != worst]
            told.append(f"{worst} in {results.count(worst)} of {len(results)} runs, {', '.join(others)}")
        texts = len({run.digest for run in self.runs})
        return told + ([f"{texts} different reports"] if texts > 1 else [])

    def reason(self, most: Optional[int] = None) -> str:
        """The reasons of the result, and the file that is kept."""
        worst = self.worst()
        kept = [run for run in self.runs if run.kept and run.digest == worst.digest]
        where = [f"kept: {shown(kept[0].kept[0])}"] if kept and not self.is_wanted() else []
        return "; ".join([*self.told(most), *where])

    def told(self, most: Optional[int] = None) -> list[str]:
        """The counts first, then the reasons, each possibly shortened."""
        reasons = [*self.worst().reasons]
        if (schedule := self.schedule()) is not None and schedule.fault:
            reasons.append(Reason(schedule.fault))
        return [*self.counts(), *(reason.text(most) for reason in reasons)]


def scripts_of(places: list[str]) -> list[str]:
    """The scripts of files and of folders, those of a folder by their names, each once."""
    scripts: dict[str, str] = {}
    for place in places:
        found = _scripts_in(place) if os.path.isdir(place) else [place]
        if not os.path.exists(place):
            raise Stop(REFUSED, f"there is no file or folder {place}")
        if not found:
            raise Stop(REFUSED, f"there is no script *{ENDING} in {place}")
        for script in found:
            scripts.setdefault(os.path.abspath(script), script)
    return list(scripts.values())


def _scripts_in(folder: str) -> list[str]:
    scripts = []
    for inner, folders, files in os.walk(folder, onerror=_refuse):
        folders.sort()
        scripts += [os.path.join(inner, file) for file in sorted(files) if file.endswith(ENDING)]
    return scripts


def _refuse(error: OSError) -> None:
    """A folder that can't be read may have scripts, so it isn't left out."""
    raise Stop(REFUSED, f"{error.filename} can't be read: {error.strerror}")


class Table:
    """A table with a line for each case, and a star if its result, or its answer about the schedule, isn't expected."""

    def __init__(self, scripts: list[str], most: Optional[int], with_schedules: bool = False):
        self.with_schedules = with_schedules
        self.width = max(len("script"), *(len(shown(script)) for script in scripts))
        self.most = most  # the number of letters of an entry, on a terminal

    def head(self) -> str:
        schedule = f"  {'verdicts':<{_ANSWER}}" if self.with_schedules else ""
        return f"{'script':<{self.width}}  {'result':9}{schedule}  {'run time':>9}  reason\n"

    def line(self, case: Case) -> str:
        result = case.worst().result + ("" if case.has_wanted_results() else " *")
        schedule = f"  {_answer_of(case):<{_ANSWER}}" if self.with_schedules else ""
        told = f"{shown(case.script):<{self.width}}  {result:9}{schedule}  {case.seconds():8.3f}s  "
        return f"{told}{shown(case.reason(self.most))}".rstrip() + "\n"


def _answer_of(case: Case) -> str:
    schedule = case.schedule()
    return "-" if schedule is None else schedule.answer + (" *" if schedule.fault else "")


def summary_of(cases: list[Case], all_scripts: int) -> str:
    """How many cases have each result, the time of the runs, and the time for judging them."""
    results = [case.worst().result for case in cases]
    counts = [f"{results.count(result)} {result}" for result in RESULTS if result in results]
    runs, judging = sum(case.seconds() for case in cases), sum(case.judging() for case in cases)
    of = counted(all_scripts, "script")
    if len(cases) < all_scripts:
        of = f"interrupted, {len(cases)} of {of}"
    told = "; ".join([", ".join(counts) or "none done", *_depending(cases), _expected(cases, all_scripts)])
    return f"the runs took {runs:.3f}s, judging them {judging:.3f}s\n{of}: {told}\n"


def _depending(cases: list[Case]) -> list[str]:
    """How many verdicts are known to depend on the schedule."""
    schedules = [schedule for case in cases if (schedule := case.schedule()) is not None]
    number = sum(schedule.depends() for schedule in schedules)
    return [f"{counted(number, 'verdict')} {'depends' if number == 1 else 'depend'} on the schedule"] if number else []


def _expected(cases: list[Case], all_scripts: int) -> str:
    unwanted, skipped = sum(not case.is_wanted() for case in cases), all_scripts - len(cases)
    told = [f"{unwanted} not as expected (*)"] if unwanted else []
    told += [f"{skipped} skipped"] if skipped else []
    return ", ".join(told) or "all as expected"
