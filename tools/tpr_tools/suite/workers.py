"""The processes in which a suite runs and judges its scripts: each does one run at a time.

A process returns little about a run: the report stays in the process, and is written or sent only if that was asked
for.
"""
from __future__ import annotations

import hashlib
import multiprocessing
import os
import signal
from dataclasses import dataclass
from multiprocessing.connection import Connection, wait
from typing import TYPE_CHECKING, Iterator, Optional, Union

from ..chart.sequence import Marks
from ..command import NOT_BUILT, Stop
from .explained import explained
from .judging import Judged, Reason, judge
from .kept import keep
from .runs import Runner
from .schedule import Asked, Schedule, schedule_of
from .wanted import Wanted

if TYPE_CHECKING:
    from .pictures import Pictures

_CUT_WANTED, _CUT_UNWANTED = 2_000, 1_000_000


@dataclass(frozen=True)
class Task:
    """A run to do: its script, its number among the script's runs, and what is expected."""

    script: int
    path: str
    number: int
    wanted: Wanted
    folder: Optional[str]  # in which its report is kept
    title: str
    known: frozenset[str]  # the outputs of the script's finished runs
    asked: Asked  # about the schedule, once for all runs
    on_page: bool  # whether a page shows it


@dataclass(frozen=True)
class Run:
    """The result of a run."""

    script: int
    number: int
    result: str
    reasons: tuple[Reason, ...]
    is_wanted: bool
    digest: str  # of what was printed
    seconds: float
    judging: float
    printed: str
    said: str
    kept: tuple[str, ...]
    explained: str
    schedule: Optional[Schedule]
    pictures: Optional[Pictures]


class Workers:
    """The processes, `jobs` of them. Each gets one run, and the next one after it has answered."""

    def __init__(self, jobs: int, runner: Runner, with_texts: bool):
        context = multiprocessing.get_context("fork")
        self.idle: list[Connection] = []
        self.busy: dict[Connection, Task] = {}
        self.processes = []
        for _ in range(jobs):
            ours, theirs = context.Pipe()
            others = [*self.idle, ours]
            process = context.Process(target=_work, args=(theirs, runner, with_texts, others), daemon=True)
            process.start()
            theirs.close()
            self.idle.append(ours)
            self.processes.append(process)

    def results(self, tasks: Iterator[Task]) -> Iterator[Run]:
        """The results of the tasks, as they are finished. A task is requested only when it can begin."""
        task = next(tasks, None)
        while task or self.busy:
            while task and self.idle:
                connection = self.idle.pop()
                self.busy[connection] = task
                connection.send(task)
                task = next(tasks, None)
            for ready in wait(list(self.busy)):
                assert isinstance(ready, Connection)
                yield self.answer(ready)

    def answer(self, connection: Connection) -> Run:
        task = self.busy.pop(connection)
        try:
            answer: Union[Run, Stop] = connection.recv()
        except EOFError:
            raise Stop(NOT_BUILT, f"the process that ran {task.path} ended unexpectedly") from None
        if isinstance(answer, Stop):
            raise answer
        self.idle.append(connection)
        return answer

    def end(self) -> None:
        """Ends the processes, and the programs that they run."""
        for process in self.processes:
            process.terminate()
        for process in self.processes:
            process.join()


def _work(connection: Connection, runner: Runner, with_texts: bool, others: list[Connection]) -> None:
    """The work of each process, until no further run is requested."""

    def end(*_: object) -> None:
        runner.stop()
        os._exit(0)

    signal.signal(signal.SIGTERM, end)
    # Ctrl-C and the end of a terminal reach all processes there, so only the main process handles them and ends the
    # others.
    for number in (signal.SIGINT, signal.SIGHUP):
        signal.signal(number, lambda *_: None)
    for other in others:
        other.close()
    while True:
        try:
            task = connection.recv()
        except EOFError:
            return
        answer: Union[Run, Stop]
        try:
            answer = _do(task, runner, with_texts)
        except Stop as stop:
            answer = stop
        try:
            connection.send(answer)
        except BrokenPipeError:
            return


def _do(task: Task, runner: Runner, with_texts: bool) -> Run:
    run = runner.run(task.path)
    judged = judge(run)
    fault = task.wanted.fault(judged.result, run.printed)
    digest = hashlib.sha256(run.printed).hexdigest()
    schedule = None
    if task.number == 1 and task.asked.anything() and judged.result != "refused":
        schedule = schedule_of(runner, task.path, task.asked, task.wanted)
    kept: tuple[str, ...] = ()
    pictures: Optional[Pictures] = None
    if task.folder is not None and digest not in task.known:
        marks = None
        if task.on_page:
            pictures, marks = _pictures(task, task.folder, judged, schedule)
        kept = keep(run, judged, task.folder, task.number, task.title, marks)
    reasons = judged.reasons + ((Reason(fault),) if fault else ())
    most = 0 if not with_texts else _CUT_WANTED if fault is None else _CUT_UNWANTED
    texts = (_text(run.printed, most), _text(run.said, most))
    is_explained = with_texts and fault is not None and digest not in task.known
    told_why = explained(task.path, run, judged) if is_explained else ""
    told = (task.script, task.number, judged.result, reasons, fault is None, digest)
    return Run(*told, run.seconds, judged.seconds, *texts, kept, told_why, schedule, pictures)


def _pictures(
    task: Task, folder: str, judged: Judged, schedule: Optional[Schedule]
) -> tuple[Pictures, Optional[Marks]]:
    """The additional pictures for a page, and the marks for the chart."""
    # Imported here, because it imports all modules that draw and explore, and most suites have no page.
    from .pictures import Drawer

    drawer = Drawer(task.path, folder)
    drawer.draw(judged, schedule, task.number == 1)
    return drawer.pictures, drawer.marks


def _text(data: bytes, most: int) -> str:
    """At most this many characters of the text, with a note if it is cut."""
    text = data[: most * 2].decode("utf-8", "replace")
    if len(text) <= most or most == 0:
        return text if most else ""
    return f"{text[:most]}\n[cut here: {len(data)} bytes in all]\n"


