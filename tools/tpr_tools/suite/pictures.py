"""The additional contents of a script on a page: its connections, the runs that diverge, and the lines that no run
reached. They are made by the process that runs the script, which passes on only files and these lines."""
from __future__ import annotations

import os
from dataclasses import dataclass, field
from typing import Callable, Iterable, NamedTuple, Optional

from ..chart.connections import connections_of
from ..chart.line_marks import LineMarks
from ..chart.sequence import Marks
from ..command import Stop, read_bytes, write_file
from ..explore.answers import Answer
from ..explore.exploration import Exploration
from ..explore.exploration_text import text_of_partings
from ..explore.forced_script import forced_script
from ..explore.pictures import picture_of
from ..origins import Line, origins_of
from ..report.reader import read_report
from ..report.report import Report
from ..script.case import Case
from ..why.annotated import Done
from ..why.beside import case_of, ways_of
from ..why.walk import Walk
from .judging import Judged
from .kept import CONNECTIONS, DIVERGING
from .schedule import Schedule


class Unreached(NamedTuple):
    """A line of a script, its statements, and those that were never reached."""

    text: str
    statements: frozenset[int]
    never: frozenset[int]

    def is_whole(self) -> bool:
        return self.never == self.statements

    def and_in(self, other: Unreached) -> Unreached:
        """The same line, combined with its copy in another script."""
        statements, reached = self.statements | other.statements, self.reached() | other.reached()
        return Unreached(self.text or other.text, statements, statements - reached)

    def reached(self) -> frozenset[int]:
        return self.statements - self.never


# If the script comes from other files, all lines; otherwise only the lines that weren't completely reached.
Lines = dict[Line, Unreached]


@dataclass
class Pictures:
    """The lines that a run didn't reach (None if there is no report), what was drawn, and what failed."""

    unreached: Optional[Lines] = None
    files: tuple[str, ...] = ()  # that the script comes from
    connections: bool = False
    diverging: bool = False
    where: str = ""  # where the runs diverge, as a text
    failed: list[str] = field(default_factory=list)


def in_no_run(runs: Iterable[Lines]) -> Lines:
    """The lines of a script, with what none of the runs reached."""
    first, *others = runs
    for lines in others:
        first = {line: it._replace(never=it.never & lines[line].never) for line, it in first.items() if line in lines}
    return first


def in_no_script(scripts: Iterable[tuple[tuple[str, ...], Lines]]) -> dict[str, tuple[int, Lines]]:
    """For each file that scripts come from: how many scripts have lines of it, and its lines, with what none of these
    scripts reached."""
    found: dict[str, tuple[int, Lines]] = {}
    for files, lines in scripts:
        for file in files:
            number, known = found.get(file, (0, {}))
            found[file] = number + 1, known
            for line, it in lines.items():
                if file == (line.file or files[0]):
                    known[line] = known[line].and_in(it) if line in known else it
    return found


class Drawer:
    """Draws the pictures for a run. A failure leaves the result as it is, and is shown on the page."""

    def __init__(self, script: str, folder: str):
        self.script = script
        self.folder = folder
        self.pictures = Pictures()
        self.marks: Optional[Marks] = None  # the lines of the script, for the chart
        self.case: Optional[Case] = None

    def draw(self, judged: Judged, schedule: Optional[Schedule], is_first: bool) -> None:
        if judged.result == "refused":
            return
        self.attempt("the lines of the script", lambda: self.read(judged.report))
        if is_first:
            self.attempt("the connections", self.draw_connections)
        if schedule is not None and schedule.proved is not None and len(schedule.proved.verdicts) > 1:
            proved = schedule.proved
            self.attempt("where the runs diverge", lambda: self.draw_diverging(proved))

    def attempt(self, what: str, part: Callable[[], None]) -> None:
        try:
            part()
        except Stop as stop:
            self.pictures.failed.append(f"{what}: {stop.text}")
        except Exception as error:
            self.pictures.failed.append(f"{what}: {type(error).__name__} {error}")

    def read(self, report: Optional[Report]) -> None:
        self.case = case_of(self.script)
        self.pictures.files = tuple(self.case.origins.files)
        if report is not None:
            ways = ways_of(self.case, report, f"the report of {self.script}")
            self.marks = LineMarks(ways)
            self.leave_out(ways.walks)

    def leave_out(self, walks: list[Walk]) -> None:
        assert self.case is not None
        unreached = unreached_by(self.case, walks)
        before = self.pictures.unreached
        self.pictures.unreached = unreached if before is None else in_no_run([before, unreached])

    def draw_connections(self) -> None:
        if self.case is not None:
            write_file(os.path.join(self.folder, CONNECTIONS), connections_of(self.case))
            self.pictures.connections = True

    def draw_diverging(self, answer: Answer) -> None:
        """Draws where runs diverge. These runs count as runs of the script: the lines that they reach are reached."""
        origins = origins_of(self.script)
        exploration = Exploration(forced_script(read_bytes(self.script)), answer, origins)
        self.pictures.failed += exploration.faults()
        partings = exploration.partings()
        self.pictures.where = text_of_partings(partings, origins).strip("\n")
        if partings:
            picture = picture_of(os.path.basename(self.script), partings, origins)
            write_file(os.path.join(self.folder, DIVERGING), picture)
            self.pictures.diverging = True
        for shown in exploration.all_shown():
            if shown.told is not None and not shown.fault and self.case is not None:
                report = read_report(shown.told.run.report().encode("latin-1"))
                self.leave_out(ways_of(self.case, report, f"a run with the verdict {shown.verdict}").walks)


def unreached_by(case: Case, walks: list[Walk]) -> Lines:
    done = Done(case, walks)
    texts = done.texts()
    return {
        line: Unreached(texts[line.file][line.number - 1].strip(), frozenset(it.statements), it.never_reached())
        for line, it in done.lines.items()
        if it.never() or case.origins.files
    }
