"""What is shown for the verdicts of `tpr verdicts`: for each verdict a run with its order of steps, and where two runs
diverge. The program that forces orders makes the report of a run, and the model of runs describes the run in the words
of the script."""
from __future__ import annotations

from dataclasses import dataclass
from typing import Iterator, Optional

from ..model.run import Run
from ..origins import Origins
from .answers import Answer
from .following import NoEnd, result_of, some_order
from .forced_order import forced_order_of
from .forced_runs import ForcedRun, ForcedRuns, Outcome
from .forced_script import ForcedScript
from .nearest import Nearest, nearest
from .parting import Parting, Told, parting_of


@dataclass
class Shown:
    """What is shown for a verdict: an order as `tpr verdicts` prints it, the run in this order, and its report. If
    there is no report, `missing` says why. A `fault` is one of tpr or of its tools."""

    verdict: str
    order: tuple[str, ...]
    told: Optional[Told] = None
    report: str = ""
    missing: str = ""
    fault: str = ""


@dataclass(frozen=True)
class Parted:
    """Two runs with different verdicts, and where they diverge."""

    better: Shown
    worse: Shown
    where: Optional[Parting]


class Exploration:
    """The runs to show for an answer of `tpr verdicts`."""

    def __init__(self, script: ForcedScript, answer: Answer, origins: Optional[Origins] = None):
        self.answer = answer
        self.case = script.case(origins)
        # If there is only one verdict, `tpr verdicts` prints no order: any order leads to it.
        orders = answer.orders or [(verdict, tuple(some_order(Run(self.case)))) for verdict in answer.verdicts]
        self.shown = [self.followed(verdict, order) for verdict, order in orders]
        self.pairs = list(self.paired())
        self.no_reports = ""  # why there are none at all
        self.interrupted = False

    def followed(self, verdict: str, order: tuple[str, ...]) -> Shown:
        """The run in this order, in the model."""
        shown = Shown(verdict, order)
        try:
            told = Told(self.case, forced_order_of(self.case, order))
        except NoEnd as why:
            shown.fault = f"the model of runs reaches no end by its order: {why}"
        else:
            shown.told = told
            if (result := result_of(told.run)) != verdict:
                shown.fault = f"the model of runs reaches {result} by its order"
        return shown

    def paired(self) -> Iterator[tuple[Shown, Shown]]:
        """Pairs each verdict, except the best one, with a better one, using runs that are as similar as possible. The
        first such run of a verdict becomes the one that is shown."""
        places = [place for place, it in enumerate(self.shown) if not it.fault]
        used: set[int] = set()
        for at, worse in enumerate(places):
            if at == 0:
                continue
            near, moved, kept = max(self.near_ones(worse, places[:at]), key=lambda it: it[0].common)
            one = self.followed(self.shown[moved].verdict, near.order)
            if moved not in used:
                self.shown[moved] = one
            used.update((moved, kept))
            yield (self.shown[kept], one) if moved == worse else (one, self.shown[kept])

    def near_ones(self, worse: int, others: list[int]) -> Iterator[tuple[Nearest, int, int]]:
        """Orders that begin like another one, with the places of the verdict that they lead to and of the order that
        they begin like."""
        for better in others:
            for moved, kept in ((better, worse), (worse, better)):
                one, other = self.shown[moved], self.shown[kept]
                yield nearest(self.case, one.verdict, one.order, other.order), moved, kept

    def run(self, runs: ForcedRuns) -> None:
        """Runs the orders for their reports. An interrupt ends this."""
        told = [(it, it.told) for it in self.all_shown() if it.told is not None and not it.fault]
        try:
            for (shown, run_told), run in zip(told, runs.run([it.order() for _, it in told])):
                note(shown, run_told, run)
        except KeyboardInterrupt:
            self.interrupted = True
            self.no_reports = "it was interrupted"

    def all_shown(self) -> list[Shown]:
        """All runs that are shown, including those that are only needed to show where two diverge."""
        return [*self.shown, *(better for better, _ in self.pairs if all(it is not better for it in self.shown))]

    def faults(self) -> list[str]:
        return [f"{it.verdict}: a fault in tpr or its tools: {it.fault}" for it in self.all_shown() if it.fault]

    def partings(self) -> list[Parted]:
        """Where two runs diverge, for the pairs without a fault."""
        told = [(it, other) for it, other in self.pairs if not it.fault and not other.fault]
        return [Parted(it, other, parting_of(it.told, other.told)) for it, other in told if it.told and other.told]


def note(shown: Shown, told: Told, run: ForcedRun) -> None:
    """Stores the result of an order. The report must have the verdict, and must be that of the run in the model."""
    if run.outcome is Outcome.FAULT:
        shown.missing = run.text.strip()
    elif run.outcome is not Outcome.REPORT:
        shown.missing = run.outcome.value
    elif run.result() != shown.verdict:
        shown.fault = f"the run by its order reached {run.result()}"
    elif run.text != told.run.report():
        shown.fault = "the run by its order has a different report from the model of runs"
    else:
        shown.report = run.text
