#!/usr/bin/env python3
"""Runs examples with calls refused, and tests how often a template is filled.

    refused_runs.py runs LIBRARY PROGRAM         each allocation, start of a thread and read of runs refused in turn
    refused_runs.py templates LIBRARY PROGRAM    a template without a loop variable is filled once for a behaviour

LIBRARY is that of tests/program/refused.c. It prints `passed REFUSED NAME` or `FAILED: NAME: ..` for each case.
"""
from __future__ import annotations

import functools
import sys
from collections.abc import Iterator
from pathlib import Path

sys.dont_write_bytecode = True
sys.path.append(str(Path(__file__).resolve().parents[1] / "program"))

from examples import is_report, reports, script
from refusing import MOST_CALLS, NO_MEMORY, NO_READ, NO_THREAD, Case, Ran, Refusing, Wrong, try_one_of

OF_EACH_ALLOCATION = (
    "trigger_skips_to_what_matches",
    "two_senders_to_one_that_ended",
    "halt_holds_back_what_comes_later",
    "system_under_test_answers",
    "closed_counter_serves_no_order",
    "everyone_is_told_to_stop",
)
TURNS = """module Turns {
    type record of integer Row;
    type record of Row Table;
    type port Tables message { inout Table; }
    type component Looker { port Tables tables; }
    testcase looks() runs on Looker {
        for (var integer turn := 0; turn < 500; turn := turn + 1) {
            alt {
                [] tables.receive(Table:{LISTS{1, ELEMENT}}) { }
                [else] { }
            }
        }
    }
}
"""
LONG = """module Long {
    type port Numbers message { inout integer; }
    type component Talker { port Numbers mouth, ear; }
    testcase talks() runs on Talker {
        connect(self:mouth, self:ear);
        for (var integer turn := 0; turn < TURNS; turn := turn + 1) { mouth.send(integer:turn); }
    }
}
"""
# More than filling a template once takes, and less than filling it at each turn: that takes at least one allocation for
# each of its lists, 50,000.
MANY_ALLOCATIONS = 20000


class Example:
    """An example in a mode, `run` or `trace`."""

    def __init__(self, refusing: Refusing, mode: str, name: str):
        self.refusing, self.mode, self.words = refusing, mode, [refusing.program, mode, script(name)]
        self.reports = reports(name)

    def is_report(self, ran: Ran) -> bool:
        return is_report(ran, self.reports, self.mode)

    def each_allocation(self) -> None:
        """In whatever thread an allocation is, the run reports that memory or a thread was refused, or has a report."""
        refusals = 0
        for number, ran in self.refusing.each(self.words, "MEMORY", MOST_CALLS):
            is_fault = ran.is_fault(NO_MEMORY) or ran.is_fault(NO_THREAD)
            if not is_fault and not self.is_report(ran):
                raise ran.wrong(f"with allocation {number} refused")
            refusals += is_fault
        if refusals == 0 or not self.is_report(ran):
            raise ran.wrong(f"{refusals} runs were refused memory, and the last")

    def each_thread(self, threads: int) -> None:
        """Each of this many starts is refused: the answer is 51 each time, and the other threads end."""
        for number in range(1, threads + 1):
            ran = self.refusing.run(self.words, THREAD=number)
            if "THREAD" not in ran.refused or not ran.is_fault(NO_THREAD):
                raise ran.wrong(f"with thread {number} refused")

    def thread_and_each_allocation(self, thread: int) -> None:
        """If the run reaches the thread, the answer is 51, whatever else is refused. The start of a thread takes memory
        too, so if the run doesn't reach it, both 51 and 50 are right."""
        both = 0
        for number, ran in self.refusing.each(self.words, "MEMORY", MOST_CALLS, THREAD=thread):
            is_early = "THREAD" not in ran.refused and ran.is_fault(NO_MEMORY)
            if not ran.is_fault(NO_THREAD) and not is_early:
                raise ran.wrong(f"with thread {thread} and allocation {number} refused")
            both += {"THREAD", "MEMORY"} <= ran.refused
        if both == 0:
            raise ran.wrong("no run was refused both a thread and memory, and the last")

    def each_read(self) -> None:
        """The answer is 2, and nothing is run."""
        self.refusing.each_is_told(self.words, "READ", lambda ran: ran.is_so(2, NO_READ), self.is_report)


def spared_in(refusing: Refusing, turns: int) -> int:
    """How many allocations of a run with this many turns can be refused without a change of its report."""
    file = refusing.folder / f"{turns}.ttcn"
    file.write_text(LONG.replace("TURNS", str(turns)), encoding="ascii")
    words, spared = [refusing.program, "run", str(file)], 0
    whole = refusing.run(words).printed
    for number, ran in refusing.each(words, "MEMORY", MOST_CALLS):
        is_fault = ran.is_fault(NO_MEMORY) or ran.is_fault(NO_THREAD)
        if not is_fault and not ran.is_so(0, whole):
            raise ran.wrong(f"with allocation {number} refused")
        spared += "MEMORY" in ran.refused and not is_fault
    return spared


def grows_as_it_is_used(refusing: Refusing) -> None:
    """A history of 80 entries gets room for many by one allocation, and a history of 4 entries doesn't. If that
    allocation is refused, the report is the same."""
    few, many = spared_in(refusing, 2), spared_in(refusing, 40)
    if many != few + 1:
        raise Wrong(f"{many} refusals were followed by a report, and {few} in a short run")


def of_runs(refusing: Refusing) -> Iterator[Case]:
    for name in OF_EACH_ALLOCATION:
        yield f"each allocation of {name}", Example(refusing, "run", name).each_allocation
    for name in ("login_is_answered", "all_wait_for_each_other"):
        yield f"each read of {name}", Example(refusing, "run", name).each_read
    for name, threads in (("two_senders_to_one_that_ended", 3), ("all_wait_for_each_other", 1)):
        yield f"each thread of {name}", functools.partial(Example(refusing, "run", name).each_thread, threads)
    for name, thread in (
        ("two_senders_to_one_that_ended", 1),
        ("two_senders_to_one_that_ended", 3),
        ("all_wait_for_each_other", 1),
    ):
        both = functools.partial(Example(refusing, "run", name).thread_and_each_allocation, thread)
        yield f"thread {thread} and each allocation of {name}", both
    for name in ("halt_holds_back_what_comes_later", "two_senders_to_one_that_ended"):
        yield f"each allocation of the trace of {name}", Example(refusing, "trace", name).each_allocation
    yield "each read of a trace", Example(refusing, "trace", "login_is_answered").each_read
    yield "each allocation of a long history", functools.partial(grows_as_it_is_used, refusing)
    trace = Example(refusing, "trace", "two_senders_to_one_that_ended")
    yield "each thread of a trace", functools.partial(trace.each_thread, 3)


def fills_once(refusing: Refusing) -> None:
    """500 turns, each with an alt over a template of 100 lists: with and without a loop variable in it."""
    for element, is_often in (("turn", True), ("2", False)):
        file = refusing.folder / f"{element}.ttcn"
        file.write_text(TURNS.replace("LISTS", "{1, 2}," * 99).replace("ELEMENT", element), encoding="ascii")
        ran = refusing.run([refusing.program, "run", str(file)], MEMORY=MANY_ALLOCATIONS)
        if ("MEMORY" in ran.refused) != is_often or not is_often and ran.status != 0:
            raise ran.wrong(f"500 turns over a template with {element}, with allocation {MANY_ALLOCATIONS} refused")


def of_templates(refusing: Refusing) -> Iterator[Case]:
    yield "a template that is filled once", functools.partial(fills_once, refusing)


def main() -> int:
    kinds = {"runs": of_runs, "templates": of_templates}
    return try_one_of(kinds, "Runs with calls refused, and how often a template is filled.")


if __name__ == "__main__":
    sys.exit(main())
