"""The verdicts of a test case with timers in both readings: no timer expires, or each may expire at any moment."""
from __future__ import annotations

import os
import tempfile
from typing import Iterable, Iterator, Optional

from ..explore.answers import Answer, first_line, read_answer
from ..explore.following import is_no_step
from ..model.bodies import TestCase, Tried
from ..model.reading import read_script
from ..model.run import Run
from ..model.tree import Block, Choice, Guard, Loop, Script
from .emitted import Ticked, Ticking
from .rewriting import Rewritten


class NoAnswer(Exception):
    """The output isn't an answer of `tpr verdicts`."""


def told_of_both(never: Optional[str], always: Optional[str], expiring: Rewritten) -> str:
    """The verdicts that `tpr verdicts` printed for the two scripts, or that one of them was refused. For each verdict
    that only a timeout causes, the timeout that comes first on a path to it."""
    if never is None or always is None:
        one_line, other_line = (printed and first_line(_answer(printed)) or "refused" for printed in (never, always))
        return f"{one_line} if no timer expires; {other_line} if timers may expire"
    one, other = _answer(never), _answer(always)
    found = [f"{first_line(one)} if no timer expires"]
    if other.decided and len(other.verdicts) == 1:
        found.append(f"{first_line(other)} whenever timers expire")
    elif not other.decided:
        found.append(f"{first_line(other)} if timers may expire")
    else:
        new = [(verdict, order) for verdict, order in other.orders if verdict not in one.verdicts]
        found += [f"{verdict} if {first_timeout(expiring, order)}" for verdict, order in new]
        if not new:
            found.append("no other verdict if timers may expire")
    return "; ".join(found)


def _answer(printed: str) -> Answer:
    found = read_answer(printed)
    if found is None:
        raise NoAnswer(printed.strip())
    return found


def first_timeout(script: Rewritten, order: Iterable[str]) -> str:
    """The timer that expires first if the components act in this order."""
    timers = script.lines.timers
    read = _read(script.text)
    ticks = {id(guard): tick for guard, tick in zip(_guards_at(read, set(timers)), script.lines.ticks)}
    case = TestCase(read)
    run = Run(case)
    for name in order:
        tick = _step(run, case.places[name], ticks)
        if tick is not None and tick.act is Ticking.EXPIRE:
            return f"{tick.timer} (line {tick.at.line}) expires first"
    return "timers may expire"


def _step(run: Run, who: int, ticks: dict[int, Ticked]) -> Optional[Ticked]:
    """Carries out the component's next step. Returns the timer operation whose message it takes from a timer's
    component, if any."""
    while is_no_step(run.statement(who)):
        run.act(who)
    statement, told = run.statement(who), len(run.components[who].lines)
    run.act(who)
    taken = {line.split()[1] for line in run.components[who].lines[told:] if line.startswith("took ")}
    branches = statement.choice.branches if isinstance(statement, Tried) else ()
    found = [ticks[id(guard)] for guard, _ in branches if guard.port in taken and id(guard) in ticks]
    return found[0] if found else None


def _read(text: str) -> Script:
    with tempfile.TemporaryDirectory() as folder:
        file = os.path.join(folder, "expiring.ttcn")
        with open(file, "w", encoding="utf-8") as opened:
            opened.write(text)
        return read_script(file)


def _guards_at(script: Script, ports: set[str]) -> list[Guard]:
    """The receiving operations at these ports, in the order of the text."""
    functions = [*script.functions.values(), *([script.case] if script.case else [])]
    return [guard for function in functions for guard in _guards(function.block) if guard.port in ports]


def _guards(block: Block) -> Iterator[Guard]:
    for statement in block:
        if isinstance(statement, Loop):
            yield from _guards(statement.block)
        elif isinstance(statement, Choice):
            for guard, inner in statement.branches:
                yield guard
                yield from _guards(inner)
            yield from _guards(statement.otherwise or ())
