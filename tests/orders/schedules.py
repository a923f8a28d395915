"""Computes the verdicts that a script can have, over all orders of its acts, by the model in tools/tpr_tools/model/."""
from __future__ import annotations

from collections.abc import Callable, Hashable, Iterator

from tpr_tools.model.bodies import TestCase
from tpr_tools.model.reading import read_script
from tpr_tools.model.run import Act, Run

MOST_STATES = 100_000


class TooMany(Exception):
    """There are more states than the limit."""


def verdicts_of(script: str) -> set[str]:
    """All verdicts, with `many` among them if there are more states than the limit."""
    found: set[str] = set()
    try:
        for run in ends_of(Run(TestCase(read_script(script))), state_of, MOST_STATES):
            found.add(run.report().split()[-1])
    except TooMany:
        found.add("many")
    return found


def ends_of(begun: Run, state: Callable[[Run], Hashable], most_states: int) -> Iterator[Run]:
    """The runs that end, of all that continue this one. Only one run of each state is followed."""
    seen: set[Hashable] = set()
    waiting = [begun]
    while waiting:
        run = waiting.pop()
        following = followers(run)
        if not following:
            yield run
        for after in following:
            if (key := state(after)) not in seen:
                seen.add(key)
                waiting.append(after)
        if len(seen) > most_states:
            raise TooMany


def followers(run: Run) -> list[Run]:
    """The runs after the next act of one component."""
    found: list[Run] = []
    for who in range(len(run.components)):
        if run.statement(who) is None:
            continue
        after = run.copy()
        if after.act(who) is not Act.WAITS:
            found.append(after)
    return found


def state_of(run: Run) -> str:
    """Everything on which the rest of the run depends."""
    told = []
    for one in run.components:
        ports = {
            name: (port.status, port.ahead, [(it.type, it.value, it.sender) for it in port.queue])
            for name, port in one.ports.items()
        }
        told.append((one.place, one.sent, one.failed, one.verdict, one.loops, one.variables, ports))
    return repr(told)
