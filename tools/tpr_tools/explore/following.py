"""Takes the steps of an order of `tpr verdicts` in the model of runs."""
from __future__ import annotations

from typing import Iterable

from ..model.bodies import Begun, TestCase
from ..model.run import Act, Run
from ..model.tree import Variable


class NoEnd(Exception):
    """In this order of steps, the model of runs doesn't reach an end."""


def takes_step(run: Run, who: int) -> bool:
    """Carries out the component's next step, if it has one. Declarations and the beginning of a loop aren't steps."""
    while is_no_step(run.statement(who)):
        run.act(who)
    return run.statement(who) is not None and run.act(who) is not Act.WAITS


def is_no_step(statement: object) -> bool:
    return isinstance(statement, (Begun, Variable))


def end_by(case: TestCase, names: Iterable[str]) -> str:
    """The verdict that the components reach by steps in this order, or why they reach no end."""
    run = Run(case)
    try:
        for at, name in enumerate(names, 1):
            if not takes_step(run, case.places[name]):
                raise NoEnd(f"{name}, name {at} of the order, has no step there")
        look_for_end(run)
    except NoEnd as why:
        return f"no end: {why}"
    return result_of(run)


def look_for_end(run: Run) -> None:
    """Checks that no component has a further step."""
    for name, who in run.case.places.items():
        if takes_step(run, who):
            raise NoEnd(f"{name} has a step after the order")


def some_order(run: Run) -> list[str]:
    """An order that leads the run to an end: each component in turn goes on for as long as it can."""
    names: list[str] = []
    goes_on = True
    while goes_on:
        goes_on = False
        for who, name in enumerate(run.case.names):
            while takes_step(run, who):
                names.append(name)
                goes_on = True
    return names


def result_of(run: Run) -> str:
    """The overall verdict, once no component can go on."""
    return run.report().split()[-1]
