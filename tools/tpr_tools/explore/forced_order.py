"""Translates an order of `tpr verdicts` into one that a gate can force on the forced script.

A gate sees statements, and each look of an `alt` at several ports with a `trigger`. An `alt` at one port is one step
for the gate, in the place of its last look: it doesn't see later messages in either case, and the messages that it
discarded before stay in its queue until then. A send that fails affects no other component, so it isn't in the order.
The last looks of a component that then waits forever aren't either: in the end it looks anyway.
"""
from __future__ import annotations

from typing import Iterable, Optional

from ..model.bodies import TestCase, Tried
from ..model.run import Act, Run
from ..model.tree import Send
from .following import NoEnd, is_no_step, look_for_end


def forced_order_of(case: TestCase, names: Iterable[str]) -> tuple[int, ...]:
    """The components of the steps that a gate sees, for an order of `tpr verdicts` given by names."""
    run, heard = Run(case), list[int]()
    for at, name in enumerate(names, 1):
        steps = heard_steps(run, case.places[name])
        if steps is None:
            raise NoEnd(f"{name}, name {at} of the order, has no step there")
        heard += [case.places[name]] * steps
    look_for_end(run)
    return without_last_looks(run, heard)


def heard_steps(run: Run, who: int) -> Optional[int]:
    """Carries out the component's next step of `tpr verdicts`. Returns how many steps a gate has seen by then, or None
    if the component has no step."""
    heard = 0
    while is_no_step(statement := run.statement(who)):
        run.act(who)
        heard += 1
    is_heard = is_heard_next(run, who)
    act = Act.WAITS if statement is None else run.act(who)
    if act is Act.WAITS:
        return None
    looks_on = isinstance(statement, Tried) and act is Act.MORE and not goes_by_looks(statement)
    return heard + (1 if is_heard and not looks_on else 0)


def is_heard_next(run: Run, who: int) -> bool:
    """Whether a gate can see the component's next step. Of the messages of one send it sees the first."""
    statement = run.statement(who)
    return not isinstance(statement, Send) or run.components[who].sent == 0 and run.fault_of(who, statement) is None


def without_last_looks(run: Run, heard: list[int]) -> tuple[int, ...]:
    """The order without the looks after which a component waits forever."""
    left_out: set[int] = set()
    for who, component in enumerate(run.components):
        if component.looked and goes_by_looks(run.statement(who)):
            places = [at for at, it in enumerate(heard) if it == who]
            left_out.update(places[-len(component.looked) :])
    return tuple(it for at, it in enumerate(heard) if at not in left_out)


def goes_by_looks(statement: object) -> bool:
    """Whether each look at the branches is a step of its own: if there are several ports, messages that arrive between
    a `trigger`'s discard and the next look can make a difference. With one port they can't."""
    if not isinstance(statement, Tried):
        return False
    guards = [guard for guard, _ in statement.choice.branches]
    return any(it.how == "trigger" for it in guards) and len({it.port for it in guards}) > 1


# What is forced


def carry_out(run: Run, who: int) -> None:
    """Carries out the component's next step that a gate sees. There must be one."""
    by_looks = goes_by_looks(run.statement(who))
    act = run.act(who)
    while act is Act.MORE and not by_looks:
        act = run.act(who)
    if act is Act.WAITS:
        raise NoEnd(f"{run.case.names[who]} waits where it has a step")


def finish(run: Run) -> None:
    """Carries out the statements that aren't in the order. They don't affect other components."""
    for who in range(len(run.components)):
        while run.statement(who) is not None and run.act(who) is not Act.WAITS:
            pass


def words_of(run: Run, who: int) -> str:
    """The component's next step in an order: its name; or its name with a `+`, once for each branch that it has tried
    since it was last named."""
    name, looked = run.case.names[who], run.components[who].looked
    return " ".join([f"{name}+"] * looked[-1]) if looked and goes_by_looks(run.statement(who)) else name
