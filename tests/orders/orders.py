"""Computes every order in which the steps of a script can be carried out, and the report of each.

    orders.py SCRIPT [NAME..]

prints what `tpr_ordered` must print for all orders of a script, or for the one order with these names.

An order is the names of components, one for each step. The gate of `tpr_ordered` notices the end of a step only by
the component's next step. So a component's last step isn't in the order: it must be a `setverdict`, a loop without a
turn, or a send that fails, which have no effect on another component. A step that waits for good isn't in the order
either.
"""
import argparse
import os
import random
import sys
from collections.abc import Iterator
from dataclasses import dataclass

sys.path.append(os.path.join(os.path.dirname(os.path.realpath(__file__)), "..", "..", "tools"))

from tpr_tools.model.bodies import Begun, TestCase
from tpr_tools.model.reading import read_script
from tpr_tools.model.run import Run
from tpr_tools.model.tree import Setverdict


class Unordered(Exception):
    """The order of the script's steps doesn't determine its report."""


@dataclass(frozen=True)
class Ordered:
    """An order, its report, and whether a behaviour waits at the end."""

    names: tuple[str, ...]
    report: str
    waits: bool

    def answer(self) -> str:
        """The output that the program must print for it."""
        return f"order {' '.join(self.names)}\n{self.report}\n"


def followers(run: Run) -> list[tuple[str, Run]]:
    """The runs after one more step that the gate notices, by the component that takes it."""
    found = ((name, follower(run, who)) for who, name in enumerate(run.case.names))
    return [(name, after) for name, after in found if after is not None]


def follower(run: Run, who: int) -> Run | None:
    """The run after one more step of this component that the gate notices, or None if it has none."""
    if run.statement(who) is None:
        return None
    after = run.copy_of(run.reached(who))
    return after if after.step(who) and after.statement(who) is not None else None


def orders_of(run: Run, names: tuple[str, ...] = ()) -> Iterator[Ordered]:
    """All orders of the remaining steps, after the names of those that are done."""
    following = followers(run)
    for name, after in following:
        yield from orders_of(after, (*names, name))
    if not following:
        yield ended(run, names)


def some_order_of(run: Run, chance: random.Random) -> Ordered:
    """A random order."""
    names: list[str] = []
    open_places = list(range(len(run.components)))
    while open_places:
        who = open_places.pop(chance.randrange(len(open_places)))
        if (after := follower(run, who)) is not None:
            names.append(run.case.names[who])
            run, open_places = after, list(range(len(run.components)))
    return ended(run, tuple(names))


def this_order_of(run: Run, names: tuple[str, ...]) -> Ordered:
    """The order with these names."""
    for at, name in enumerate(names):
        after = dict(followers(run))
        if name not in after:
            raise Unordered(f"{name} can't be name {at + 1} of the order")
        run = after[name]
    if following := followers(run):
        raise Unordered(f"the order is too short for {' and '.join(name for name, _ in following)}")
    return ended(run, names)


def ended(run: Run, names: tuple[str, ...]) -> Ordered:
    """The end of a run in which only steps remain that aren't in the order."""
    last = run.copy()
    waits = [who for who in range(len(run.components)) if last.statement(who) is not None and not finish(last, who)]
    return Ordered(names, last.report(), bool(waits))


def finish(run: Run, who: int) -> bool:
    """Carries out the component's last step. Returns False if it waits."""
    statement, me = run.statement(who), run.components[who]
    lines = len(me.lines)
    if not run.step(who):
        # After its last name the component is free, and may look early. Its discards have a fixed order only at one
        # port.
        if len({line.split()[1] for line in me.lines[lines:]}) > 1:
            raise Unordered(f"{run.case.names[who]} discards at two ports while it waits")
        return False
    turns = isinstance(statement, Begun) and statement.loop.first < statement.loop.bound
    if turns or not (isinstance(statement, (Setverdict, Begun)) or me.failed is not None):
        raise Unordered(f"{run.case.names[who]} ends with a step that others can see")
    return True


def main() -> None:
    words = argparse.ArgumentParser(description="Every order of the steps of a script, with its report.")
    words.add_argument("script", metavar="SCRIPT")
    words.add_argument("names", metavar="NAME", nargs="*", help="of the one order that is asked for")
    asked = words.parse_args()
    run, names = Run(TestCase(read_script(asked.script))), tuple(asked.names)
    for ordered in [this_order_of(run, names)] if names else orders_of(run):
        print(ordered.answer(), end="")


if __name__ == "__main__":
    main()
