"""Finds an order for a better verdict that is the same as the order for a worse one for as long as possible, because
the common part of two runs doesn't explain their verdicts."""
from __future__ import annotations

from collections import Counter
from typing import Iterator, NamedTuple

from ..model.bodies import TestCase
from ..model.run import Run
from .following import result_of, some_order, takes_step

MOST_STEPS = 100_000  # of all runs that are tried, in sum


class Nearest(NamedTuple):
    """An order, and how many of its first steps are the same as in the other order."""

    common: int
    order: tuple[str, ...]


def nearest(case: TestCase, verdict: str, order: tuple[str, ...], worse: tuple[str, ...]) -> Nearest:
    """The order for this verdict with the longest common beginning with the worse one, among orders that continue like
    `order`, which also leads to this verdict."""
    for common in range(len(worse) - 1, -1, -1):
        if (len(worse) - common) * len(worse) > MOST_STEPS:
            break
        run, names = Run(case), list(worse[:common])
        for name in names:
            takes_step(run, case.places[name])
        names += [name for name in left_of(order, worse[:common]) if takes_step(run, case.places[name])]
        names += some_order(run)
        if result_of(run) == verdict:
            return Nearest(common, tuple(names))
    return Nearest(0, order)


def left_of(order: tuple[str, ...], done: tuple[str, ...]) -> Iterator[str]:
    """The remaining part of the order, after the components have taken these steps."""
    counts = Counter(done)
    for name in order:
        if counts[name] > 0:
            counts[name] -= 1
        else:
            yield name
