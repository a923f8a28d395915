"""Compares the judge of runs with many components with the model of runs, on scripts of the same shapes with few.

    tried.py TIMES

For each shape with 3 to 8 components there are TIMES runs of the model (tools/tpr_tools/model/), with random acts. The
judge must allow each of these reports. It must allow a slightly altered one if and only if the judge of tests/orders
does; if that judge finds no answer soon, nothing is compared. It prints a line `passed ALLOWED REFUSED NAME` for each
script, or lines that begin with `FAILED: NAME`.
"""
import argparse
import os
import random
import sys
import tempfile

FOLDER = os.path.dirname(os.path.realpath(__file__))
sys.path[:0] = [FOLDER, f"{FOLDER}/../../orders", f"{FOLDER}/../../../tools"]

from judge import is_allowed
from judged import altered
from judging import wrong_in
from shapes import (
    Shape,
    all_to_all,
    all_to_one,
    all_wait,
    half_ended,
    half_waits,
    one_ends_last,
    relay,
    ring,
    star,
    system,
    tree,
)
from tpr_tools.model.bodies import TestCase
from tpr_tools.model.reading import read_script
from tpr_tools.model.run import Act, Run

MOST_ALTERED, MOST_STATES = 30, 300
FEW = (
    *(ring(3, 3), ring(5, 2), star(3, 3), star(5, 1), all_to_all(3, 2), all_to_all(4, 1), tree(5), tree(8)),
    *(relay(4), relay(7), all_wait(3, 2), all_wait(5, 1), one_ends_last(4, 3), half_waits(6)),
    *(half_ended(4), half_ended(7)),
    *(all_to_one(3, 2), all_to_one(4, 2), system(4, 2), system(6, 1)),
)


def case_of(shape: Shape) -> TestCase:
    with tempfile.NamedTemporaryFile("w", encoding="latin-1", suffix=".ttcn") as file:
        file.write(shape.script)
        file.flush()
        return TestCase(read_script(file.name))


def report_of(case: TestCase, chance: random.Random) -> str:
    """The report of a run of the model, in which a random component acts next."""
    run = Run(case)
    living = list(range(len(run.components)))
    while living:
        who = chance.choice(living)
        if run.statement(who) is None or run.act(who) is Act.WAITS:
            living.remove(who)
        else:
            living = list(range(len(run.components)))
    return run.report()


def exchanged(report: str, chance: random.Random) -> str:
    """The report with two messages of receivers exchanged, possibly of two senders."""
    lines = report.splitlines(True)
    takes = [place for place, line in enumerate(lines) if line.startswith(("took ", "left "))]
    if len(takes) < 2:
        return report
    one, other = chance.sample(takes, 2)
    words, others = lines[one].split(" ", 2), lines[other].split(" ", 2)
    lines[one], lines[other] = " ".join([*words[:2], others[2]]), " ".join([*others[:2], words[2]])
    return "".join(lines)


def tried(shape: Shape, times: int) -> str:
    """The result of one script."""
    case, chance = case_of(shape), random.Random(shape.name)
    reports = {report_of(case, chance) for _ in range(times)}
    for report in reports:
        if (wrong := wrong_in(shape, report)) is not None:
            return f"FAILED: {shape.name}: {wrong}, and this is refused\n{report}"
    others = altered(sorted(reports), chance) | {exchanged(report, chance) for report in reports for _ in range(2)}
    refused = 0
    for report in sorted(others - reports)[:MOST_ALTERED]:
        allowed = is_allowed(case, report, MOST_STATES)
        if allowed not in (None, wrong_in(shape, report) is None):
            return f"FAILED: {shape.name}: the judge of orders says {allowed} of this\n{report}"
        refused += allowed is False
    return f"passed {len(reports)} {refused} {shape.name}"


def main() -> None:
    words = argparse.ArgumentParser(description="Tests the judge of runs with many components beside the model.")
    words.add_argument("times", metavar="TIMES", type=int, help="runs of the model of each shape")
    asked = words.parse_args()
    for shape in FEW:
        print(tried(shape, asked.times), flush=True)


if __name__ == "__main__":
    main()
