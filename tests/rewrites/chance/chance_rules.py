"""Tests tools/rewrite with random programs of the full language: each program and its rewritten script have the same
results.

    tests/rewrites/chance/chance_rules.py [FIRST [COUNT]]

An interpreter of its own (full_runs.py) follows each program in every order of its acts, and the model of runs of
tools/ follows the rewritten script. The verdicts must be the same, and for each component the messages that were sent
and those that left a queue. It prints a line `passed ..` or `FAILED: ..` for each case.
"""
from __future__ import annotations

import argparse
import os
import sys
from collections import Counter

HERE = os.path.dirname(os.path.realpath(__file__))
ROOT = os.path.dirname(os.path.dirname(os.path.dirname(HERE)))
sys.path[:0] = [HERE, os.environ.get("REWRITING", f"{ROOT}/tools"), f"{ROOT}/tests/orders"]

from full_expressions import Fault
from full_runs import Outcome, Runs
from profile_runs import outcomes_of
from programs import program_of
from schedules import TooMany
from tpr_tools.rewrite.rewriting import rewrite
from tpr_tools.rewrite.run import Options
from tpr_tools.rewrite.tokens import Source

FIRST, COUNT = 1, 600
# From this number on, the programs compute with the messages that they receive.
FIRST_COMPUTING, COUNT_COMPUTING = 100_001, 600


def look_at(seed: int) -> str:
    """`same`, why the program isn't compared, or what is wrong."""
    encodes = seed % 3 == 0
    text = program_of(seed, encodes, seed >= FIRST_COMPUTING)
    found = rewrite([Source("chance", text.encode())], options=Options(encodes, queues_ended=True))
    if found.refused:
        return "refused"
    try:
        wanted = Runs(text).outcomes()
        carried = outcomes_of(found.text)
    except Fault:
        return "faulty"
    except TooMany:
        return "large"
    if any(events is None and result != "error" for result, events in wanted):
        wanted, carried = verdicts(wanted), verdicts(carried)
    return "same" if wanted == carried else f"wrong: {sorted(map(str, wanted ^ carried))[:2]}"


def verdicts(outcomes: set[Outcome]) -> set[Outcome]:
    return {(result, None) for result, _ in outcomes}


def main() -> None:
    words = argparse.ArgumentParser(description="Programs by chance, and what tools/rewrite makes of them.")
    words.add_argument("first", metavar="FIRST", type=int, nargs="?", default=FIRST, help="the seed of the first program")
    words.add_argument("count", metavar="COUNT", type=int, nargs="?", help="how many; how they came out is counted then")
    given = words.parse_args()
    first, count = given.first, COUNT if given.count is None else given.count
    answers: Counter[str] = Counter()
    seeds = list(range(first, first + count))
    if given.count is None:
        seeds += range(FIRST_COMPUTING, FIRST_COMPUTING + COUNT_COMPUTING)
    for seed in seeds:
        answer = look_at(seed)
        kind = answer.partition(":")[0]
        answers[kind] += 1
        if kind == "wrong":
            print(f"FAILED: the program {seed}: {answer}")
        elif kind == "same":
            print(f"passed the program {seed}")
    if given.count is not None:
        print(f"{dict(answers)}", file=sys.stderr)


if __name__ == "__main__":
    main()
