"""Tests scripts by an author who had not seen tools/rewrite (tests/rewrites/unseen/): those that are carried over have
the verdicts that their first lines state.

    tests/rewrites/unseen_rules.py PROGRAM

Each line of tests/rewrites/unseen_answers has a script, the options, and the first line that `tpr verdicts` prints for
the rewritten script. The `error` comes from a wait that only a timeout ends. It prints a line `passed ..` or
`FAILED: ..` for each case.
"""
from __future__ import annotations

import os
import sys
from concurrent.futures import ThreadPoolExecutor

sys.path.insert(0, os.path.dirname(os.path.realpath(__file__)))

from asking import FOLDER, REWRITE, judged, run


def main(program: str) -> None:
    with open(f"{FOLDER}/unseen_answers", encoding="utf-8") as opened:
        rows = [line.rstrip("\n").split(" | ") for line in opened]
    with ThreadPoolExecutor(os.cpu_count()) as pool:
        answers = pool.map(lambda row: said_of(program, row[0], row[1].split()), rows)
        for (name, options, wanted), said in zip(rows, answers):
            judged(f"{name} {options}", said.partition("\n")[0] == wanted, said[:300])


def said_of(program: str, name: str, options: list[str]) -> str:
    ended = run(REWRITE, "--tpr", program, f"{FOLDER}/unseen/{name}.ttcn", *options)
    return run(program, "verdicts", data=ended.printed.encode()).printed if ended.status == 0 else ended.said


if __name__ == "__main__":
    main(sys.argv[1])
