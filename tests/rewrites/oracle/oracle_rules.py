#!/usr/bin/env python3
"""Tests tools/rewrite with random programs: the script that it writes has the verdicts that a second interpreter finds
for the original.

    tests/rewrites/oracle/oracle_rules.py TPR [FIRST [COUNT]]

The interpreter (oracle.py) and tools/rewrite share nothing, so that neither reads a program as the other does. It
prints a line `passed ..` or `FAILED: ..` for each program that is carried over. With a COUNT it also prints how many
programs had each result, and why programs were refused.
"""
from __future__ import annotations

import argparse
import glob
import os
import subprocess
import sys
from collections import Counter
from unittest.mock import patch

HERE = os.path.dirname(os.path.realpath(__file__))
ROOT = os.path.dirname(os.path.dirname(os.path.dirname(HERE)))
sys.path[:0] = [HERE, os.environ.get("REWRITING", f"{ROOT}/tools")]

from behaviour import Endless
from exploring import Explorer, TooMany
from grammar import Reader, Unread
from oracle import named
from random_themes import program_of
from random_timers import timed_program_of
from tpr_tools.rewrite.rewriting import rewrite
from tpr_tools.rewrite.run import Options, Reading
from tpr_tools.rewrite.tokens import Source

FIRST, COUNT, TIMED, COUNT_SORTED = 1, 40, 8, 60
MOST_STATES = 50_000
PRELUDE = """module M {
type record R { integer a, charstring b }
type record O { integer a optional }
type record of integer L;
type port P message { inout integer, charstring, R, L }
type component C { port P p, q; var integer vc_n := 0; }
function f_one_and_two() runs on C { p.send(1); p.send(2); }
"""


def look_at(program: str, seed: int, reading: Reading) -> tuple[str, str]:
    """`same`, `refused`, `large` or `wrong`, and why. The program has timers if the reading allows them."""
    text = (program_of if reading is Reading.REFUSED else timed_program_of)(seed)
    try:
        explorer = Explorer(Reader(text).read(), reading is Reading.ANY)
        wanted = named(explorer.all_verdicts(MOST_STATES))
    except (TooMany, Endless) as why:
        return "large", str(why)
    got, refused = verdicts_of_carried(program, text, Options(encodes=seed % 3 == 0, timers=reading))
    if refused:
        return "refused", refused
    if got.startswith("undecided"):
        return "large", got
    return ("same", "") if got == wanted else ("wrong", f"{got!r}, and the original has {wanted!r}")


def verdicts_of_carried(program: str, text: str, options: Options) -> tuple[str, str]:
    """The output of `tpr verdicts` for the rewritten script, or why it is refused."""
    found = rewrite([Source("random", text.encode())], options=options)
    if found.refused:
        return "", found.refused[0].text().split("\n")[0].split(": ", 1)[-1]
    return verdicts_of(program, found.text), ""


def verdicts_of(program: str, script: str) -> str:
    ended = subprocess.run([program, "verdicts"], input=script.encode(), capture_output=True, check=False)
    return ended.stdout.decode().partition("\n")[0]


def sorted_at_once(program: str, seeds: range) -> int:
    """Tests random programs as if each became large, so that equivalent paths are written once. Returns how many become
    another script."""
    count = 0
    for seed in seeds:
        sources, options = [Source("random", program_of(seed).encode())], Options(encodes=seed % 3 == 0)
        tree = rewrite(sources, options=options)
        with patch("tpr_tools.rewrite.run.MOST_OF_TREE", 0):
            found = rewrite(sources, options=options)
        if found.refused or found.text == tree.text:
            continue
        count += 1
        got, wanted = (verdicts_of(program, one.text) for one in (found, tree))
        name = f"random program {seed}, sorted"
        print(f"passed {name}" if got == wanted else f"FAILED: {name}: {got!r}, and as a tree {wanted!r}", flush=True)
    return count


def cases(program: str) -> None:
    """Tests the oracle itself, and the rewritten scripts of its cases."""
    with open(f"{HERE}/cases", encoding="utf-8") as opened:
        entries = opened.read().split("=== ")[1:]
    for entry in entries:
        head, _, body = entry.partition("\n")
        name, _, expected = head.rpartition(": ")
        text = f"{PRELUDE}{body}}}"
        found = named(Explorer(Reader(text).read()).all_verdicts(MOST_STATES))
        print(f"passed {name}" if found == expected else f"FAILED: {name}: {found!r} in place of {expected!r}")
        got, refused = verdicts_of_carried(program, text, Options(encodes=True, timers=Reading.ANY))
        if not refused:
            print(f"passed {name}, carried over" if got == expected else f"FAILED: {name}, carried over: {got!r}")


def unseen() -> None:
    """Tests that the scripts of tests/rewrites/unseen in the subset have the verdicts that their author expects."""
    for file in sorted(glob.glob(f"{os.path.dirname(HERE)}/unseen/*.ttcn")):
        name = os.path.basename(file)
        with open(file, encoding="utf-8") as opened:
            text = opened.read()
        expected = next(line for line in text.split("\n") if line.startswith("// expect")).partition(": ")[2]
        try:
            found = named(Explorer(Reader(text).read()).all_verdicts(MOST_STATES))
        except Unread:
            continue
        print(f"passed {name}" if found == expected else f"FAILED: {name}: {found!r} in place of {expected!r}")


def main() -> None:
    words = argparse.ArgumentParser(description="Random programs, tools/rewrite, and a second interpreter.")
    words.add_argument("program", metavar="TPR", help="the program that is asked for verdicts")
    words.add_argument("first", metavar="FIRST", type=int, nargs="?", default=FIRST, help="the seed of the first program")
    words.add_argument("count", metavar="COUNT", type=int, nargs="?", help="how many; how they came out is counted then")
    given = words.parse_args()
    answers: Counter[str] = Counter()
    reasons: Counter[str] = Counter()
    seeds = range(given.first, given.first + (given.count or COUNT))
    timed = seeds if given.count else seeds[:TIMED]
    looks = [(Reading.REFUSED, seed) for seed in seeds]
    looks += [(reading, seed) for reading in (Reading.NEVER, Reading.ANY) for seed in timed]
    for reading, seed in looks:
        kind, why = look_at(given.program, seed, reading)
        name = f"random program {seed} {reading.value}".rstrip()
        answers[kind] += 1
        if kind == "same":
            print(f"passed {name}", flush=True)
        elif kind == "wrong":
            print(f"FAILED: {name}: {why}", flush=True)
        else:
            reasons[f"{kind}: {why}"] += 1
    count = sorted_at_once(given.program, range(given.first, given.first + (given.count or COUNT_SORTED)))
    print(f"{count} random programs are sorted", file=sys.stderr)
    if given.count is None:
        cases(given.program)
        unseen()
    else:
        for told in (answers, reasons):
            print("\n".join(f"{number} {one}" for one, number in told.most_common()), file=sys.stderr)


if __name__ == "__main__":
    main()
