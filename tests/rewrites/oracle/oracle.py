#!/usr/bin/env python3
"""Finds the verdicts that a script of a subset of the full language can have. It is a second interpreter, independent
of tools/rewrite.

    tests/rewrites/oracle/oracle.py [--orders N] [--seed N] [--states N] FILE

It prints `always pass`, `pass or fail` and so on; with --orders the verdicts in this many random orders.
"""
from __future__ import annotations

import argparse
import sys
from random import Random

from behaviour import VERDICTS, Endless
from exploring import Explorer, TooMany
from grammar import Reader, Unread


def named(verdicts: set[str]) -> str:
    words = sorted(verdicts, key=VERDICTS.index)
    return f"always {words[0]}" if len(words) == 1 else " or ".join(words)


def main() -> int:
    words = argparse.ArgumentParser(description="The verdicts that a script of the full language can have.")
    words.add_argument("file", metavar="FILE")
    words.add_argument("--orders", metavar="N", type=int, help="follow N orders that are made by chance, in place of all")
    words.add_argument("--seed", metavar="N", type=int, default=1, help="the seed of these orders (1)")
    words.add_argument("--states", metavar="N", type=int, default=100_000, help="the most states that are looked at (100000)")
    given = words.parse_args()
    try:
        with open(given.file, encoding="utf-8") as opened:
            explorer = Explorer(Reader(opened.read()).read())
        if given.orders is None:
            print(named(explorer.all_verdicts(given.states)))
        else:
            print(f"seen {named(explorer.some_verdicts(given.orders, Random(given.seed)))}")
    except (Unread, TooMany, Endless) as why:
        print(f"oracle: {type(why).__name__}: {why}", file=sys.stderr)
        return 2
    return 0


if __name__ == "__main__":
    sys.exit(main())
