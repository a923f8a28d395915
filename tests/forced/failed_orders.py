#!/usr/bin/env python3
"""Tests what tpr_ordered prints if a read, a write, an allocation or the start of a thread fails.

    tests/forced/failed_orders.py ORDERED FOLDER REFUSED

ORDERED is tpr_ordered, REFUSED is the library of tests/program/refused.c, which is loaded before the C library, and
files are written into FOLDER. Each call of a kind is refused in turn, up to the first run without such a call. It
prints a line `passed NAME` for each case, or lines that begin with `FAILED: NAME`.
"""
from __future__ import annotations

import argparse
import os
import subprocess
import sys
from collections.abc import Callable, Iterator
from typing import NamedTuple

from forced import MOST_SECONDS, ROOT, SCRIPTS, UNREAD, Ended, answers_of, bytes_of

sys.path.append(f"{ROOT}/tests/program")

from refusing import MOST_CALLS, NO_MEMORY, NO_THREAD, Wrong, must, refused_calls

SCRIPT = f"{SCRIPTS}/receive_beside_a_send.ttcn"
FREE, IN_TURN, _ = answers_of(bytes_of(f"{SCRIPTS}/receive_beside_a_send.answers"))


class Given(NamedTuple):
    """The program, the folder for files, and the library that refuses calls."""

    ordered: str
    folder: str
    refused: str

    def run(self, refusals: dict[str, int], orders: bytes) -> tuple[Ended, bool]:
        """Runs SCRIPT in the orders with these calls refused. Also returns whether it reached that of the last kind."""
        path = f"{self.folder}/orders_of_failures"
        with open(path, "wb") as file:
            file.write(orders)
        with refused_calls(self.refused, refusals) as (more, came):
            done = subprocess.run(
                [self.ordered, SCRIPT, path],
                stdin=subprocess.DEVNULL,
                capture_output=True,
                timeout=MOST_SECONDS,
                check=False,
                env={**os.environ, **more},
            )
        return Ended(done.returncode, done.stdout, done.stderr), [*refusals][-1] in came

    def in_turn(self, kind: str, orders: bytes, more: dict[str, int]) -> Iterator[tuple[int, Ended]]:
        """The result of each run with one call of the kind refused, with the number of the call. The first run without
        such a call must answer all orders."""
        for number in range(1, MOST_CALLS):
            ended, came = self.run({**more, kind: number}, orders)
            if not came:
                must(number > 1, "there is no such call")
                whole = b"".join(FREE if line == b"" else IN_TURN for line in orders.split(b"\n")[:-1])
                must(ended == Ended(0, whole), f"with nothing refused: {ended}")
                return
            yield number, ended
        raise Wrong(f"there are {MOST_CALLS} such calls")


def writes_that_fail(kind: str) -> Callable[[Given], None]:
    """One write prints the answer to an order. After the failed write only the earlier answers are there."""

    def fails(given: Given) -> None:
        for number, ended in given.in_turn(kind, b"a o\n\na o\n", {}):
            before = b"".join((IN_TURN, FREE)[: number - 1])
            must(ended == Ended(3, before), f"write {number}: {ended}")

    return fails


def writes_of_single_bytes(given: Given) -> None:
    """The bytes are written one by one, and from some byte on each write fails."""
    for number, ended in given.in_turn("WRITES_FROM", b"a o\n", {"SHORT_WRITES_FROM": 1}):
        must(ended == Ended(3, IN_TURN[: number - 1]), f"behind {number - 1} bytes: {ended}")


def reads_that_fail(given: Given) -> None:
    """The bytes are read one by one: those of the script, and then those of the orders."""
    of_script, of_orders = Ended(2, UNREAD), Ended(2, b"", b"orders: " + UNREAD)
    found = [ended for _, ended in given.in_turn("READ", b"a o\n", {"SHORT_READS_FROM": 1})]
    least = len(bytes_of(SCRIPT))
    script = found.count(of_script)
    must(script >= least, f"{script} reads of a script of {least} bytes")
    must(found == [of_script] * script + [of_orders] * (len(found) - script), "they are told otherwise")
    must(len(found) - script >= len(b"a o\n"), f"{len(found) - script} reads of the orders")


def opens_that_fail(given: Given) -> None:
    """The script is opened first, and then the orders. An earlier open of the C library may fail without effect."""
    told = [ended for _, ended in given.in_turn("OPEN", b"a o\n", {}) if ended != Ended(0, IN_TURN)]
    must(told == [Ended(2, UNREAD), Ended(2, b"", b"orders: " + UNREAD)], f"{told}")


def allocations_that_fail(given: Given) -> None:
    """The line of the fault replaces the report of that run; or it replaces all, with status 3."""
    fault = Ended(3, NO_MEMORY)
    allowed = {fault, Ended(3, b"", b"orders: " + NO_MEMORY), Ended(0, FREE + FREE)}
    of_runs = [b"order \n" + line + b"\n" for line in (NO_MEMORY, NO_THREAD)]
    allowed |= {Ended(0, answer) for it in of_runs for answer in (it + FREE, FREE + it)}
    found = [ended for _, ended in given.in_turn("MEMORY", b"\n\n", {})]
    for number, ended in enumerate(found, 1):
        must(ended in allowed, f"allocation {number}: {ended}")
    for it in (fault, Ended(3, b"", b"orders: " + NO_MEMORY), *(Ended(0, of_runs[0] + FREE), Ended(0, FREE + of_runs[0]))):
        must(it in found, f"no allocation comes to {it}")


def threads_that_fail(given: Given) -> None:
    """51 replaces the report of that run, and the next run has its own report."""
    without = b"order \n" + NO_THREAD + b"\n"
    found = [ended for _, ended in given.in_turn("THREAD", b"\n\n", {})]
    half = len(found) // 2
    must(half > 0 and found == [Ended(0, without + FREE)] * half + [Ended(0, FREE + without)] * half, f"{found}")


CASES = (
    ("each write fails alone", writes_that_fail("WRITE")),
    ("each write fails, and all behind it", writes_that_fail("WRITES_FROM")),
    ("a write of a byte fails, and all behind it", writes_of_single_bytes),
    ("each read of a byte fails", reads_that_fail),
    ("each opening of a file fails", opens_that_fail),
    ("each allocation fails", allocations_that_fail),
    ("each start of a thread fails", threads_that_fail),
)


def main() -> None:
    words = argparse.ArgumentParser(description="What tpr_ordered answers where a call fails.")
    for name in Given._fields:
        words.add_argument(name, metavar=name.upper())
    given = Given(**vars(words.parse_args()))
    for name, attempt in CASES:
        try:
            attempt(given)
            print(f"passed tpr_ordered, where {name}", flush=True)
        except (Wrong, subprocess.TimeoutExpired) as wrong:
            print(f"FAILED: tpr_ordered, where {name}: {wrong}", flush=True)


if __name__ == "__main__":
    main()
