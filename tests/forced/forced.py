#!/usr/bin/env python3
"""Tests that tpr_ordered keeps the orders that it is given, refuses what isn't an order, and that its runs end.

    tests/forced/forced.py PROGRAM ORDERED FOLDER

PROGRAM is tpr and ORDERED tpr_ordered; files are written into FOLDER. For a script in tests/forced/, NAME.answers has
what ORDERED must print for the orders that it names; or NAME.report has the only report of the script, which each free
run must have. It prints a line `passed NAME` for each case, or lines that begin with `FAILED: NAME`.
"""
from __future__ import annotations

import argparse
import glob
import os
import subprocess
from collections.abc import Callable, Iterator
from typing import NamedTuple, Optional

ROOT = os.path.dirname(os.path.dirname(os.path.dirname(os.path.realpath(__file__))))
SCRIPTS = f"{ROOT}/tests/forced"
OWN = f"{ROOT}/crates/tpr_ordered"  # the crate's own example: a halt beside two sends, in its six orders
MOST_SECONDS = 120  # a gate gives up after it has yielded ten million times
ROUNDS = 50
USAGE = b"usage: tpr_ordered SCRIPT ORDERS\n"
UNREAD = b"refused 2 Read\n"


class Ended(NamedTuple):
    """How a run ended: its status, its standard output and its standard error."""

    status: int
    printed: bytes
    said: bytes = b""


class Programs(NamedTuple):
    """Both programs, and the folder for files."""

    program: str
    ordered: str
    folder: str

    def file(self, text: bytes) -> str:
        path = f"{self.folder}/given"
        with open(path, "wb") as file:
            file.write(text)
        return path

    def in_orders(self, script: str, lines: bytes) -> Ended:
        return run(self.ordered, script, self.file(lines))


Attempt = Callable[[Programs], Optional[str]]


def run(*command: str) -> Ended:
    done = subprocess.run(command, stdin=subprocess.DEVNULL, capture_output=True, timeout=MOST_SECONDS, check=False)
    return Ended(done.returncode, done.stdout, done.stderr)


def bytes_of(path: str) -> bytes:
    with open(path, "rb") as file:
        return file.read()


def difference(found: Ended, wanted: Ended) -> Optional[str]:
    """Describes how the result differs from the expected one, or returns None."""
    if found == wanted:
        return None
    return f"status {found.status}, printed {found.printed[:2000]!r}, said {found.said[:200]!r}; wanted is {wanted!r}"


# Orders that are kept, or that can't be held


def answers_of(text: bytes) -> list[bytes]:
    """The part of each order: its line, its result, and an empty line."""
    return [answer + b"\n\n" for answer in text.split(b"\n\n")[:-1]]


def order_of(answer: bytes) -> bytes:
    return answer.split(b"\n", 1)[0].removeprefix(b"order ")


def in_order(script: str, answer: bytes) -> Attempt:
    """The order alone, without a line end. An order without steps needs one, because it would have no line."""
    line = order_of(answer) or b"\n"
    return lambda programs: difference(programs.in_orders(script, line), Ended(0, answer))


def in_all_orders(script: str, answers: list[bytes]) -> Attempt:
    """All orders, one after the other. Those that can't be held are left out, since giving up takes seconds."""
    held = [it for it in answers if not it.endswith(b"\nnot held\n\n")]
    lines = b"".join(order_of(it) + b"\n" for it in held)
    return lambda programs: difference(programs.in_orders(script, lines), Ended(0, b"".join(held)))


def cases_of_orders() -> Iterator[tuple[str, Attempt]]:
    paths = [(path.removesuffix(".answers") + ".ttcn", path) for path in sorted(glob.glob(f"{SCRIPTS}/*.answers"))]
    for script, path in [*paths, (f"{OWN}/data/script.ttcn", f"{OWN}/stdout")]:
        name, answers = os.path.relpath(script, ROOT), answers_of(bytes_of(path))
        for answer in answers:
            yield f"{name} in the order {order_of(answer).decode()!r}", in_order(script, answer)
        yield f"{name} in all its orders", in_all_orders(script, answers)


# Texts with no orders, or with few

# Each with the line of a name that no component has.
UNKNOWN = (
    (b"a\no b\n", 2),
    (b"a  o", 1),
    (b" ", 1),
    (b"\n\na o \n", 3),
    (b"a\tb", 1),
    (b"a+\n+\n", 2),
    (b"a o++", 1),
)
# Each with the expected line on standard error.
REFUSED = (
    *((text, b"refused 11 Unknown line %d" % line) for text, line in UNKNOWN),
    (b"a\n\xff\n", b"refused 2 Read"),
    (b"a o\n" * (1 << 18) + b"\n", b"refused 15 Limit line 0"),
)


def cases_of_texts() -> Iterator[tuple[str, Attempt]]:
    script = f"{SCRIPTS}/receive_beside_a_send.ttcn"
    of_no_step, in_turn, _ = answers_of(bytes_of(f"{SCRIPTS}/receive_beside_a_send.answers"))
    for text, said in REFUSED:
        yield f"the orders {text[:20]!r}", is_so(script, text, Ended(2, b"", b"orders: " + said + b"\n"))
    yield "no orders", is_so(script, b"", Ended(0, b""))
    yield "an order of no step, and a last line without its end", is_so(
        script, b"\na o", Ended(0, of_no_step + in_turn)
    )


def is_so(script: str, text: bytes, wanted: Ended) -> Attempt:
    return lambda programs: difference(programs.in_orders(script, text), wanted)


# Command lines


def words_are_so(words: list[str], wanted: Ended) -> Attempt:
    return lambda programs: difference(run(programs.ordered, *words), wanted)


def cases_of_words() -> Iterator[tuple[str, Attempt]]:
    script, orders = f"{OWN}/data/script.ttcn", f"{OWN}/data/orders"
    wrong: list[list[str]] = [[], [script], [script, orders, orders]]
    for words in wrong:
        yield f"{len(words)} words", words_are_so(words, Ended(4, b"", USAGE))
    for path in (f"{SCRIPTS}/missing", SCRIPTS):
        name = os.path.relpath(path, ROOT)
        yield f"{name} as the script", words_are_so([path, orders], Ended(2, UNREAD))
        yield f"{name} as the orders", words_are_so([script, path], Ended(2, b"", b"orders: " + UNREAD))
        yield f"{name} as both", words_are_so([path, path], Ended(2, UNREAD))
    yield "a text that is no script", words_are_so([orders, orders], Ended(2, b"refused 10 Syntax line 1\n"))


# Runs in which all remaining components wait: they end by themselves


def ends_in_one_process(script: str, report: bytes) -> Attempt:
    """With an order without steps, all components are free."""
    answers = (b"order \n" + report + b"\n") * ROUNDS
    return lambda programs: difference(programs.in_orders(script, b"\n" * ROUNDS), Ended(0, answers))


def ends_each_time(script: str, report: bytes) -> Attempt:
    def ends(programs: Programs) -> Optional[str]:
        found = (run(programs.program, "run", script) for _ in range(ROUNDS))
        return next((wrong for it in found if (wrong := difference(it, Ended(0, report)))), None)

    return ends


def cases_of_endings() -> Iterator[tuple[str, Attempt]]:
    for path in sorted(glob.glob(f"{SCRIPTS}/*.report")):
        script, report = path.removesuffix(".report") + ".ttcn", bytes_of(path)
        name = os.path.relpath(script, ROOT)
        yield f"{name}, {ROUNDS} times in one process", ends_in_one_process(script, report)
        yield f"{name}, {ROUNDS} times", ends_each_time(script, report)


def main() -> None:
    words = argparse.ArgumentParser(description="Whether tpr_ordered keeps the orders that it is given.")
    for name in Programs._fields:
        words.add_argument(name, metavar=name.upper())
    programs = Programs(**vars(words.parse_args()))
    for cases in (cases_of_orders, cases_of_texts, cases_of_words, cases_of_endings):
        for name, attempt in cases():
            try:
                wrong = attempt(programs)
            except subprocess.TimeoutExpired:
                wrong = f"no end after {MOST_SECONDS} seconds"
            print(f"FAILED: {name}: {wrong}" if wrong else f"passed {name}", flush=True)


if __name__ == "__main__":
    main()
