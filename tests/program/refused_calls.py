#!/usr/bin/env python3
"""Refuses each call of a kind in turn, and tests what the program prints, and whether the tests of a crate pass.

    refused_calls.py program LIBRARY PROGRAM    each allocation of the program, and each read and write of its judge: it
                                                reports the refusal and nothing else, or prints its answer with ample
                                                memory
    refused_calls.py tests LIBRARY PROGRAM      each allocation of the tests that must pass with memory refused; they
                                                don't use PROGRAM

LIBRARY is that of refused.c. It prints `passed REFUSED NAME` or `FAILED: NAME: ..` for each case.
"""
from __future__ import annotations

import functools
import os
import subprocess
import sys
from collections.abc import Iterator
from pathlib import Path
from typing import NamedTuple

sys.dont_write_bytecode = True

import example_files
from refusing import MOST_CALLS, NO_MEMORY, NO_READ, ROOT, Case, Ran, Refusing, Wrong, try_one_of

sys.path.append(str(ROOT / "tests" / "traces"))

from oracle import answer_of

MOST_CALLS_OF_A_TEST = 500
QUEUES = (
    "clear_keeps_the_port_halted",
    "trigger_discards_what_does_not_match",
    "check_and_receive_from_a_sender",
    "integer_too_large_is_refused",
)
SCRIPTS = ("system_under_test_answers", "login_is_answered", "replies_go_to_their_senders")
# The minimum number of tests of each crate that pass with memory refused. They are found by their names, so a test that
# gets another name is missed here.
LEAST_TESTS = {"tp_tests": 10}


class Asked(NamedTuple):
    """A text for a mode, and its answer with ample memory."""

    mode: str
    file: Path
    status: int
    answer: bytes

    def words(self, program: str) -> list[str]:
        return [program, self.mode, str(self.file)]

    def is_answered(self, ran: Ran) -> bool:
        return ran.is_so(self.status, self.answer)


def example(mode: str, file: str) -> Asked:
    """An example in a mode, and what it prints there."""
    text = example_files.example(file)
    if mode == "check" and not example_files.is_refused(text):
        return Asked(mode, text, 0, b"accepted\n")
    (answer,) = example_files.answers(text)
    return Asked(mode, text, 2 if example_files.is_refused(text) else 0, answer.read_bytes())


def verdicts_of(file: str) -> Asked:
    """An example with several verdicts, and the output of that mode."""
    path = example_files.example(file)
    return Asked("verdicts", path, 2, path.with_suffix(".verdicts").read_bytes())


def traces(folder: Path) -> Iterator[Asked]:
    """A lawful trace, a trace with many unlawful lines, and one with a bad line."""
    lawful = (ROOT / "tests" / "traces" / "lawful" / "ask_and_answer.trace").read_bytes()
    unlawful = "".join(f"component a{number}\ntook p b 0 m\n" for number in range(1, 401)).encode()
    for name, text in (("lawful", lawful), ("unlawful", unlawful), ("bad", lawful + b"sent\n")):
        file = folder / f"{name}.trace"
        file.write_bytes(text)
        answer, status = answer_of(text)
        if (status == 0) != (name == "lawful"):
            raise Wrong(f"the {name} trace has status {status}")
        yield Asked("judge", file, status, answer.encode())


def each_allocation(refusing: Refusing, asked: Asked) -> None:
    """If an allocation is refused, the output says so, or is the answer with ample memory."""
    refusals = 0
    for number, ran in refusing.each(asked.words(refusing.program), "MEMORY", MOST_CALLS):
        is_told = "MEMORY" in ran.refused and ran.is_fault(NO_MEMORY)
        if not is_told and not asked.is_answered(ran):
            raise ran.wrong(f"with allocation {number} refused")
        refusals += is_told
    if refusals == 0 or not asked.is_answered(ran):
        raise ran.wrong(f"{refusals} allocations were refused, and the last run")


def each_read(refusing: Refusing, asked: Asked) -> None:
    """If a read is refused, the answer is 2."""
    words = asked.words(refusing.program)
    refusing.each_is_told(words, "READ", lambda ran: ran.is_so(2, NO_READ), asked.is_answered)


def each_write(refusing: Refusing, asked: Asked) -> None:
    """If a write is refused, the status is 3, and the output is the beginning of the answer."""

    def is_cut(ran: Ran) -> bool:
        return ran.status == 3 and asked.answer.startswith(ran.printed) and ran.said == b""

    refusing.each_is_told(asked.words(refusing.program), "WRITE", is_cut, asked.is_answered)


def of_the_program(refusing: Refusing) -> Iterator[Case]:
    asked = [example("queue", f"{it}.queue") for it in QUEUES]
    asked += [example("check", f"{it}.ttcn") for it in SCRIPTS]
    asked.append(verdicts_of("broadcast_is_overtaken_by_an_answer.ttcn"))
    for it in asked:
        yield f"each allocation of {it.mode} {it.file.name}", functools.partial(each_allocation, refusing, it)
    for it in traces(refusing.folder):
        for name, attempt in (("allocation", each_allocation), ("read", each_read), ("write", each_write)):
            yield f"each {name} of judge {it.file.name}", functools.partial(attempt, refusing, it)


def each_allocation_of_a_test(refusing: Refusing, words: list[str]) -> None:
    for number, ran in refusing.each(words, "MEMORY", MOST_CALLS_OF_A_TEST):
        if ran.status != 0:
            raise ran.wrong(f"with allocation {number} refused")
    if number == 1:
        raise Wrong("no allocation was refused")


def names_of_tests(tests: Path) -> list[str]:
    done = subprocess.run([str(tests), "--list"], capture_output=True, text=True, timeout=60, check=False)
    names = [line.removesuffix(": test") for line in done.stdout.splitlines() if line.endswith(": test")]
    return [it for it in names if "refused_memory" in it]


def of_the_tests(refusing: Refusing) -> Iterator[Case]:
    """The tests of each crate that `rt ci` has built."""
    built = {it.name.removesuffix("_tests"): it for it in ROOT.glob("crates/*/out/*_tests") if os.access(it, os.X_OK)}
    for crate in sorted({*built, *LEAST_TESTS}):
        names = names_of_tests(built[crate]) if crate in built else []
        if len(names) < LEAST_TESTS.get(crate, 0):
            print(f"FAILED: {len(names)} tests of {crate} refuse memory, and there are {LEAST_TESTS[crate]} at least")
        for name in names:
            words = [str(built[crate]), name]
            yield f"each allocation of {name}", functools.partial(each_allocation_of_a_test, refusing, words)


def main() -> int:
    return try_one_of({"program": of_the_program, "tests": of_the_tests}, "Each call of a kind refused in turn.")


if __name__ == "__main__":
    sys.exit(main())
