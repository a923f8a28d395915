#!/usr/bin/env python3
"""Runs the examples in threads of their own, and tests that each run ends by itself, with a report that it may have.

    free_runs.py again PROGRAM     each again and again, half of the runs on one processor
    free_runs.py load PROGRAM      each while a busy process loads each processor
    free_runs.py memory PROGRAM    each in little memory: a little less than it needs, and a little more
    free_runs.py stack PROGRAM     a script of 1 MiB on a stack of 128 KiB

It prints `passed RUNS NAME` or `FAILED: NAME: ..` for each example.
"""
from __future__ import annotations

import argparse
import os
import re
import resource
import subprocess
import sys
import tempfile
from collections.abc import Callable, Iterator
from concurrent.futures import ThreadPoolExecutor
from contextlib import contextmanager
from functools import partial
from pathlib import Path

sys.dont_write_bytecode = True
sys.path.append(str(Path(__file__).resolve().parents[1] / "program"))

from examples import is_report, names, reports, script
from refusing import NO_MEMORY, NO_THREAD, Wrong, must, run

AGAIN, AGAIN_OF_ALL_WAIT, BESIDE_A_LOAD, AGAIN_OF_POLLING = 50, 1000, 20, 30
# The status with which the loader ends.
NOT_LOADED = 127
MOST_KIB, STEP_KIB, AROUND_KIB = 1 << 20, 32, 800
LONG_SCRIPT, SMALL_STACK = 1 << 20, 128 << 10


def run_again(program: str, name: str, times: int, *before: str) -> int:
    """Runs an example this often, after the words of a command if some are given. Returns how often it was run."""
    allowed = reports(name)
    for turn in range(1, times + 1):
        ran = run([*before, program, "run", script(name)])
        if not is_report(ran, allowed):
            raise ran.wrong(f"run {turn} of {times} {' '.join(before)}".rstrip())
    return times


def polls_again(program: str) -> int:
    """Runs polling.ttcn, and judges its trace, which is a different one each time. Returns how often it was run."""
    is_crowded = False
    with tempfile.NamedTemporaryFile() as trace:
        for turn in range(1, AGAIN_OF_POLLING + 1):
            ran = run([program, "trace", str(Path(__file__).with_name("polling.ttcn"))])
            trace.seek(0)
            trace.truncate()
            trace.write(ran.printed)
            trace.flush()
            judged = run([program, "judge", trace.name])
            if ran.status != 0 or not judged.is_so(0, b"lawful\none run\n"):
                raise (judged if ran.status == 0 else ran).wrong(f"run {turn} of {AGAIN_OF_POLLING}")
            is_crowded = is_crowded or re.search(rb"\ncame .*\ncame ", ran.printed) is not None
    must(is_crowded, "no look found two messages, so that none could have left one")
    return AGAIN_OF_POLLING


@contextmanager
def on_one_processor() -> Iterator[None]:
    """Lets only one thread run at a time."""
    all_of_them = os.sched_getaffinity(0)
    os.sched_setaffinity(0, {min(all_of_them)})
    try:
        yield
    finally:
        os.sched_setaffinity(0, all_of_them)


def again(program: str, name: str) -> int:
    """Runs an example, half of the times on one processor."""
    times = run_again(program, name, AGAIN)
    with on_one_processor():
        return times + run_again(program, name, AGAIN)


@contextmanager
def load() -> Iterator[list[subprocess.Popen[bytes]]]:
    """A busy process for each processor."""
    busy = [subprocess.Popen(["yes"], stdout=subprocess.DEVNULL) for _ in os.sched_getaffinity(0)]
    try:
        yield busy
    finally:
        for it in busy:
            it.kill()
            it.wait()


def within(program: str, name: str, kib: int) -> tuple[bool, bool, bool]:
    """Runs an example that may map this much memory. Returns whether it reported, whether it was refused memory, and
    whether the system could load the program at all."""
    most = (kib << 10, kib << 10)
    ran = run([program, "run", script(name)], lambda: resource.setrlimit(resource.RLIMIT_AS, most))
    is_refused = ran.is_fault(NO_MEMORY) or ran.is_fault(NO_THREAD)
    return is_report(ran, reports(name)), is_refused, ran.status != NOT_LOADED


def in_little_memory(program: str, name: str) -> int:
    """Finds the memory that it needs by halving. With a little more or less, memory or a thread is refused, or there is
    a report. Returns how often it was run so."""
    low, high = 0, MOST_KIB
    while high - low > STEP_KIB:
        middle = (low + high) // 2
        low, high = (low, middle) if within(program, name, middle)[0] else (middle, high)
    found = {kib: within(program, name, kib) for kib in range(high - AROUND_KIB, high + AROUND_KIB, STEP_KIB)}
    for kib, (reported, refused, loaded) in found.items():
        if loaded and not reported and not refused:
            raise Wrong(f"where {kib} KiB may be mapped there is neither a report nor a refusal")
    refusals = sum(refused for _, refused, _ in found.values())
    if refusals in (0, len(found)):
        raise Wrong(f"{refusals} refusals in {len(found)} runs in little memory")
    return len(found)


def on_a_small_stack(program: str, name: str) -> int:
    with tempfile.NamedTemporaryFile(suffix=".ttcn") as file:
        file.write(Path(script(name)).read_bytes().ljust(LONG_SCRIPT, b"\n"))
        file.flush()
        most = (SMALL_STACK, SMALL_STACK)
        ran = run([program, "run", file.name], lambda: resource.setrlimit(resource.RLIMIT_STACK, most))
    if not is_report(ran, reports(name)):
        raise ran.wrong("a script of 1 MiB on a small stack")
    return 1


def told(name: str, attempt: Callable[[], int]) -> str:
    """The result of an example."""
    try:
        return f"passed {attempt()} {name}"
    except (Wrong, OSError, subprocess.SubprocessError) as wrong:
        return f"FAILED: {name}: {wrong}"


def each_again(program: str) -> Iterator[str]:
    for name in names():
        yield told(name, partial(again, program, name))
    often = "all_wait_for_each_other"
    yield told(f"{often}, often", partial(run_again, program, often, AGAIN_OF_ALL_WAIT))
    yield told("two components poll each other", partial(polls_again, program))


def each_beside_a_load(program: str) -> Iterator[str]:
    """The runs have a lower priority than the load. As many run at once as there are processors, since a single one
    would wait only for the load."""

    def beside(name: str, busy: list[subprocess.Popen[bytes]]) -> int:
        times = run_again(program, name, BESIDE_A_LOAD, "nice", "-n", "10")
        if any(it.poll() is not None for it in busy):
            raise Wrong("the load beside it has ended")
        return times

    with load() as busy, ThreadPoolExecutor(len(busy)) as lanes:
        yield from lanes.map(lambda name: told(name, partial(beside, name, busy)), names())


def each_in_little_memory(program: str) -> Iterator[str]:
    for name in names():
        yield told(name, partial(in_little_memory, program, name))


def one_on_a_small_stack(program: str) -> Iterator[str]:
    name = "system_under_test_answers"
    yield told(f"{name}, a script of 1 MiB", partial(on_a_small_stack, program, name))


WAYS = {
    "again": each_again,
    "load": each_beside_a_load,
    "memory": each_in_little_memory,
    "stack": one_on_a_small_stack,
}


def main() -> int:
    words = argparse.ArgumentParser(description="Runs of the examples in threads of their own.")
    words.add_argument("way", choices=WAYS)
    words.add_argument("program", metavar="PROGRAM")
    asked = words.parse_args()
    is_well = True
    for line in WAYS[asked.way](asked.program):
        is_well = is_well and line.startswith("passed ")
        print(line, flush=True)
    return 0 if is_well else 1


if __name__ == "__main__":
    sys.exit(main())
