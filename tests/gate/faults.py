#!/usr/bin/env python3
"""Tests that each part of ./test fails on the fault that tests/gate/parts has for it.

    tests/gate/faults.py PROGRAM ORDERED [NAME..]
    tests/gate/faults.py PROGRAM ORDERED --some COUNT SEED TIMES

The first form tries the faults of all parts, or of those named. The second tries COUNT random ones at once, of parts
that took at most 30 seconds in this run; the file TIMES has the seconds. Each is planted in a copy of the tree, in
which `./test part NAME` tries the part. tests/gate/parts describes the two kinds of faults.

It prints a line `passed NAME` for each fault that is detected, `left out the fault of NAME: WHY`, or `FAILED: ..`. The
same seed chooses other faults if other parts took at most 30 seconds.
"""
from __future__ import annotations

import argparse
import os
import random
import shutil
import subprocess
import sys
import tempfile
from concurrent.futures import ThreadPoolExecutor
from typing import NamedTuple, Optional

ROOT = os.path.dirname(os.path.dirname(os.path.dirname(os.path.realpath(__file__))))
LIST = f"{ROOT}/tests/gate/parts"
# This part tries what is built: TPR can't give it another program.
OF_THE_BUILT, BUILT = "refused_in_tests", f"{ROOT}/crates/tp_tests/out/tp_tests_tests"
OF_ORDERED = ("orders", "forced_orders", "exploring", "language_server", "soak")
OF_THE_LIBRARY = ("port_library", "embedding", "titan_ports")
ITSELF = "planted_faults"
MOST_SECONDS_OF_SOME = 30


class Fault(NamedTuple):
    """The fault of a part: its kind, the file that a fault of kind `text` changes, and the command of sed."""

    part: str
    kind: str
    file: str
    sed: str


def listed_faults() -> list[Fault]:
    faults = []
    with open(LIST, encoding="utf-8") as file:
        for line in file:
            if line.strip() and not line.startswith("#"):
                part, _, kind, rest = line.rstrip("\n").split(" ", 3)
                changed, sed = rest.split(" ", 1) if kind == "text" else ("", rest)
                faults.append(Fault(part, kind, changed, sed))
    return faults


def copy_of_tree(folder: str) -> str:
    """Makes a copy of the tree that uses the built files of the tree itself."""
    tree = f"{folder}/tree"
    shutil.copytree(ROOT, tree, symlinks=True, ignore=shutil.ignore_patterns("out", ".git", "__pycache__"))
    for crate in os.listdir(f"{ROOT}/crates"):
        if os.path.isdir(f"{ROOT}/crates/{crate}/out"):
            os.symlink(f"{ROOT}/crates/{crate}/out", f"{tree}/crates/{crate}/out")
    return tree


def write_program(path: str) -> None:
    """Writes a program that prints what FAULTY_PROGRAM prints, changed by the fault."""
    with open(path, "w", encoding="utf-8") as file:
        file.write('#!/usr/bin/env bash\n"$FAULTY_PROGRAM" "$@" | sed -e "$FAULT"\nexit "${PIPESTATUS[0]}"\n')
    os.chmod(path, 0o755)


def change(path: str, sed: str) -> bool:
    """Changes a file. Returns whether that made a difference."""
    with open(path, "rb") as file:
        before = file.read()
    subprocess.run(["sed", "-i", "-e", sed, path], check=True)
    with open(path, "rb") as file:
        return file.read() != before


def port() -> str:
    """The folder of the library for C and C++."""
    return os.path.abspath(os.environ.get("TP_PORT") or f"{ROOT}/out/port")


def why_left_out(fault: Fault, ordered: str) -> Optional[str]:
    if fault.part == OF_THE_BUILT and not os.access(BUILT, os.X_OK):
        return "nothing is built"
    if fault.part in OF_THE_LIBRARY and not os.path.exists(f"{port()}/lib/libtp_port.a"):
        return "there is no library for C and C++"
    if fault.part in OF_ORDERED and not os.access(ordered, os.X_OK):
        return "there is no tpr_ordered"
    return None


def answer(fault: Fault, program: str, ordered: str) -> str:
    """The result of a fault, in one or two lines."""
    if (why := why_left_out(fault, ordered)) is not None:
        return f"left out the fault of {fault.part}: {why}"
    isnt_told = f"FAILED: the fault that is planted for {fault.part} isn't told"
    with tempfile.TemporaryDirectory() as folder:
        tree, programs = copy_of_tree(folder), {"TPR": program}
        if fault.kind == "says":
            write_program(f"{folder}/faulty")
            programs = {"TPR": f"{folder}/faulty", "FAULTY_PROGRAM": program, "FAULT": fault.sed}
        elif not change(f"{tree}/{fault.file}", fault.sed):
            return f"{isnt_told}: {fault.sed} changes nothing in {fault.file}"
        if os.access(ordered, os.X_OK):
            programs["TPR_ORDERED"] = ordered
        if os.path.exists(f"{port()}/lib/libtp_port.a"):
            programs["TP_PORT"] = port()
        # Not subprocess.run, which kills its process on an interrupt: ./test must end what it has started.
        done = subprocess.Popen(
            [f"{tree}/test", "part", fault.part],
            env={**os.environ, **programs},
            stdin=subprocess.DEVNULL,
            stdout=subprocess.PIPE,
            stderr=subprocess.PIPE,
        )
        printed, said = done.communicate()
    lines = printed.decode("utf-8", "replace").splitlines()
    told = [line for line in lines if line.startswith("FAILED: ")]
    if done.returncode == 1 and told and lines[-1].startswith("examples: "):
        first = told[0][len("FAILED: "):][:200]
        return f"told of {fault.part}: {len(told)} times, first {first}\npassed {fault.part}"
    return f"{isnt_told}: status {done.returncode}, and it said {(lines or ['nothing'])[-1]} {said[-300:]!r}"


def some(faults: list[Fault], count: int, seed: str, times: str) -> list[Fault]:
    """Random faults, of parts that took little time."""
    quick = set()
    if os.path.exists(times):
        with open(times, encoding="utf-8") as file:
            words = [line.split() for line in file]
        quick = {name for name, _, _, seconds in words if int(seconds) <= MOST_SECONDS_OF_SOME}
    open_to_chance = [it for it in faults if it.part != ITSELF and (it.part in quick or not quick)]
    return random.Random(seed).sample(open_to_chance, min(count, len(open_to_chance)))


def main() -> int:
    words = argparse.ArgumentParser(description="Plants faults in parts of ./test, and looks whether they are told.")
    words.add_argument("program", metavar="PROGRAM")
    words.add_argument("ordered", metavar="ORDERED")
    words.add_argument("names", metavar="NAME", nargs="*", help="of the parts; all without one")
    words.add_argument("--some", nargs=3, metavar=("COUNT", "SEED", "TIMES"), help="so many by chance")
    asked = words.parse_args()
    faults, at_once = listed_faults(), 1
    if not os.access(asked.program, os.X_OK):
        print(f"faults: there is no program {asked.program}", file=sys.stderr)
        return 4
    if asked.some:
        count, seed, times = asked.some
        faults, at_once = some(faults, int(count), seed, times), int(count)
        print(f"planted faults: seed {seed}: {', '.join(it.part for it in faults)}", flush=True)
    elif asked.names:
        faults = [it for it in faults if it.part in asked.names]
    failed = 0
    with ThreadPoolExecutor(at_once) as pool:
        for said in pool.map(lambda it: answer(it, asked.program, asked.ordered), faults):
            failed += said.startswith("FAILED: ")
            print(said, flush=True)
    return 1 if failed else 0


if __name__ == "__main__":
    sys.exit(main())
