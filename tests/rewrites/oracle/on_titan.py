#!/usr/bin/env python3
"""Compares random programs on Eclipse Titan with their rewritten scripts and with the oracle.

    tests/rewrites/oracle/on_titan.py TPR FIRST COUNT [RUNS]

It takes COUNT programs that tools/rewrite carries over, from the seed FIRST on. `tpr verdicts` must print for the
rewritten script the verdicts that the oracle finds for the program, and each verdict of Titan's RUNS must be among
these. Titan must also give the oracle's own tests of `interleave` their expected verdicts, because no random program
has a nested `interleave`. It needs ttcn3_compiler, mctr_cli and g++; TTCN3_DIR names a Titan that isn't below /usr.
Many programs become one module, and each module an executable. Titan ends a test case that waits forever after ten
seconds, with the verdict error. Two kinds of programs are left out, because Titan deviates from the standard: those
that stop or halt ports (docs/EMBEDDING.md), and those in which both operands call a function that asks a server,
because Titan may evaluate the right one first (7.1).
"""
from __future__ import annotations

import argparse
import itertools
import os
import re
import shutil
import subprocess
import sys
import tempfile
import time
from collections import Counter
from concurrent.futures import ProcessPoolExecutor, ThreadPoolExecutor
from functools import partial
from pathlib import Path
from typing import NamedTuple

HERE = os.path.dirname(os.path.realpath(__file__))
sys.path[:0] = [HERE, os.environ.get("REWRITING", f"{HERE}/../../../tools")]

from oracle_rules import PRELUDE, look_at, verdicts_of_carried
from random_themes import program_of
from tpr_tools.rewrite.run import Options, Reading

# The number of programs in one module: g++ takes longer for a program of a larger module.
MOST_IN_MODULE = 25
_ASKS_ON_BOTH_SIDES = re.compile(r"f_ask\([^;]*\) - f_ask\(")
_OWN = r"\b(C|c_k|mw_\w+|f_\w+|as_\w+|TC_random)\b"
TITAN = os.environ.get("TTCN3_DIR", "/usr")
_LIBRARIES = (f"-L{TITAN}/lib/titan", "-lttcn3-parallel", "-lcrypto", "-lxml2", "-ldl", "-lpthread")


class Look(NamedTuple):
    """The result for a program: `same`, `wrong`, or why it isn't compared; and the verdicts of the rewritten script."""

    seed: int
    kind: str
    why: str
    verdicts: frozenset[str]


def looked_at(tpr: str, seed: int) -> Look:
    kind, why = look_at(tpr, seed, Reading.REFUSED)
    if kind != "same":
        return Look(seed, kind, why, frozenset())
    told, refusal = verdicts_of_carried(tpr, program_of(seed), Options(encodes=seed % 3 == 0))
    if refusal:
        # It took too long the second time.
        return Look(seed, "refused", refusal, frozenset())
    return Look(seed, kind, why, frozenset(told.removeprefix("always ").split(" or ")))


def carried(tpr: str, first: int, count: int) -> list[Look]:
    """The results for `count` programs that are carried over, and for the others that were met on the way."""
    found: list[Look] = []
    seeds = (seed for seed in itertools.count(first) if seed % 7 and not _ASKS_ON_BOTH_SIDES.search(program_of(seed)))
    with ProcessPoolExecutor() as pool:
        while (missing := count - sum(look.kind in ("same", "wrong") for look in found)) > 0:
            found += pool.map(partial(looked_at, tpr), itertools.islice(seeds, missing))
    return found


def modules_of(seeds: list[int]) -> dict[str, str]:
    """Modules of programs with optional fields, and of programs without; in each all names end with the seed."""
    encoded = [seed for seed in seeds if seed % 3 == 0]
    plain = [seed for seed in seeds if seed % 3]
    parts = [some[at : at + MOST_IN_MODULE] for some in (plain, encoded) for at in range(0, len(some), MOST_IN_MODULE)]
    return {f"Programs{number}": module_of(f"Programs{number}", part) for number, part in enumerate(parts)}


def module_of(name: str, seeds: list[int]) -> str:
    body = ""
    for seed in seeds:
        text = program_of(seed).partition("{\n")[2]
        types, port, rest = re.split(r"( *type port [^\n]*\n)", text)
        body = body or f"module {name} {{\n{types}{port.rstrip()} with {{ extension \"internal\" }}\n"
        body += re.sub(_OWN, rf"\g<0>_{seed}", rest.rstrip()[:-1])
    cases = "\n".join(f"    execute(TC_random_{seed}(), 10.0);" for seed in seeds)
    return f"{body}  control {{\n{cases}\n  }}\n}}\n"


def interleaves() -> list[tuple[str, str]]:
    """The oracle's tests of `interleave`: name with verdict, and text."""
    entries = Path(HERE, "cases").read_text().split("=== ")[1:]
    named = [entry.partition("\n") for entry in entries]
    return [(name, body) for name, _, body in named if "interleave" in name]


def module_of_interleaves() -> str:
    body = PRELUDE.replace("module M", "module Interleaves").replace("R, L }", 'R, L } with { extension "internal" }')
    bodies = [text.replace("testcase t()", f"testcase TC_random_{at}()") for at, (_, text) in enumerate(interleaves())]
    body += "".join(re.sub(r"\bf_(?!one_and_two)\w+", rf"\g<0>_{at}", text) for at, text in enumerate(bodies))
    cases = "\n".join(f"    execute(TC_random_{at}(), 10.0);" for at in range(len(bodies)))
    return f"{body}  control {{\n{cases}\n  }}\n}}\n"


def look_at_interleaves() -> bool:
    """Whether Titan gives each the verdict that the oracle's tests expect."""
    with tempfile.TemporaryDirectory() as room:
        built(Path(room, "Interleaves"), "Interleaves", module_of_interleaves())
        found = verdicts(Path(room, "Interleaves"))
    wrong = [name for at, (name, _) in enumerate(interleaves()) if not name.endswith(f": always {found.get(at)}")]
    for name in wrong:
        print(f"FAILED: {name}: Titan says otherwise")
    print(f"passed {len(found) - len(wrong)} interleaves on Titan")
    return not wrong


def built(folder: Path, name: str, text: str) -> None:
    """Builds the executable of a module, and its configuration, in a folder of its own."""
    folder.mkdir()
    (folder / f"{name}.ttcn").write_text(text)
    told = subprocess.run(["ttcn3_compiler", f"{name}.ttcn"], cwd=folder, capture_output=True, text=True, check=False)
    if told.returncode:
        raise SystemExit(told.stderr)
    command = ["g++", "-O0", "-w", "-DLINUX", f"-I{TITAN}/include/titan", "-o", "programs", f"{name}.cc"]
    subprocess.run([*command, *_LIBRARIES], cwd=folder, check=True)
    logging = '[LOGGING]\nLogFile := "/dev/null"\nConsoleMask := TESTCASE\n'
    (folder / "run.cfg").write_text(f"[EXECUTE]\n{name}.control\n[MAIN_CONTROLLER]\nNumHCs := 1\n{logging}")


def verdicts(folder: Path) -> dict[int, str]:
    """The verdict of each program of a module, in one run of all of them."""
    with open(folder / "said", "w+", encoding="utf-8") as said:
        controller = subprocess.Popen(["mctr_cli", "run.cfg"], cwd=folder, stdin=subprocess.DEVNULL, stdout=said, stderr=said)
        port = None
        while port is None and controller.poll() is None:
            time.sleep(0.05)
            port = re.search(r"TCP port (\d+)", (folder / "said").read_text())
        assert port is not None
        subprocess.run(["./programs", "localhost", port[1]], cwd=folder, capture_output=True, check=False)
        controller.wait()
    found = re.findall(r"Test case TC_random_(\d+) finished\. Verdict: (\w+)", (folder / "said").read_text())
    return {int(seed): verdict for seed, verdict in found}


def seen_on_titan(seeds: list[int], runs: int) -> dict[int, set[str]]:
    seen: dict[int, set[str]] = {seed: set() for seed in seeds}
    modules = modules_of(seeds)
    with tempfile.TemporaryDirectory() as room, ThreadPoolExecutor(os.cpu_count()) as pool:
        folders = [Path(room, name) for name in modules]
        list(pool.map(built, folders, modules, modules.values()))
        for _ in range(runs):
            for found in pool.map(verdicts, folders):
                for seed, verdict in found.items():
                    seen[seed].add(verdict)
    return seen


def main() -> int:
    words = argparse.ArgumentParser(description="Random programs that are carried over, on Titan, tpr and the oracle.")
    words.add_argument("tpr", metavar="TPR", help="the program that is asked for verdicts")
    words.add_argument("first", metavar="FIRST", type=int, help="the seed of the first program")
    words.add_argument("count", metavar="COUNT", type=int, help="how many programs that are carried over are compared")
    words.add_argument("runs", metavar="RUNS", type=int, nargs="?", default=3, help="how often each runs on Titan (3)")
    given = words.parse_args()
    missing = [tool for tool in ("ttcn3_compiler", "mctr_cli", "g++") if shutil.which(tool) is None]
    if missing:
        print(f"left out random programs on Titan: {missing[0]} isn't there")
        return 0
    looks = carried(given.tpr, given.first, given.count)
    seen = seen_on_titan([look.seed for look in looks if look.kind == "same"], given.runs)
    is_right = look_at_interleaves()
    for look in looks:
        told = f"Titan {' '.join(sorted(seen.get(look.seed, ())))}, carried over {' '.join(sorted(look.verdicts))}"
        if look.kind == "wrong" or look.kind == "same" and not set() < seen[look.seed] <= look.verdicts:
            is_right = False
            print(f"FAILED: random program {look.seed}: {look.why or told}")
        elif look.kind == "same":
            print(f"passed random program {look.seed}: {told}")
    for why, number in Counter(f"{look.kind}: {look.why}" for look in looks if look.why).most_common():
        print(f"{number} others are {why}", file=sys.stderr)
    return int(not is_right)


if __name__ == "__main__":
    sys.exit(main())
