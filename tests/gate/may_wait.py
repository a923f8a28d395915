#!/usr/bin/env python3
"""Tests that crates.txt counts as the prover did: how many functions of each crate may wait, and what its tests may do.

    tests/gate/may_wait.py FILE

FILE is the output of `rt ci`, which compares each crate with HANDLES, but not with a count. `rt verdict` does that, by
one more proof. So each count is compared with the last line of the prover, `logic=proved ..`. On each machine `rt ci`
keeps what it proved, and doesn't prove the same again, so what it takes from there is left out. It takes nothing if
the crate's line in crates.txt has changed.

It prints a line `passed CRATE`, `left out CRATE: WHY` or `FAILED: CRATE: WHY` for each crate of crates.txt.
"""
import argparse
import re
import sys

sys.dont_write_bytecode = True

from wrong_body_edits import ROOT, read

# The counts if crates.txt, or the prover's line, has none.
NONE = {"may_wait": "0", "tests_may": "-"}
# What `rt ci` prints for a crate that it doesn't prove again, and at its end if it took anything from earlier runs. It
# prints nothing for the tests of a crate that it doesn't prove again.
KEPT = re.compile(r"^rt: (\w+) is kept: an earlier run on this machine proved the same files", re.M)
SOME_KEPT = "the others are kept from earlier runs"


def counts_in(words: list[str]) -> dict[str, str]:
    """The count after the `=` of each word."""
    return {name: count for name, _, count in (word.partition("=") for word in words)}


def wanted() -> dict[str, dict[str, str]]:
    """The counts of crates.txt, by crate."""
    found = {}
    for line in read(f"{ROOT}/crates.txt").splitlines():
        name, *words = re.split("[:#]", line)[0].split() or [""]
        if name:
            found[name] = {**NONE, **counts_in(words)}
    return found


def counted(lines: list[str]) -> dict[str, dict[str, str]]:
    """The prover's counts for each crate, and for its tests. Its output for a crate follows a line `== CRATE`, and for
    the tests of the crate `== CRATE: its tests`."""
    found: dict[str, dict[str, str]] = {}
    crate, of_tests = "", ""
    for line in lines:
        if line.startswith("== "):
            crate, _, of_tests = line.removeprefix("== ").partition(": ")
        elif line.startswith("logic=proved ") and crate:
            said = counts_in(line.split())
            # A test may end its process without a word in crates.txt.
            may = [it for it in said.get("main", "").split("+") if it not in ("", "Abort")]
            count = {"tests_may": "+".join(may) or "-"} if of_tests else {"may_wait": said.get("may-wait", "0")}
            found.setdefault(crate, {}).update(count)
    return found


def kept_in(text: str) -> set[str]:
    """The crates whose proofs `rt ci` took from earlier runs, and `CRATE: its tests` of each that it may have."""
    return {*KEPT.findall(text), *(f"{crate}: its tests" for crate in wanted() if SOME_KEPT in text)}


def told(crate: str, counts: dict[str, str], found: dict[str, str], kept: set[str]) -> str:
    """The result of a crate with these counts in crates.txt, and with those that the prover found."""
    if "may_wait" not in found:
        if crate in kept:
            return f"left out {crate}: its counts, because an earlier run on this machine proved it"
        return f"FAILED: {crate}: rt ci said nothing that is understood"
    for name, none in NONE.items():
        if name == "tests_may" and name not in found and f"{crate}: its tests" in kept:
            continue
        if counts[name] != found.get(name, none):
            return f"FAILED: {crate}: crates.txt has {name}={counts[name]}, and the prover {found.get(name, none)}"
    return f"passed {crate}"


def main() -> int:
    words = argparse.ArgumentParser(description="Compares the counts of crates.txt with the prover's.")
    words.add_argument("file", metavar="FILE", help="what rt ci said")
    asked = words.parse_args()
    # The program's tests may print bytes that aren't UTF-8.
    with open(asked.file, encoding="utf-8", errors="replace") as file:
        text = file.read()
    found, kept, lines = counted(text.split("\n")), kept_in(text), []
    for crate, counts in wanted().items():
        lines.append(told(crate, counts, found.get(crate, {}), kept))
        raised = {**counts, "may_wait": str(int(counts["may_wait"]) + 1)}
        if lines[-1].startswith("passed ") and told(crate, raised, found.get(crate, {}), kept).startswith("passed "):
            lines[-1] = f"FAILED: {crate}: a count that is one too high isn't told"
    print("\n".join(lines))
    return 1 if any(line.startswith("FAILED: ") for line in lines) else 0


if __name__ == "__main__":
    sys.exit(main())
