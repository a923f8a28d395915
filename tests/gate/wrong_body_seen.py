"""Keeps tests/wrong_bodies/seen: when the prover last refused each block, or the compiler, for a block with `!`. A line
has CRATE/NAME, the day, the commit, with a + if the sources had changed since, and the function.

A trial notes its lines in out/refused, because a gate doesn't change the commit that it tries. `./test list` adds them
to `seen`, and so does `./test wrong_bodies` at its end.
"""
from __future__ import annotations

import os
import subprocess
import time
from collections.abc import Iterable

from wrong_body_edits import OF_EACH_RUN, ROOT, SHELF, UNCOMPILED, Edit, crates, read, write

SEEN, REFUSED = f"{SHELF}/seen", f"{ROOT}/out/refused"
GATES = 25  # after this many gates, each of the others has had its turn


def output_of(*words: str) -> str:
    try:
        return subprocess.run(words, cwd=ROOT, stdin=subprocess.DEVNULL, capture_output=True, text=True).stdout.strip()
    except OSError:
        return ""


def commit() -> str:
    """The commit of the work tree, `none` without git."""
    changes = output_of("git", "status", "--porcelain", "crates", "crates.txt")
    return (output_of("git", "rev-parse", "--short=8", "HEAD") or "none") + "+" * bool(changes)


def lines_of(path: str) -> dict[str, list[str]]:
    """The words of each line, by its first word."""
    return {line.split()[0]: line.split() for line in read(path).splitlines()} if os.path.exists(path) else {}


def note(edits: Iterable[Edit]) -> None:
    """Notes that these were refused just now."""
    day, at = time.strftime("%Y-%m-%d", time.gmtime()), commit()
    lines = lines_of(REFUSED) | {it.title(): [it.title(), day, at, it.function] for it in edits}
    write(REFUSED, "".join(f"{' '.join(lines[it])}\n" for it in sorted(lines)))


def take_over(edits: Iterable[Edit]) -> None:
    """Adds the lines of trials to `seen`, and removes the lines of edits that no longer exist."""
    lines, there = lines_of(SEEN) | lines_of(REFUSED), {it.title() for it in edits}
    write(SEEN, "".join(f"{' '.join(lines[it])}\n" for it in sorted(lines) if it in there))
    if os.path.exists(REFUSED):
        os.remove(REFUSED)


def oldest(edits: Iterable[Edit], count: int) -> list[Edit]:
    """The edits that were refused the longest ago, or never."""
    seen = lines_of(SEEN) | lines_of(REFUSED)
    return sorted(edits, key=lambda it: seen.get(it.title(), ["", ""])[1])[:count]


def spread(edits: Iterable[Edit]) -> list[Edit]:
    """The edits by crate, with those of one function far from each other, since they can't be tried at once."""
    groups: dict[tuple[str, str], list[Edit]] = {}
    edits = [*edits]
    for it in edits:
        groups.setdefault((it.crate, it.key()), []).append(it)
    places = {it.title(): n / len(group) for group in groups.values() for n, it in enumerate(group)}
    return sorted(edits, key=lambda it: ([*crates()].index(it.crate), places[it.title()]))


def of_this_gate(edits: Iterable[Edit]) -> list[Edit]:
    """The edits whose turn it is: those that were refused the longest ago. Among those of one day, the commit's hash
    says where they begin, so that a gate tries edits of few crates."""
    by_turns = spread(it for it in edits if it.stars not in (OF_EACH_RUN, UNCOMPILED))
    start = int(output_of("git", "rev-parse", "HEAD") or "0", 16) % max(1, len(by_turns))
    return oldest((*by_turns[start:], *by_turns[:start]), -(-len(by_turns) // GATES))
