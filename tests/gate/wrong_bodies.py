#!/usr/bin/env python3
"""Tries wrong bodies: the prover must refuse each of them, in the function that its block names.

    ./test wrong_bodies [--jobs N] [oldest N | CRATE | CRATE/NAME ..]
    tests/gate/wrong_bodies.py [--jobs N] of_a_run
    tests/gate/wrong_bodies.py stale_libraries

The first form tries all, the N that were last refused the longest ago, or those named, after a check of their crates,
and writes tests/wrong_bodies/seen. `of_a_run` tries those of a run of the gate after `rt ci`, which has proved the
crates: the blocks with one star or a `!`, others by turns (wrong_body_seen.py), and one right body, so that a trial
that refuses everything fails. `stale_libraries` is called before `rt ci`, which restores the libraries that it found:
it removes all if one is missing, or older than its sources.

A trial checks the edited function in a copy of the crate, over the libraries of the crates below. It tries up to 16
edits of different functions at once: a function is proved from the contracts of the functions that it calls, so one
wrong body changes nothing for another. An edit that isn't refused there is tried again alone. With --jobs N, N crates
are tried at once, each by a check with one job, which takes 1 to 3 GB.

It prints a line `FAILED: ..` for each edit that isn't refused in its function; that is refused only because of its
shape, since a proof names something that the body no longer has; or on which the check gives no answer, for example
because it doesn't compile. The last line is `wrong bodies: N refused, M failed`.
"""
from __future__ import annotations

import argparse
import functools
import os
import re
import shutil
import signal
import subprocess
import sys
import tempfile
import threading
from collections.abc import Iterable, Sequence
from concurrent.futures import ThreadPoolExecutor
from pathlib import Path
from typing import NamedTuple

sys.dont_write_bytecode = True

from wrong_body_edits import (
    OF_EACH_RUN, ROOT, UNCOMPILED, Edit, Unfit, all_edits, below, crates, read, sources_of, write,
)
from wrong_body_seen import note, of_this_gate, oldest, take_over

PARTS = ("src", "specs", "proofs")
AT_ONCE = 16
SHAPE = re.compile(r"has no field |has no `[^`]*` that can be named")
REFUSED, LEFT, SHAPED = "is refused", "isn't refused", "is refused only because of its shape"
NO_ANSWER, UNTRIED = "came to no answer", "can't be tried"
NOT_COMPILED = "doesn't compile"
RIGHT = "right_body"


class Tried(NamedTuple):
    """The outcome of an edit, and more on that outcome."""

    edit: Edit
    outcome: str
    why: str = ""

    def is_well(self) -> bool:
        if self.edit.stars == UNCOMPILED:
            return self.outcome == NOT_COMPILED
        return self.outcome == (LEFT if self.edit.name == RIGHT else REFUSED)

    def line(self) -> str:
        where = f" in {self.edit.function}" if self.outcome in (REFUSED, LEFT) else ""
        failed = "" if self.is_well() else "FAILED: "
        return f"{failed}{self.edit.title()} {self.outcome}{where}{self.why and ': '}{self.why}"


# The checks


def library(crate: str) -> str:
    return f"{ROOT}/crates/{crate}/out/rlib/{crate}.rlib"


def is_stale(crate: str, uses: dict[str, list[str]]) -> bool:
    """Whether the library is missing, or a source of the crate or of one below it was changed later."""
    folders = [Path(ROOT, "crates", it, part) for it in (crate, *below(crate, uses)) for part in PARTS]
    files = [it for folder in folders if folder.exists() for it in (folder, *folder.rglob("*"))]
    changed = max(it.stat().st_mtime_ns for it in (Path(ROOT, "crates.txt"), *files))
    return not os.path.exists(library(crate)) or os.stat(library(crate)).st_mtime_ns < changed


def remove_stale_libraries() -> None:
    """Removes all libraries if one that others need is stale. Otherwise `rt ci` would leave some of its own beside some
    that it restores, which were proved over other builds, and no check could use them together."""
    uses = crates()
    needed = {it for crate in uses for it in below(crate, uses)}
    if any(is_stale(it, uses) for it in needed):
        for crate in uses:
            shutil.rmtree(os.path.dirname(library(crate)), ignore_errors=True)


@functools.lru_cache(maxsize=None)
def kit() -> str:
    """The toolchain's folder, which contains its first page."""
    ran = subprocess.run(["rt", "doc"], stdin=subprocess.DEVNULL, capture_output=True, text=True)
    return os.path.dirname(ran.stdout.strip())


def words_of_check(crate: str) -> list[str]:
    """The command by which `rattle` checks the crate. `rt check` would again prove the libraries of `rt ci`."""
    uses = crates()
    root = "main" if os.path.exists(f"{ROOT}/crates/{crate}/src/main.rt") else "lib"
    libraries = {it: library(it) for it in uses[crate] if it in uses}
    libraries |= {it: f"{kit()}/rlibs/{it}.rlib" for it in ("std", *uses[crate]) if it not in uses}
    folders = [f"{kit()}/rlibs", *(os.path.dirname(library(it)) for it in below(crate, uses))]
    words = [f"{kit()}/bin/rattle", "check", "--jobs", "1", "--crate-name", crate, f"src/{root}.rt"]
    words += [word for name, file in libraries.items() for word in ("--extern", f"{name}={file}")]
    words += [word for folder in folders for word in ("-L", f"dependency={folder}")]
    logic = ("--antt-project", f"{kit()}/rattle/logic/antt-project.json")
    return [*words, *logic, "--logic-built", f"{kit()}/logic_built"]


at_work: set[subprocess.Popen[str]] = set()
is_over = threading.Event()  # once it is set, no further check begins
printing = threading.Lock()


def said_by(words: Sequence[str], folder: str) -> str:
    if is_over.is_set():
        return ""
    with subprocess.Popen(
        words, cwd=folder, stdin=subprocess.DEVNULL, stdout=subprocess.PIPE, stderr=subprocess.PIPE, text=True,
        errors="replace",
    ) as ran:
        at_work.add(ran)
        said = "\n".join(ran.communicate())
        at_work.discard(ran)
    return said


def try_together(edits: Sequence[Edit], room: str) -> list[Tried]:
    """Checks the functions of these edits in a copy of their crate, with all of the edits, and takes the edits back."""
    crate, before = edits[0].crate, {it.file: read(f"{room}/{it.file}") for it in edits}
    try:
        for it in edits:
            write(f"{room}/{it.file}", it.applied(read(f"{room}/{it.file}")))
        only = [word for it in edits for word in ("--only", f"{crate}::{it.function}")]
        said = said_by([*words_of_check(crate), "--incremental", f"{room}/out/incremental", *only], room)
    finally:
        for file, text in before.items():
            write(f"{room}/{file}", text)
    return [outcome(it, said) for it in edits]


def outcome(edit: Edit, said: str) -> Tried:
    """The outcome of an edit, from the check's output on its function."""
    if edit.stars == UNCOMPILED and names_what_is_gone(edit, said):
        return Tried(edit, NOT_COMPILED)
    answers = dict(re.findall(rf"^fn {edit.crate}::(\S+): (.*)$", said, re.M))
    answer = answers.get(edit.function, "could not tell")
    if answer.startswith("could not tell"):
        return Tried(edit, NO_ANSWER, next((it for it in said.splitlines() if "error" in it), "")[:200])
    if answer.startswith(("proved", "no proof: it calls ")):
        others = [it for it, of in answers.items() if not of.startswith(("proved", "no proof: it calls "))]
        return Tried(edit, LEFT, f"but in {', '.join(others)}" if others else "")
    folders = (f"/{edit.function.replace('::', '/')}/", f"/{edit.key()}/")
    told = [line for line in said.splitlines() if any(it in line for it in folders)]
    return Tried(edit, SHAPED if any(SHAPE.search(line) for line in told) else REFUSED)


def names_what_is_gone(edit: Edit, said: str) -> bool:
    """Whether the compiler doesn't find a word that the edit adds."""
    words = re.findall(r"^[^:\n]+:\d+:\d+: error\[unknown-[\w-]+\]: [^`\n]*`(\w+)`", said, re.M)
    return bool(edit.added() & {*words})


def batches(edits: Iterable[Edit]) -> list[list[Edit]]:
    """Groups the edits of a crate, so that no two of a group are in one function or in one cycle of calls. An edit
    outside the function that it names is alone in its group, and so is one that must not compile."""
    made: list[dict[str, Edit]] = []
    for edit in edits:
        key = "" if edit.stars == UNCOMPILED else edit.key()
        fits = [it for it in made if key and "" not in it and key not in it and len(it) < AT_ONCE]
        if not fits:
            made.append({})
        (fits or made[-1:])[0][key] = edit
    return [[*it.values()] for it in made]


def try_batch(edits: Sequence[Edit], room: str) -> list[Tried]:
    """Tries a group of edits, and then each of them alone that wasn't refused."""
    try:
        found = try_together(edits, room)
    except Unfit:  # one of them inserts the text that another one replaces
        found = [Tried(it, NO_ANSWER) for it in edits]
    if len(edits) > 1:
        found = [it if it.outcome in (REFUSED, SHAPED) else try_together([it.edit], room)[0] for it in found]
    tell(found)
    return found


def tell(found: Sequence[Tried]) -> None:
    """Prints the outcomes, and notes which edits were refused."""
    with printing:
        if found and not is_over.is_set():
            note(it.edit for it in found if it.is_well() and it.edit.name != RIGHT)
            print(*(it.line() for it in found), sep="\n", flush=True)


# The edits to try


def named(words: Sequence[str]) -> list[Edit]:
    edits = all_edits()
    if words[:1] == ["oldest"] and len(words) == 2 and words[1].isdecimal():
        return oldest(edits, int(words[1]))
    for word in words:
        if word not in {name for it in edits for name in (it.crate, it.title())}:
            sys.exit(f"wrong_bodies: tests/wrong_bodies has no {word}")
    return [it for it in edits if not words or it.crate in words or it.title() in words]


def why_not(crate: str, is_proved: bool) -> str:
    """Why the edits of a crate can't be tried, if they can't: it isn't proved, or a library below it is stale."""
    if is_proved:
        uses = crates()
        stale = [it for it in below(crate, uses) if is_stale(it, uses)]
        return f"{stale[0]} has no library of these sources" if stale else ""
    said = said_by(["rt", "check", "--jobs", "1"], f"{ROOT}/crates/{crate}")
    return "" if "\nlogic=proved " in said else f"{crate} isn't proved itself"


def unfit(edit: Edit) -> str:
    """Why the edit can't be applied, if it can't."""
    try:
        edit.applied(read(f"{ROOT}/crates/{edit.crate}/{edit.file}"))
    except (OSError, Unfit) as why:
        return str(why)
    return ""


def try_crate(crate: str, edits: Sequence[Edit], is_proved: bool) -> list[Tried]:
    """Tries edits of a crate, in one copy of it, so that a check doesn't repeat the proofs of the earlier ones."""
    why = why_not(crate, is_proved)
    untried = [Tried(it, UNTRIED, why or unfit(it)) for it in edits if why or unfit(it)]
    tell(untried)
    fit = [it for it in edits if it not in [one.edit for one in untried]]
    with tempfile.TemporaryDirectory(prefix="wrong-bodies-") as room:
        for part in (*PARTS, *([] if is_proved else ["out/incremental"])):
            if fit and os.path.isdir(f"{ROOT}/crates/{crate}/{part}"):
                shutil.copytree(f"{ROOT}/crates/{crate}/{part}", f"{room}/{part}")
        return [*untried, *(it for batch in batches(fit) for it in try_batch(batch, room))]


def of_a_run() -> list[Edit]:
    """The edits of a run of the gate. The last one is a right body: it changes nothing."""
    edits = all_edits()
    starred = [it for it in edits if it.stars == OF_EACH_RUN]
    removed = [it for it in edits if it.stars == UNCOMPILED]
    right = starred[0]._replace(name=RIGHT, pairs=tuple((old, old) for old, _ in starred[0].pairs))
    return [*starred, *removed, *of_this_gate(edits), right]


def try_all(jobs: int, edits: Sequence[Edit], is_proved: bool) -> list[Tried]:
    """Tries the edits, with this many crates at once. The longest come first, estimated by the number of checks and the
    size of what each reads: the sources of the crate and of those below."""
    uses = crates()
    of_each = {it: [edit for edit in edits if edit.crate == it] for it in {edit.crate for edit in edits}}
    sizes = {it: sum(map(len, sources_of(it))) for it in uses}
    costs = {it: len(batches(of_each[it])) * sum(sizes[one] for one in (it, *below(it, uses))) for it in of_each}
    work = sorted(of_each, key=lambda it: (-costs[it], it))
    with ThreadPoolExecutor(max(1, jobs)) as pool:
        try:
            begun = [pool.submit(try_crate, it, of_each[it], is_proved) for it in work]
            return [one for it in begun for one in it.result()]
        except BaseException:
            is_over.set()
            for it in [*at_work]:
                it.terminate()
            pool.shutdown(cancel_futures=True)
            raise


def main() -> int:
    words = argparse.ArgumentParser("wrong_bodies", description="Tries wrong bodies, each of which must be refused.")
    words.add_argument("--jobs", metavar="N", type=int, default=1, help="so many checks at once")
    words.add_argument("names", metavar="oldest N | CRATE | CRATE/NAME", nargs="*", help="all without one")
    asked = words.parse_args()
    if asked.names == ["stale_libraries"]:
        remove_stale_libraries()
        return 0
    for it in (signal.SIGTERM, signal.SIGHUP):  # so that the copies are removed, whatever ends the process
        if signal.getsignal(it) is not signal.SIG_IGN:
            signal.signal(it, signal.default_int_handler)
    try:
        is_of_a_run = asked.names == ["of_a_run"]
        edits = of_a_run() if is_of_a_run else named(asked.names)
        found = try_all(asked.jobs, edits, is_of_a_run)
        if not is_of_a_run:
            take_over(all_edits())
    except KeyboardInterrupt:
        print("wrong_bodies: interrupted", file=sys.stderr)
        return 130
    except Unfit as why:
        sys.exit(f"wrong_bodies: {why}")
    failed = sum(not it.is_well() for it in found)
    print(f"wrong bodies: {sum(it.outcome in (REFUSED, NOT_COMPILED) for it in found)} refused, {failed} failed")
    return 1 if failed else 0


if __name__ == "__main__":
    sys.exit(main())
