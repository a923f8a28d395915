#!/usr/bin/env python3
"""Tests that ./build builds what it should in a tree of five crates, and that ./tpr then runs the built program instead
of compiling the sources.

    tests/program/building.py

It prints a line `passed NAME` for each case, or lines that begin with `FAILED: NAME`.
"""
from __future__ import annotations

import os
import re
import signal
import sys
from collections.abc import Sequence
from functools import partial

sys.dont_write_bytecode = True

from calling import Ended, wait_until
from tree_of_crates import (
    ALL, NAME, WITHOUT_RT, Tree, end_of, has_begun, is_gone, lines, try_in_a_tree, write_command,
)

BUILD = f"{NAME}/build"
USAGE = "usage: ./build [tpr_ordered] [--jobs N] | ./build is_built | ./build lanes | ./build clear\n"
AGAIN = "building the program again, because a source is newer than its last build"
# The estimate: two crates of a minute each, side by side, and then the program, which takes 360 seconds.
NONE_PROVED = "0 of 3 proved, about 7 minutes left"
# The crates take almost no time here, but the estimate assumes no machine faster than FASTEST in ./build.
ONE, TWO, THREE = "1 of 3 proved, about 2 minutes left", "2 of 3 proved, about 2 minutes left", "3 of 3 proved"
LAST_LEFT, LOW_LEFT = "2 of 3 proved, about 6 minutes left", "1 of 3 proved, about 7 minutes left"
LAST, LOW, EACH = (LAST_LEFT, THREE), (LOW_LEFT, TWO, THREE), (NONE_PROVED, ONE, TWO, THREE)
LEFT = ["build.log", "built", "lock", "times_of_crates"]  # by a build in out/
ASKED_LAST = "rt was asked in tpr: run --jobs 1 -- queue"


def of_tpr(*said: str) -> str:
    """Lines that the build prints on standard error."""
    return lines(*(f"tpr: {it}" for it in said))


class Building:
    """The tree, and what its builds print."""

    def __init__(self, tree: Tree):
        self.tree, self.cases, self.crates = tree, tree.cases, tree.crates
        self.log = f"the output of the build is written to {tree.out}/build.log"
        self.failed = f"tpr: the build failed; its whole output is in {tree.out}/build.log"

    def build(self, *words: str, commands: Sequence[str] = ALL) -> Ended:
        return self.tree.call([BUILD, *words], commands)

    def answers(self, name: str, words: Sequence[str], status: int, said: str = "") -> None:
        """./build with these words ends with this status and this standard error, and prints nothing."""
        self.tree.must_end(name, self.build(*words), status, "", said)

    def builds(self, name: str, *said: str) -> None:
        """./build reports that it builds the program, which then runs. If nothing is newer, it reports nothing."""
        self.answers(name, ["--jobs", "2"], 0, of_tpr(*said))
        self.tree.runs(name)

    def fails(self, name: str, *said: str) -> None:
        self.answers(name, ["--jobs", "2"], 1, lines(*said))

    def must_be_in_the_log(self, name: str, *wanted: str) -> None:
        """The log has only these lines, in any order, with the time of each crate as `N seconds`."""
        found = re.sub(r" took [0-9]+ seconds ", " took N seconds ", (self.tree.out / "build.log").read_text())
        self.cases.must_be(name, sorted(found.splitlines()), sorted(wanted))

    def touch(self, *files: str) -> None:
        for file in files:
            (self.crates / file).touch()

    def remove(self, file: str) -> None:
        (self.crates / file).unlink()


def first_build(building: Building) -> None:
    """Without the toolchain nothing is built; with it, two crates side by side, and then the program."""
    name, no_rt = "a first build without the toolchain", "the toolchain's command `rt` is not on PATH"
    without_rt = building.build("--jobs", "2", commands=WITHOUT_RT)
    building.tree.must_end(name, without_rt, 1, "", of_tpr(f"the program has to be built, and {no_rt}"))
    building.answers("nothing is built yet", ["is_built"], 1)
    building.touch("meet")
    first = f"proving and building the program; the first time this takes about {building.tree.minutes} minutes"
    building.builds("a first build, of two crates side by side", first, building.log, *EACH)
    building.remove("meet")
    building.must_be_in_the_log(
        "what rt was asked, and what each crate took",
        "rt was asked in low: lib --jobs 1",
        "rt was asked in side: lib --jobs 1",
        ASKED_LAST,
        *(f"tpr: {it} took N seconds with 1 job" for it in ("low", "side", "tpr")),
    )
    building.cases.must_be("what a build leaves", sorted(os.listdir(building.tree.out)), LEFT)


def words_of_a_build(building: Building) -> None:
    """`is_built`, `lanes`, which prints how many checks may run at once, and words that ./build doesn't know."""
    building.answers("all is built", ["is_built"], 0)
    building.answers("another word for the build", ["it"], 4, USAGE)
    building.answers("on no processor", ["--jobs", "0"], 4, USAGE)
    building.answers("only tpr can be asked for", ["tpr_ordered", "is_built"], 4, USAGE)
    lanes = building.build("lanes")
    is_so = lanes.status == 0 and lanes.said == b"" and 1 <= int(lanes.printed) <= len(os.sched_getaffinity(0))
    building.cases.must_be(f"at most as many checks at one time as processors: {lanes}", is_so, True)


def progress_on_a_terminal(building: Building) -> None:
    """The build prints which crates are at work, and how long each took last time, if a build has kept that."""
    for name, last_time in (("of the last time", " (N s the last time)"), ("of the first time", "")):
        if not last_time:
            (building.tree.out / "times_of_crates").unlink()
        building.touch("low/src/lib.rt")
        said = building.tree.said_on_a_terminal(BUILD, "--jobs", "2")
        told = re.findall("^tpr: at work: .*", re.sub("[0-9]+ s ", "N s ", said), re.M)
        wanted = [f"tpr: at work: {it}{last_time}" for it in ("low", "tpr")]
        building.cases.must_be(f"what is at work is told on a terminal, {name}", told, wanted)


def other_program(building: Building) -> None:
    """The program that tools/explore runs."""
    words, last = ["tpr_ordered", "--jobs", "2"], ("2 of 3 proved, about 1 minute left", THREE)
    other = "building tpr_ordered, and the crates that it uses if they aren't built yet"
    building.answers("the program for tools/explore", words, 0, of_tpr(other, building.log, *last))
    script = building.tree.path / "examples/login_is_answered.ttcn"
    building.must_be_in_the_log(
        "what rt was asked for it",
        f"rt was asked in tpr_ordered: run --jobs 1 -- {script} /dev/null",
        "tpr: tpr_ordered took N seconds with 1 job",
    )
    building.answers("it is built", words, 0)
    building.touch("tpr_ordered/src/lib.rt")
    building.builds("a newer source of the other program")
    building.answers("and it is built again", words, 0, of_tpr(AGAIN, building.log, *last))


def what_is_newer(building: Building) -> None:
    """Newer sources are built again, with the crates that depend on them, and no others. Proofs change no program."""
    log = building.log
    building.builds("nothing is newer")
    (building.tree.folder / "link").symlink_to(building.tree.path / "tpr")
    building.tree.runs("called by a link", "./link")
    building.touch("low/proofs/Lib.antt")
    building.builds("a newer proof")
    building.touch("tpr/specs/Lib.antt")
    building.builds("a newer definition of tpr", AGAIN, log, *LAST)
    building.touch("low/src/lib.rt")
    building.answers("a source is newer", ["is_built"], 1)
    building.builds("a newer source below tpr", AGAIN, log, *LOW)
    building.remove("low/src/more.rt")
    building.builds("a source taken away", AGAIN, log, *LOW)
    building.touch("../crates.txt")
    building.builds("a newer list of crates", AGAIN, log, *EACH)
    building.touch("edits", "tpr/src/lib.rt")
    edited = "a source below tpr is edited while tpr is built"
    building.answers(edited, ["--jobs", "2"], 0, of_tpr(AGAIN, log, *LAST))
    building.builds("and counts as newer", AGAIN, log, *LOW)
    building.touch("beside/src/lib.rt")
    building.builds("a newer crate on which tpr doesn't stand")


def failed_builds(building: Building) -> None:
    """A failed build doesn't count as a build, and is begun again."""
    log, listed = building.log, building.tree.path / "crates.txt"
    building.touch("refused in low", "low/src/lib.rt")
    said = (*of_tpr(AGAIN, log, LOW_LEFT).splitlines(), "rt was asked in low: lib --jobs 2", building.failed)
    building.fails("a crate below tpr is refused", *said)
    building.remove("refused in low")
    building.builds("once it is no longer", AGAIN, log, *LOW)
    building.touch("fails in tpr", "tpr/src/lib.rt")
    said = (*of_tpr(AGAIN, log, LAST_LEFT).splitlines(), ASKED_LAST, building.failed)
    building.fails("the program is made, and its first run fails", *said)
    building.fails("and fails again", *said)
    building.remove("fails in tpr")
    building.builds("once it fails no longer", AGAIN, log, *LAST)
    kept = listed.rename(listed.with_name("list"))
    building.fails("no list of crates", f"tpr: there is no crate tpr in {listed}")
    kept.rename(listed)


# Runs ./build, and interrupts it while `subprocess` holds a lock to look whether rt has ended. An exception that is
# raised there leaves the lock held, so that a wait for rt never ends.
INTERRUPTED_WITHIN_A_LOOK = """
import os, runpy, signal, subprocess, sys

def lines(frame, event, _):
    if frame.f_locals["self"]._waitpid_lock.locked():
        sys.settrace(None)
        frame.f_trace = None
        os.kill(os.getpid(), signal.SIGINT)
    return lines

sys.settrace(lambda frame, *_: lines if frame.f_code is subprocess.Popen._internal_poll.__code__ else None)
sys.argv = sys.argv[1:]
runpy.run_path(sys.argv[0], run_name="__main__")
"""


def interrupted_build(building: Building) -> None:
    """An interrupt while a crate is at work: the files of the crate that were set aside are restored."""
    hanging, log = building.crates / "hanging", building.log
    building.touch("hangs in low", "low/src/lib.rt")
    with building.tree.started(BUILD, "--jobs", "2") as process:
        wait_until(lambda: has_begun(hanging), "rt is at work")
        process.send_signal(signal.SIGINT)
        ended = end_of(process)
    building.tree.must_end("a build that is interrupted", ended, 130, "", of_tpr(AGAIN, log, LOW_LEFT))
    building.cases.must_come("rt is ended", partial(is_gone, hanging))
    left = os.listdir(building.crates / "low/out"), (building.tree.out / "rooms").exists()
    building.cases.must_be("what was kept of the crate is back, and its room is gone", left, (["rlib"], False))
    with building.tree.started("python3", "-c", INTERRUPTED_WITHIN_A_LOOK, BUILD, "--jobs", "2") as process:
        ended = end_of(process)
    building.tree.must_end("an interrupt within a look at rt", ended, 130, "", of_tpr(AGAIN, log, LOW_LEFT))
    building.cases.must_be("what was kept is back too", os.listdir(building.crates / "low/out"), ["rlib"])
    building.remove("hangs in low")
    building.builds("once it hangs no longer", AGAIN, log, *LOW)


def killed_build(building: Building) -> None:
    """A killed build can't end `rt` or restore anything: the kernel tells `rt` to end, and `clear` or the next build
    restores what was set aside."""
    hanging, out, kept = building.crates / "hanging", building.tree.out, building.crates / "low/out"
    building.touch("hangs in low", "low/src/lib.rt")
    for name in ("clear", "another build"):
        hanging.unlink(missing_ok=True)
        with building.tree.started(BUILD, "--jobs", "2") as process:
            wait_until(lambda: has_begun(hanging), "rt is at work")
            process.kill()
            ended = end_of(process)
        said = of_tpr(AGAIN, building.log, LOW_LEFT)
        building.tree.must_end(f"a build that is killed, and then {name}", ended, -signal.SIGKILL, "", said)
        building.cases.must_come(f"rt is ended before {name}", partial(is_gone, hanging))
        building.cases.must_be(f"what was kept is away before {name}", kept.exists(), False)
        if name == "clear":
            building.answers("what is set aside is put back", ["clear"], 0)
            left = os.listdir(kept), (out / "rooms").exists()
            building.cases.must_be("what was kept is back, and no room is left", left, (["rlib"], False))
    building.remove("hangs in low")
    (out / "rooms/low/crates/low/out/a file").touch()
    building.builds("a build after one that was killed", AGAIN, building.log, *LOW)
    building.cases.must_be("which begins with what was kept", (kept / "a file").exists(), True)


HINT = "tpr: this is a report of `tpr run`; `tpr judge` needs a trace, which `tpr trace` prints\n"
JUDGED = {
    "a report": ("took p a 0 b\nresult none", HINT),
    "a trace": ("came p a 0 b\ntook p a 0 b\nresult none", ""),
    "a trace whose arrival is missing": ("took p a 0 b", ""),
    "a text": ("else", ""),
}


def judged_reports(building: Building) -> None:
    """`./tpr judge` recognises a report that is given instead of a trace. The program here answers all texts alike."""
    tree, answer = building.tree, "unlawful Lost line 2\n"
    judge, said = [f"{NAME}/tpr", "judge"], "cat: none: No such file or directory\n"
    program = f"#!/bin/sh\ncat $2 >/dev/null\nprintf '{answer}'\nexit 2\n"
    write_command(building.crates / "tpr/out/tpr", program)
    for name, (text, hint) in JUDGED.items():
        (tree.folder / "text").write_text(f"{text}\n")
        piped = tree.call(judge, pieces=[f"{text}\n".encode()])
        tree.must_end(f"judge is given {name} by a pipe", piped, 2, answer, hint)
        tree.must_end(f"judge is given {name} as a file", tree.call([*judge, "text"]), 2, answer, hint)
        with open(tree.folder / "text", "rb") as given:
            tree.must_end(f"judge is given {name} as its input", tree.call(judge, stdin=given), 2, answer, hint)
    nowhere = tree.call(judge, pieces=[b"else\n"], more={"TMPDIR": "/nowhere"})
    tree.must_end("judge is given a pipe, and there is no folder for its text", nowhere, 2, answer)
    tree.must_end("judge is given a missing file", tree.call([*judge, "none"]), 2, answer, said)


# Each group, with its minimum number of cases. Each begins with the tree that the previous one leaves.
GROUPS = (
    (first_build, 6),
    (words_of_a_build, 5),
    (progress_on_a_terminal, 2),
    (other_program, 6),
    (what_is_newer, 19),
    (failed_builds, 8),
    (interrupted_build, 7),
    (killed_build, 11),
    (judged_reports, 14),
)


if __name__ == "__main__":
    sys.exit(try_in_a_tree("What ./build builds, and that ./tpr then runs it.", Building, GROUPS))
