#!/usr/bin/env python3
"""Tests the tools that call ./tpr or ./build in a tree where nothing is built: a suite builds nothing unless it is
asked to, and an interrupted tool leaves no process running.

    tests/program/by_tools.py

It prints a line `passed NAME` for each case, or lines that begin with `FAILED: NAME`.
"""
from __future__ import annotations

import os
import pty
import shutil
import signal
import subprocess
import sys
from collections.abc import Iterator
from contextlib import contextmanager
from functools import partial

sys.dont_write_bytecode = True

from calling import MOST_SECONDS, take_signals, wait_until
from refusing import ROOT
from tree_of_crates import ALL, NAME, Tree, end_of, has_begun, is_gone, said_at, try_in_a_tree
from trying import HANGS, Trying

SUITE = (f"{NAME}/tools/suite", "text.ttcn")


class Tools(Trying):
    """The tree with the tools and a script; nothing in it is built."""

    def __init__(self, tree: Tree):
        super().__init__(tree)
        shutil.copytree(ROOT / "tools", tree.path / "tools")
        (tree.folder / "text.ttcn").write_text("module M { type component C { } testcase t() runs on C { } }\n")
        self.not_built = "the program isn't built, or is older than its sources"
        self.builds = f"`./build` builds it, the first time in about {tree.minutes} minutes"
        self.ends = f"suite: {tree.crates}/tpr/out/tpr queue, on no text, ended with status 7\n"
        self.is_built = f"tpr: 3 of 3 proved\n{self.ends}"
        self.has_failed = f"suite: {tree.path}/build has not built the program\n"

    def unbuild(self) -> None:
        for out in (self.tree.out, *self.tree.crates.glob("*/out")):
            shutil.rmtree(out, ignore_errors=True)

    @contextmanager
    def on_a_terminal(self, answer: str) -> Iterator[tuple[subprocess.Popen[bytes], int]]:
        """The suite on a terminal, where somebody gives this answer. Its messages can be read there."""
        ours, theirs = pty.openpty()
        os.write(ours, answer.encode())
        with subprocess.Popen(
            SUITE,
            cwd=self.tree.folder,
            env=self.tree.environment(ALL),
            stdin=theirs,
            stdout=subprocess.PIPE,
            stderr=theirs,
            preexec_fn=take_signals,
        ) as process:
            os.close(theirs)
            try:
                yield process, ours
            except BaseException:
                process.terminate()
                raise
            finally:
                os.close(ours)


def suites_build_nothing_unasked(tools: Tools) -> None:
    """Without a terminal a suite refuses to run; on a terminal it asks whether to build."""
    tree, crates = tools.tree, tools.tree.crates
    without = f"TPR={tree.path}/try runs the sources without proofs"
    refused = f"suite: {tools.not_built}: {tools.builds}; {without}\n"
    tree.must_end("a suite of a program that isn't built", tree.call(SUITE), 1, "", refused)
    tools.cases.must_be("builds nothing", (tree.out / "built").exists(), False)
    question = f"{tools.not_built}; {tools.builds}. Build it now? [y/N] "
    with tools.on_a_terminal("\n") as (process, terminal):
        process.wait(MOST_SECONDS)
        said = said_at(terminal)
    asked = process.returncode, said, (tree.out / "built").exists()
    name = "a suite asks on a terminal, and builds nothing unless it is told to"
    tools.cases.must_be(name, asked, (1, f"\n{question}{refused}", False))
    (crates / "refused in low").touch()
    with tools.on_a_terminal("y\n") as (process, terminal):
        process.wait(MOST_SECONDS)
        said = said_at(terminal)
    failed = process.returncode, said[-len(tools.has_failed) :]
    tools.cases.must_be("a build that fails", failed, (1, tools.has_failed))
    (crates / "refused in low").unlink()
    with tools.on_a_terminal("y\n") as (process, terminal):
        process.wait(MOST_SECONDS)
        said = said_at(terminal)
    built, wanted = (process.returncode, said[-len(tools.is_built) :]), (1, tools.is_built)
    tools.cases.must_be("a build that was asked for", built, wanted)
    again = tree.call(SUITE, more={"TPR": f"{NAME}/tpr"})
    tree.must_end("a suite of a program that is built", again, 1, "", tools.ends)
    tools.unbuild()


def interrupted_builds(tools: Tools) -> None:
    """Only the suite gets a signal while it builds: the build ends, and restores what it has set aside."""
    tree, hanging = tools.tree, tools.tree.crates / "hanging"
    for number in (signal.SIGINT, signal.SIGTERM):
        (tree.crates / "hangs in low").touch()
        with tools.on_a_terminal("y\n") as (process, terminal):
            wait_until(lambda: has_begun(hanging), "rt is at work")
            process.send_signal(number)
            process.wait(MOST_SECONDS)
            said_at(terminal)
        tools.cases.must_be(f"a suite that builds ends by {number.name}", process.returncode, 130)
        tools.cases.must_come(f"and rt with it, {number.name}", partial(is_gone, hanging))
        tools.cases.must_be(f"no room is left, {number.name}", (tree.out / "rooms").exists(), False)
        for file in (hanging, tree.crates / "hangs in low"):
            file.unlink()
        tools.unbuild()


def interrupted_tools(tools: Tools) -> None:
    """Only the tool gets a signal while it calls ./tpr, which compiles: no process that it has started goes on."""
    for tool in ("explain", "why", "explore", "rewrite"):
        for number in (signal.SIGINT, signal.SIGTERM):
            is_interrupted(tools, tool, number)


def is_interrupted(tools: Tools, tool: str, number: signal.Signals) -> None:
    tree, name = tools.tree, f"{tool}, {number.name}"
    tools.goes_so(*HANGS)
    with tree.started(f"{NAME}/tools/{tool}", "text.ttcn") as process:
        wait_until(lambda: has_begun(tree.crates / "rt"), "rt has begun")
        process.send_signal(number)
        ended = end_of(process)
    tools.cases.must_be(f"how it ends: {name}", (ended.status, ended.printed), (130, b""))
    for file in (tree.crates / it for it in ("child", "forgotten", "rt")):
        tools.cases.must_come(f"nothing of it goes on: {name}, {file.name}", partial(is_gone, file))
        file.unlink()
    tools.cases.must_be(f"no file of it is left: {name}", tree.left_files(), [])


# Each group, with its minimum number of cases.
GROUPS = ((suites_build_nothing_unasked, 6), (interrupted_builds, 6), (interrupted_tools, 40))


if __name__ == "__main__":
    sys.exit(try_in_a_tree("What tools do that ask ./tpr or ./build.", Tools, GROUPS))
