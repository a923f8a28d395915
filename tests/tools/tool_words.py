#!/usr/bin/env python3
"""Tests what all tools have in common: how they start, and their behaviour if their output can't be written, and if
memory runs out.

    tests/tools/tool_words.py
"""
from __future__ import annotations

import ast
import os
import re
import sys
from collections.abc import Iterator
from pathlib import Path

sys.dont_write_bytecode = True

from tool_calls import ROOT, TAKES_SIGNALS, Group, case, file_of, must, onto_a_full_device, room, run, try_groups

TOOLS = ("chart", "compare", "explain", "explore", "lsp", "release", "rewrite", "suite", "titan", "why")
NEEDS_MUCH = """from tpr_tools import command
command.run("tool", lambda: len(bytes(1 << 62)))"""
INTERRUPTS = """import os, signal
os.kill(os.getpid(), signal.SIGINT)"""


def words_that_nobody_gets() -> None:
    for tool in TOOLS:
        command = ROOT / "tools" / tool
        with case(f"the help of {tool} onto a full device"):
            onto_a_full_device(command, "--help").must_say(f"{tool}: the answer can't be written", 3)
        with case(f"wrong words for {tool}, and a full standard error"):
            with open("/dev/full", "wb") as full:
                ended = run(command, "--nothing", stderr=full).must_end(4)
            must(not ended.printed, "it printed something")
        with case(f"wrong words for {tool}, and a closed standard error"):
            ended = run("sh", "-c", 'exec "$0" --nothing 2>&-', command).must_end(4)
            must(not ended.printed, "it printed something")
    version_that_each_says()
    start_of_each()
    what_tools_import()
    what_titan_cannot_read()
    memory_that_is_refused()


def version_that_each_says() -> None:
    version = (ROOT / "VERSION").read_text(encoding="utf-8").removesuffix("\n")
    for tool in (*TOOLS, "costs.py"):
        with case(f"the version that {tool} says"):
            ended = run(ROOT / "tools" / tool, "--version").must_say_nothing()
            form = rf"{re.escape(tool)} \(tpr\) {re.escape(version)}(\+git)?\n"
            ended.must(re.fullmatch(form, ended.text), f"a line of the form {form!r} is to be printed")
    with case("the version onto a full device"):
        onto_a_full_device(ROOT / "tools" / "why", "--version").must_say("why: the answer can't be written", 3)


def start_of_each() -> None:
    """Each tool is called by a link, as in the package."""
    with room() as folder:
        file_of(folder / "argparse.py", INTERRUPTS)
        for tool in (*TOOLS, "costs.py"):
            link = folder / tool
            link.symlink_to(ROOT / "tools" / tool)
            with case(f"{tool} without its folder on the path of modules"):
                run(link, "--version", more={"PYTHONSAFEPATH": "1"}).must_say_nothing()
            with case(f"an interrupt while the modules of {tool} are imported"):
                run(*TAKES_SIGNALS, link, "--version", more={"PYTHONPATH": str(folder)}).must_print("", 130)


def what_tools_import() -> None:
    files = [*(ROOT / "tools").glob("tpr_tools/**/*.py"), *(ROOT / "tools" / tool for tool in TOOLS)]
    with case("the tools import nothing that doesn't come with python3"):
        must(len(files) > 100, f"there are only {len(files)} files")
        foreign = {name for file in files for name in imported_by(file)} - {*sys.stdlib_module_names, "tpr_tools"}
        must(not foreign, f"they import {foreign}")
    with case("a width that is computed stands behind an alignment: Python 3.9 refuses the width 0 of a text alone"):
        wrong = [f"{file.name}:{line}" for file in files for line in widths_alone(file)]
        must(not wrong, f"there is none in {wrong}")


def nodes_of(file: Path) -> Iterator[ast.AST]:
    return ast.walk(ast.parse(file.read_text(encoding="utf-8")))


def widths_alone(file: Path) -> Iterator[int]:
    """The lines that have a format which begins with a computed width."""
    for node in nodes_of(file):
        if isinstance(node, ast.FormattedValue) and isinstance(node.format_spec, ast.JoinedStr):
            if isinstance(node.format_spec.values[0], ast.FormattedValue):
                yield node.lineno


def imported_by(file: Path) -> Iterator[str]:
    """The imported packages, without relative imports."""
    for node in nodes_of(file):
        if isinstance(node, ast.Import):
            yield from (it.name.split(".")[0] for it in node.names)
        elif isinstance(node, ast.ImportFrom) and node.level == 0 and node.module:
            yield node.module.split(".")[0]


def what_titan_cannot_read() -> None:
    odd = ROOT / "tests" / "titan" / "odd"
    with case("what titan can't read, and a full standard error"):
        with open("/dev/full", "wb") as full:
            ended = run(ROOT / "tools" / "titan", odd / "mtc.log", odd / "3.log", stderr=full)
        ended.must_print((odd / "trace").read_bytes(), 5)


def memory_that_is_refused() -> None:
    with case("a tool that is refused memory"):
        ended = run("python3", "-B", "-c", NEEDS_MUCH, more={"PYTHONPATH": str(ROOT / "tools")})
        ended.must_say("tool: out of memory", 1)
    with case("rewrite without memory for its stack"):
        script = ROOT / "examples" / "ping_pong.ttcn"
        ended = run("sh", "-c", 'ulimit -v 400000; exec "$0" "$1"', ROOT / "tools" / "rewrite", script)
        ended.must_say("rewrite: out of memory", 1)


if __name__ == "__main__":
    # Without it, output that couldn't be written stays in the buffer, and is written again at the very end.
    os.environ.pop("PYTHONUNBUFFERED", None)
    sys.exit(try_groups([Group(words_that_nobody_gets, 65, "words that nobody gets")]))
