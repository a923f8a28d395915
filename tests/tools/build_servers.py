#!/usr/bin/env python3
"""Tests each command of docs/CI.md as its build server runs it: on scripts with expected results, and on others.

    tests/tools/build_servers.py PROGRAM
"""
from __future__ import annotations

import importlib
import importlib.util
import json
import os
import re
import shutil
import sys
from pathlib import Path
from typing import Any, NamedTuple
from xml.etree import ElementTree

sys.dont_write_bytecode = True

from tool_calls import ROOT, Ended, Group, case, example, file_of, must, must_be, room, run, try_groups

PROGRAM = sys.argv[1]
KITCHEN = example("closed_counter_serves_no_order.ttcn").read_text(encoding="utf-8")
RACE = example("else_is_taken_for_a_timeout.ttcn").read_text(encoding="utf-8")
AS_EXPECTED, NOT_SO = 0, 5


class Server(NamedTuple):
    """The heading of its section, the form of a line with a command, whether the fragment is YAML, and whether it
    continues after a command that fails."""

    heading: str
    command: str
    is_yaml: bool = True
    goes_on: bool = False


SERVERS = (
    Server("GitHub Actions", r"(?m)^ +(?:- )?run: (.*)$", goes_on=True),
    Server("GitLab CI", r"(?m)^ +- (\S+ .*)$"),
    Server("Jenkins", r"(?m)^ +sh '([^']*)'$", is_yaml=False),
)


class Suite(NamedTuple):
    """The script of a suite, the suite's status, the number of faults, and how the one case of the JUnit XML ended."""

    name: str
    script: str
    status: int
    faults: int
    ended: str


SUITES = (
    Suite("a script that passes", KITCHEN, AS_EXPECTED, 0, ""),
    Suite("a script with two faults", KITCHEN.replace("bell.receive", "belt.receive"), NOT_SO, 2, "error"),
    Suite("a script that fails", KITCHEN.replace("setverdict(pass)", "setverdict(fail)"), NOT_SO, 0, "failure"),
    Suite("a verdict that depends on the schedule", RACE, NOT_SO, 0, "failure"),
)


def fragment_of(server: Server) -> str:
    """The fenced text below its heading."""
    page = (ROOT / "docs" / "CI.md").read_text(encoding="utf-8")
    found = re.search(rf"^## {server.heading}\n.*?^```\w+\n(.*?)^```$", page, re.DOTALL | re.MULTILINE)
    must(found, f"docs/CI.md has no fragment for {server.heading}")
    return found[1] if found else ""


def commands_of(server: Server) -> list[str]:
    return re.findall(server.command, fragment_of(server))


def fragments() -> None:
    for server in SERVERS:
        with case(f"the fragment for {server.heading}"):
            commands = commands_of(server)
            must_be([it.split()[0] for it in commands], ["tpr-explain", "tpr-suite"])
            if server.is_yaml and importlib.util.find_spec("yaml"):
                read: Any = importlib.import_module("yaml").safe_load(fragment_of(server))
                must_be([it for it in strings_in(read) if it.startswith("tpr-")], commands)


def strings_in(value: Any) -> list[str]:
    inner = value.values() if isinstance(value, dict) else value if isinstance(value, list) else ()
    return [value] if isinstance(value, str) else [text for it in inner for text in strings_in(it)]


def commands() -> None:
    if shutil.which("junitparser") is None:
        print("left out the reader of JUnit XML: there is no junitparser")
    for server in SERVERS:
        for suite in SUITES:
            with case(f"{server.heading}: {suite.name}"), room() as folder:
                try_commands(server, suite, folder)


def try_commands(server: Server, suite: Suite, folder: Path) -> None:
    for name in ("bin", "scripts"):
        (folder / name).mkdir()
    for name in ("suite", "explain"):
        (folder / "bin" / f"tpr-{name}").symlink_to(ROOT / "tools" / name)
    file_of(folder / "scripts" / "one.ttcn", suite.script)
    more = {"TPR": PROGRAM, "PATH": f"{folder}/bin:{os.environ['PATH']}"}
    explained, last = (run("sh", "-e", "-c", it, folder=folder, more=more) for it in commands_of(server))
    last.must_end(suite.status)
    explained.must_end(1 if suite.faults and server.goes_on else 0)
    must_be(faults_in(explained, folder), suite.faults)
    look_at_junit(folder / "results.xml", suite)


def faults_in(explained: Ended, folder: Path) -> int:
    """The number of faults in the file for the server, or in the printed lines."""
    written = [*folder.glob("*.json"), *folder.glob("*.sarif")]
    if not written:
        return len(re.findall("(?m)^::error file=scripts/one.ttcn,", explained.text))
    found = json.loads(written[0].read_text(encoding="utf-8"))
    return len(found if isinstance(found, list) else found["runs"][0]["results"])


def look_at_junit(file: Path, suite: Suite) -> None:
    (one,) = ElementTree.parse(file).getroot().iter("testcase")
    must_be([it.tag for it in one if it.tag in ("failure", "error")], [suite.ended] * bool(suite.ended))
    if suite.script == RACE:
        text = "".join(one.itertext())
        must(re.search("(?m)^pass: ", text) and re.search("(?m)^fail: ", text), f"no two orders in {text}")
    if reader := shutil.which("junitparser"):
        run(reader, "verify", file).must_end(1 if suite.ended else 0)


def a_status_of_the_program() -> None:
    with case("a status of 0 of tpr isn't pass"), room() as folder:
        run(PROGRAM, "run", file_of(folder / "one.ttcn", SUITES[2].script)).must_show("^result fail$", 0)


if __name__ == "__main__":
    del sys.argv[1:]
    groups = ((fragments, 3), (commands, len(SERVERS) * len(SUITES)), (a_status_of_the_program, 1))
    sys.exit(try_groups(Group(it, least, it.__name__) for it, least in groups))
