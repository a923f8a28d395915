"""Runs tools/suite: with `tpr`, or with a program in its place that executes its script."""
from __future__ import annotations

import os
import re
import shlex
import shutil
import subprocess
from collections.abc import Callable
from pathlib import Path

from tool_calls import ROOT, Ended, Word, difference, example, must, program_of, run, shown

SUITE = ROOT / "tools" / "suite"
TIMES = "the runs took T, judging them T"
ONE_PASS = "1 script: 1 pass; all as expected"

# With an empty text it does nothing; otherwise it executes the script.
ANOTHER = """#!/usr/bin/env bash
if [[ $1 == queue ]]; then exit 0; fi
source "$2"
"""


def answer(name: str) -> str:
    """The file with the expected output of an example, quoted for the shell."""
    return shlex.quote(str(example(name)))


class Suites:
    """The programs, and a folder in which suites are run."""

    def __init__(self, room: Path, name: str, tpr: str):
        self.folder, self.tpr, self.another = room / name, tpr, str(room / "another")
        self.folder.mkdir()
        Path(self.another).write_text(ANOTHER, encoding="ascii")
        os.chmod(self.another, 0o755)

    def file(self, name: str) -> Path:
        return self.folder / name

    def write(self, name: str, text: str) -> None:
        """Writes a script, or its expected results."""
        self.file(name).parent.mkdir(parents=True, exist_ok=True)
        self.file(name).write_text(text, encoding="utf-8")

    def program(self, name: str, text: str) -> None:
        """Writes a program for sh."""
        program_of(self.file(name), text)

    def copy(self, name: str, place: str) -> None:
        """Copies an example to a place in the folder."""
        self.file(place).parent.mkdir(parents=True, exist_ok=True)
        shutil.copyfile(example(name), self.file(place))

    def run(self, program: str, *words: str) -> Ended:
        """Runs tools/suite with a program, and removes the times from its table."""
        ended = run(SUITE, *words, folder=self.folder, more={"TPR": program})
        lines = [timeless(line) for line in ended.text.split("\n")]
        return ended._replace(printed="\n".join(lines).encode("utf-8", "surrogateescape"))

    def start(self, *words: str, printed: int, program: str = "") -> subprocess.Popen[bytes]:
        """Starts tools/suite with this program, or the other one. It ignores no signal, and says nothing."""
        no, variables = subprocess.DEVNULL, {**os.environ, "TPR": program or self.another}
        command = ["env", "--default-signal=HUP,TERM", str(SUITE), *words]
        return subprocess.Popen(command, cwd=self.folder, env=variables, stdin=no, stdout=printed, stderr=no)

    def watched(self, way: Callable[..., Ended], *words: Word, program: str) -> Ended:
        """The result of a command with this program, run by a function of tool_rules.py."""
        return way(*words, cwd=self.folder, env={**os.environ, "TPR": program})

    def files_in(self, name: str) -> list[str]:
        """All files in a folder, by their paths there."""
        folder = self.file(name)
        return sorted(str(it.relative_to(folder)) for it in folder.rglob("*") if it.is_file())


def timeless(line: str) -> str:
    """A line of the table without its first time; the last line but one without both times."""
    times = 0 if line.startswith("the runs took ") else 1
    return re.sub(r" +[0-9]+\.[0-9]{3}s(?=[ ,]|$)", " T", line, count=times).rstrip(" ")


def must_be_table(ended: Ended, status: int, *lines: str, columns: tuple[str, ...] = ("result",)) -> None:
    """The output must be the head, a line for each script, in any order, and the last lines."""
    ended.must_say_nothing(status)
    head, *found = ended.text.removesuffix("\n").split("\n")
    wanted = ["script", *columns, "run time", "reason"]
    must(re.fullmatch(" +".join(wanted), head), f"the head is {head!r}")
    must(found[-2:] == [TIMES, lines[-1]], f"the last lines are{shown(chr(10).join(found[-2:]))}")
    wrong = difference("\n".join(sorted(lines[:-1])), "\n".join(sorted(found[:-2])))
    must(not wrong, f"other lines are wanted{shown(wrong)}")


def kept(name: str, result: str, ending: str = "report", folder: str = "kept") -> str:
    """The part of the reason that says where a report is kept."""
    return f"; kept: {folder}/{name}.ttcn/run1.{result}.{ending}"
