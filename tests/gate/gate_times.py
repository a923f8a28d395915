#!/usr/bin/env python3
"""Runs the first half of ./test, and writes how long each crate took: its proof, its tests, its wrong bodies.

    tests/gate/gate_times.py FILE OUTPUT COMMAND..

The output and the status are those of the command. rt reports when a crate is proved, but not when its proof began or
when its wrong bodies were done. So twice a second this script looks at the processes below the command: for which crate
each works (`--crate-name`), and at what (`--test`, or a folder rt-edit-.. or wrong-bodies-.. for a wrong body). At each
look it writes FILE, with a line for each crate: the seconds of wall time in which processes of the crate were seen, and
their processor time. Up to half a second of each process is missing, and so are the short runs of programs and tests.

On a terminal, file 3, it prints how many crates are proved by OUTPUT, the file to which the caller copies the output,
what is at work, and how long that took last time (out/times_of_first_half).
"""
from __future__ import annotations

import argparse
import json
import os
import re
import subprocess
import sys
import time
from pathlib import Path
from typing import NamedTuple, Optional

sys.dont_write_bytecode = True

from wrong_body_edits import crates, read, write

EACH, PAUSE = 0.5, 60.0  # seconds
TERMINAL = 3  # the standard error of ./test
LAST = os.path.abspath("out/times_of_first_half")
TICK = os.sysconf("SC_CLK_TCK")
KINDS = ("proof", "tests", "wrong bodies")

Part = tuple[str, str]  # one of these kinds, and a crate


class Process(NamedTuple):
    """A process: its parent, its start and its processor time."""

    parent: int
    start: str
    used: float


class Seen:
    """The processes of one part: when one was last seen, for how long, and the processor time of each."""

    def __init__(self, now: float) -> None:
        self.last, self.wall = now, 0.0
        self.used: dict[tuple[int, str], float] = {}

    def note(self, now: float) -> None:
        """Notes that one is seen. A pause isn't counted: `rt ci` and of_a_run try wrong bodies of the same crates."""
        self.wall += now - self.last if now - self.last < PAUSE else 0.0
        self.last = now

    def cell(self) -> str:
        return f"{self.wall:8.0f} {sum(self.used.values()):8.0f}"


def processes() -> dict[int, Process]:
    """All visible processes, by their numbers."""
    found = {}
    for folder in Path("/proc").glob("[0-9]*"):
        try:
            words = (folder / "stat").read_text(errors="replace").rpartition(")")[2].split()
            found[int(folder.name)] = Process(int(words[1]), words[19], (int(words[11]) + int(words[12])) / TICK)
        except (OSError, ValueError, IndexError):
            pass
    return found


def part_of(pid: int) -> Optional[Part]:
    """The kind and the crate of a process, from its command line and its folder."""
    try:
        words = Path(f"/proc/{pid}/cmdline").read_text(errors="replace").split("\0")
        folder = os.path.basename(os.readlink(f"/proc/{pid}/cwd"))
    except OSError:
        return None
    if "--crate-name" not in words[:-1]:
        return None
    kind = KINDS[2] if folder.startswith(("rt-edit-", "wrong-bodies-")) else KINDS["--test" in words]
    return kind, words[words.index("--crate-name") + 1]


def look(top: int, parts: dict[Part, Seen]) -> float:
    """Notes the part of each process below `top`, which may be that of its nearest ancestor. Returns the time."""
    now, there = time.monotonic(), processes()
    for pid, process in there.items():
        part, at = None, pid
        while at in there and at != top:
            part, at = part or part_of(at), there[at].parent
        if part and at == top:
            seen = parts.setdefault(part, Seen(now))
            seen.note(now)
            seen.used[pid, process.start] = process.used
    return now


def at_work(parts: dict[Part, Seen], now: float, output: str, last: dict[str, int]) -> str:
    """The line on the parts that were seen just now, or an empty text."""
    text = Path(output).read_text(errors="replace") if os.path.exists(output) else ""
    proved = len(re.findall(r"^rt: \w+ (?:proved$|is kept: )", text, re.M))
    names = [" of ".join(it) for it, seen in parts.items() if seen.last == now]
    told = ", ".join(it + f" ({last.get(it)} s the last time)" * (it in last) for it in names)
    return told and f"test: {proved} of {len(crates())} crates proved; at work: {told}\n"


def table(parts: dict[Part, Seen]) -> str:
    """The table of the times, in the order in which the crates were first seen."""
    rows = [[f"{'the first half, seconds: wall and used':40}", *(f"{kind:>17}" for kind in KINDS)]]
    for crate in dict.fromkeys(crate for _, crate in parts):
        cells = [parts[kind, crate].cell() if (kind, crate) in parts else f"{'-':>8} {'-':>8}" for kind in KINDS]
        rows.append([f"{crate:40}", *cells])
    whole = [sum(sum(it.used.values()) for (kind, _), it in parts.items() if kind == wanted) for wanted in KINDS]
    rows.append([f"{'all':40}", *(f"{'':8} {it:8.0f}" for it in whole)])
    return "".join(f"{' '.join(row)}\n" for row in rows)


def main() -> int:
    words = argparse.ArgumentParser(description="Runs the first half of the gate, and measures what each crate takes.")
    words.add_argument("file", metavar="FILE", help="where the table is written")
    words.add_argument("output", metavar="OUTPUT", help="where the caller copies what the command prints")
    words.add_argument("command", metavar="COMMAND", help="what is run")
    words.add_argument("words", metavar="WORD", nargs=argparse.REMAINDER, help="of the command")
    asked = words.parse_args()
    parts: dict[Part, Seen] = {}
    last, said, line = json.loads(read(LAST)) if os.path.exists(LAST) else {}, "", ""
    has_terminal = os.isatty(TERMINAL)
    with subprocess.Popen([asked.command, *asked.words]) as ran:
        while ran.poll() is None:
            now = look(ran.pid, parts)
            before, line = line, at_work(parts, now, asked.output, last) if has_terminal else ""
            # Between two checks of a crate none may be at work, so only a line that is seen twice is printed.
            if line == before and line not in ("", said):
                os.write(TERMINAL, line.encode())
                said = line
            write(os.path.abspath(asked.file), table(parts))
            time.sleep(EACH)
    write(os.path.abspath(asked.file), table(parts))
    write(LAST, json.dumps({**last, **{" of ".join(it): round(seen.wall) for it, seen in parts.items()}}))
    return ran.returncode if ran.returncode >= 0 else 128 - ran.returncode


if __name__ == "__main__":
    sys.exit(main())
