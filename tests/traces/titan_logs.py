#!/usr/bin/env python3
"""Tests the traces that tools/titan makes of logs of Eclipse Titan, those of tests/titan/, and its refusals.

    tests/traces/titan_logs.py

It prints a line `passed NAME` for each case, or lines that begin with `FAILED: NAME`.
"""
from __future__ import annotations

import argparse
import re
import sys
import tempfile
from pathlib import Path

sys.dont_write_bytecode = True
ROOT = Path(__file__).resolve().parents[2]
sys.path.append(str(ROOT / "tests" / "program"))

from calling import Cases, Ended, call

TITAN, LOGS, DOCUMENT = str(ROOT / "tools/titan"), ROOT / "tests/titan", ROOT / "docs/TRACES.md"
REAL = ("kitchen", "closing", "clearing", "pairs", "mapped", "deep", "two", "lost")
# The text of each sending, arrival and port operation in a log, and the word of its line in the trace.
LINES = {
    b"Sent on": "sent",
    b"Message enqueued": "came",
    b"Check-receive operation": "found",
    b"Port [^ ]* was started": "started",
    b"Port [^ ]* was stopped": "stopped",
    b"Port [^ ]* was halted": "halted",
    b"Port [^ ]* was cleared": "cleared",
}


class Tool:
    """The tool, a folder, and the cases."""

    def __init__(self, folder: Path):
        self.folder, self.cases = folder, Cases()

    def must_be_refused(self, name: str, status: int, said: str, *words: str) -> None:
        """The tool prints one line on standard error, which begins so, and nothing else."""
        self.must_say_alone(name, status, said, call([TITAN, *words]))

    def must_say_alone(self, name: str, status: int, said: str, ended: Ended) -> None:
        is_so = re.fullmatch(rb"[^\n]*\n", ended.said) and ended.said.startswith(said.encode())
        wrong = ended.difference(Ended(status, b"", ended.said if is_so else said.encode()))
        self.cases.told(name, wrong)

    def file(self, text: bytes) -> str:
        """Writes a log with this text, and returns its path."""
        (self.folder / "titan.log").write_bytes(text)
        return str(self.folder / "titan.log")


def logs_of(folder: str) -> list[Path]:
    return sorted((LOGS / folder).glob("*.log"))


def trace_of(folder: str) -> bytes:
    return (LOGS / folder / "trace").read_bytes()


def must_be_as_kept(tool: Tool, folder: str, status: int, *words: str) -> None:
    """The tool's output is the trace beside the logs, and its standard error is the file `said` there."""
    ended, said = call([TITAN, *words], cwd=LOGS / folder), LOGS / folder / "said"
    kept = said.read_bytes() if said.exists() else b""
    name = f"tests/titan/{folder}"
    tool.cases.told(f"the trace of {name}", ended._replace(said=b"").difference(Ended(status, trace_of(folder), b"")))
    tool.cases.told(f"what is said of {name}", ended._replace(printed=b"").difference(Ended(status, b"", kept)))


def each_line_is_kept(tool: Tool, folder: str) -> None:
    """Nothing of a real log is lost: each sending and each arrival has its line."""
    log, trace = b"".join(it.read_bytes() for it in logs_of(folder)).split(b"\n"), trace_of(folder).splitlines()
    for words, word in LINES.items():
        found = sum(line.startswith(f"{word} ".encode()) for line in trace)
        wanted = sum(bool(re.search(words, line)) for line in log)
        tool.cases.must_be(f"each `{words.decode()}` of the logs of {folder} is a line of its trace", found, wanted)


def traces(tool: Tool) -> None:
    """The logs of each folder of tests/titan."""
    must_be_as_kept(tool, "made", 0, "x-4.log", "mtc.log", "hc.log", "5.log", "x-3.log")
    must_be_as_kept(tool, "odd", 5, "mtc.log", "3.log")
    must_be_as_kept(tool, "several", 0, "--case", "leaving", "3.log", "4.log", "5.log", "mtc.log")
    for folder in REAL:
        must_be_as_kept(tool, folder, 0, *(it.name for it in logs_of(folder)))
        each_line_is_kept(tool, folder)


def shown_logs(tool: Tool) -> None:
    """docs/TRACES.md describes the logs as they are, with the answers of answers.table."""
    document, answers = DOCUMENT.read_text(encoding="utf-8"), (LOGS / "answers.table").read_text().splitlines()
    lost = "unlawful Lost line 7"
    line = trace_of("closing").decode().splitlines()[6]
    shown = f"Line 7 of the trace is `{line}`."
    tool.cases.must_be("docs/TRACES.md shows the line of what was lost", shown in document, True)
    tool.cases.must_be("that is the answer", f"closing => {lost}" in answers, True)
    for folder, answer in (
        ("closing", [lost]),
        ("lost", ["unlawful Lost line 4"]),
        ("two", ["lawful", "one run"]),
    ):
        shown = f"- `tests/titan/{folder}/*.log`: {', '.join(f'`{it}`' for it in answer)}."
        tool.cases.must_be(f"docs/TRACES.md shows the answer to the logs of {folder}", shown in document, True)
        is_so = f"{folder} => {'; '.join(answer)}" in answers
        tool.cases.must_be(f"that is the answer to the logs of {folder}", is_so, True)


def refused_logs(tool: Tool) -> None:
    """Files that aren't the log of a component, or are a second one of it; no log at all; no place for the trace."""
    made, missing, refused = LOGS / "made", tool.folder / "missing", tool.must_be_refused
    log = (made / "5.log").read_bytes()
    refused("a log that is missing", 2, f"titan: {missing} can't be read: ", str(missing))
    no_log = f"titan: {made}/trace:1: a log begins with a time stamp, and this with "
    refused("what isn't a log", 2, no_log, f"{made}/trace")
    refused("no log of a component", 2, "titan: none of these is the log of a component", f"{made}/hc.log")
    one = f"{made}/5.log"
    refused("two logs of one component", 2, f"titan: {one} is a log of 5, and so is {one}", one, one)
    file = tool.file(log.partition(b"\n")[2])
    refused("a log without its first line", 2, f"titan: {file}:1: it isn't known whose log this is: ", file)
    tool.file(log + log)
    refused("two logs in one file", 2, f"titan: {file}:14: the log of another component begins here", file)
    tool.file(b"10:00:00.000001 TTCN-3 Main Test Component sta")
    refused("a log that is cut off in its first entry", 2, f"titan: {file}:1: ", file)
    tool.file(b"")
    refused("an empty log", 2, f"titan: {file}:1: ", file)
    with open("/dev/full", "wb") as full:
        ended = call([TITAN, one], stdout=full)
    tool.must_say_alone("a trace onto a full device", 3, "titan: the answer can't be written", ended)
    none = call([TITAN])
    tool.cases.must_be("no log", (none.status, none.printed), (4, b""))


def cases_of_logs(tool: Tool) -> None:
    """One of several test cases in the logs is chosen."""
    logs, of_both = [str(it) for it in logs_of("several")], "titan: the logs are of greeting, leaving: "
    more = "titan: the logs are of more than one test case: name one of greeting, leaving with --case"
    tool.must_be_refused("several test cases", 2, more, *logs)
    tool.must_be_refused("no such test case", 2, f"{of_both}meeting isn't one of them", "--case", "meeting", *logs)
    twice = f"{of_both}greeting is executed more than once, and its logs can't be "
    tool.must_be_refused("a test case that is executed twice", 2, twice, "--case", "greeting", *logs)
    only = call([TITAN, "--case", "dinner", *(str(it) for it in logs_of("kitchen"))])
    tool.cases.must_end("the only test case", only, 0, trace_of("kitchen"))


GROUPS = ((traces, 78), (shown_logs, 8), (refused_logs, 10), (cases_of_logs, 4))


def main() -> int:
    argparse.ArgumentParser(description="What tools/titan makes of logs of Eclipse Titan.").parse_args()
    with tempfile.TemporaryDirectory() as folder:
        tool = Tool(Path(folder))
        return tool.cases.try_groups(tool, GROUPS)


if __name__ == "__main__":
    sys.exit(main())
