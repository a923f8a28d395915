#!/usr/bin/env python3
"""Tests that the documents show what the program prints, and the sources as they are.

    tests/documents/shown.py PROGRAM

It prints a line `passed NAME` for each case, or lines that begin with `FAILED: NAME`.
"""
from __future__ import annotations

import argparse
import re
import subprocess
from collections.abc import Iterator
from pathlib import Path
from typing import Callable, NamedTuple, Optional

ROOT = Path(__file__).resolve().parents[2]
EXAMPLE = "examples/closed_counter_serves_no_order"
MOST_SECONDS = 60

Case = tuple[str, Optional[str]]  # its name, and what is wrong with it


class Block(NamedTuple):
    """A fenced block, the heading above it, and the line in backquotes after it."""

    heading: str
    text: str
    answer: str


class Program:
    """The program, and the scripts that it was given: no two of them may be the same."""

    def __init__(self, path: str):
        self.path = path
        self.given: set[str] = set()

    def ran(self, mode: str, script: str) -> tuple[int, str]:
        """The status, and what was printed. Output on standard error is a fault, and is added."""
        ended = subprocess.run(
            [self.path, mode], input=script.encode(), capture_output=True, timeout=MOST_SECONDS, check=False
        )
        return ended.returncode, (ended.stdout + ended.stderr).decode("latin-1")

    def answers(self, script: str, answer: str) -> Optional[str]:
        """Describes what is wrong if `check` doesn't print this answer."""
        if script in self.given:
            return "another document shows the same script"
        self.given.add(script)
        wanted = (0 if answer == "accepted" else 2, f"{answer}\n")
        found = self.ran("check", script)
        return None if found == wanted else f"check came to {found}, and {wanted} is wanted"

    def reports(self, script: str) -> list[str]:
        return self.ran("run", script)[1].splitlines()


def text_of(path: str) -> str:
    return (ROOT / path).read_text(encoding="utf-8")


def blocks(document: str, heading: str) -> Iterator[Block]:
    """The blocks that have an answer after them, each below a heading of this form."""
    above, inside, text = "", False, ""
    for line in text_of(document).splitlines():
        if line == "```":
            inside, text = not inside, text if inside else ""
        elif inside:
            text += f"{line}\n"
        elif re.match(heading, line):
            above = line.removeprefix("### ")
        elif above and line.startswith("`"):
            yield Block(above, text, line)
            above = ""


def refusal_scripts(program: Program) -> Iterator[Case]:
    """A script below `### NUMBER NAME`, with what `check` prints, or `failed NUMBER`, a line of its report."""
    for it in blocks("docs/REFUSALS.md", r"### \d\d "):
        number, name = it.heading.split(" ")[:2]
        answer, title = it.answer.split("`")[1], f"docs/REFUSALS.md, {number}"
        if answer == f"failed {number}":
            yield title, program.answers(it.text, "accepted")
            has = answer in program.reports(it.text)
            yield f"{title}, its report", None if has else f"its report has no line `{answer}`"
        elif answer.startswith(f"refused {number} {name} line "):
            yield title, program.answers(it.text, answer)
        else:
            yield title, f"the answer behind the script of {number} {name} is {answer}"


def construct_scripts(program: Program) -> Iterator[Case]:
    """A script below `### LETTER NAME`, with what `check` prints, and if that is `accepted`, the report's last line."""
    for it in blocks("docs/FROM_TTCN3.md", r"### [A-Z] "):
        answer, title = it.answer.split("`")[1], f"docs/FROM_TTCN3.md, {it.heading}"
        yield title, program.answers(it.text, answer)
        if answer == "accepted":
            last = program.reports(it.text)[-1]
            is_so = it.answer == f"`accepted`, `{last}`"
            yield f"{title}, its report", None if is_so else f"it ends with {last}, and the document says {it.answer}"


def shows(document: str, text: str) -> Case:
    """The document shows the text, with four spaces before each line."""
    shown = "\n".join(line.removeprefix("    ") for line in text_of(document).splitlines())
    whole = text_of(text).rstrip("\n")
    return f"{document} shows {text}", None if whole and whole in shown else "it isn't as it is"


def first_example(program: Program) -> Iterator[Case]:
    """The first example of README.md, with and without a changed line; what PROFILE.md and EXPLORING.md show."""
    yield shows("README.md", f"{EXAMPLE}.ttcn")
    yield shows("README.md", f"{EXAMPLE}.expected")
    yield shows("docs/PROFILE.md", "examples/halt_holds_back_what_comes_later.expected")
    yield shows("docs/EXPLORING.md", "examples/broadcast_is_overtaken_by_an_answer.verdicts")
    lines = text_of(f"{EXAMPLE}.ttcn").splitlines(keepends=True)
    name = "README.md, the changed line"
    if "counter.send" not in lines[25]:
        yield name, f"line 26 of {EXAMPLE}.ttcn is no send at the counter"
        return
    lines[25] = lines[25].replace("counter", "bell", 1)
    yield name, program.answers("".join(lines), "refused 14 Direction line 26")


def script_of_the_profile(program: Program) -> Iterator[Case]:
    found = re.search(r"^module Example \{.*?(?=^```)", text_of("docs/PROFILE.md"), re.MULTILINE | re.DOTALL)
    yield "docs/PROFILE.md, the script", program.answers(found[0], "accepted") if found else "there is none"


def quoted_contracts(_: Program) -> Iterator[Case]:
    """Each contract that docs/CONTRACTS.md shows is in the source that is named above it, line by line."""
    source, inside, quote = "", False, ""
    for line in text_of("docs/CONTRACTS.md").splitlines():
        if line == "```" and inside:
            yield f"docs/CONTRACTS.md shows what stands in {source}: {quote.partition(chr(10))[0]}", lost(source, quote)
            inside, source = False, ""
        elif line == "```":
            inside, quote = True, ""
        elif inside:
            quote += f"{line}\n"
        elif line.startswith("`crates/") and line.endswith("`"):
            source = line.strip("`")


def lost(source: str, quote: str) -> Optional[str]:
    if not source or not (ROOT / source).is_file():
        return "no source is named above it"
    return None if quote and f"\n{quote}" in f"\n{text_of(source)}\n" else "it doesn't stand there"


# The places where a user looks who pipes a report into `judge`, and the text that must be there.
ON_REPORTS = (
    ("docs/TRACES.md, its beginning", r"\A.*?^## ", "`judge` prints `unlawful Lost` for it"),
    ("docs/TRACES.md, Lost", r"^### Lost$.*?^### ", "write `tpr trace`, not `tpr run`"),
    ("docs/tpr.1, judge", r"^\.It Cm judge$.*?^\.It ", "isn't a trace: .Cm judge prints .Ql unlawful Lost for it"),
)


def report_for_a_trace(program: Program) -> Iterator[Case]:
    """`tpr run X | tpr judge` calls the messages of a report lost. The documents say so where a user looks for it, and
    tools/explain names `tpr trace` when it explains that output."""
    report = program.ran("run", text_of(f"{EXAMPLE}.ttcn"))[1]
    status, said = program.ran("judge", report)
    is_lost = (status, said.partition("\n")[0]) == (2, "unlawful Lost line 2")
    yield "a report that is judged as a trace", None if is_lost else f"judge came to {status}, {said}"
    for name, part, text in ON_REPORTS:
        found = re.search(part, text_of(name.partition(",")[0]), re.MULTILINE | re.DOTALL)
        has = found is not None and text in " ".join(found[0].split())
        yield f"{name}, a report that is judged", None if has else f"it doesn't say: {text}"
    explain = [str(ROOT / "tools" / "explain"), "--tpr", program.path, "/dev/stdin"]
    told = subprocess.run(explain, input=report.encode("latin-1"), stdout=subprocess.PIPE, check=False).stdout
    has = b"write instead: `tpr trace SCRIPT`, if `tpr judge` is to read it" in told
    yield "tools/explain of a piped report", None if has else f"it says {told.decode()}"


# Each group, with its minimum number of cases.
GROUPS: tuple[tuple[Callable[[Program], Iterator[Case]], int], ...] = (
    (refusal_scripts, 26),
    (construct_scripts, 26),
    (first_example, 4),
    (script_of_the_profile, 1),
    (quoted_contracts, 9),
    (report_for_a_trace, 5),
)


def main() -> None:
    words = argparse.ArgumentParser(description="Whether the documents show what the program prints.")
    words.add_argument("program", metavar="PROGRAM")
    program = Program(words.parse_args().program)
    for group, least in GROUPS:
        cases = [*group(program)]
        for name, wrong in cases:
            print(f"passed {name}" if wrong is None else f"FAILED: {name}: {wrong}", flush=True)
        if len(cases) < least:
            print(f"FAILED: {len(cases)} cases of {group.__name__}, and there are {least} at least")


if __name__ == "__main__":
    main()
