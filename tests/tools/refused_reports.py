#!/usr/bin/env python3
"""Reports that are cut or changed, and texts that are no reports: the tools refuse each, with its line.

    tests/tools/refused_reports.py FOLDER

They are written into FOLDER.
"""
from __future__ import annotations

import sys
from pathlib import Path

sys.dont_write_bytecode = True

from example_reports import NAMED, named
from tool_calls import EXAMPLES, ROOT, case, must, read, run, try_groups_of, words_of
from tool_rules import check_charts

CHART, COMPARE = ROOT / "tools" / "chart", ROOT / "tools" / "compare"
GOLDEN = ROOT / "tests" / "golden"
PING_PONG = str(EXAMPLES / "ping_pong.ttcn")
LINES = read(str(ROOT / "tests" / "tools" / "data" / "refused.table")).split("\n")[:-1]
# The report that is changed, or the kind of text; the line at which it is refused; the change, or the text.
ROWS = [(kind, int(line), text) for kind, line, text in (it.split(" ", 2) for it in LINES if it[0] != "#")]


class Texts:
    """The texts that are tried, each in a file of the folder. No two have the same name or contents."""

    def __init__(self, folder: Path):
        self.folder = folder
        self.names: set[str] = set()
        self.known: dict[bytes, str] = {}

    def write(self, name: str, text: bytes) -> Path:
        other = self.known.setdefault(text, name)
        must(name not in self.names and other == name, f"its text is that of {other}, or its name isn't its own")
        self.names.add(name)
        (self.folder / "text").write_bytes(text)
        return self.folder / "text"

    def must_be_refused(self, file: Path, line: int) -> None:
        """tools/chart must refuse it at this line; for line 0 it must draw it, because tpr may print it."""
        ended = run(CHART, file)
        if line:
            ended.must_say(f"chart: {file}, line {line}: ", 2)
        else:
            chart = self.folder / "chart.svg"
            chart.write_bytes(ended.must_say_nothing().printed)
            check_charts(file, chart)


def cut_reports(texts: Texts) -> None:
    """A report that is cut after any of its lines is refused at the next."""
    for name in NAMED:
        cut_report(texts, name, "chart")
    cut_report(texts, "halt", "compare", named("login"))


def cut_report(texts: Texts, name: str, tool: str, *words: Path) -> None:
    lines, cut = named(name).read_bytes().splitlines(keepends=True), texts.folder / "cut"
    for number in range(len(lines)):
        with case(f"{tool} of the report {name}, cut behind line {number}"):
            cut.write_bytes(b"".join(lines[:number]))
            said = f"{tool}: {cut}, line {number + 1}: "
            run(ROOT / "tools" / tool, *words, cut).must_say(said, 2)


def changed_reports(texts: Texts) -> None:
    """Each change is a script for `sed`."""
    for name, line, change in (it for it in ROWS if it[0] in NAMED):
        with case(f"the report {name} with the change {change}"):
            changed = run("sed", "-e", change, named(name)).must_say_nothing().printed
            must(changed != named(name).read_bytes(), "nothing is changed")
            texts.must_be_refused(texts.write(f"{name} {change}", changed), line)


def traces_in_place_of_reports(texts: Texts) -> None:
    """A trace, which `tpr judge` reads, is recognised as one."""
    took = "took table other 0 integer:0\n"
    report = (EXAMPLES / "ping_pong.expected").read_text(encoding="ascii")
    must(took in report, "the report has another line")
    trace = texts.write("a trace", report.replace(took, took.replace("took", "came") + took).encode())
    for tool, *words in (("chart",), ("compare", str(EXAMPLES / "ping_pong.expected")), ("why", PING_PONG)):
        with case(f"{tool} of a trace"):
            said = f"{tool}: {trace}, line 3: this is a trace, as `tpr trace` prints it for `tpr judge`; a report of "
            run(ROOT / "tools" / tool, *words, trace).must_say(said, 2)


def scripts_in_place_of_reports(texts: Texts) -> None:
    """A script isn't taken for a broken report."""
    for tool, *words in (("chart",), ("compare", str(EXAMPLES / "ping_pong.expected")), ("why", PING_PONG)):
        with case(f"{tool} of a script"):
            said = f"{tool}: {PING_PONG}, line 1: this isn't a report of `tpr run`, which begins with `component mtc`: "
            run(ROOT / "tools" / tool, *words, PING_PONG).must_say(said, 2)


def charts_of_refusals(texts: Texts) -> None:
    """The output for a refused script isn't a report."""
    for file in sorted(GOLDEN.glob("*/*refused.expected")):
        with case(f"the chart of {file.name}"):
            texts.must_be_refused(file, 1)


def texts_of_many() -> tuple[tuple[int, str], ...]:
    """Many of a kind: each bound, and one more."""
    end = "end done|verdict none|"
    components = "".join(f"component a{number}|{end}" for number in range(1, 64))
    long, braces = "x" * 64, "{" * 32 + "}" * 32
    return (
        (0, f"component mtc|{end}{components}result none|"),
        (193, f"component mtc|{end}{components}component b|{end}result none|"),
        (0, f"component mtc|stopped {long}|{end}result none|"),
        (2, f"component mtc|stopped x{long}|{end}result none|"),
        (0, f"component mtc|sent mtc.p 0 T:{braces}|{end}left p mtc 0 T:{braces}|result none|"),
        (2, f"component mtc|sent mtc.p 0 T:{{{braces}}}|{end}left p mtc 0 T:{{{braces}}}|result none|"),
        (2, f"component mtc|took p mtc 100000 integer:1|{end}result none|"),
    )


def refusals_of_texts(texts: Texts) -> None:
    """A `|` stands for the end of a line."""
    for line, text in (*((line, text) for name, line, text in ROWS if name not in NAMED), *texts_of_many()):
        with case(f"the text {text[:60]}"):
            texts.must_be_refused(texts.write(text, text.replace("|", "\n").encode()), line)


GROUPS = (
    (cut_reports, 66), (changed_reports, 96), (traces_in_place_of_reports, 3), (scripts_in_place_of_reports, 3),
    (charts_of_refusals, 45), (refusals_of_texts, 28),
)  # fmt: skip

if __name__ == "__main__":
    sys.exit(try_groups_of(Texts(Path(*words_of(__doc__, "FOLDER")).resolve()), GROUPS))
