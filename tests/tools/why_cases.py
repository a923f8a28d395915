#!/usr/bin/env python3
"""What tools/why says of reports: the line of the script that each line comes from, and why a result isn't pass.

    tests/tools/why_cases.py PROGRAM

The lines are compared with a table worked out by hand, and with the model of runs (why_rules.py); the reasons and the
annotated scripts with files worked out by hand, in whys/.
"""
from __future__ import annotations

import json
import os
import re
import sys
from pathlib import Path
from typing import NamedTuple

sys.dont_write_bytecode = True

import example_reports
import why_rules
from tool_calls import (
    ROOT, Ended, Test, Tool, block_of, file_of, judged, must, prints, prints_line, program_of, read, room, ruled, run,
    says, says_alone, says_nothing, says_usage, texts_in, try_groups_of, words_of,
)  # fmt: skip

WHYS = Path("tests/tools/whys")
CAUSES = WHYS / "causes"
IN_A_TURN, FOR_EACH_OTHER = f"{CAUSES}/verdicts/inconc_in_a_turn.ttcn", f"{CAUSES}/waits/waits_for_each_other.ttcn"
BEHIND_THE_MARK = CAUSES / "marks" / "waits_behind_the_mark.ttcn"
KITCHEN, LOGIN = "examples/closed_counter_serves_no_order", "examples/login_is_answered.ttcn"
HALT = "examples/halt_holds_back_what_comes_later"
REFUSED = "tests/golden/refused_scripts/script_cut_inside_an_alt.ttcn"
COLUMNS = "70"  # of a chart in letters
PRINTED = texts_in("printed.texts")

SUMMARY = f"""\
{IN_A_TURN}   7 statements, all of them reached
{FOR_EACH_OTHER}  6 statements, 4 never reached: lines 7 and 15-16
2 scripts: 13 statements, 4 never reached
"""


class Reasoning:
    """The tool with the program that it calls, and a folder for scripts and reports."""

    def __init__(self, program: str, room: Path):
        self.program, self.room = program, room
        self.tool, self.missing = Tool("why", ("--tpr", program)), room / "missing"
        self.nowhere = Tool("why", ("--tpr", str(self.missing)))

    def report_of(self, script: str) -> Path:
        """The report of a run, in a file."""
        ended = run(self.program, "run", script, folder=ROOT)
        must(ended.status == 0 and says_nothing(ended), f"{script} isn't run: {ended}")
        return file_of(self.room / "report", ended.text)


# Lines and reasons, by the rules


def lines_of_reports(_: Reasoning) -> None:
    """Compared with the model, and with the table that was worked out by hand."""
    own = [str(it) for it in sorted((ROOT / WHYS).glob("*.expected"))]
    reports = [str(it) for it in example_reports.all_of_them()]
    for it in (*reports, *own):
        ruled(f"the lines of {Path(it).name} are those of the model", why_rules.example_rule, it)
    by_hand = (str(ROOT / WHYS / "lines"), *reports, *own)
    ruled("the lines that were worked out by hand", why_rules.table_rule, *by_hand)
    ruled("the lines of 300 scripts by chance are those of the model", why_rules.random_rule, 300)
    discarded = "by which clear or start a message was discarded, in all runs of 40 scripts"
    ruled(discarded, why_rules.discarded_rule, 40)


def causes_of_results(asked: Reasoning) -> None:
    for script in sorted((ROOT / CAUSES).glob("*/*.ttcn")):
        name = f"why the result of {script.name} isn't pass, as worked out by hand"
        ruled(name, why_rules.cause_rule, asked.program, str(script))


# The output for one script, and for several


def has(part: str) -> Test:
    """It prints a text that contains this part."""
    return lambda ended: part in ended.text


def ends_with(line: str) -> Test:
    return lambda ended: ended.text.endswith(line)


def one_script(asked: Reasoning) -> None:
    script, case = str(BEHIND_THE_MARK), asked.tool.case
    why = read(ROOT / BEHIND_THE_MARK.with_suffix(".why"))
    listed = prints(PRINTED["the lines of waits_behind_the_mark"] + why)
    report = asked.report_of(script)
    case("a script that is run", [script], 0, listed)
    case("the same of its report", [script, report], 0, listed)
    of_input = asked.tool.run(script, "/dev/stdin", input=report.read_bytes())
    judged("and of standard input", of_input, 0, listed)
    case("an empty standard input", [script, "/dev/stdin"], 2, says_alone("why: /dev/stdin, line 1: "))
    text = read(ROOT / BEHIND_THE_MARK)
    judged("a script on standard input", asked.tool.run("/dev/stdin", input=text.encode()), 0, listed)
    case("a script whose name is no UTF-8", [file_of(asked.room / os.fsdecode(b"\xff.ttcn"), text)], 0, listed)
    case("a result that is pass has no reason", [LOGIN], 0, says_nothing, ends_with("  result pass\n"))
    shown = block_of("tools/README.md", "line          report\n")
    must(shown.count("\n") >= 15, "tools/README.md shows what why says")
    case("tools/README.md shows it", [f"{HALT}.ttcn"], 0, prints(shown))


def several_scripts(asked: Reasoning) -> None:
    """How often each statement was reached, compared with NAME.annotated, and how many were reached."""
    for annotated in sorted((ROOT / WHYS).rglob("*.annotated")):
        script = annotated.with_suffix(".ttcn").relative_to(ROOT)
        wanted = prints(annotated.read_text(encoding="utf-8"))
        asked.tool.case(f"{script.name} is annotated", ["--annotate", script], 0, wanted)
    asked.tool.case("a summary", ["--summary", IN_A_TURN, FOR_EACH_OTHER], 0, prints(SUMMARY))


# Reports that don't fit their scripts


class Misfit(NamedTuple):
    """A report in which each of these texts is replaced: the line that doesn't fit, and the message."""

    name: str
    report: str
    changes: list[tuple[str, str]]
    line: int
    said: str

    def changed(self) -> str:
        text = (ROOT / f"{self.report}.expected").read_text(encoding="utf-8")
        for before, behind in self.changes:
            text, times = re.subn(before, behind, text, flags=re.M)
            must(times, f"{self.name}: there is no {before} in the report")
        return text


def misfits(asked: Reasoning) -> None:
    for it in (Misfit(**row) for row in json.loads((ROOT / "tests/tools/data/misfits.json").read_bytes())):
        report = file_of(asked.room / "changed", it.changed())
        said = says(f"why: {report}, line {it.line}: {it.said}\n")
        asked.tool.case(it.name, [f"{it.report}.ttcn", report], 1, said)


# Calls that are wrong


def bad_input(asked: Reasoning) -> None:
    """Files that are missing, or have other contents than they should."""
    script, missing, case = f"{KITCHEN}.ttcn", asked.missing, asked.tool.case
    unread = says_alone(f"why: {missing} can't be read")
    case("a missing script", [missing], 2, unread)
    case("a script that is refused", [REFUSED], 2, says_alone(f"why: {REFUSED}, line "))
    alone = f"{KITCHEN}.expected"
    case("a report alone", [alone], 2, says_alone(f"why: {alone}: this is a report or a trace; a script is needed"))
    case("a missing report", [script, missing], 2, unread)
    case("a report that is none", [script, script], 2, says_alone(f"why: {script}, line 1: "))
    nothing = says_alone(f"why: there is no file or folder {missing}")
    case("a summary of nothing", ["--summary", missing], 2, nothing)
    case("a summary of a script that is refused", ["--summary", REFUSED, LOGIN], 2, has("\n2 scripts: "))


def calls(asked: Reasoning) -> None:
    """Wrong command lines, a full device, a program that is missing or is killed, and the help."""
    script, case = f"{KITCHEN}.ttcn", asked.tool.case
    no_program = says_alone(f"why: {asked.missing} can't be run")
    asked.nowhere.case("a program that isn't there", [script], 1, no_program)
    asked.nowhere.case("a summary without a program", ["--summary", script, LOGIN], 1, no_program)
    asked.tool.full_device("onto a full device", script)
    killed = Tool("why", ("--tpr", program_of(asked.room / "killed", "echo component mtc", "kill -9 $$")))
    by_signal = f"why: {script}: {asked.room / 'killed'} was ended by signal 9"
    killed.case("a program that is ended by a signal", [script], 1, says_alone(by_signal))
    case("no script", [], 4, says_usage("why"))
    case("a script without a name", [""], 2, says_alone("why: a file without a name can't be read"))
    case("too many files", [script, "a", "b"], 4, says_usage("why"))
    case("the help", ["--help"], 0, prints_line("  1  the report isn't one of this script"))


# Charts


def is_drawn(ended: Ended) -> bool:
    """Whether this is the chart in letters, except for the widths of its spaces."""
    return in_letters(ended.text) == in_letters(PRINTED["a chart beside another script"])


def in_letters(chart: str) -> str:
    return re.sub("^ ", "", re.sub(" +", " ", chart), flags=re.M)


def charts(_: Reasoning) -> None:
    """Charts with the lines of the script."""
    report, chart = f"{HALT}.expected", Tool("chart", variables={"COLUMNS": COLUMNS})
    lined = ["--script", f"{HALT}.ttcn", report]
    chart.case("a chart with the lines of the script", ["--text", *lined], 0, says_nothing, is_drawn)
    chart.case("the lines in a drawn chart", lined, 0, says_nothing, has(">took p (7)<"))
    chart.case("the lines in a page", ["--html", *lined], 0, says_nothing, has("halted p (8)"))
    other = ["--script", f"{WHYS}/answered.ttcn", report]
    chart.case("a chart beside another script", other, 1, says_alone(f"chart: {report}, line "))


# A long report


def at_length(asked: Reasoning) -> None:
    """Two loops of 1,000 turns. bench/why/run measures how long it takes."""
    made = run("bash", "-c", ". bench/why/script.sh && script_of_60000_entries", folder=ROOT)
    script = file_of(asked.room / "script", made.text)
    report = asked.report_of(str(script))
    lines = report.read_text(encoding="utf-8").count("\n")
    must(lines == 60007, f"the report has {lines} lines, and 60,000 entries are wanted")
    asked.tool.case("60,000 entries", [script, report], 0, says_nothing, last_is_told)


def last_is_told(ended: Ended) -> bool:
    last = ' *125 <- 163 *took counter mtc 29999 Order:{number := 999, dish := "soup of the day"}'
    return re.fullmatch(last, ended.text.split("\n")[60004]) is not None


GROUPS = (
    (lines_of_reports, 137), (causes_of_results, 42), (one_script, 8), (several_scripts, 4), (misfits, 13),
    (bad_input, 6), (calls, 8), (charts, 4), (at_length, 1),
)  # fmt: skip


if __name__ == "__main__":
    with room() as folder:
        sys.exit(try_groups_of(Reasoning(words_of(__doc__, "PROGRAM")[0], folder), GROUPS))
