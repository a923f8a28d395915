"""Suites that ask whether a verdict depends on the schedule, and what a build server shows for an unexpected result."""
from __future__ import annotations

import xml.etree.ElementTree as xml
from pathlib import Path

from suite_runs import Suites, answer, must_be_table
from tool_calls import case, example, must, ruled
from tool_rules import check_junit

# Answers like `tpr verdicts`, by the first word of the script's comment.
PROGRAM = """if [ "$1" = queue ]; then exit 0; fi
if [ "$1" = run ]; then exec cat {report}; fi
case $(head -n 1 "${{2:-/dev/stdin}}") in
    *races*) printf 'pass or fail\\nstates 9\\npass: mtc a mtc\\nfail: a mtc mtc\\n'; exit 2 ;;
    *large*) printf 'undecided\\nseen pass\\nstates 9\\npass: mtc a mtc\\n'; exit 3 ;;
    *twisted*) printf 'pass or fail\\nstates 13\\npass: mtc a a mtc b b b\\nfail: mtc a mtc a b b b\\n'; exit 2 ;;
    *broken*) echo 'thread main panicked' >&2; exit 101 ;;
    *) printf 'always pass\\nstates 9\\n' ;;
esac
"""
RACES = "the verdict depends on the schedule: pass or fail"
LARGE = "the verdict may depend on the schedule: undecided, seen pass"


def of_the_schedule(room: Path, tpr: str) -> None:
    it = Suites(room, "of_the_schedule", tpr)
    it.program("program", PROGRAM.format(report=answer("login_is_answered.expected")))
    for name in ("broken", "large", "races", "steady"):
        it.write(f"{name}.ttcn", f"// {name}\n")
    program = str(it.file("program"))
    suites_of_verdicts(it, program)
    suites_of_expected_answers(it, program)
    suites_that_get_no_answer(it, program)
    suite_that_explores(it)
    what_a_build_server_reads(it)


def text_of(file: Path, kind: str, name: str) -> str:
    """The text of the failure, or the error, of the case."""
    must(file.stat().st_size, f"{file.name} is empty")
    found = [it.find(kind) for it in xml.parse(file).iter("testcase") if it.get("name") == name]
    (element,) = [it for it in found if it is not None]
    return element.text or ""


def suites_of_verdicts(it: Suites, program: str) -> None:
    scripts = ("large.ttcn", "races.ttcn", "steady.ttcn")
    steady = "steady.ttcn  pass       always pass T"
    with case("a suite that asks for every verdict"):
        must_be_table(
            it.run(program, *scripts, "--verdicts", "--junit", "verdicts.xml"),
            5,
            "large.ttcn   pass       undecided, seen pass T",
            f"races.ttcn   pass       pass or fail * T  {RACES}",
            steady,
            "3 scripts: 3 pass; 1 verdict depends on the schedule; 1 not as expected (*)",
            columns=("result", "verdicts"),
        )
    failure = "its JUnit file, in which a verdict that depends on the schedule is a failure"
    ruled(failure, check_junit, it.file("verdicts.xml"), 3, 1, 0)
    with case("both orders stand in its text"):
        text = text_of(it.file("verdicts.xml"), "failure", "races")
        must(f"\n{RACES}\n\npass: mtc a mtc\nfail: a mtc mtc\n" in text, f"it is {text!r}")
    with case("a suite that wants no verdict that may depend on the schedule"):
        must_be_table(
            it.run(program, *scripts, "--want", "always"),
            5,
            f"large.ttcn   pass       undecided, seen pass * T  {LARGE}",
            f"races.ttcn   pass       pass or fail * T  {RACES}",
            steady,
            "3 scripts: 3 pass; 1 verdict depends on the schedule; 2 not as expected (*)",
            columns=("result", "verdicts"),
        )
    with case("a suite that wants this of a script that has it"):
        it.run(program, "steady.ttcn", "--want", "pass,always").must_show("^1 script: 1 pass; all as expected$")
    with case("a suite that wants another result beside it"):
        it.run(program, "steady.ttcn", "--want", "fail,always").must_show(r"; 1 not as expected \(\*\)$", 5)
    with case("a suite that asks once of a script that is run several times"):
        ended = it.run(program, "races.ttcn", "--times", "3", "--verdicts")
        ended.must_show("^1 script: 1 pass; 1 verdict depends on the schedule; ", 5)


def suites_of_expected_answers(it: Suites, program: str) -> None:
    """A file beside a script may have the expected answer."""
    it.write("races.wanted", "pass or fail\n")
    with case("a verdict that depends on the schedule, as expected"):
        ended = it.run(program, "races.ttcn", "--verdicts")
        ended.must_show("^1 script: 1 pass; 1 verdict depends on the schedule; all as expected$")
    it.write("races.wanted", "always pass\n")
    with case("a verdict that depends on the schedule, where another answer is expected"):
        it.run(program, "races.ttcn", "--verdicts").must_show("  pass or fail isn't the expected answer$", 5)
    for line in ("pass or good", "always pass or fail", "always"):
        it.write("races.wanted", f"{line}\n")
        with case(f"an expected answer that is none: {line}"):
            it.run(program, "races.ttcn").must_say(f"suite: races.wanted, line 1: '{line}' isn't one of none, ", 2)
    it.file("races.wanted").unlink()


def suites_that_get_no_answer(it: Suites, program: str) -> None:
    said = "tpr verdicts failed: ended with status 101, thread main panicked"
    with case("a suite for which tpr verdicts breaks off"):
        must_be_table(
            it.run(program, "broken.ttcn", "--verdicts", "--junit", "broken.xml"),
            1,
            f"broken.ttcn  pass       failed * T  {said}",
            "1 script: 1 pass; 1 not as expected (*)",
            columns=("result", "verdicts"),
        )
    ruled("its JUnit file, in which this is an error", check_junit, it.file("broken.xml"), 1, 0, 1)
    with case("a suite for which tools/explore breaks off"):
        # The program accepts a text that isn't a script, so the tool can't read it.
        ended = it.run(program, "steady.ttcn", "--explore", "--junit", "explored.xml")
        ended.must_show("failed \\* T  tools/explore failed: ended with status 1, .*Unreadable: ", 1)
    ruled("its JUnit file, in which this is an error too", check_junit, it.file("explored.xml"), 1, 0, 1)
    script = example("broadcast_is_overtaken_by_an_answer.ttcn").read_text(encoding="ascii")
    it.write("twisted.ttcn", f"// twisted\n{script}")
    with case("a suite for which tools/explore finds a fault"):
        form = "failed \\* T  tools/explore failed: ended with status 1, pass: a fault in tpr or its tools: "
        it.run(program, "twisted.ttcn", "--explore").must_show(form, 1)


def suite_that_explores(it: Suites) -> None:
    it.copy("broadcast_is_overtaken_by_an_answer.ttcn", "overtaken.ttcn")
    words = ("--explore", "--want", "pass,fail,always", "--junit", "overtaken.xml")
    with case("a suite that explores a verdict that depends on the schedule"):
        ended = it.run(it.tpr, "overtaken.ttcn", *words)
        ended.must_show(f"  pass or fail \\* T  .*{RACES}$", 5)
    with case("where the runs diverge stands in its JUnit file"):
        check_junit(it.file("overtaken.xml"), 1, 1, 0)
        text = text_of(it.file("overtaken.xml"), "failure", "overtaken")
        parts = ("\npass: mtc a mtc a b b b\n", "\nWhere the runs diverge (pass and fail):\n  line 13: b took ")
        must(all(it in text for it in parts), f"it is {text!r}")


def what_a_build_server_reads(it: Suites) -> None:
    it.copy("script_cut_inside_an_alt.ttcn", "cut.ttcn")
    it.copy("halt_holds_back_what_comes_later.ttcn", "waits.ttcn")
    it.run(it.tpr, "cut.ttcn", "waits.ttcn", "--junit", "read.xml")
    with case("a refusal with the text of tools/explain"):
        text = text_of(it.file("read.xml"), "error", "cut")
        must("\n\ncut.ttcn:9:" in text and "refused 10 Syntax: " in text, f"it is {text!r}")
    with case("a result with the reasons of tools/why"):
        text = text_of(it.file("read.xml"), "error", "waits")
        must("\n\nThe result is error: a waits " in text and "line 10" in text, f"it is {text!r}")
