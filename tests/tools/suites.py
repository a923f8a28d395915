#!/usr/bin/env python3
"""tools/suite: what it says of scripts with each result, of what is wanted of them, and of words that it can't do; and
of a program that isn't tpr (other_suites.py).

    tests/tools/suites.py PROGRAM CALLED FOLDER

CALLED is the program for command lines. All files are written into FOLDER. It prints a line `passed NAME` for each
case, or lines that begin with `FAILED: NAME`.
"""
from __future__ import annotations

import sys
from functools import partial
from pathlib import Path

sys.dont_write_bytecode = True

import other_suites
import page_suites
import schedule_suites
from suite_runs import SUITE, Suites, answer, kept, must_be_table
from tool_calls import EXAMPLES, Group, case, example, must, onto_a_full_device, ruled, run, try_groups, words_of
from tool_rules import check_charts, check_junit, on_a_terminal

NAMES = (
    "login_is_answered",
    "system_under_test_answers",
    "nobody_is_connected",
    "halt_holds_back_what_comes_later",
    "trigger_in_an_alt_comes_before_else",
    "script_cut_inside_an_alt",
)
LOGIN, CUT = "scripts/login_is_answered.ttcn", "scripts/script_cut_inside_an_alt.ttcn"
WAITS = "a waits, report line 11, after: sent mtc.q 0 integer:9"
BEHIND_PASS = "report line 3, after: set pass"
# Each script with its line.
EVERY_RESULT = (
    f"scripts/halt_holds_back_what_comes_later.ttcn     error * T  {WAITS}"
    + kept("halt_holds_back_what_comes_later", "error"),
    "scripts/login_is_answered.ttcn                    pass T",
    f"scripts/nobody_is_connected.ttcn                  error * T  mtc failed 41 NoRoute, {BEHIND_PASS}"
    + kept("nobody_is_connected", "error"),
    "scripts/script_cut_inside_an_alt.ttcn             refused * T  10 Syntax, script line 9"
    + kept("script_cut_inside_an_alt", "refused", "printed"),
    "scripts/system_under_test_answers.ttcn            fail * T  mtc set fail, report line 5, after: set pass"
    + kept("system_under_test_answers", "fail"),
    "scripts/trigger_in_an_alt_comes_before_else.ttcn  inconc * T  mtc set inconc, report line 10, after: else"
    + kept("trigger_in_an_alt_comes_before_else", "inconc"),
    "scripts/inner/none.ttcn                           none T",
    "7 scripts: 1 none, 1 pass, 1 inconc, 1 fail, 2 error, 1 refused; 5 not as expected (*)",
)


def suites_of_scripts(room: Path, tpr: str, called: str) -> None:
    it = Suites(room, "of_scripts", tpr)
    for name in NAMES:
        it.copy(f"{name}.ttcn", f"scripts/{name}.ttcn")
    it.copy("two_senders_to_one_that_ended.ttcn", "scripts/inner/none.ttcn")
    it.write("scripts/notes.txt", "")
    with case("a suite that passes"):
        login = "scripts/login_is_answered.ttcn  pass T"
        none = "scripts/inner/none.ttcn         none T"
        ended = it.run(called, LOGIN, "scripts/inner")
        must_be_table(ended, 0, login, none, "2 scripts: 1 none, 1 pass; all as expected")
    with case("a suite with every result"):
        must_be_table(it.run(tpr, "scripts", "--junit", "all.xml", "--keep", "kept"), 5, *EVERY_RESULT)
    ruled("the JUnit file of every result", check_junit, it.file("all.xml"), 7, 2, 3)
    suites_that_keep(it)
    suites_that_want(it)


def suites_that_keep(it: Suites) -> None:
    """The files that the suite with every result has kept."""
    passed = it.file("kept/login_is_answered.ttcn/run1.pass.report")
    none = it.file("kept/inner/none.ttcn/run1.none.report")
    with case("what is kept of every result"):
        must(passed.read_bytes() == example("login_is_answered.expected").read_bytes(), f"it isn't in {passed}")
    ruled("the chart that is kept", check_charts, passed, passed.with_suffix(".svg"))
    with case("what is kept of a folder in it"):
        must(none.stat().st_size and none.with_suffix(".svg").stat().st_size, "a file is empty")
    with case("what is kept of a refusal"):
        printed = it.file("kept/script_cut_inside_an_alt.ttcn/run1.refused.printed")
        cut = example("script_cut_inside_an_alt.expected")
        must(printed.read_bytes() == cut.read_bytes(), f"it isn't in {printed}")
    with case("nothing else is kept"):
        must(len(it.files_in("kept")) == 13, f"there are {it.files_in('kept')}")


def suites_that_want(it: Suites) -> None:
    xml, of_xml = it.file("wanted.xml"), ("--junit", "wanted.xml")
    with case("a suite in which all is wanted"):
        every = "none,pass,inconc,fail,error,refused"
        it.run(it.tpr, "scripts", "--want", every, "--jobs", "1").must_show("all as expected$")
    with case("a suite in which pass isn't wanted"):
        it.run(it.tpr, LOGIN, "--want", "fail", *of_xml).must_show(r"1 not as expected \(\*\)$", 5)
    ruled("its JUnit file", check_junit, xml, 1, 1, 0)
    with case("a suite in which a refusal is wanted"):
        it.run(it.tpr, CUT, "--want", "refused", *of_xml).must_say_nothing(0)
        check_junit(xml, 1, 0, 0)
    with case("a script that is named twice"):
        it.run(it.tpr, LOGIN, f"scripts/../{LOGIN}", LOGIN).must_show("^1 script:")
    with case("a script with signs in its name, 5 times"):
        strange = "scripts/a name & <signs>.ttcn"
        it.copy("login_is_answered.ttcn", strange)
        it.run(it.tpr, strange, "--times", "5", "--jobs", "5", *of_xml).must_say_nothing(0)
        check_junit(xml, 1, 0, 0)


def suites_that_cannot_be(room: Path, tpr: str) -> None:
    it, file = Suites(room, "that_cannot_be", tpr), str(EXAMPLES / "login_is_answered.ttcn")
    it.file("no_scripts").mkdir()
    with case("a suite of a folder without scripts"):
        it.run(tpr, "no_scripts").must_say("suite: there is no script *.ttcn in no_scripts", 2)
    with case("a suite of what isn't there"):
        it.run(tpr, "missing").must_say("suite: there is no file or folder missing", 2)
    with case("a suite of folders of which one can't be read, because its path is too long"):
        it.copy("login_is_answered.ttcn", "deep/a.ttcn")
        run(sys.executable, "-c", GOES_DEEP, folder=it.file("deep"))
        it.run(tpr, "deep").must_say("suite: deep/xxx", 2).must_complain("can't be read: File name too long$", 2)
    with case("a suite without the program"):
        missing = str(it.file("missing"))
        it.run(missing, file).must_say(f"suite: {missing} can't be run", 1)
    with case("a JUnit file of a suite without the program"):
        it.write("old.xml", "old")
        for name in ("new.xml", "old.xml"):
            it.run(missing, file, "--junit", name).must_say(f"suite: {missing} can't be run", 1)
        must(not it.file("new.xml").exists(), "it is made")
        must(it.file("old.xml").read_bytes() == b"old", "an older one is changed")
    with case("a suite where the program can't be built"):
        it.run("/bin/false", file).must_say("suite: /bin/false queue, on no text, ended with status 1", 1)
    with case("a JUnit file that can't be written"):
        it.run(tpr, file, "--junit", "missing/junit.xml").must_say("suite: missing/junit.xml can't be written", 3)
    with case("reports that can't be kept"):
        said = "suite: /dev/null/kept/login_is_answered.ttcn can't be made"
        it.run(tpr, file, "--keep", "/dev/null/kept").must_say(said, 3)
    with case("a table onto a full device"):
        ended = onto_a_full_device(SUITE, file, more={"TPR": tpr})
        ended.must_say("suite: the answer can't be written", 3)
    suites_that_are_asked_wrongly(it, file)
    with case("a line of progress on a terminal"):
        both = (file, str(example("script_cut_inside_an_alt.ttcn")))
        it.watched(on_a_terminal, SUITE, *both, program=tpr).must_show("1 of 2 done, 0 not as expected; last ")


GOES_DEEP = "import os\nfor _ in range(17): os.mkdir('x' * 250); os.chdir('x' * 250)"
WRONG_WORDS = (
    *("--jobs 0", "--jobs x", "--times -1", "--bound 0", "--bound x"),
    *("--want good", "--want pass,", "--wanted", "--junit -", "--most 0"),
)


def suites_that_are_asked_wrongly(it: Suites, file: str) -> None:
    with case("a suite asked with no words"):
        it.run(it.tpr).must_complain("^usage: suite", 4)
    for words in WRONG_WORDS:
        with case(f"a suite asked with the words '{words}'"):
            it.run(it.tpr, file, *words.split(" ")).must_complain("^usage: suite", 4)


# Scripts with a file of expected results beside them

BESIDE = ("login_is_answered.ttcn", "script_cut_inside_an_alt.ttcn", "system_under_test_answers.ttcn")


def suites_of_what_is_wanted(room: Path, tpr: str) -> None:
    it = Suites(room, "of_what_is_wanted", tpr)
    for name in BESIDE:
        it.copy(name, name)
    with case("scripts beside which nothing is said"):
        it.run(tpr, *BESIDE).must_show(r"; 2 not as expected \(\*\)$", 5)
    it.copy("login_is_answered.expected", "login_is_answered.expected")
    it.write("script_cut_inside_an_alt.wanted", "\n  refused 10 Syntax line 9\n")
    it.write("system_under_test_answers.wanted", "fail\ninconc\n")
    with case("a folder that passes, fails and is refused, as is wanted"):
        it.run(tpr, *BESIDE).must_show("; all as expected$")
    suites_of_what_is_not_wanted(it)
    suites_of_expected_reports(it)
    suites_of_wrong_wishes(it)


def suites_of_what_is_not_wanted(it: Suites) -> None:
    report = it.file("login_is_answered.expected").read_text(encoding="utf-8").splitlines(keepends=True)
    report[3] = report[3].replace("pass", "fail", 1)
    it.write("login_is_answered.expected", "".join(report))
    it.write("script_cut_inside_an_alt.wanted", "refused 10 Syntax line 8\n")
    it.write("system_under_test_answers.wanted", "pass\n")
    with case("another refusal, result and report than is wanted"):
        must_be_table(
            it.run(it.tpr, *BESIDE, "--junit", "j.xml"),
            5,
            "login_is_answered.ttcn          pass * T  differs from login_is_answered.expected: report line 4 is "
            "'set pass', expected 'set fail'",
            "script_cut_inside_an_alt.ttcn   refused * T  10 Syntax, script line 9",
            "system_under_test_answers.ttcn  fail * T  mtc set fail, report line 5, after: set pass",
            "3 scripts: 1 pass, 1 fail, 1 refused; 3 not as expected (*)",
        )
    ruled("its JUnit file, of what isn't wanted", check_junit, it.file("j.xml"), 3, 2, 1)


def suites_of_expected_reports(it: Suites) -> None:
    one, two = (f"everyone_is_told_to_stop.expected.{number}" for number in (1, 2))
    it.write("told.ttcn", f"cat {answer(two)}\n")
    it.copy(one, "told.expected.1")
    with case("a report that is another one"):
        form = "differs from told.expected.1: report line 4 is "
        it.run(it.another, "told.ttcn").must_show(form, 5)
    it.copy(two, "told.expected.2")
    with case("a report that is one of two"):
        it.run(it.another, "told.ttcn").must_show("; all as expected$")
    it.write("told.ttcn", f"cat {answer(two)}; exit 7\n")
    with case("a program that breaks off behind the report"):
        it.run(it.another, "told.ttcn").must_show(r"broken \* T  ended with status 7$", 5)


def suites_of_wrong_wishes(it: Suites) -> None:
    it.write("told.wanted", "pass\ngood\n")
    with case("a word that is no result"):
        said = "suite: told.wanted, line 2: 'good' isn't one of none, pass,"
        it.run(it.another, "told.ttcn").must_say(said, 2)
    it.write("told.wanted", "")
    with case("nothing that is wanted"):
        it.run(it.another, "told.ttcn").must_say("suite: told.wanted names no result", 2)


def main() -> int:
    tpr, called, folder = words_of(__doc__, "PROGRAM", "CALLED", "FOLDER")
    room = Path(folder).resolve()
    return try_groups(
        [
            Group(partial(suites_of_scripts, room, tpr, called), 14, "suites of scripts"),
            Group(partial(other_suites.of_another_program, room, tpr), 8, "suites of another program"),
            Group(partial(suites_that_cannot_be, room, tpr), 21, "suites that can't be"),
            Group(partial(suites_of_what_is_wanted, room, tpr), 9, "suites of what is wanted"),
            Group(partial(schedule_suites.of_the_schedule, room, tpr), 21, "suites of the schedule"),
            Group(partial(other_suites.that_lose_nothing, room, tpr), 20, "suites that lose nothing"),
            Group(partial(page_suites.with_pages, room, tpr), 24, "suites with pages"),
        ]
    )


if __name__ == "__main__":
    sys.exit(main())
