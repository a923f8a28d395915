"""Suites of programs other than tpr: output that isn't a report, programs that hang, results that differ between runs;
and that no known result is lost."""
from __future__ import annotations

import os
import shlex
import signal
import subprocess
import time
import xml.etree.ElementTree as xml
from collections.abc import Callable
from pathlib import Path

from suite_runs import ONE_PASS, SUITE, Suites, answer, kept, must_be_table
from tool_calls import case, example, must, ruled
from tool_rules import check_junit, interrupted, on_a_terminal

LOGIN = "login_is_answered.expected"
END = "end done|verdict none|"
SCRIPTS = ("a.ttcn", "a.1.ttcn", "a")


# Output that isn't a report


def write_told(it: Suites) -> None:
    """Scripts that hang, are killed, or print something that isn't a report."""
    it.write("told/hangs.ttcn", f"sleep 1000 & echo $! >{shlex.quote(str(it.file('sleeper')))}\nwait\n")
    it.write("told/is_killed.ttcn", "kill -9 $$\n")
    it.write("told/is_cut.ttcn", "echo component mtc\n")
    it.write("told/lacks_memory.ttcn", "echo fault 50 Memory; exit 3\n")
    it.write("told/says_signs.ttcn", 'printf "\\x01<&]]>\\n"; exit 7\n')


def kept_of_told(name: str, result: str) -> str:
    return kept(name, result, "printed", "kept_of_told")


def holds_soon(holds: Callable[[], bool], seconds: float) -> bool:
    until = time.monotonic() + seconds
    while not holds() and time.monotonic() < until:
        time.sleep(0.1)
    return holds()


def has_begun(file: Path) -> bool:
    return file.exists() and file.stat().st_size > 0


def is_gone(process: int) -> bool:
    """Whether it has ended, even if no process has asked for its status yet."""
    try:
        return b") Z " in Path(f"/proc/{process}/stat").read_bytes()
    except (FileNotFoundError, ProcessLookupError):
        return True


def must_be_gone(sleeper: Path) -> None:
    """The process whose number is in the file must end at once."""
    process = int(sleeper.read_text(encoding="ascii"))
    must(holds_soon(lambda: is_gone(process), 5), "what it has started is still there")


def of_another_program(room: Path, tpr: str) -> None:
    it = Suites(room, "of_another_program", tpr)
    write_told(it)
    began = time.monotonic()
    cut = (
        "what was printed isn't a report of tpr, report line 2: the text ends where the end of the component's"
        " behaviour is needed"
    )
    with case("a suite of what is no report"):
        must_be_table(
            it.run(it.another, "told", "--bound", "5", "--junit", "told.xml", "--keep", "kept_of_told"),
            5,
            f"told/hangs.ttcn         stopped * T  not done within 5 seconds{kept_of_told('hangs', 'stopped')}",
            f"told/is_cut.ttcn        broken * T  {cut}{kept_of_told('is_cut', 'broken')}",
            f"told/is_killed.ttcn     broken * T  ended by signal 9{kept_of_told('is_killed', 'broken')}",
            f"told/lacks_memory.ttcn  fault * T  50 Memory{kept_of_told('lacks_memory', 'fault')}",
            f"told/says_signs.ttcn    broken * T  ended with status 7{kept_of_told('says_signs', 'broken')}",
            "5 scripts: 1 fault, 1 stopped, 3 broken; 5 not as expected (*)",
        )
    took = time.monotonic() - began
    ruled("the JUnit file of what is no report", check_junit, it.file("told.xml"), 5, 0, 5)
    with case("a script that hangs is stopped with all that it started"):
        must_be_gone(it.file("sleeper"))
    with case("a script that hangs is stopped soon"):
        must(took < 60, f"after {took:.0f} seconds")
    it.program("waits", f"sleep 1000 & echo $! >{shlex.quote(str(it.file('sleeper')))}\nwait")
    suite_that_is_ended(it, signal.SIGTERM, it.another)
    suite_that_is_ended(it, signal.SIGHUP, it.another)
    suite_that_is_ended(it, signal.SIGTERM, str(it.file("waits")))
    suites_of_two_reports(it)


def suite_that_is_ended(it: Suites, number: signal.Signals, program: str) -> None:
    """Ending a suite ends its runs too, or the first call of a program that doesn't end."""
    sleeper = it.file("sleeper")
    sleeper.unlink(missing_ok=True)
    with case(f"a suite of {os.path.basename(program)} that is ended by {number.name}"):
        with it.start("told/hangs.ttcn", printed=subprocess.DEVNULL, program=program) as suite:
            begun = holds_soon(lambda: has_begun(sleeper), 30)
            suite.send_signal(number)
            status = suite.wait(60)
        must(begun, "the script hasn't begun")
        must(status == 130, f"status {status}")
        must_be_gone(sleeper)


def suites_of_two_reports(it: Suites) -> None:
    both, turns = shlex.quote(str(example("everyone_is_told_to_stop.ttcn").with_suffix(".expected"))), "turns"
    it.write("in_turn.ttcn", f"echo >>{turns}; n=$(wc -l <{turns}); cat {both}.$((n % 2 + 1))\n")
    with case("a script with two reports"):
        ended = it.run(it.another, "in_turn.ttcn", "--times", "6", "--jobs", "1", "--keep", "kept_in_turn")
        must_be_table(ended, 0, "in_turn.ttcn  pass T  2 different reports", ONE_PASS)
    with case("both reports are kept, once"):
        wanted = [f"run{number}.pass.{ending}" for number in (1, 2) for ending in ("report", "svg")]
        must(it.files_in("kept_in_turn/in_turn.ttcn") == wanted, f"there are {it.files_in('kept_in_turn')}")
    failing, passing = answer("system_under_test_answers.expected"), answer(LOGIN)
    it.write("fails_once.ttcn", f"if [[ -e once ]]; then cat {passing}; else touch once; cat {failing}; fi\n")
    with case("a script that fails once"):
        told = "fail in 1 of 4 runs, 3 pass; 2 different reports; mtc set fail, report line 5, after: set pass"
        ended = it.run(it.another, "fails_once.ttcn", "--times", "4", "--jobs", "1")
        must_be_table(ended, 5, f"fails_once.ttcn  fail * T  {told}", "1 script: 1 fail; 1 not as expected (*)")


# No known result is lost, and other output isn't mixed into a report


def that_lose_nothing(room: Path, tpr: str) -> None:
    it = Suites(room, "that_lose_nothing", tpr)
    for name in (*SCRIPTS, "a.b/same.ttcn", "a_b/same.ttcn"):
        it.write(name, f"cat {answer(LOGIN)}\n")
    suites_that_are_bounded(it)
    suites_with_standard_error(it)
    suites_of_names(it)
    suites_that_are_interrupted(it)
    suite_that_prints_at_once(it)
    suites_on_a_terminal(it)


def suites_that_are_bounded(it: Suites) -> None:
    it.write("begins.ttcn", f"touch began; cat {answer(LOGIN)}\n")
    with case("a JUnit file that can't be written is told before the first run"):
        it.run(it.another, "begins.ttcn", "--junit", "no_folder/j.xml").must_end(3)
        must(not it.file("began").exists(), "the script has begun")
    it.write("endless.ttcn", "yes\n")
    with case("what is printed without an end is bounded"):
        ended = it.run(it.another, "endless.ttcn", "--most", "2")
        ended.must_show(r"broken \* T  printed more than 2 MB$", 5)
    it.write("held.ttcn", f"cat {answer(LOGIN)}; sleep 20 &\n")
    with case("why a run that has ended isn't done"):
        ended = it.run(it.another, "held.ttcn", "--bound", "1")
        ended.must_show("ended with status 0, and what it has started held", 5)


def suites_with_standard_error(it: Suites) -> None:
    it.write("warns.ttcn", f"cat {answer(LOGIN)}; echo pid $$ >&2\n")
    with case("reports that are equal, whatever is said on standard error"):
        ended = it.run(it.another, "warns.ttcn", "--times", "3", "--keep", "kept", "--junit", "warns.xml")
        must_be_table(ended, 0, "warns.ttcn  pass T", ONE_PASS)
    with case("a report that is kept without it"):
        (report,) = it.file("kept/warns.ttcn").glob("run?.pass.report")
        must(report.read_bytes() == example(LOGIN).read_bytes(), "it is another one")
    with case("it is kept beside it"):
        (said,) = it.file("kept/warns.ttcn").glob("run?.pass.said")
        must(said.read_bytes().startswith(b"pid "), "it isn't")
    with case("it stands apart in the JUnit file"):
        must(b"<system-err>pid " in it.file("warns.xml").read_bytes(), "it doesn't")
    it.write("panics.ttcn", "echo 'thread main panicked' >&2; exit 101\n")
    with case("what a program said that broke"):
        form = "ended with status 101, and said: thread main panicked$"
        it.run(it.another, "panics.ttcn").must_show(form, 5)


def suites_of_names(it: Suites) -> None:
    with case("names of their own for what is kept, and nothing of an earlier suite"):
        it.run(it.another, *SCRIPTS, "--times", "2", "--keep", "named").must_end(0)
        it.run(it.another, *SCRIPTS, "--keep", "named").must_end(0)
        wanted = sorted(f"{name}/run1.pass.{ending}" for name in SCRIPTS for ending in ("report", "svg"))
        must(it.files_in("named") == wanted, f"there are {it.files_in('named')}")
    with case("no two cases of a JUnit file are alike"):
        it.run(it.another, "a.b", "a_b", "a.ttcn", "a", "--junit", "same.xml").must_say_nothing()
        check_junit(it.file("same.xml"), 4, 0, 0)
    strange = os.fsdecode(b"b\xff\n.ttcn")
    it.write(strange, f"cat {answer(LOGIN)}\n")
    with case("a name with a strange byte and a line feed"):
        ended = it.run(it.another, strange, "--junit", "strange.xml")
        must_be_table(ended, 0, os.fsdecode(b"b\xff\\x0a.ttcn  pass T"), ONE_PASS)


def suites_that_are_interrupted(it: Suites) -> None:
    it.write("hangs.ttcn", "touch hangs; sleep 100\n")
    words = ("--jobs", "1", "--junit", "cut.xml")
    ended = it.watched(interrupted, it.file("hangs"), SUITE, *SCRIPTS[:2], "hangs.ttcn", *words, program=it.another)
    with case("a suite that is interrupted"):
        ended.must_show("^interrupted, 2 of 3 scripts: 2 pass; 1 skipped$")
    with case("its status"):
        ended.must_show("^status 130$")
    with case("its JUnit file"):
        ended.must_say_nothing()
        check_junit(it.file("cut.xml"), 3, 0, 0, 1)
    with case("the script that was skipped"):
        (skipped,) = xml.parse(it.file("cut.xml")).iterfind(".//skipped/..")
        must(skipped.get("name") == "hangs", f"it is {skipped.get('name')}")
    waits = f'if test "$1" = verdicts; then touch {shlex.quote(str(it.file("explores")))}; sleep 5; fi'
    it.write("asked", f'#!/bin/sh\n{waits}\nexec {shlex.quote(it.another)} "$@"\n')
    it.file("asked").chmod(0o755)
    asked = str(it.file("asked"))
    explored = ("a.ttcn", "--explore", "--junit", "explored.xml")
    ended = it.watched(interrupted, it.file("explores"), SUITE, *explored, program=asked)
    with case("the status of a suite that is interrupted while it explores"):
        ended.must_show("^status 130$")
    with case("its JUnit file, in which what wasn't explored is skipped"):
        ended.must_say_nothing()
        check_junit(it.file("explored.xml"), 1, 0, 0, 1)


def suite_that_prints_at_once(it: Suites) -> None:
    it.write("slow.ttcn", f"sleep 2; touch slow_is_done; cat {answer(LOGIN)}\n")
    with case("a line that is printed before the next script is done"):
        with it.start("a.ttcn", "slow.ttcn", "--jobs", "1", printed=subprocess.PIPE) as suite:
            assert suite.stdout is not None
            lines = [suite.stdout.readline() for _ in range(2)]
            is_done = it.file("slow_is_done").exists()
            suite.stdout.read()
        must(lines[1].startswith(b"a.ttcn "), f"the lines are {lines}")
        must(not is_done, "it is printed later")
        must(suite.returncode == 0, f"status {suite.returncode}")


def suites_on_a_terminal(it: Suites) -> None:
    """A terminal shows the beginning of a long entry, and always the whole counts and line numbers."""
    long = "x" * 90
    report = (
        f'component mtc|sent a.p 0 charstring:"{long}"|end waiting|verdict none|component a|{END}'
        f'left p mtc 0 charstring:"{long}"|result error|'
    )
    it.write("long", report.replace("|", "\n"))
    it.write("long.ttcn", f"if [[ -e seen ]]; then cat long; else touch seen; cat {answer(LOGIN)}; fi\n")
    with case("a long reason on a terminal"):
        words = ("long.ttcn", "--times", "3", "--jobs", "1")
        told = "error in 2 of 3 runs, 1 pass; 2 different reports; mtc waits, report line 3, after: sent a.p 0"
        form = rf'{told} charstring:"x*\.\.' + "\r$"
        it.watched(on_a_terminal, SUITE, *words, program=it.another).must_show(form)
    with case("a long reason elsewhere is whole"):
        it.run(it.another, "long.ttcn").must_show(f'after: sent a.p 0 charstring:"{long}"$', 5)
