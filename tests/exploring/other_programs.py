"""Tests what tools/explore prints if one of its programs is missing, prints something else, or is interrupted."""
from __future__ import annotations

import json
import os
import pty
import shlex
import signal
import subprocess
import time
from collections.abc import Mapping
from pathlib import Path

from explore_runs import (
    DEPENDS,
    OVERTAKEN,
    PING_PONG,
    TELLS_PARTING,
    UNDECIDED,
    Exploring,
    begins_with,
    has_in_order,
    parts_runs,
    tells_faults,
)
from tool_calls import (
    ROOT, TAKES_SIGNALS, Ended, judged, must, prints, prints_nothing, program_of, ruled, run, says_alone, says_nothing,
)  # fmt: skip

MOST_SECONDS = 60
WANTS = "reports need tpr_ordered, "
FAULT = "a fault in tpr or its tools:"
TO_PASS, TO_FAIL = "mtc a mtc a b b b", "mtc a a mtc b b b"  # orders of OVERTAKEN


# Other answers


def answer_of(asked: Exploring, status: int, text: str, script: str) -> Ended:
    """The tool's output if `tpr verdicts` prints this text and ends with this status."""
    program = program_of(asked.room / "answer", f"printf %s {shlex.quote(text)}", f"exit {status}")
    return asked.asking(program, asked.ordered).run(script)


def undecided_answers(asked: Exploring) -> None:
    """Answers above the limit of states, and out of memory."""
    script, undecided = f"{OVERTAKEN}.ttcn", "undecided, seen pass"
    one = answer_of(asked, 3, f"undecided\nseen pass\nstates 9\npass: {TO_PASS}\n", script)
    judged("where one verdict is seen", one, UNDECIDED, begins_with(undecided, "states 9"), runs_to_pass)
    two = answer_of(asked, 3, f"undecided\nseen pass fail\nstates 9\npass: {TO_PASS}\nfail: {TO_FAIL}\n", script)
    judged("where two are seen", two, DEPENDS, begins_with(f"{undecided} or fail", "states 9"))
    nothing, fault = "undecided\nstates 0\n", "fault 50 Memory\n"
    judged("where nothing is seen", answer_of(asked, 3, nothing, script), UNDECIDED, prints(nothing))
    judged("where memory is refused", answer_of(asked, 3, fault, script), 3, prints(fault))


def runs_to_pass(ended: Ended) -> bool:
    return "\nA run with the verdict pass; to repeat it: " in ended.text and not parts_runs(ended)


def orders_that_are_wrong(asked: Exploring) -> None:
    """With the order of a verdict the model of runs reaches another verdict, or no end."""
    fault = f"{FAULT} the model of runs reaches"
    for name, orders, faults in (
        (
            "comes to another verdict",
            (TO_FAIL, TO_PASS),
            (f"pass: {fault} fail by its order", f"fail: {fault} pass by its order"),
        ),
        (
            "comes to no end",
            (TO_PASS, "mtc a a mtc b b"),
            (f"fail: {fault} no end by its order: b has a step after the order",),
        ),
        (
            "has a step that can't be",
            (TO_PASS, "mtc b a mtc b b b"),
            (f"fail: {fault} no end by its order: b, name 2 of the order, has no step there",),
        ),
    ):
        text = "pass or fail\nstates 9\npass: {}\nfail: {}\n".format(*orders)
        judged(f"an order that {name}", answer_of(asked, 2, text, f"{OVERTAKEN}.ttcn"), 1, tells_faults(*faults))


def answers_that_are_none(asked: Exploring) -> None:
    for name, status, text, said in (
        ("an answer that is none", 0, "always pass\n", "verdicts ended with status 0: always pass"),
        ("another status", 2, "always pass\nstates 9\n", "verdicts ended with status 2: always pass states 9"),
        ("a program without the mode", 4, "", "verdicts ended with status 4, and printed nothing"),
        ("a program that can't be built", 1, "", "can't be built"),
    ):
        ended = answer_of(asked, status, text, PING_PONG)
        judged(name, ended, 1, says_alone(f"explore: {asked.room / 'answer'} {said}"))
    nothing = says_alone(f"explore: {asked.nowhere} can't be run: No such file or directory")
    asked.asking(asked.nowhere, asked.ordered).case("no program", [PING_PONG], 1, nothing)


# The program that forces orders is missing, or is another one


def without_reports(asked: Exploring) -> None:
    """Reports are left out if no program can run orders, and the tool says why."""
    script, tool = f"{OVERTAKEN}.ttcn", asked.asking(asked.tpr, asked.nowhere)
    ended = tool.run(script)
    judged("where two runs part, without reports", ended, DEPENDS, TELLS_PARTING)
    judged("the orders and why there are no reports", ended, DEPENDS, prints_orders)
    tool.case("the same as an object", [script, "--json"], DEPENDS, says_nothing, lacks_reports)
    answer = run(asked.tpr, "verdicts", PING_PONG, folder=ROOT)
    must(answer.text, "there is an answer to compare with")
    tool.case("one verdict alone, without a report", [PING_PONG], 0, prints(answer.text))
    no_program = says_alone(f"explore: there is no program {asked.nowhere}")
    tool.case("orders, and nothing to run them", [script, "--order", "/dev/null"], 1, no_program)


def prints_orders(ended: Ended) -> bool:
    """The output of `tpr verdicts` precedes the place where the runs diverge, with an empty line after the states."""
    told, _, behind = ended.text.partition("\nWhere the runs diverge (")
    wanted = (ROOT / f"{OVERTAKEN}.verdicts").read_text(encoding="utf-8")
    lines = told.split("\n")
    return lines[2:3] == [""] and "\n".join(lines[:2] + lines[3:]) == wanted and f"\nNo reports: {WANTS}" in behind


def lacks_reports(ended: Ended) -> bool:
    runs = json.loads(ended.text)["runs"]
    return len(runs) == 2 and all(it["missing"].startswith(WANTS) and it["report"] is None for it in runs)


def forced_by(asked: Exploring, line: str) -> Ended:
    """The tool's output if a program with this line runs the orders."""
    program = program_of(asked.room / "other", line)
    return asked.asking(asked.tpr, program).run(PING_PONG)


def altered_by(asked: Exploring, sed: str) -> Ended:
    return forced_by(asked, f'{shlex.quote(asked.ordered)} "$@" | sed {shlex.quote(sed)}')


def other_reports(asked: Exploring) -> None:
    """A program that holds no order, two with other results, and one that refuses the script."""
    ended = forced_by(asked, 'while read -r line; do printf "order %s\\nnot held\\n\\n" "$line"; done <"$2"')
    judged("a program that holds no order", ended, 0, has_in_order("no report: the order couldn't be held"))
    ended = altered_by(asked, "s/^result pass/result fail/")
    fault = f"pass: {FAULT} the run by its order"
    judged("a program that comes to another verdict", ended, 1, tells_faults(f"{fault} reached fail"))
    ended = altered_by(asked, "s/^took /found /")
    other = tells_faults(f"{fault} has a different report from the model of runs")
    judged("a program that comes to another report", ended, 1, other)
    ended = forced_by(asked, 'printf "refused 15 Limit line 0\\n"; exit 2')
    judged("a program that refuses what is run", ended, 0, begins_with("always pass"))


def programs_that_break_off(asked: Exploring) -> None:
    for line, said in (
        ('cat -- "$2" >/dev/null', "ended with status 0, and printed nothing"),
        ("echo a file; exit 7", "ended with status 7: a file"),
        ("kill -9 $$", "was killed or took too long, and printed nothing"),
        ('printf "component mtc\\n\\n"', "ended with status 0: component mtc"),
    ):
        told = says_alone(f"explore: {asked.room / 'other'} {said}")
        judged(f"a program of the line {line}", forced_by(asked, line), 1, told)


# Signals


def interrupted(asked: Exploring) -> None:
    """A signal arrives while the tool waits for a program: the program ends with the tool."""
    number = asked.room / "number"
    sleeps = f"echo $$ >{shlex.quote(str(number))}; exec sleep {MOST_SECONDS}"
    sleeper = program_of(asked.room / "sleeper", sleeps)
    holding = program_of(asked.room / "holding", f'if test -s "$2"; then {sleeps}; fi')
    for sent in (signal.SIGINT, signal.SIGTERM, signal.SIGHUP):
        ended = ended_by(sent, asked.asking(sleeper, asked.ordered).variables, number)
        judged(f"tpr verdicts that is interrupted by {sent.name}", ended, 130, prints_nothing)
        ruled(f"it is ended too by {sent.name}", is_gone, number)
        ended = ended_by(sent, asked.asking(asked.tpr, holding).variables, number)
        judged(f"runs that are interrupted by {sent.name}", ended, 130, begins_with("pass or fail"))
        why = has_in_order("No reports: it was interrupted")
        judged(f"why they have no reports at {sent.name}", ended, 130, why)
        ruled(f"they are ended too by {sent.name}", is_gone, number)


def ended_by(sent: signal.Signals, programs: Mapping[str, str], number: Path) -> Ended:
    """How the tool ends by the signal, which is sent once a program of it is asleep and has written its number."""
    number.unlink(missing_ok=True)
    command = [*TAKES_SIGNALS, str(ROOT / "tools" / "explore"), f"{OVERTAKEN}.ttcn"]
    variables, none, pipe = {**os.environ, **programs}, subprocess.DEVNULL, subprocess.PIPE
    with subprocess.Popen(command, cwd=ROOT, env=variables, stdin=none, stdout=pipe, stderr=pipe) as process:
        until = time.monotonic() + MOST_SECONDS
        while not (number.exists() and number.read_text()) and time.monotonic() < until:
            time.sleep(0.05)
        process.send_signal(sent)
        printed, said = process.communicate(timeout=MOST_SECONDS)
    return Ended(process.returncode, printed, said)


def is_gone(number: Path) -> None:
    """The program that was asleep has ended."""
    process = int(number.read_text())
    must(not Path(f"/proc/{process}").exists(), f"process {process} is still there")


# A terminal


def waits_are_shown(asked: Exploring) -> None:
    """A terminal shows from the first second on how long `tpr verdicts` has been searching, and nothing at the end."""
    slow = program_of(asked.room / "slow", f'sleep 2.5; exec {shlex.quote(asked.tpr)} "$@"')
    line = "\r\x1b[Kexplore: `tpr verdicts` has been searching for {} s".format
    ruled("a search of two seconds at a terminal", shows_alone, asked, slow, line(1) + line(2))
    ruled("a short search at a terminal", shows_alone, asked, asked.tpr, "")
    without = asked.asking(slow, asked.nowhere)
    without.case("a search of two seconds without a terminal", [PING_PONG], 0, begins_with("always pass"))


def shows_alone(asked: Exploring, tpr: str, shown: str) -> None:
    """The terminal gets this text first; a busy machine may take longer, and show more. Finally the line is cleared."""
    said = said_at_a_terminal(asked, tpr)
    must(said.startswith(shown) and said.endswith("\r\x1b[K"), f"it says {said!r}")


def said_at_a_terminal(asked: Exploring, tpr: str) -> str:
    """The tool's standard error, if it is a terminal."""
    ours, theirs = pty.openpty()
    command, none = [str(ROOT / "tools" / "explore"), PING_PONG], subprocess.DEVNULL
    variables = {**os.environ, **asked.asking(tpr, asked.nowhere).variables}
    with subprocess.Popen(command, cwd=ROOT, env=variables, stdin=none, stdout=none, stderr=theirs) as process:
        os.close(theirs)
        process.wait(MOST_SECONDS)
    try:
        return os.read(ours, 1 << 16).decode()
    finally:
        os.close(ours)


# Each group, with its minimum number of cases.
GROUPS = (
    (undecided_answers, 4),
    (orders_that_are_wrong, 3),
    (answers_that_are_none, 5),
    (without_reports, 5),
    (other_reports, 4),
    (programs_that_break_off, 4),
    (interrupted, 15),
    (waits_are_shown, 3),
)
