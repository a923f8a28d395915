#!/usr/bin/env python3
"""Tests what tools/explore prints for scripts, for orders that are forced, and with other programs (other_programs.py).

    tests/exploring/explore_cases.py TPR ORDERED

It prints a line `passed NAME` for each case, or lines that begin with `FAILED: NAME`.
"""
from __future__ import annotations

import argparse
import json
import re
import sys
import tempfile
import xml.etree.ElementTree as xml
from dataclasses import replace
from pathlib import Path
from typing import Any, Optional

sys.dont_write_bytecode = True
ROOT = Path(__file__).resolve().parents[2]
sys.path[:0] = [str(ROOT / "tests" / it) for it in ("orders", "program", "tools")]

import example_files
import other_programs
from explore_runs import DEPENDS, OVERTAKEN, PING_PONG, TELLS_PARTING, Exploring, begins_with, has_in_order, prints_file
from judged import expected_beside
from made_scripts import senders, stars
from tool_calls import (
    Ended, Test, Tool, file_of, judged, must, prints, prints_nothing, run, says_alone, says_nothing, try_groups_of,
)  # fmt: skip

# The first script of each pair has a verdict that depends on the schedule, and the second is its repaired twin.
PAIRS = (
    ("broadcast_is_overtaken_by_an_answer", "broadcast_has_a_port_of_its_own"),
    ("shutdown_overtakes_the_last_answer", "shutdown_waits_for_the_last_answer"),
    ("else_is_taken_for_a_timeout", "answer_is_waited_for_without_else"),
    ("lock_is_refused_to_the_second", "lock_is_granted_once_it_is_free"),
    ("halt_comes_beside_an_order", "halt_waits_for_the_order"),
    ("clear_may_discard_the_answer", "clear_comes_before_the_question"),
    ("first_answer_is_taken_for_the_nearest", "each_answer_has_a_port_of_its_own"),
    ("news_come_before_the_subscription", "news_wait_for_the_subscription"),
    ("trigger_may_discard_the_result", "trigger_looks_at_a_port_of_its_own"),
    ("start_may_discard_an_early_order", "start_is_told_to_the_guest"),
    ("last_writer_is_not_known", "second_writer_waits_for_the_first"),
    ("relayed_message_is_overtaken", "relayed_message_is_confirmed"),
)
BETWEEN_TWO_LOOKS = "tests/exploring/acts/message_comes_between_two_looks.ttcn"
REFUSED = "tests/golden/refused_scripts/script_cut_inside_an_alt"
DISCARDED = "tests/golden/mistakes/start_may_discard_an_early_order"
SVG = "{http://www.w3.org/2000/svg}"
COMES_TO = "A run with the verdict "


# Mistakes and their repairs


def pairs(asked: Exploring) -> None:
    for faulty, repaired in PAIRS:
        told_of_example(asked.tool, faulty, DEPENDS, "pass or fail")
        told_of_example(asked.tool, repaired, 0, "always pass")


def told_of_example(tool: Tool, name: str, status: int, answer: str) -> None:
    script = str(example_files.example(f"{name}.ttcn"))
    tool.case(f"what is said of {name}", [script, "--json"], status, says_nothing, tells(answer, script))


def tells(answer: str, script: str) -> Test:
    """The answer is this one, and the reports are those that the script may have."""

    def holds(ended: Ended) -> bool:
        told = json.loads(ended.text)
        must(told["answer"] == answer, f"the answer is {told['answer']}")
        wrong = wrongly_told(told, expected_beside(script))
        must(wrong is None, f"{wrong}")
        return True

    return holds


def wrongly_told(told: dict[str, Any], expected: set[str]) -> Optional[str]:
    """Describes what is wrong with an answer, or returns None."""
    if not {it["report"] for it in told["runs"]} <= expected:
        return "a report isn't one of the expected"
    if set(told["verdicts"]) != {it.split()[-1] for it in expected}:
        return "the verdicts aren't those of the expected reports"
    if [it["verdict"] for it in told["runs"]] != told["verdicts"]:
        return "not each verdict has a run"
    if any(it["report"].split()[-1] != it["verdict"] for it in told["runs"]):
        return "a report hasn't the verdict that is told"
    if len(told["partings"]) != len(told["verdicts"]) - 1 or any(it["where"] is None for it in told["partings"]):
        return "a parting is missing"
    return None if told["decided"] and not told["faults"] else "it isn't decided, or has faults"


# Where runs diverge, and orders that are run again


def one_script(asked: Exploring) -> None:
    """The answer for a script is as docs/EXPLORING.md shows it, and the order of one of its runs can be run again."""
    ended = asked.tool.run(f"{OVERTAKEN}.ttcn")
    judged("where two runs part", ended, DEPENDS, TELLS_PARTING)
    judged("what docs/EXPLORING.md shows", ended, DEPENDS, says_nothing, is_shown)
    _, again, report = re.split(f"^{COMES_TO}fail; to repeat it: (.*)\n", ended.text, flags=re.M)
    lines = [line.removeprefix("  ") for line in report.splitlines(keepends=True) if line.startswith("  ")]
    must(lines, "there is a report of the run that comes to fail")
    run_again = run("bash", "-c", again, folder=ROOT, more={"TPR_ORDERED": asked.ordered})
    judged("the order of a run that is told", run_again, 0, prints("".join(lines)))
    asked.tool.full_device("an answer that can't be written", f"{OVERTAKEN}.ttcn")


def pictures(asked: Exploring) -> None:
    """Two runs side by side, with a line where they diverge; and a script that has no two."""
    case = asked.tool.case
    case("two runs beside each other", [f"{OVERTAKEN}.ttcn", "--svg"], DEPENDS, says_nothing, shows_where)
    discarded = f"{DISCARDED}.ttcn"
    case("runs with what is discarded", [discarded, "--svg"], DEPENDS, says_nothing, shows_where)
    alone = says_alone("explore: always pass: no two runs diverge")
    case("one run, which has no other beside it", [PING_PONG, "--svg"], 0, alone)
    case("a picture as an object", [PING_PONG, "--svg", "--json"], 4, prints_nothing)


def shows_where(ended: Ended) -> bool:
    """Above the line both charts have the same rows, below it different ones, and no text is on it."""
    root = xml.fromstring(ended.text)
    charts = [it for it in root.iter(f"{SVG}g") if it.get("transform")]
    must(len(charts) == 2, f"there are {len(charts)} charts")
    rows = [rows_round_the_line(it) for it in charts]
    above, below = zip(*rows)
    must(above[0] == above[1], f"above the lines stand {above}")
    must(below[0][:1] != below[1][:1], f"below them stands {below[0][:1]} twice")
    struck = [text for chart in charts for text in struck_by_the_line(chart)]
    must(not struck, f"the line strikes through {struck}")
    words = [it.text or "" for it in root.findall(f"{SVG}text")]
    return any(word.startswith("line ") for word in words)


def height_of_the_line(chart: xml.Element) -> float:
    (line,) = [it for it in chart.iter(f"{SVG}path") if it.get("class") == "parts"]
    return float((line.get("d") or "").partition(" ")[2].partition("H")[0])


def struck_by_the_line(chart: xml.Element) -> list[str]:
    """The texts of the chart that the line strikes through, without its own. A letter extends 9 pixels above its
    baseline, and 3 below it."""
    texts = [it for it in chart.iter(f"{SVG}text") if "where" not in (it.get("class") or "")]
    above = [float(it.get("y") or 0) - height_of_the_line(chart) for it in texts]
    return [it.text or "" for it, far in zip(texts, above) if -3 <= far <= 9]


def rows_round_the_line(chart: xml.Element) -> tuple[list[str], list[str]]:
    """The labels of the rows above the line where the runs diverge, and of those below it. A row reaches down to its
    lowest text; what is below the last row isn't a row."""
    height = height_of_the_line(chart)
    rows: tuple[list[str], list[str]] = ([], [])
    for row in chart.iter(f"{SVG}g"):
        title = row.findtext(f"{SVG}title") or ""
        if title.startswith("line ") and (texts := list(row.iter(f"{SVG}text"))):
            lowest = max(float(it.get("y") or 0) for it in texts)
            # The later fate of a message follows a comma, and isn't common to both.
            rows[0 if lowest < height else 1].append(re.split(", wh(?:ich|ere) ", row.get("aria-label") or "")[0])
    return rows


def is_shown(ended: Ended) -> bool:
    """The document shows the parts above the first report. It leaves out the runs with each verdict."""
    head = ended.text[: ended.text.index(f"\n{COMES_TO}")].rstrip("\n")
    parts = re.sub("^(?=.)", "    ", head, flags=re.M).split("\n\n")
    shown = (ROOT / "docs" / "EXPLORING.md").read_text(encoding="utf-8").split("\n\n")
    return len(parts) > 2 and all(any(part in it for it in shown) for part in parts)


def orders(asked: Exploring) -> None:
    """Orders that a user gives, valid and invalid."""
    file, script = asked.room / "order", f"{OVERTAKEN}.ttcn"
    unnamed = f"explore: {file}, line 1: no component is named"
    between = ("component mtc", "dropped p a 0 integer:1", "took q a 0 integer:2", "else", "set pass")
    for name, order, asked_of, status, test in (
        ("an order that is run again", "mtc a a mtc b b b", script, 0, prints_file(f"{OVERTAKEN}.expected.1")),
        ("the other order", "mtc mtc a a b b b", script, 0, prints_file(f"{OVERTAKEN}.expected.2")),
        ("an order that names nobody", "mtc nobody", script, 2, says_alone(unnamed)),
        # A send tries no branch, so the gate gives up at once, and not after its ten million turns.
        ("an order that can't be held", "mtc mtc+ a", script, 5, prints("not held\n")),
        (
            "an order with a message between two looks",
            "a mtc a mtc+ mtc+ mtc mtc",
            BETWEEN_TWO_LOOKS,
            0,
            begins_with(*between),
        ),
        ("an order with two signs behind a name", "a mtc++", BETWEEN_TWO_LOOKS, 2, says_alone(f"{unnamed} 'mtc++'")),
    ):
        file_of(file, f"{order}\n")
        asked.tool.case(name, [asked_of, "--order", file], status, test)


# Other scripts


def other_scripts(asked: Exploring) -> None:
    """Larger scripts, and scripts in which others act between two discards or two looks."""
    case, room = asked.tool.case, asked.room
    same, different = file_of(room / "same.ttcn", senders(10, "1")), file_of(room / "different.ttcn", senders(4, "@"))
    case("ten senders that can't be told apart", [same], 0, begins_with("always pass"))
    case("four senders of different numbers", [different], 0, begins_with("always pass"))
    discards = "tests/golden/receiving/trigger_in_an_alt_comes_before_else.ttcn"
    always_inconc = begins_with("always inconc")
    case("an alt between the discards of which others may act", [discards], 0, always_inconc)
    # Both messages are from one sender, in a fixed order: only the look can come before or after the second.
    parting = has_in_order(
        "  line 17: mtc discarded integer:1 from a at port p, sent at line 7;",
        "    in the other run, at line 16, it took integer:2 from a at port q, sent at line 8",
        "  line 8 can send before or after the look at line 16",
    )
    depends = "a verdict that depends on what comes between two looks"
    case(depends, [BETWEEN_TWO_LOOKS], DEPENDS, begins_with("pass or fail"), parting)
    many, soon = file_of(room / "stars.ttcn", stars(20, 400)), replace(asked.tool, most_seconds=60)
    soon.case("templates of 20 stars, and long values", [many], 0, begins_with("always pass"))
    waiting = "tests/orders/messages/all_wait_for_each_other.ttcn"
    case("components that wait for good", [waiting], 0, says_nothing, waits_for_good)


def waits_for_good(ended: Ended) -> bool:
    return re.search("^error: .* none, which waits forever", ended.text, re.M) is not None


def refusals(asked: Exploring) -> None:
    """Scripts and calls that are refused."""
    case, nowhere = asked.tool.case, asked.room / "nowhere.ttcn"
    case("a script that is refused", [f"{REFUSED}.ttcn"], 2, prints_file(f"{REFUSED}.expected"))
    case("a script that isn't there", [nowhere], 2, says_alone(f"explore: {nowhere} can't be read"))
    case("no script", [], 4, prints_nothing)
    case("an option that is gone", [PING_PONG, "--runs", "5"], 4, prints_nothing)


# Suites


def suites(asked: Exploring) -> None:
    """The answer that tools/suite writes for each case with --explore."""
    names = ("clear_may_discard_the_answer", "clear_comes_before_the_question")
    scripts, file = [f"examples/{it}.ttcn" for it in names], asked.room / "explored.xml"
    suite = asked.asking(asked.tpr, asked.ordered, "suite")
    ended = suite.run(*scripts, "--explore", "--want", "none,pass,fail", "--junit", file)
    answers = [(names[0], "pass or fail"), (names[1], "always pass")]
    judged("a suite that explores", ended, 0, lambda _: explored_in(file) == answers)
    suite.case("a suite that explores and writes no XML", [scripts[1], "--explore"], 0, has_answer("always pass"))


def has_answer(answer: str) -> Test:
    """The table has this answer after the result."""
    return lambda ended: re.search(f" {answer} +[0-9.]+s$", ended.text, re.M) is not None


def explored_in(file: Path) -> list[tuple[Optional[str], Optional[str]]]:
    """The name of each case, with the answer of its exploration."""
    cases = xml.parse(file).iter("testcase")
    found = [(it.get("name"), it.find("properties/property[@name='explored']")) for it in cases]
    return [(name, explored.get("value")) for name, explored in found if explored is not None]


# Each group, with its minimum number of cases.
GROUPS = (
    (pairs, 24),
    (one_script, 4),
    (pictures, 4),
    (orders, 6),
    (other_scripts, 6),
    (refusals, 4),
    (suites, 2),
    *other_programs.GROUPS,
)


def main() -> int:
    words = argparse.ArgumentParser(description="What tools/explore says of scripts and of orders.")
    words.add_argument("tpr", metavar="TPR", help="the program that answers")
    words.add_argument("ordered", metavar="ORDERED", help="the one that forces orders")
    asked = words.parse_args()
    with tempfile.TemporaryDirectory() as room:
        return try_groups_of(Exploring(asked.tpr, asked.ordered, Path(room)), GROUPS)


if __name__ == "__main__":
    sys.exit(main())
