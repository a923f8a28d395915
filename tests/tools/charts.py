#!/usr/bin/env python3
"""tools/chart: the charts of all examples, those of the documents, those of reports at random, and how it is called.

    tests/tools/charts.py FOLDER

All files are written into FOLDER. tool_rules.py tests what the text of a chart doesn't show.
"""
from __future__ import annotations

import re
import sys
from pathlib import Path

sys.dont_write_bytecode = True

import example_reports
from tool_calls import EXAMPLES, ROOT, case, must, onto_a_full_device, ruled, run, texts_in, try_groups_of, words_of
from tool_rules import check_charts, check_cuts, check_orders, check_parts, check_played, check_random, check_tried

CHART = ROOT / "tools" / "chart"
LOGIN = EXAMPLES / "login_is_answered.expected"
LONG_NAMES = 12
WIDTH = {"COLUMNS": "90"}  # of a chart in letters
PRINTED = texts_in("printed.texts")


def charts_of_examples(folder: Path) -> None:
    """Each is drawn, and all of them must satisfy the rules."""
    both: list[Path] = []
    for report in example_reports.all_of_them():
        chart = folder / f"{report.name}.svg"
        with case(f"the chart of {report.name}"):
            chart.write_bytes(run(CHART, report).must_say_nothing().printed)
        both += [report, chart]
    ruled("the rules on all these charts", check_charts, *both)


def charts_of_documents(_: Path) -> None:
    for file in sorted((ROOT / "docs" / "charts").glob("*.svg")):
        with case(f"{file.name} is the chart of its example"):
            run(CHART, EXAMPLES / f"{file.stem}.expected").must_print(file.read_bytes())


def rules_on_reports(_: Path) -> None:
    ruled("the orders of the reports of the examples", check_orders, *example_reports.all_of_them())
    ruled("reports that are cut behind any of their bytes", check_cuts, *example_reports.small_ones())
    ruled("reports at random", check_random, 150)
    ruled("the charts' orders of 10,000 reports at random, played on the ports", check_played, 10000)
    ruled("small reports, of which all orders are tried", check_tried, 2000)


# In other ways


def charts_in_other_ways(folder: Path) -> None:
    chart = folder / "chart.svg"
    with case("a chart of standard input, with a title"):
        run(CHART, "--title", LOGIN.stem, input=LOGIN.read_bytes()).must_print(run(CHART, LOGIN).printed)
    with case("a chart with a title of signs"):
        chart.write_bytes(run(CHART, "--title", '<&"', LOGIN).must_say_nothing().printed)
        check_charts(LOGIN, chart)
    with case("a chart in letters"):
        report = EXAMPLES / "halt_holds_back_what_comes_later.expected"
        run(CHART, "--text", report, more=WIDTH).must_print(PRINTED["a chart in letters"])
    charts_of_emptied_ports(folder)
    chart_of_long_names(folder)
    charts_that_cannot_be(folder)
    with case("a chart of two files"):
        run(CHART, LOGIN, LOGIN).must_complain("^usage: chart", 4)
    with case("what chart --help says"):
        run(CHART, "--help").must_show("^  4  the command line is wrong$")


def chart_of_long_names(folder: Path) -> None:
    """Names that differ at their ends: the label of each distant arrow must show its component."""
    names = [f"component_with_quite_a_long_name_{number}" for number in range(LONG_NAMES)]
    lines = ["component mtc", *(f"took p {name} 0 integer:1" for name in names), "end done", "verdict none"]
    for name in names:
        lines += [f"component {name}", "sent mtc.p 0 integer:1", "end done", "verdict none"]
    report = folder / "long_names.report"
    report.write_text("\n".join([*lines, "result none", ""]), encoding="ascii")
    with case("a chart of long names"):
        chart = run(CHART, report).must_say_nothing().text
        told = sorted(re.findall(r">took p from component\w*…\w*_name_(\d+) #0<", chart), key=int)
        must(told == [str(number) for number in range(3, LONG_NAMES)], f"it tells of {told}")


def charts_that_cannot_be(folder: Path) -> None:
    with case("a chart of a closed standard input"):
        run("sh", "-c", 'exec "$0" <&-', CHART).must_say("chart: standard input", 2)
    with case("a chart of a missing file"):
        run(CHART, folder / "missing").must_say(f"chart: {folder / 'missing'} can't be read", 2)
    with case("a chart of a folder"):
        run(CHART, folder).must_say(f"chart: {folder} can't be read", 2)
    unwritten = "chart: the answer can't be written"
    with case("a chart onto a full device"):
        onto_a_full_device(CHART, LOGIN).must_say(unwritten, 3)
    with case("a chart onto a closed standard output"):
        run("sh", "-c", 'exec "$0" "$1" >&-', CHART, LOGIN).must_say(unwritten, 3)


# Which of two emptyings discards a message, and which messages can only have come after one

END = "end done|verdict none|"
FIRST = (
    f"component mtc|cleared p|took p b 0 integer:2|cleared p|{END}component a|sent mtc.p 0 integer:1|"
    f"sent b.p 0 integer:5|{END}component b|took p a 0 integer:5|sent mtc.p 0 integer:2|{END}result none|"
)
BEHIND = (
    f"component mtc|took q a 0 integer:9|cleared p|took p a 0 integer:1|{END}"
    f"component a|sent mtc.q 0 integer:9|sent mtc.p 0 integer:1|{END}result none|"
)


def without_width(text: str) -> str:
    """The text without differences in the width of spaces."""
    return re.sub("^ ", "", re.sub(" +", " ", text), flags=re.MULTILINE)


def report_of(folder: Path, name: str, report: str) -> Path:
    file = folder / f"{name}.report"
    file.write_text(report.replace("|", "\n"), encoding="ascii")
    return file


def in_letters_case(name: str, report: Path, *words: str) -> None:
    with case(name):
        ended = run(CHART, "--text", *words, report, more=WIDTH)
        ended._replace(printed=without_width(ended.text).encode()).must_print(without_width(PRINTED[name]))


def charts_of_emptied_ports(folder: Path) -> None:
    in_letters_case("a message that the first of two emptyings discards", report_of(folder, "first", FIRST))
    in_letters_case("a message that comes behind an emptying", report_of(folder, "behind", BEHIND))


# Parts of charts: --only, --rows, --around and --fold

PART = (
    "component mtc|sent a.p 0 integer:1|took p b 0 integer:5|set pass|end done|verdict pass|"
    f"component a|took p mtc 0 integer:1|sent b.p 0 integer:1|{END}"
    f"component b|took p a 0 integer:1|sent mtc.p 0 integer:5|{END}result pass|"
)
# Ten round trips; the sixth has another message.
TRIPS = [f"integer:{int(number == 5)}" for number in range(10)]
REPEATS = (
    f"component mtc|{''.join(f'sent a.p {at} {it}|took p a {at} {it}|' for at, it in enumerate(TRIPS))}{END}"
    f"component a|{''.join(f'took p mtc {at} {it}|sent mtc.p {at} {it}|' for at, it in enumerate(TRIPS))}{END}"
    "result none|"
)
NO_PARTS = ("--only c", "--rows 5-9", "--around 5", "--around 17")
WRONG_WORDS = (
    "--rows 3-2", "--rows 0-1", "--rows 3", "--around x", "--rows 1-2 --around 3", "--html --fold", "--html --text",
)


def parts_of_charts(folder: Path) -> None:
    report, repeats = report_of(folder, "part", PART), report_of(folder, "repeats", REPEATS)
    in_letters_case("a chart of two of three components", report, "--only", "b,mtc")
    in_letters_case("a chart of one row and one component", report, "--rows", "2-2", "--only", "b")
    in_letters_case("a chart with repeats", repeats, "--fold")
    with case("the rows around a line"):
        run(CHART, "--text", "--around", "13", repeats, more=WIDTH).must_show(r"^    \(rows 2 to 20 of 20\)$")
    for words in NO_PARTS:
        with case(f"a chart with {words}, which there isn't"):
            run(CHART, *words.split(), report).must_say(f"chart: {report}: ", 2)
    for words in WRONG_WORDS:
        with case(f"a chart asked with the words {words}"):
            run(CHART, *words.split(), report).must_complain("^usage: chart", 4)
    ruled("parts of charts at random", check_parts, 100)


GROUPS = (
    (charts_of_examples, 1), (charts_of_documents, 3), (rules_on_reports, 5), (charts_in_other_ways, 13),
    (parts_of_charts, 16),
)  # fmt: skip

if __name__ == "__main__":
    sys.exit(try_groups_of(Path(*words_of(__doc__, "FOLDER")).resolve(), GROUPS))
