"""Suites with a page: its contents for each kind of result, for many scripts, and for special characters in names and
texts. pages.py tests these pages in a browser."""
from __future__ import annotations

import base64
import hashlib
import shlex
import shutil
import xml.etree.ElementTree as xml
from pathlib import Path

from page_elements import cell, each, links_must_hold, page_in, row_of, rows_of, text_in
from suite_runs import SUITE, Suites, answer
from tool_calls import ROOT, case, example, must, must_be, run
from tool_rules import interrupted

MANY = 400
MOST_BYTES = 1_500_000  # of the page for many scripts

# Acts like tpr, except for some scripts. One run of a race is always the same.
PROGRAM = """case "$1 $2" in
    run*race*) exec cat {race} ;;
    run*hangs*) touch hangs; exec sleep 100 ;;
    run*breaks*) echo '<i>printed</i>'; echo '<b>said & "so"' >&2; exit 101 ;;
esac
exec {tpr} "$@"
"""

SIGNS = "</script><script>alert(1)</script><img src=x onerror=alert(2)>"
NAME_OF_SIGNS = "100%23 a b & 'c' \"d\" <script>alert(3)<i>#x?y=1.ttcn"


def script(name: str) -> str:
    return (ROOT / "tests" / "tools" / "data" / "paged" / f"{name}.ttcn").read_text(encoding="utf-8")


WAITS = script("waits").replace("SIGNS", SIGNS)
EITHER = script("either")  # Each run reaches only a part of its one line with branches.
SOURCE = script("source")  # in the full language
LONG = WAITS.replace(SIGNS, 5_000 * "x").replace("setverdict(pass);", 300 * "setverdict(pass);\n")
SCRIPTS = {
    "passes": "login_is_answered",
    "fails": "system_under_test_answers",
    "waits": "halt_holds_back_what_comes_later",
    "inconclusive": "trigger_in_an_alt_comes_before_else",
    "cut": "script_cut_inside_an_alt",
    "races": "else_is_taken_for_a_timeout",
    "may_race": "else_is_taken_for_a_timeout",
    "hangs": "login_is_answered",
    "breaks": "login_is_answered",
}
# The rows that need attention come first, and then the order is by name: the state, the script, its result and
# verdicts.
ROWS = [
    ("unexpected", NAME_OF_SIGNS, "error", "always error"),
    ("unexpected", "breaks.ttcn", "broken", "always pass"),
    ("unexpected", "fails.ttcn", "fail", "always fail"),
    ("unexpected", "hangs.ttcn", "stopped", "always pass"),
    ("unexpected", "inconclusive.ttcn", "inconc", "always inconc"),
    ("unexpected", "waits.ttcn", "error", "always error"),
    ("depends on the schedule", "races.ttcn", "fail", "pass or fail"),
    ("refused", "cut.ttcn", "refused", ""),
    ("as expected", "may_race.ttcn", "fail", "pass or fail"),
    ("as expected", "passes.ttcn", "pass", "always pass"),
]
CHOICES = ["10 scripts", "6 unexpected", "1 depends on the schedule", "1 refused", "2 as expected"]
TAGS = set(
    """html head meta link title style body header h1 p code form div label input output main details summary span wbr
    a h2 pre figure img table tr th td script""".split()
)
# The pictures of some rows, and a part of their texts.
PICTURES = {
    "passes": ["run1.pass.svg", "connections.svg"],
    "races": ["diverging.svg", "run1.fail.svg", "connections.svg"],
    "may_race": ["diverging.svg", "run1.fail.svg", "connections.svg"],
    "hangs": ["connections.svg"],
    "cut": [],
}
TEXTS = {
    "cut": "each/cut.ttcn:9:1: refused 10 Syntax: ",
    "fails": "The result is fail: mtc set it at line ",
    "races": "Where the runs diverge (pass and fail):\n  line 17: mtc took ",
    "breaks": '<b>said & "so"\n',
    "hangs": "Nothing was printed.",
}


def with_pages(room: Path, tpr: str) -> None:
    it = Suites(room, "with_pages", tpr)
    race = answer("else_is_taken_for_a_timeout.expected.1")
    it.program("program", PROGRAM.format(tpr=shlex.quote(tpr), race=race))
    page_of_each_outcome(it)
    page_of_several_runs(it)
    page_of_rewritten_scripts(it)
    page_of_an_interrupted_suite(it)
    page_of_many(it)
    pages_that_cannot_be(it)


def page_of(it: Suites, folder: str) -> xml.Element:
    return page_in(it.file(folder) / "index.html")


def scripts_of_each_outcome(it: Suites) -> None:
    for name, of in SCRIPTS.items():
        it.copy(f"{of}.ttcn", f"each/{name}.ttcn")
    it.write("each/may_race.wanted", "pass or fail\n")
    it.write(f"each/{NAME_OF_SIGNS}", WAITS)


def page_of_each_outcome(it: Suites) -> None:
    scripts_of_each_outcome(it)
    with case("a suite of each outcome with a page"):
        ended = it.run(str(it.file("program")), "each", "--html", "page", "--bound", "5")
        results = "1 pass, 1 inconc, 3 fail, 2 error, 1 refused, 1 stopped, 1 broken"
        ended.must_show(f"^10 scripts: {results}; 2 verdicts depend ", 5)
    page = page_of(it, "page")
    with case("the rows of its page, those first that need attention"):
        cells = ("state", "script", "result", "verdicts")
        rows = [tuple(cell(row, of) for of in cells) for row in rows_of(page)]
        must_be(rows, [(state, f"each/{name}", *rest) for state, name, *rest in ROWS])
    with case("how many there are of each state"):
        must_be([text_in(label).strip() for label in page.iter("label")], CHOICES)
        must_be([text_in(each(page, it)[0]) for it in ("title", "h1")], ["8 of 10 scripts not as expected"] * 2)
    with case("what the rows have behind them"):
        must_have_parts(page)
    lines_that_no_run_reached(it, page)
    with case("the links of the page, and its elements"):
        links_must_hold(page, it.file("page"))
        tags = {element.tag for element in page.iter()} - {"page"}
        must(tags <= TAGS and len(each(page, "script")) == 1, f"there are {tags - TAGS}")
    with case("signs are signs"):
        must_have_signs(it, page)
    with case("the page runs its own code alone"):
        must_have_policy(page)
    if shutil.which("tidy"):
        with case("tidy has nothing to say of the page"):
            # It still calls the attribute `loading` of an image proprietary, although HTML has it now.
            words = ("-q", "-e", "--warn-proprietary-attributes", "no")
            run("tidy", *words, it.file("page/index.html")).must_say_nothing()


def pictures_of(row: xml.Element) -> list[str]:
    return [image.get("src", "").rpartition("/")[2] for image in row.iter("img")]


def must_have_parts(page: xml.Element) -> None:
    """There must be charts, connections and reasons."""
    for name, pictures in PICTURES.items():
        must_be(pictures_of(row_of(page, f"each/{name}.ttcn")), pictures)
    for name, text in TEXTS.items():
        found = [text_in(it) for it in row_of(page, f"each/{name}.ttcn").iter("pre")]
        must(any(text in it for it in found), f"{name} has {found}")


def unreached_in(row: xml.Element) -> list[list[str]]:
    return [[text_in(cell) for cell in line] for line in row.iter("tr")]


def lines_that_no_run_reached(it: Suites, page: xml.Element) -> None:
    with case("lines that no run reached"):
        wanted = [["7", "setverdict(pass);", ""], ["8", "alt { [] p.receive { } [else] { } }", ""]]
        must_be(unreached_in(row_of(page, f"each/{NAME_OF_SIGNS}")), wanted)
    with case("a line that only the other schedule reaches"):
        script = example("else_is_taken_for_a_timeout.ttcn")
        run(ROOT / "tools" / "why", "--annotate", script).must_show("^ never +17 ")
        row = row_of(page, "each/races.ttcn")
        must("Every line was reached." in text_in(row) and not unreached_in(row), f"there are {unreached_in(row)}")
    with case("a line of which each run reaches a part"):
        it.write("either/either.ttcn", EITHER)
        it.run(it.tpr, "either", "--html", "either_page").must_end(5)
        (row,) = rows_of(page_of(it, "either_page"))
        must("Every line was reached." in text_in(row), f"there are {unreached_in(row)}")
    with case("a line that is reached in part"):
        it.write("part/part.ttcn", EITHER.replace("p.send(integer:2);", ""))
        it.run(it.tpr, "part", "--html", "part_page").must_end(0)
        (row,) = rows_of(page_of(it, "part_page"))
        must_be([(line, part) for line, _, part in unreached_in(row)], [("10", "in part")])


def must_have_signs(it: Suites, page: xml.Element) -> None:
    row = row_of(page, f"each/{NAME_OF_SIGNS}")
    text = "".join(text_in(element) for element in each(row, "pre"))
    must("waits for `charstring:\"<b>\"`" in text, f"it says {text}")
    for element in row.iter("img"):
        must(NAME_OF_SIGNS.removesuffix(".ttcn") in element.get("alt", ""), f"it is {element.get('alt')}")
    charts = list(it.file("page").rglob("*.svg"))
    must(len(charts) == 7 + 9 + 2, f"there are {len(charts)} charts")
    for chart in charts:
        tags = {element.tag.rpartition("}")[2] for element in xml.parse(chart).iter()}
        must(not tags & {"script", "img", "a", "image"}, f"{chart} has {tags}")


def must_have_policy(page: xml.Element) -> None:
    policy = [it.get("content", "") for it in page.iter("meta") if "http-equiv" in it.keys()]
    must(len(policy) == 1 and policy[0].startswith("default-src 'none'; "), f"it is {policy}")
    for kind in ("style", "script"):
        digest = hashlib.sha256(text_in(each(page, kind)[0]).encode()).digest()
        must(f"{kind}-src 'sha256-{base64.b64encode(digest).decode()}';" in policy[0], f"{kind} isn't allowed")


def page_of_several_runs(it: Suites) -> None:
    both = shlex.quote(str(example("everyone_is_told_to_stop.ttcn").with_suffix(".expected")))
    it.copy("everyone_is_told_to_stop.ttcn", "turns/in_turn.ttcn")
    then = f'echo >>turn; n=$(wc -l <turn); exec cat {both}.$((n % 2 + 1))'
    it.program("in_turn", f'if [ "$1" = run ]; then {then}; fi\nexec {shlex.quote(it.tpr)} "$@"\n')
    with case("a page of several runs has a chart for each report"):
        words = ("turns", "--html", "turns_page", "--times", "5", "--jobs", "1")
        it.run(str(it.file("in_turn")), *words).must_show("; all as expected$")
        page = page_of(it, "turns_page")
        (row,) = rows_of(page)
        wanted = [f"Run {number}: pass, the same in {same} of 5 runs" for number, same in ((1, 3), (2, 2))]
        must_be([text_in(it) for it in each(row, "h2")[:2]], wanted)
        must_be(pictures_of(row), ["run1.pass.svg", "run2.pass.svg", "connections.svg"])
    with case("a page of the next suite has nothing of this one"):
        again = ("again", "--html", "again_page")
        it.copy("else_is_taken_for_a_timeout.ttcn", "again/races.ttcn")
        it.run(it.tpr, *again).must_end(5)
        must(it.file("again_page/races.ttcn/diverging.svg").is_file(), "it isn't drawn")
        it.copy("login_is_answered.ttcn", "again/races.ttcn")
        it.run(it.tpr, *again).must_show("; all as expected$")
        must(not it.file("again_page/races.ttcn/diverging.svg").exists(), "it is still there")


def page_of_rewritten_scripts(it: Suites) -> None:
    it.write("source.ttcn", SOURCE)
    for name in ("a", "b"):
        words = ("source.ttcn", "--case", f"TC_{name}", "-o", f"rewritten/{name}.ttcn")
        it.file("rewritten").mkdir(exist_ok=True)
        run(ROOT / "tools" / "rewrite", *words, folder=it.folder, more={"TPR": it.tpr}).must_end(0)
    with case("a page of scripts that come from one file"):
        it.run(it.tpr, "rewritten", "--html", "rewritten_page").must_end(5)
        page = page_of(it, "rewritten_page")
        lines = {cell(row, "script"): [line[0] for line in unreached_in(row)] for row in rows_of(page)}
        must_be(lines, {"rewritten/a.ttcn": ["11", "12"], "rewritten/b.ttcn": ["10", "11"]})
    with case("and the lines of this file that no script reached"):
        (source,) = each(page, "details", "source")
        told = "source.ttcn, the source of 2 scripts: 1 line that no script reached"
        must_be(text_in(each(source, "summary")[0]), told)
        must_be(unreached_in(source), [["11", "[] p.receive(integer:0) { setverdict(inconc); }", ""]])


def page_of_an_interrupted_suite(it: Suites) -> None:
    it.file("hangs").unlink(missing_ok=True)
    scripts = ("each/passes.ttcn", "each/hangs.ttcn", "each/waits.ttcn")
    words = (*scripts, "--jobs", "1", "--html", "interrupted")
    ended = it.watched(interrupted, it.file("hangs"), SUITE, *words, program=str(it.file("program")))
    with case("a suite with a page that is interrupted"):
        ended.must_show("^status 130$")
    with case("its page"):
        page = page_of(it, "interrupted")
        links_must_hold(page, it.file("interrupted"))
        rows = [(cell(row, "script"), cell(row, "state"), cell(row, "why")) for row in rows_of(page)]
        late = "the suite ended before this script was done"
        late_ones = [(name, "interrupted", late) for name in scripts[1:]]
        must_be(rows, [*late_ones, (scripts[0], "as expected", "")])
        must_be(text_in(each(page, "h1")[0]), "interrupted: 1 of 3 scripts done, none not as expected")


def page_of_many(it: Suites) -> None:
    texts = [example(f"{of}.ttcn").read_text(encoding="ascii") for of in SCRIPTS.values()]
    for number in range(MANY):
        it.write(f"many/part{number // 100}/script_{number:03}.ttcn", texts[number % len(texts)])
    with case("a page of 400 scripts"):
        it.run(it.tpr, "many", "--html", "many_page").must_show(f"^{MANY} scripts: ", 5)
        file = it.file("many_page/index.html")
        page = page_in(file)
        links_must_hold(page, it.file("many_page"))
        must(len(rows_of(page)) == MANY, f"there are {len(rows_of(page))} rows")
        must(file.stat().st_size < MOST_BYTES, f"it has {file.stat().st_size} bytes")
    with case("its states come to all scripts"):
        counts = [int(text_in(label).split()[0]) for label in page.iter("label")]
        must(counts[0] == sum(counts[1:]) == MANY, f"they are {counts}")


def pages_that_cannot_be(it: Suites) -> None:
    script = "each/passes.ttcn"
    it.program("begins", f'if [ "$1" = run ]; then touch began; fi\nexec cat {answer("login_is_answered.expected")}\n')
    for words, said in (
        ("/dev/null/page", "suite: /dev/null/page/passes.ttcn can't be made"),
        ("taken", "suite: taken/index.html can't be written"),
    ):
        it.file("taken/index.html").mkdir(parents=True, exist_ok=True)
        with case(f"a page that can't be written: {words}"):
            it.run(str(it.file("begins")), script, "--html", words).must_say(said, 3)
            must(not it.file("began").exists(), "a script has begun")
    with case("a page on which something can't be shown"):
        it.write("no_script.ttcn", "no script")
        it.run(str(it.file("begins")), "no_script.ttcn", "--html", "not_shown").must_end(1)
        (row,) = rows_of(page_of(it, "not_shown"))
        shown = [text_in(it) for it in row.iter("p") if text_in(it).startswith("Not shown: ")]
        must(len(shown) == 1 and "the script is refused" in shown[0], f"it says {text_in(row)}")
    with case("long texts on a page"):
        it.write("long/long.ttcn", LONG)
        it.run(it.tpr, "long", "--html", "long_page").must_end(5)
        page = page_of(it, "long_page")
        must("and 101 more lines" in text_in(page) and "[cut here]" in text_in(page), "nothing is cut")
        must(it.file("long_page/index.html").stat().st_size < 60_000, "the page is too long")
    with case("a page and a folder of reports"):
        it.run(it.tpr, script, "--html", "a", "--keep", "b").must_complain("^usage: suite", 4)
