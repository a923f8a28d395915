#!/usr/bin/env python3
"""Pages in a real browser, looked at, clicked and typed in: what tools/chart --html makes of reports, and tools/suite
--html of scripts.

    tests/tools/pages.py FOLDER SUITES

FOLDER is for the pages of charts, and SUITES has those of suites (page_suites.py).
"""
import os
import subprocess
import sys
from pathlib import Path

sys.dont_write_bytecode = True

from browser import Browser, program
from tool_calls import ROOT, Group, case, example, must_be, try_groups, words_of
from tpr_tools.chart.page import page_of
from tpr_tools.chart.sequence import sequence_of
from tpr_tools.report.reader import read_report

ALL = "[...document.querySelectorAll('{}')]"
NAMES = ALL.format(".name") + ".map((it) => it.dataset.name).join()"
TEXTS = ALL.format("#view text") + ".map((it) => it.textContent)"
SIGNS = '</script><img src=x onerror=alert(1)> & ""'


def report_of_signs() -> str:
    message = f'charstring:"{SIGNS}"'
    return (
        f"component mtc\nsent a.p 0 {message}\nset fail\nend done\nverdict fail\ncomponent a\n"
        f"took p mtc 0 {message}\nelse\nfailed 41\nend error 41\nverdict error\nresult error\n"
    )


def report_of_many(components: int, rounds: int) -> str:
    """All components send to mtc, which takes the messages in turn, and the last component waits forever."""
    names = [f"c{number}" for number in range(1, components)]
    lines = ["component mtc"]
    for turn in range(rounds):
        lines += [f"took p {name} {turn} integer:{turn}" for name in names]
    lines += ["end done", "verdict none"]
    for name in names:
        lines += [f"component {name}", *(f"sent mtc.p {turn} integer:{turn}" for turn in range(rounds))]
        lines += ["end waiting" if name == names[-1] else "end done", "verdict none"]
    return "\n".join([*lines, "result error", ""])


# The least contrast between a text of the page and its background (WCAG 2.1, 1.4.3, level AA).
LEAST_CONTRAST = 4.5
LOOKS = (Path(__file__).parent / "data" / "looks.js").read_text(encoding="utf-8")
RACES = "each/races.ttcn"


class Pages:
    """The cases, each on a newly opened page."""

    def __init__(self, folder: str, suites: str) -> None:
        self.folder = folder
        self.suites = suites
        self.browser = Browser()

    def page(self, name: str, report: str) -> str:
        """The file of the page for a report, which is given as a file or a text."""
        file = os.path.join(self.folder, f"{name}.html")
        if "\n" not in report:
            report = example(report).read_text(encoding="utf-8")
        words = [os.path.join(ROOT, "tools", "chart"), "--html", "--title", f"{name} <&>"]
        made = subprocess.run(words, input=report.encode(), stdout=subprocess.PIPE, check=True)
        with open(file, "wb") as opened:
            opened.write(made.stdout)
        return file

    def open(self, name: str, report: str) -> str:
        file = self.page(name, report)
        self.open_file(file, "#view path")
        return file

    def open_file(self, file: str, shows: str, place: str = "") -> None:
        self.browser.console.clear()
        self.browser.requests.clear()
        self.browser.open(file, shows, place)

    def case(self, name: str, seen: object, wanted: object) -> None:
        with case(name):
            must_be(seen, wanted)

    def is_quiet(self, name: str, file: str) -> None:
        """The console must be empty, and only the page itself may be requested."""
        self.browser.drawn()
        self.case(f"{name}: the console is empty", self.browser.console, [])
        requests = [it for it in self.browser.requests if it != "about:blank"]
        self.case(f"{name}: nothing is loaded", requests, [f"file://{file}"])

    # The cases

    def elements(self) -> None:
        ask = self.browser.value
        file = self.open("elements", "closed_counter_serves_no_order.expected")
        self.case("the title", ask("document.title + get('title').textContent"), "elements <&>elements <&>")
        self.case("the result", ask("get('result').textContent"), "result pass")
        self.case("the names", ask(NAMES), "mtc,chef")
        kinds = ask("Object.fromEntries(['took', 'found', 'dropped', 'left', 'discarded'].map((kind) => "
                    "[kind, document.querySelectorAll('#view .arrow.' + kind).length]))")
        wanted = {"took": 3, "found": 0, "dropped": 0, "left": 1, "discarded": 0}
        self.case("an arrow for each message", kinds, wanted)
        shown = ask(f"['halted counter', 'else', 'set pass', 'end done'].every((text) => {TEXTS}.includes(text))")
        self.case("what each does by itself", shown, True)
        off = ALL.format("#jumps button") + ".filter((it) => it.disabled).map((it) => it.textContent).join()"
        self.case("only what there is can be jumped to", ask(off), "set fail,failed,end waiting,dropped")
        self.is_quiet("elements", file)

    def hiding(self) -> None:
        ask, browser = self.browser.value, self.browser
        file = self.open("hiding", "everyone_is_told_to_stop.expected.1")
        rows = ask("state.rows.length")
        browser.click_on(".name[data-name=north] .hide")
        self.case("hiding hides the life line", ask(NAMES), "mtc,south")
        fewer = ask(f"0 < state.rows.length && state.rows.length < {rows}")
        self.case("hiding keeps rows of others", fewer, True)
        named = ask(f"{TEXTS}.some((text) => /(to|from) north/.test(text))")
        self.case("what goes to a hidden component names it", named, True)
        browser.click_on("#list")
        browser.click_on("#components li:nth-child(2) input")
        self.case("it is shown again", ask(NAMES + " + state.rows.length"), f"mtc,north,south{rows}")
        browser.click_on(".name[data-name=mtc] button[title$=right]")
        self.case("another order", ask(NAMES), "north,mtc,south")
        wide = ask("state.width")
        browser.click_on(".name[data-name=mtc] .fold")
        self.case("folding makes a life line narrow", ask(f"state.width < {wide} && state.folded.size"), 1)
        browser.click_on(".name[data-name=mtc] .fold")
        self.case("and unfolding wide", ask("state.width"), wide)
        self.is_quiet("hiding", file)

    def choosing(self) -> None:
        ask, browser = self.browser.value, self.browser
        file = self.open("choosing", "orders_of_two_senders_and_a_halt.expected.3")
        place = ask("told.rows.findIndex((row) => row[0] === 0 && row[2] === '')")
        box = ask("((box) => [box.left, box.top])(scroll.getBoundingClientRect())")
        browser.click(box[0] + 300, box[1] + 26 * place + 13)
        said = ask("panel.innerText.replace(/\\s+/g, ' ')")
        for part in ("message 0 from a to o.p", "integer:1", "from a", "to o, port p", "sent row 1 report line",
                     "took row 4 report line"):
            self.case(f"a click shows '{part}'", part in said, True)
        self.case("its other end is marked", ask("document.querySelectorAll('.band.other').length"), 1)
        browser.key("Enter")
        self.case("Enter goes to the other end", ask("state.chosen"), 3)
        browser.key("ArrowUp")
        self.case("up", ask("get('told').textContent"), "row 3: o: halted p")
        browser.key("Escape")
        self.case("Escape closes", ask("panel.hidden"), True)
        self.is_quiet("choosing", file)

    def script_lines(self) -> None:
        """If the lines of the script are known, they are shown beside those of the report."""
        report = example("login_is_answered.expected").read_bytes()
        sequence = sequence_of(read_report(report), "script")
        file = os.path.join(self.folder, "script.html")
        with open(file, "w", encoding="utf-8") as opened:
            opened.write(page_of(sequence, {2: "line 19"}))
        self.browser.open(file)
        self.browser.key("ArrowDown")
        self.case("a line of the script", "report line 2, script line 19" in
                  self.browser.value("panel.innerText"), True)

    def searching(self) -> None:
        ask, browser = self.browser.value, self.browser
        file = self.open("searching", report_of_signs())
        self.case("signs are no elements", ask("document.querySelectorAll('img, #view img').length"), 0)
        browser.key("/")
        browser.write("ONERROR")
        self.case("search finds", ask("get('found').textContent"), "1 row")
        browser.key("Enter")
        self.case("and goes there", ask("[get('found').textContent, state.chosen].join()"), "1 of 1,0")
        self.case("the message is whole", ask("panel.querySelector('pre').textContent"), f'charstring:"{SIGNS}"')
        browser.click_on("#words")
        browser.value("get('words').value = ''")
        browser.write("nowhere")
        self.case("what isn't there isn't found", ask("get('found').textContent"), "nothing")
        browser.key("Escape")
        for key, wanted in (("f", "mtc: set fail"), ("e", "a: failed 41 NoRoute"), ("o", "a: else")):
            browser.key(key)
            self.case(f"{key} goes to {wanted}", ask("get('told').textContent.replace(/^row \\d+: /, '')"), wanted)
        self.is_quiet("searching", file)

    def many(self) -> None:
        ask, browser = self.browser.value, self.browser
        file = self.open("many", report_of_many(62, 410))
        self.case("many rows", ask("told.rows.length"), 61 * 410)
        self.case("few are drawn", ask("document.querySelectorAll('#view *').length < 1500"), True)
        browser.value("scroll.scrollTop = 20000 * ROW")
        browser.drawn()
        self.case("as one scrolls", ask(f"{TEXTS}.includes('20003')"), True)
        above = "document.elementFromPoint(200, get('names').getBoundingClientRect().top + 12)"
        self.case("names stay in sight", ask(f"{above}.closest('.name') !== null"), True)
        took = ask("(() => { const began = performance.now(); for (let turn = 0; turn < 50; turn++) "
                   "{ scroll.scrollTop = turn * 9000; drawNow(); } return (performance.now() - began) / 50; })()")
        self.case("a window is drawn in 100 milliseconds", took < 100 or took, True)
        browser.key("w")
        self.case("the one that waits", ask("panel.querySelector('h2').textContent"), "c61")
        visible = ask("((box) => box.left >= 0 && box.right <= innerWidth)"
                      "(document.querySelector('.name[data-name=c61]').getBoundingClientRect())")
        self.case("it is in sight", visible, True)
        browser.key("/")
        browser.write("c7 #409")
        browser.value("search('c7')")
        took = ask("(() => { const began = performance.now(); search('c7 '); return performance.now() - began; })()")
        self.case("a search in a second", took < 1000 or took, True)
        self.is_quiet("many", file)


    # The pages of suites

    def open_suite(self, name: str, place: str = "") -> str:
        file = os.path.join(self.suites, name, "index.html")
        self.open_file(file, ".row", place)
        self.browser.value(LOOKS)
        return file

    def suite(self) -> None:
        ask, browser = self.browser.value, self.browser
        file = self.open_suite("page")
        self.is_quiet("a suite", file)
        for scheme in ("light", "dark"):
            self.is_seen(scheme)
        browser.look(1280, 800)
        browser.click_on("label.schedule")
        self.case("a state is chosen", ask("shownRows().map((row) => row.dataset.state).join()"), "schedule")
        self.case("and counted", ask("document.getElementById('told').textContent"), "1 of 10 shown")
        browser.key("Escape")
        browser.key("/")
        browser.write("ERROR waits")
        self.case("a text is looked for", ask("shownRows().length"), 2)
        browser.key("Escape")
        self.case("all are shown again", ask("shownRows().length"), 10)
        self.opened_rows()
        for place in ("#nowhere", "#%"):
            self.open_suite("page", place)
            self.case(f"a link to nowhere: {place}", ask("rows.some((row) => row.open)"), False)
            self.case(f"{place}: the console is empty", browser.console, [])

    def is_seen(self, scheme: str) -> None:
        """At two widths: nothing is cut off on the right, and each text is readable."""
        ask, browser = self.browser.value, self.browser
        for width in (1280, 400):
            ask("rows.forEach((row) => { row.open = true; })")
            browser.look(width, 800, scheme)
            fits = ask("document.documentElement.scrollWidth <= innerWidth")
            self.case(f"{scheme}, {width} wide: no wider", fits, True)
            self.case(f"{scheme}, {width} wide: no cells touch", ask("rowsOfTouchingCells()"), [])
            worst = ask("contrastsOfTexts()")[0]
            self.case(f"{scheme}, {width} wide: contrast", worst[0] >= LEAST_CONTRAST or worst, True)
            browser.picture(os.path.join(self.folder, f"suite_{scheme}_{width}.png"))
        ask("rows.forEach((row) => { row.open = false; })")

    def opened_rows(self) -> None:
        ask, browser = self.browser.value, self.browser
        ask("document.querySelector('.row summary').focus()")
        browser.key("Enter")
        self.case("Enter opens a row", ask("rows.map((row) => row.open).indexOf(true)"), 0)
        self.open_suite("page", f"#{RACES}")
        self.case("a link opens its row", ask("document.querySelector('.row[open] .script').textContent"), RACES)
        self.case("and brings it in sight", ask("isOpenRowInSight()"), True)
        all_loaded = ("Promise.all([...document.querySelectorAll('.row[open] img')].map((image) => "
                      "{ image.loading = 'eager'; return image.decode().then(() => image.naturalWidth > 100); }))")
        self.case("its pictures are loaded", ask(all_loaded), [True] * 3)
        loaded = [it.rpartition("/")[2] for it in browser.requests if "index.html" not in it and it != "about:blank"]
        self.case("and those of no other", sorted(loaded), ["connections.svg", "diverging.svg", "run1.fail.svg"])
        browser.click_on("label.refused")
        ask("location.hash = '#each/passes.ttcn'")
        browser.drawn()
        open_rows = ask("rows.filter((row) => row.open && !row.hidden).length")
        self.case("a link to a row that is hidden shows it", open_rows, 2)
        self.case("opened rows: the console is empty", browser.console, [])

    def without_code(self) -> None:
        """Without scripts, the browser itself opens the row that a link names."""
        ask, browser = self.browser.value, self.browser
        browser.ask("Emulation.setScriptExecutionDisabled", value=True)
        self.open_suite("page", f"#{RACES}")
        self.case("without code: all rows", ask("document.querySelectorAll('.row').length"), 10)
        self.case("without code: no filter", ask("document.querySelector('.filter').checkVisibility()"), False)
        script = ask("document.querySelector('.row[open] .script').textContent")
        self.case("without code: a link opens its row", script, RACES)
        browser.ask("Emulation.setScriptExecutionDisabled", value=False)

    def many_scripts(self) -> None:
        ask = self.browser.value
        file = self.open_suite("many_page")
        self.is_quiet("400 scripts", file)
        took = ask("(() => { const began = performance.now(); words.value = 'script_39'; filter(); "
                   "document.body.offsetHeight; return performance.now() - began; })()")
        self.case("they are filtered in half a second", took < 500 or took, True)
        self.case("and ten are left", ask("shownRows().length"), 10)


def main() -> int:
    if program() is None:
        print("left out charts and suites as pages: there is no chromium")
        return 0
    pages = Pages(*(os.path.abspath(it) for it in words_of(__doc__, "FOLDER", "SUITES")))
    of_charts = ((pages.elements, 8), (pages.hiding, 9), (pages.choosing, 12), (pages.script_lines, 1))
    of_large_charts, of_suites = ((pages.searching, 10), (pages.many, 10)), ((pages.suite, 29), (pages.without_code, 3))
    groups = (*of_charts, *of_large_charts, *of_suites, (pages.many_scripts, 4))
    try:
        return try_groups(Group(it, least, it.__name__) for it, least in groups)
    finally:
        pages.browser.end()


if __name__ == "__main__":
    sys.exit(main())
