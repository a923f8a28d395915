"""A suite as an HTML page, index.html: a row for each script, beginning with those that need attention. A row opens to
show its charts and the reasons of its result.

The charts stay in files of their own, which a browser loads when a row is opened. So the page of many scripts stays
small, and the style of a chart can't affect another one. Everything that comes from a script is escaped, and the page
runs only its own code.
"""
from __future__ import annotations

import base64
import hashlib
import os
from datetime import datetime
from html import escape
from typing import Iterable, NamedTuple, Optional
from urllib.parse import quote

from ..command import write_file
from ..template import Template
from ..words import counted, readable, shown
from .cases import Case
from .junit import SKIPPED, look_whether_written, alone
from .kept import CONNECTIONS, DIVERGING
from .pictures import Lines, in_no_run, in_no_script
from .workers import Run

_TEMPLATE = Template(os.path.join(os.path.dirname(os.path.realpath(__file__)), "page"))
# The longest texts on the page: an order, a reason in its row, the number of lines, and any other text. The files
# beside the page have the whole texts.
_MOST_OF_AN_ORDER, _MOST_IN_A_ROW, _MOST_LINES, _MOST = 2_000, 400, 200, 20_000
# The states of a script, in the order of the rows: the word of the style, and the word for the reader.
_STATES = {
    "unexpected": "unexpected",
    "schedule": "depends on the schedule",
    "refused": "refused",
    "interrupted": "interrupted",
    "expected": "as expected",
}


class _Row(NamedTuple):
    """A case, its state, and its name in links."""

    case: Case
    state: str
    anchor: str


class Page:
    """The file, and the options of the suite."""

    def __init__(self, folder: str, places: list[str]):
        self.folder = folder
        self.file = os.path.join(folder, "index.html")
        self.places = places
        look_whether_written(self.file)

    def write(self, cases: list[Case], began: datetime) -> None:
        taken = {"top"}
        rows = [_Row(case, _state_of(case), alone(_anchor_of(case.script), taken)) for case in cases]
        rows.sort(key=lambda row: list(_STATES).index(row.state))
        style, code = (_TEMPLATE.part(name) for name in ("page.css", "page.js"))
        parts = {
            "title": _title(rows),
            "policy": f"style-src '{_digest(style)}'; script-src '{_digest(code)}'",
            "style": style,
            "code": code,
            "about": self.about(cases, began),
            "states": "\n".join(_choices(rows)),
            "sources": "\n".join(_sources(cases)),
            "rows": "\n".join(self.row(row) for row in rows),
        }
        write_file(self.file, _TEMPLATE.filled("page.html", parts))

    def about(self, cases: list[Case], began: datetime) -> str:
        """The scripts that were run, the time of the start, and the duration."""
        runs, judging = sum(case.seconds() for case in cases), sum(case.judging() for case in cases)
        places = ", ".join(f"<code>{_text(shown(it))}</code>" for it in self.places)
        return f"{places}, started {began:%Y-%m-%d %H:%M:%S}. The runs took {runs:.3f} s, judging them {judging:.3f} s."

    # A script

    def row(self, row: _Row) -> str:
        case = row.case
        schedule = case.schedule()
        cells = {
            "state": _STATES[row.state],
            "script": _name_of(case.script),
            "result": case.worst().result if case.runs else "",
            "verdicts": schedule.answer if schedule is not None else "",
            "time": f"{case.seconds():.3f} s",
            "why": _cut(_reason_of(row), _MOST_IN_A_ROW),
        }
        # A long name may continue on the next line after one of its words.
        texts = {name: _text(cell).replace("_", "_<wbr>") for name, cell in cells.items() if cell}
        summary = " ".join(f'<span class="{name}">{text}</span>' for name, text in texts.items())
        links = f'<p class="links"><a href="#{quote(row.anchor)}">link to this script</a> <a href="#top">to the top</a></p>'
        reason = [f"<p>{_text(_cut(_reason_of(row)))}</p>"] if cells["why"] else []
        more = "\n".join([*reason, *self.parts(case)])
        return (
            f'<details class="row {row.state}" data-state="{row.state}">\n<summary>{summary}</summary>\n'
            f'<div class="more" id="{_text(row.anchor)}">\n{links}\n{more}\n</div>\n</details>'
        )

    def parts(self, case: Case) -> Iterable[str]:
        """The contents of an open row: first the reasons, then what happened, then how the script is built."""
        runs = sorted(case.runs, key=lambda run: run.number)
        if case.is_done and not case.is_wanted() and case.worst().explained:
            yield _pre(case.worst().explained)
        yield from self.schedule(case, runs)
        for run in runs:
            if run.kept:
                yield from self.run(case, run)
        pictured = case.pictures()
        if any(pictures.connections for pictures in pictured):
            yield "<h2>Components and connections</h2>"
            yield self.figure(self.beside(runs, CONNECTIONS), f"Components and connections of {case.name()}")
        if (lines := _lines_of(case)) is not None:
            yield from _unreached(lines, "<h2>Lines that no run reached</h2>")
        yield from (f"<p>Not shown: {_text(told)}</p>" for it in pictured for told in it.failed)

    def schedule(self, case: Case, runs: list[Run]) -> Iterable[str]:
        """The orders, and where the runs diverge; nothing for a verdict that is always the same."""
        schedule = case.schedule()
        if schedule is None or not (schedule.orders or schedule.diverging):
            return
        yield f"<h2>Verdicts: {_text(schedule.answer)}</h2>"
        pictures = runs[0].pictures
        where = (pictures.where if pictures is not None else "") or schedule.diverging
        if where:
            yield _pre(where)
        if pictures is not None and pictures.diverging:
            yield self.figure(self.beside(runs, DIVERGING), f"Runs of {case.name()} that diverge, side by side")
        if schedule.orders:
            orders = "\n".join(_cut(order, _MOST_OF_AN_ORDER) for order in schedule.orders.split("\n"))
            yield f"<p>An order of steps for each verdict:</p>\n{_pre(orders)}"

    def run(self, case: Case, run: Run) -> Iterable[str]:
        """A run whose files are kept; it stands for all runs with the same output."""
        same = sum(it.digest == run.digest for it in case.runs)
        of = f", the same in {same} of {counted(len(case.runs), 'run')}" if len(case.runs) > 1 else ""
        yield f"<h2>Run {run.number}: {_text(run.result)}{of}</h2>"
        files = {file.rpartition(".")[2]: file for file in run.kept}
        if "svg" in files:
            yield self.figure(files["svg"], f"Sequence chart of {case.name()}, run {run.number}: result {run.result}")
        elif "report" in files:
            yield "<p>There is no chart, because no order of this report was found.</p>"
        if "printed" in files:
            yield _pre(run.printed or "Nothing was printed.")
        if run.said:
            yield f"<p>On standard error:</p>\n{_pre(run.said)}"
        links = [f'<a href="{self.link(file)}">{ending}</a>' for ending, file in files.items()]
        yield f'<p class="links">{" ".join(links)}</p>'

    def figure(self, file: str, told: str) -> str:
        """A picture that is loaded when its row is opened. The link shows it alone, with texts that can be searched."""
        link = self.link(file)
        image = f'<img loading="lazy" src="{link}" alt="{_text(shown(told))}">'
        return f'<figure><a href="{link}">{image}</a></figure>'

    def beside(self, runs: list[Run], name: str) -> str:
        """A file of the script's folder."""
        return os.path.join(os.path.dirname(runs[0].kept[0]), name)

    def link(self, file: str) -> str:
        return quote(os.fsencode(os.path.relpath(file, self.folder)))


def _state_of(case: Case) -> str:
    if not case.is_done:
        return "interrupted"
    if case.is_wanted():
        return "expected"
    schedule = case.schedule()
    if schedule is not None and schedule.depends():
        return "schedule"
    return "refused" if case.worst().result == "refused" else "unexpected"


def _name_of(script: str) -> str:
    return shown(os.path.normpath(script))


def _anchor_of(script: str) -> str:
    """The path without the characters that an anchor can't have. It stays the same from one suite to the next."""
    return "_".join(readable(_name_of(script)).split())


def _reason_of(row: _Row) -> str:
    if not row.case.is_done:
        return SKIPPED
    return "; ".join(row.case.told()) or ("" if row.case.is_wanted() else "this result isn't expected")


def _title(rows: list[_Row]) -> str:
    done = [row.state for row in rows if row.case.is_done]
    unlike, of = len(done) - done.count("expected"), counted(len(rows), "script")
    if len(done) < len(rows):
        return f"interrupted: {len(done)} of {of} done, {unlike or 'none'} not as expected"
    return f"{unlike} of {of} not as expected" if unlike else f"{of}, all as expected"


def _choices(rows: list[_Row]) -> Iterable[str]:
    """How many scripts are in each state. A click on one shows only those rows."""
    states = [row.state for row in rows]
    counts = {"all": counted(len(rows), "script")}
    counts.update({state: f"{states.count(state)} {told}" for state, told in _STATES.items() if state in states})
    if states.count("schedule") > 1:
        counts["schedule"] = counts["schedule"].replace("depends", "depend")
    for state, told in counts.items():
        chosen = " checked" if state == "all" else ""
        radio = f'<input type="radio" name="state" value="{state}"{chosen}>'
        yield f'<label class="{state}">{radio} {told}</label>'


def _lines_of(case: Case) -> Optional[Lines]:
    """The lines of a script, with those parts that none of its runs reached; None if there is no report."""
    lines = [it.unreached for it in case.pictures() if it.unreached is not None]
    return in_no_run(lines) if lines else None


def _sources(cases: list[Case]) -> Iterable[str]:
    """For each file that several scripts come from, the lines that none of them reached."""
    known = ((case.pictures()[0].files, lines) for case in cases if (lines := _lines_of(case)) is not None)
    for file, (number, lines) in in_no_script(known).items():
        never = sum(bool(it.never) for it in lines.values())
        about = f"{_text(shown(file))}, the source of {number} scripts: "
        if number > 1 and never:
            yield f'<details class="source"><summary>{about}{counted(never, "line")} that no script reached</summary>'
            yield from [*_unreached(lines), "</details>"]
        elif number > 1:
            yield f'<p class="source">{about}every line was reached</p>'


def _unreached(lines: Lines, heading: str = "") -> Iterable[str]:
    lines = {line: it for line, it in lines.items() if it.never}
    if not lines:
        yield "<p>Every line was reached.</p>"
        return
    yield heading
    rows = []
    for line, unreached in sorted(lines.items())[:_MOST_LINES]:
        text = _text(_cut(unreached.text, _MOST_IN_A_ROW))
        part = "" if unreached.is_whole() else "in part"
        rows.append(f'<tr><th scope="row">{_text(line.short())}</th><td><code>{text}</code></td><td>{part}</td></tr>')
    yield "\n".join(['<table class="lines">', *rows, "</table>"])
    if len(lines) > _MOST_LINES:
        yield f"<p>and {counted(len(lines) - _MOST_LINES, 'more line')}</p>"


def _cut(text: str, most: int = _MOST) -> str:
    return text if len(text) <= most else f"{text[:most]} [cut here]"


def _pre(text: str) -> str:
    # A browser doesn't show a line feed directly after the tag, and so the text may begin with one of its own.
    return f"<pre>\n{_text(_cut(text))}</pre>"


def _text(text: str) -> str:
    return escape(readable(text))


def _digest(part: str) -> str:
    """A hash by which a browser recognises the page's own style and code."""
    return f"sha256-{base64.b64encode(hashlib.sha256(part.encode()).digest()).decode()}"
