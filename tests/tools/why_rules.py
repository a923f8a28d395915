"""Rules for the output of tools/why for reports, compared with the model of runs in tools/tpr_tools/model, which shares
only the reader of scripts with it, and with files worked out by hand. why_cases.py uses these rules."""
from __future__ import annotations

import os
import random
import re
import subprocess
from collections.abc import Iterable, Sequence
from typing import NamedTuple, Optional

from generator import some_script
from judge import run_of
from tool_calls import Wrong, must
from tpr_tools.explore.placed import Placed
from tpr_tools.model.bodies import TestCase, Tried
from tpr_tools.model.reading import Reader
from tpr_tools.model.run import Act, Message, Run
from tpr_tools.model.tree import Control, Guard, Setverdict, Variable
from tpr_tools.report.reader import read_report
from tpr_tools.report.report import NotAReport
from tpr_tools.script.case import Case
from tpr_tools.script.checks import check_script
from tpr_tools.script.tokens import Text
from tpr_tools.why.listed_ways import listing_of
from tpr_tools.why.reasons import reasons_of
from tpr_tools.why.walk import DoesNotFit
from tpr_tools.why.ways import Ways

RECEIVED = ("took", "found", "dropped", "left")


# The lines of statements, receiving operations and `[else]`, by their objects in the model.
Lines = dict[object, int]
# A message by its receiver, its port, its sender and its number.
Key = tuple[str, str, str, int]


class ModelRow(NamedTuple):
    """For an entry of the model's report: its line in the script, and that of the message's other end."""

    text: str
    line: Optional[int]
    other: str


class ToolRow(NamedTuple):
    """The same from the tool, with its arrow. The other end may be one of several lines."""

    text: str
    line: Optional[int]
    arrow: str
    other: str


class LinedRun(Run):
    """A run of the model in which each line of the report knows its line in the script."""

    def __init__(self, case: TestCase, lines: Lines):
        self.lines = lines
        self.guard: Optional[Guard] = None
        self.discarded: dict[Key, int] = {}
        super().__init__(case)

    def copy(self) -> LinedRun:
        other = super().copy()
        assert isinstance(other, LinedRun)
        other.discarded = self.discarded.copy()
        return other

    def wants(self, who: int, guard: Guard, top: Message) -> bool:
        self.guard = guard
        return super().wants(who, guard, top)

    def carry_out(self, who: int, statement: Variable | Setverdict | Control) -> None:
        if isinstance(statement, Control) and statement.operation in ("start", "clear"):
            for port in self.case.bodies[who].ports if statement.port is None else (statement.port,):
                for it in self.components[who].ports[port].queue:
                    key = self.case.names[who], port, self.case.names[it.sender], it.number
                    self.discarded[key] = self.lines[id(statement)]
        super().carry_out(who, statement)

    def act(self, who: int) -> Act:
        statement, lines = self.statement(who), self.components[who].lines
        before = len(lines)
        made = super().act(who)
        for place in range(before, len(lines)):
            lines[place] = Placed(lines[place], self.line_of(statement, lines[place]))
        return made

    def line_of(self, statement: object, text: str) -> int:
        if not isinstance(statement, Tried):
            return self.lines[id(statement)]
        return self.lines["else", id(statement.choice)] if text == "else" else self.lines[id(self.guard)]

    def line_of_wait(self, who: int) -> Optional[int]:
        statement = self.statement(who)
        return None if statement is None else self.lines[id(statement.choice)]


def lined_case(text: str) -> tuple[TestCase, Lines]:
    """A script of the model, and the lines of its statements."""
    read = Text(text.encode("latin-1"))
    reader = Reader(read)
    return TestCase(reader.script), {node: read.lines[place] for node, place in reader.places.items()}


def run_by_chance(run: LinedRun, chance: random.Random) -> LinedRun:
    """Random acts to the end."""
    while True:
        living = [who for who in range(len(run.components)) if run.statement(who) is not None]
        chance.shuffle(living)
        if all(run.act(who) is Act.WAITS for who in living):
            return run


def rows_of_model(run: LinedRun) -> list[ModelRow]:
    """For each entry, and each message that is left, its line and that of the message's other end."""
    sent: dict[Key, int] = {}
    gone = dict(run.discarded)
    for name, component in zip(run.case.names, run.components):
        for line in component.lines:
            word, *rest = line.split(" ", 3)
            if word == "sent":
                receiver, port = rest[0].split(".")
                sent[receiver, port, name, int(rest[1])] = line_in_script(line)
            elif word in ("took", "dropped"):
                gone[name, rest[0], rest[1], int(rest[2].split(" ")[0])] = line_in_script(line)
    rows: list[ModelRow] = []
    for who, (name, component) in enumerate(zip(run.case.names, run.components)):
        for line in component.lines:
            rows.append(ModelRow(line, line_in_script(line), other_end(name, line, sent, gone)))
        if run.line_of_wait(who) is not None:
            rows.append(ModelRow("end waiting", run.line_of_wait(who), ""))
        left = [line for line in run.lines_of(who) if line.startswith("left ")]
        rows += [ModelRow(line, None, other_end(name, line, sent, gone)) for line in left]
    return rows


def line_in_script(line: str) -> int:
    """The line in the script that the run stored for a line of a history."""
    assert isinstance(line, Placed), line
    return line.line


def other_end(name: str, line: str, sent: dict[Key, int], gone: dict[Key, int]) -> str:
    word, *rest = line.split(" ", 4)
    if word == "sent":
        receiver, port = rest[0].split(".")
        return str(gone.get((receiver, port, name, int(rest[1])), "left"))
    if word in RECEIVED:
        return str(sent[name, rest[0], rest[1], int(rest[2])])
    return ""


# The tool's lines


def ways_of(script: bytes, report: bytes) -> Ways:
    text = Text(script)
    return Ways(Case(text, check_script(text)), read_report(report))


def rows_of_tool(script: bytes, report: bytes) -> list[ToolRow]:
    """For each line of the report its line in the script, and the text for the message's other end."""
    listed = listing_of(ways_of(script, report)).splitlines()[1:]
    lines = report.decode("latin-1").splitlines()
    must(len(listed) == len(lines), "there isn't a line for each of the report")
    rows: list[ToolRow] = []
    for told, line in zip(listed, lines):
        must(told.endswith(f"  {line}"), f"{told!r} isn't of {line!r}")
        found = re.fullmatch(r" *([0-9]*) *(->|<-|) *(.*?) *", told[: len(told) - len(line)])
        assert found is not None, told
        rows.append(ToolRow(line, int(found[1]) if found[1] else None, found[2], found[3]))
    return rows


def same_rows(told: Sequence[ToolRow], modelled: Sequence[ModelRow]) -> None:
    """The lines must be the same. If several lines may have discarded a message, one of them must be the model's."""
    told = [row for row in told if is_modelled(row)]
    must(len(told) == len(modelled), "the entries aren't those of the model")
    for (text, line, arrow, other), (model_text, model_line, model_other) in zip(told, modelled):
        must(text == model_text, f"{text!r} is {model_text!r} in the model")
        must(line == model_line, f"{text!r} is of line {model_line}, and {line} is told")
        must(model_other in other.split(" or "), f"the other end of {text!r} is {model_other}, and {other} is told")
        must(arrow == {"sent": "->"}.get(text.split(" ")[0], "<-" if model_other else ""), f"{text!r}: {arrow}")


def is_modelled(row: ToolRow) -> bool:
    text = row.text
    return not text.startswith(("component ", "verdict ", "result ")) and text != "end done" and "end error" not in text


# The rules


def example_rule(file: str) -> None:
    """The lines of the report are those of some run of the model with this report."""
    with open(script_of(file), "rb") as opened:
        script = opened.read()
    with open(file, "rb") as opened:
        report = opened.read()
    case, lines = lined_case(script.decode("latin-1"))
    run = run_of(LinedRun(case, lines), report.decode("latin-1"))
    if not isinstance(run, LinedRun):
        raise Wrong(f"{file}: the model has no such run")
    same_rows(rows_of_tool(script, report), rows_of_model(run))


def script_of(report: str) -> str:
    return re.sub(r"\.expected(\.[0-9]+)?$", ".ttcn", report)


def random_rule(number: int, seed: int = 1) -> None:
    """The same for the reports of this many random scripts. No report may fit its script any more if the script lacks a
    statement that did something."""
    chance = random.Random(seed)
    entries = discarded = lacking = 0
    for turn in range(number):
        text = some_script(chance)
        case, lines = lined_case(text)
        run = run_by_chance(LinedRun(case, lines), chance)
        rows = rows_of_model(run)
        entries, discarded = entries + len(rows), discarded + len(run.discarded)
        try:
            same_rows(rows_of_tool(text.encode(), run.report().encode()), rows)
            lacking += without_a_statement(text, run.report(), rows, chance)
        except (Wrong, NotAReport, DoesNotFit) as wrong:
            raise Wrong(f"script {turn} of seed {seed}: {wrong!r}\n{text}\n{run.report()}") from None
    done = min(entries // 10, 10 * discarded, 2 * lacking)
    must(done >= number, f"too little was done: {entries}, {discarded} and {lacking}")


DOES = re.compile(r" *([pq]\.send\(.*|([pq]|all port)\.(start|stop|halt|clear);|setverdict\(.*)")


def without_a_statement(text: str, report: str, rows: Iterable[ModelRow], chance: random.Random) -> bool:
    """Whether there was a statement to leave out that did something."""
    lines = text.split("\n")
    done = {it.line for it in rows if it.line and not it.text.startswith("failed ")}
    done = {line for line in done if DOES.fullmatch(lines[line - 1])}
    if not done:
        return False
    left_out = chance.choice(sorted(done))
    lines[left_out - 1] = ""
    try:
        ways_of("\n".join(lines).encode(), report.encode())
    except DoesNotFit:
        return True
    raise Wrong(f"without line {left_out} the report fits still")


EMPTYING = """module M {
  type port P message { inout integer; }
  type component C { port P p, q; }
  function f() runs on C {
    %s
  }
  function g() runs on C {
    %s
  }
  testcase t() runs on C {
    var C a := C.create; var C b := C.create;
    connect(self:p, a:p); connect(self:q, a:q); connect(b:p, a:p); connect(b:q, self:p);
    a.start(f()); b.start(g());
    %s
    all component.done;
  }
}
"""
LOOKS = ("alt { [] p.receive { } [else] { } }", "alt { [] p.check(receive) { } [else] { } }")
EMPTIES = ("p.clear;", "p.clear;", "p.start;", "p.halt;", "q.send(integer:1);", "q.receive;", *LOOKS)
ANSWERS = ("p.send(integer:1) to a;", "q.receive;", "q.send(integer:3);")
TO_A = ("p.send(integer:1) to a;", "p.send(integer:2) to a;")
SENDS = (*TO_A, "q.receive;", "q.send(integer:3);", "p.send(integer:4) to b;")
# Known because of another message that was taken, and because of one that depends on the send.
KNOWN = (
    (f"p.clear; {LOOKS[0]} p.clear;", "q.receive; p.send(integer:1) to a;", f"{SENDS[1]} {SENDS[4]}"),
    ("q.receive; p.clear; p.clear;", "", f"{SENDS[0]} {SENDS[3]}"),
)


def discarded_rule(number: int) -> None:
    """For this many small scripts with clears and starts, all runs are tried: the lines for each discarded message must
    be those that discard it in some run with the same report."""
    chance = random.Random(7)
    told = [0, 0]  # those with a known emptying, and those for which it is open
    for turn in range(number):
        picked = [chance.choices(kinds, k=count) for kinds, count in ((EMPTIES, 4), (ANSWERS, 2), (SENDS, 3))]
        blocks = KNOWN[turn] if turn < len(KNOWN) else map(" ".join, picked)
        text = EMPTYING % tuple(block.replace("; ", ";\n    ") for block in blocks)
        for report, discarded in discarded_in_runs(*lined_case(text)).items():
            ways = ways_of(text.encode(), report.encode())
            for message in ways.deliveries.messages:
                lines = {line.number for line in ways.lines_gone(message)}
                route = message.route
                wanted = discarded.get((route.receiver, route.port, route.sender, message.number), lines)
                must(lines == wanted, f"{message.told()}: {lines} are told, and it was {wanted}\n{text}\n{report}")
                told[len(wanted) > 1] += message.fate == "discarded"
    must(min(told) >= number, f"too little was discarded: {told}")


def discarded_in_runs(case: TestCase, lines: Lines) -> dict[str, dict[Key, set[int]]]:
    """For each report, the lines that discard each message in some run with this report."""
    seen: set[object] = set()
    found: dict[str, dict[Key, set[int]]] = {}
    open_runs = [LinedRun(case, lines)]
    while open_runs:
        run = open_runs.pop()
        if (key := repr((run.components, sorted(run.discarded.items())))) in seen:
            continue
        seen.add(key)
        living = [who for who in range(len(run.components)) if run.statement(who) is not None]
        tried = [(after := run.copy(), after.act(who)) for who in living]
        open_runs += [after for after, act in tried if act is not Act.WAITS]
        if all(act is Act.WAITS for _, act in tried):
            of_report = found.setdefault(run.report(), {})
            for message, line in run.discarded.items():
                of_report.setdefault(message, set()).add(line)
    return found


def table_rule(table: str, *reports: str) -> None:
    """The lines of each report are those of the table, which has the name of a report in each odd line, and the text
    for its lines in the next one."""
    with open(table, encoding="ascii") as opened:
        rows = [line for line in opened.read().splitlines() if line and not line.startswith("#")]
    files = {os.path.basename(file): file for file in reports}
    must(len(rows) >= 38, "the table has 19 reports")
    for name, wanted in zip(rows[::2], rows[1::2]):
        with open(script_of(files[name]), "rb") as script, open(files[name], "rb") as report:
            told = [in_short(row) for row in rows_of_tool(script.read(), report.read())]
        must(told == wanted.split(), f"{name}: {' '.join(told)}\nand by hand: {wanted}")


def in_short(row: ToolRow) -> str:
    """`24>9`, `9<24`, `<26`, `10`, or `-` for a line without a number."""
    _, line, arrow, other = row
    sign = {"->": ">", "<-": "<", "": ""}[arrow]
    return f"{line or ''}{sign}{other.replace(' or ', '|')}" or "-"


def cause_rule(program: str, script: str) -> None:
    """The reasons why the result isn't pass are those in NAME.why: for the report in NAME.expected, or for a run if
    there is none."""
    base = script.removesuffix(".ttcn")
    with open(script, "rb") as opened, open(f"{base}.why", encoding="ascii") as why:
        text, wanted = opened.read(), why.read()
    if os.path.exists(f"{base}.expected"):
        with open(f"{base}.expected", "rb") as opened:
            report = opened.read()
    else:
        report = subprocess.run([program, "run", script], stdout=subprocess.PIPE, check=True).stdout
    told = reasons_of(ways_of(text, report))
    must(told == wanted, f"{script}:\n{told}and by hand:\n{wanted}")
