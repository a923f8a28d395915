"""Tests tools/rewrite with the tables and scripts in tests/rewrites/.

    tests/rewrites/rewrite_rules.py PROGRAM PART

PART is `table`, `natural`, `timed`, `same`, `broken`, `listed`, `lines`, `rows`, `faults` or `instead`. It prints a
line `passed ..` or `FAILED: ..` for each case.
"""
from __future__ import annotations

import argparse
import ast
import glob
import json
import os
import random
import re
import resource
import shutil
import subprocess
import sys
import tempfile
from collections import Counter
from concurrent.futures import ThreadPoolExecutor
from typing import NamedTuple
from unittest.mock import patch

sys.path.insert(0, os.path.dirname(os.path.realpath(__file__)))

from asking import EXPLAIN, FOLDER, PRELUDE, REWRITE, ROOT, TOOLS, Ended, carried, failed, judged, run
from tpr_tools.rewrite.rewriting import rewrite
from tpr_tools.rewrite.run import Options, Reading
from tpr_tools.rewrite.sorting import MOST_OF_TREE
from tpr_tools.rewrite.tokens import Source

SECONDS_OF_LARGE = 5.0
# The options for the kinds of entries in the table; other kinds have none.
KINDS = {
    "encoded": Options(encodes=True),
    "not encoded": Options(encodes=True),
    "queued": Options(queues_ended=True),
    "never": Options(timers=Reading.NEVER),
    "never refused": Options(timers=Reading.NEVER),
    "any": Options(timers=Reading.ANY),
    "any refused": Options(timers=Reading.ANY),
}


class Case(NamedTuple):
    name: str
    script: str
    kind: str
    wanted: list[str]


def cases() -> list[Case]:
    with open(f"{FOLDER}/table", encoding="utf-8") as opened:
        entries = opened.read().split("=== ")[1:]
    found: list[Case] = []
    for entry in entries:
        name, _, rest = entry.partition("\n")
        body, _, behind = rest.partition("--- ")
        kind, _, wanted = behind.partition("\n")
        found.append(Case(name, PRELUDE + body + "}\n", kind, wanted.splitlines()))
    return found


def table(program: str) -> None:
    """Each entry becomes the expected script, or is refused for the expected reasons and no others."""
    seen: set[str] = set()
    with tempfile.TemporaryDirectory() as folder:
        for case in cases():
            if case.name != os.environ.get("ENTRY", case.name):
                continue
            if case.script in seen:
                failed(case.name, "another entry has the same script")
            seen.add(case.script)
            file = f"{folder}/t.ttcn"
            with open(file, "w", encoding="utf-8") as opened:
                opened.write(case.script)
            is_of_tool, options = case.kind == "checked", KINDS.get(case.kind, Options())
            # Each script is then treated as a large one, so that its paths are sorted.
            least = 0 if case.kind == "sorted" else MOST_OF_TREE
            with patch("tpr_tools.rewrite.run.MOST_OF_TREE", least):
                tool = run(REWRITE, "--tpr", program, file) if is_of_tool else carried(program, file, case.script, options)
            look_at(case, file, tool)


def look_at(case: Case, file: str, ended: Ended) -> None:
    if case.kind in ("becomes", "queued", "never", "any", "sorted"):
        found = body_of(ended.printed)
        judged(case.name, ended.status == 0 and found == case.wanted, f"{ended.said}{found}")
    elif case.kind == "encoded":
        found = [*types_of(ended.printed), *body_of(ended.printed)]
        judged(case.name, ended.status == 0 and found == case.wanted, f"{ended.said}{found}")
    elif case.kind.endswith("refused") or case.kind == "not encoded":
        found = [line.removeprefix(f"{file}:").replace(": ", " ", 1) for line in ended.said.splitlines()]
        is_so = (ended.status, ended.printed, found) == (2, "", case.wanted)
        judged(case.name, is_so, f"status {ended.status}: {found}")
    else:
        told = [line for line in ended.said.splitlines() if not line.startswith("  instead: ")]
        found = [line.removeprefix(f"rewrite: {file}:").replace(": ", " ", 1) for line in told]
        judged(case.name, (ended.status, found) == (2, case.wanted), f"status {ended.status}: {found}")


def body_of(text: str) -> list[str]:
    """The functions and the test case, without the comments after the lines."""
    lines = [re.sub(r" *// [0-9]+$", "", line).strip() for line in text.splitlines()]
    begin = next((number for number, line in enumerate(lines) if line.startswith(("function", "testcase"))), 0)
    return lines[begin:-1]


def types_of(text: str) -> list[str]:
    """The types of messages that don't belong to the prelude."""
    lines = [re.sub(r" *// [0-9]+$", "", line).strip() for line in text.splitlines()]
    found = [line for line in lines if line.startswith("type record")]
    return [line for line in found if line.split()[2] != "Order" and not line.endswith(" L;")]


def natural(program: str) -> None:
    """Scripts as engineers write them: each is carried over and accepted, and has the verdict `pass` of its author."""
    for script in sorted(glob.glob(f"{FOLDER}/natural/*.ttcn") + glob.glob(f"{FOLDER}/encoded/*.ttcn")):
        name = os.path.basename(script)
        option = ["--encode"] if script.startswith(f"{FOLDER}/encoded/") else []
        refused = run(program, "check", script)
        judged(f"{name} isn't one of the profile", refused.status == 2, refused.printed)
        with tempfile.TemporaryDirectory() as folder:
            output = f"{folder}/{name}"
            ended = run(REWRITE, "--tpr", program, script, "-o", output, *option)
            if ended.status != 0:
                failed(name, ended.said)
                continue
            report = run(program, "run", output)
            judged(name, report.printed.endswith("\nresult pass\n"), report.printed)
            judged(f"the map of {name}", is_map(script, output), "it isn't of the script")
    several_modules(program)
    held_back(program)
    told_besides(program)


def held_back(program: str) -> None:
    """A natural script that isn't carried over: each reason is followed by what to do instead."""
    ended = run(REWRITE, "--tpr", program, f"{FOLDER}/held_back/accounts_of_a_bank.ttcn")
    lines = ended.said.splitlines()
    is_so = ended.status == 2 and "no time in a run" in lines[0] and lines[1].startswith("  instead: give --timers=both")
    judged("a guard timer is refused, with what to do instead", is_so, ended.said)


def timed(program: str) -> None:
    """Scripts with timers, in both readings: the first line of each has the expected verdicts."""
    for script in sorted(glob.glob(f"{FOLDER}/timed/*.ttcn")):
        name = os.path.basename(script)
        with open(script, encoding="utf-8") as opened:
            wanted = opened.readline().removeprefix("// ")
        with tempfile.TemporaryDirectory() as folder:
            ended = run(REWRITE, "--tpr", program, "--timers=both", script, "-o", f"{folder}/{name}")
            judged(name, (ended.status, ended.printed) == (0, wanted), ended.printed + ended.said)
            stem = name.removesuffix(".ttcn")
            files = sorted(os.listdir(folder))
            written = [f"{stem}.{reading}.ttcn{ending}" for reading in ("any", "never") for ending in ("", ".map")]
            judged(f"what is written of {name}", files == written, f"{files}")
    refused = run(REWRITE, "--tpr", program, "--timers=both", f"{FOLDER}/listed/compatible.ttcn")
    both = "rewrite: this was refused with --timers=never and --timers=any\n"
    is_so = refused.status == 2 and refused.said.endswith(both) and refused.said.count("rewrite: ") == 1
    judged("both readings are refused", is_so, refused.said)
    one_reading(program)


def one_reading(program: str) -> None:
    """A script that only one reading refuses: the other script is written, and the line names both."""
    text = PRELUDE + """testcase t() runs on C { timer t_guard := 1.0; connect(self:p, self:q); t_guard.start; p.send(1);
alt { [] q.receive(integer:1) { if (t_guard.running) { setverdict(pass); } } [] t_guard.timeout { setverdict(fail); } } }
}
"""
    with tempfile.TemporaryDirectory() as folder:
        file = f"{folder}/t.ttcn"
        with open(file, "w", encoding="utf-8") as opened:
            opened.write(text)
        ended = run(REWRITE, "--tpr", program, "--timers=both", file, "-o", f"{folder}/out.ttcn")
        files = sorted(os.listdir(folder))
    wanted = "always pass if no timer expires; refused if timers may expire\n"
    reasons = ended.said.splitlines()
    has_reason = reasons[0].startswith(f"{file}:3:45: whether this timer still runs is open here")
    is_told = has_reason and reasons[-1] == "rewrite: this was refused with --timers=any"
    judged("one reading is refused", (ended.status, ended.printed) == (5, wanted), ended.printed + ended.said)
    judged("which reading is refused, and why", is_told, ended.said)
    judged("the other reading is written", files == ["out.never.ttcn", "out.never.ttcn.map", "t.ttcn"], f"{files}")


def told_besides(program: str) -> None:
    """Notes about scripts that are carried over: a backslash, once, and each send to a possibly ended component."""
    text = PRELUDE + """function f() runs on C { p.receive(charstring:"x"); }
testcase t() runs on C { var C a := C.create; connect(self:p, a:p); a.start(f()); p.send("x"); p.send("a\\b"); p.send("c\\d"); a.done; }
}
"""
    with tempfile.TemporaryDirectory() as folder:
        file = f"{folder}/t.ttcn"
        with open(file, "w", encoding="utf-8") as opened:
            opened.write(text)
        ended = run(REWRITE, "--tpr", program, "--ended=queued", file)
    said = [line.removeprefix(f"{file}:").split(": ", 1) for line in ended.said.splitlines()]
    is_once = sum("a backslash in a text" in line[1] for line in said) == 1
    queued = [line[0] for line in said if line[1].endswith("(--ended=queued)")]
    judged("a backslash is told of once", ended.status == 0 and is_once, ended.said)
    notes = rewrite([Source("t", f'{PRELUDE}testcase t() runs on C {{ p.receive(charstring:pattern "x\\?"); }} }}'.encode())]).notes
    judged("a backslash in a pattern isn't told of", not notes, f"{notes}")
    judged("each send to what may have ended is told of", queued == ["3:98", "3:113"], ended.said)


def reasons_in_sources() -> list[str]:
    """All reasons for refusals in the sources of the tool, as they are written there."""
    found: list[str] = []
    for file in sorted(glob.glob(f"{TOOLS}/tpr_tools/rewrite/*.py")):
        with open(file, encoding="utf-8") as opened:
            calls = [node for node in ast.walk(ast.parse(opened.read())) if isinstance(node, ast.Call)]
        for call in calls:
            name = call.func.id if isinstance(call.func, ast.Name) else getattr(call.func, "attr", "")
            if name in ("refuse", "refuse_open", "Refusal", "split", "settled"):
                found += [text for text in map(text_of, call.args) if len(text) > 8]
    return found


def text_of(node: ast.expr) -> str:
    if isinstance(node, ast.JoinedStr):
        return "".join(str(part.value) if isinstance(part, ast.Constant) else "{}" for part in node.values)
    return node.value if isinstance(node, ast.Constant) and isinstance(node.value, str) else ""


# Reasons that also contain a word of another row, and the beginning of the advice for each.
ADVICE = {
    "this call within an expression does more than compute a value": "call the function before this",
    "the call that computes this value does more than compute it": "call the function before this",
    "a permutation of more than four elements, or with `*`, isn't carried over": "leave it out, or say it",
    "whether this is done depends on a message; here it is done before all messages": "create, connect and start all",
    "more than 40,000 statements would be written": "split the test case into smaller ones",
}


def instead(_program: str) -> None:
    """Each reason in the sources has a row in the table of advice, except reasons for which a compiler refuses the
    script too."""
    from tpr_tools.rewrite.instead import instead_of

    with open(f"{FOLDER}/of_a_compiler", encoding="utf-8") as opened:
        of_a_compiler = set(opened.read().splitlines())
    last = instead_of("")
    reasons = dict.fromkeys(reasons_in_sources())
    for reason in reasons:
        judged(f"instead of: {reason}", (instead_of(reason) == last) is (reason in of_a_compiler), instead_of(reason))
    for reason, begin in ADVICE.items():
        judged(f"what to do about: {reason}", instead_of(reason).startswith(begin), instead_of(reason))
    judged("no reason of a compiler's that isn't there", of_a_compiler <= set(reasons), f"{of_a_compiler - set(reasons)}")


def is_map(script: str, output: str) -> bool:
    """Whether each line of the map names a line of the output, and a place in the script that isn't empty."""
    with open(script, encoding="utf-8") as opened:
        lines = opened.read().splitlines()
    with open(output, encoding="utf-8") as opened:
        written = opened.read().splitlines()
    with open(f"{output}.map", encoding="utf-8") as opened:
        rows = opened.read().splitlines()
    for row in rows:
        found = re.fullmatch(r"([0-9]+) ([0-9]+):([0-9]+) (.*)", row)
        if found is None or found[4] != script:
            return False
        number, line, column = (int(found[place]) for place in (1, 2, 3))
        if not written[number - 1].endswith(f"// {line}") or not lines[line - 1][column - 1 : column].strip():
            return False
    return len(rows) >= 5


def several_modules(program: str) -> None:
    """Modules that are given together are one program, and a parameter has its given value."""
    files = [f"{FOLDER}/modules/{name}.ttcn" for name in ("tests", "types")]
    one = run(REWRITE, "--tpr", program, *files, "--case", "TC_second")
    has = "setverdict(pass)" in one.printed and "types.ttcn:" in one.printed
    judged("two modules", one.status == 0 and has, one.said)
    two = run(REWRITE, "--tpr", program, files[0])
    judged("a module that isn't given", two.status == 2 and "isn't among the files" in two.said, two.said)
    three = run(REWRITE, "--tpr", program, *files)
    judged("which of two test cases", three.status == 2 and "name one with --case" in three.said, three.said)
    four = run(REWRITE, "--tpr", program, *files, "--case", "TC_first", "--param", "PX_COUNT=4")
    judged("a parameter", "p.send(integer:4)" in four.printed, four.said)
    five = run(REWRITE, "--tpr", program, *files, "--case", "TC_first", "--param", "PX_OTHER=4")
    judged("a parameter that isn't there", five.status == 2 and "PX_OTHER" in five.said, five.said)


def examples() -> list[str]:
    return glob.glob(f"{ROOT}/examples/*.ttcn") + glob.glob(f"{ROOT}/tests/golden/*/*.ttcn")


def same(program: str) -> None:
    """A script of the profile with a single report keeps it."""
    for script in sorted(examples()):
        name, wanted = os.path.basename(script), f"{script.removesuffix('.ttcn')}.expected"
        if not os.path.exists(wanted) or run(program, "check", script).status != 0:
            continue
        with open(script, encoding="utf-8") as opened:
            ended = carried(program, script, opened.read(), Options(queues_ended=True))
        with open(wanted, encoding="utf-8") as opened:
            # A single `[else]` doesn't depend on the look, so it isn't written.
            told = opened.read().replace("\nelse\n", "\n")
        if ended.status == 0:
            printed = run(program, "run", data=ended.printed.encode()).printed
            judged(name, printed.replace("\nelse\n", "\n") == told, printed)
        else:
            # Using a variable without a value is a fault, which the full language refuses too.
            judged(name, "no value yet" in ended.said or "component is meant" in ended.said, ended.said)


# The scripts to break, whether they need --encode, and the number of tokens from the module's last bracket on.
BROKEN = (
    ("natural/login_with_templates", False, 8),
    ("encoded/registration_with_a_union", True, 1),
    ("encoded/frames_of_octets", True, 1),
    ("encoded/requests_by_select_union", True, 1),
)


def broken(program: str) -> None:
    """Scripts that are cut after each token, or have random bytes: the answer has a line, and is never a traceback."""
    for name, encodes, behind in BROKEN:
        with open(f"{FOLDER}/{name}.ttcn", "rb") as opened:
            cut_and_changed(os.path.basename(name), opened.read(), encodes, behind)
    chance = random.Random(53)
    noise = [chance.randbytes(chance.randrange(400)) for _ in range(100)]
    deep = b"module M { const integer c := " + b"(" * 20_000
    for encodes in (False, True):
        how = ", with --encode" if encodes else ""
        answers = [answer_to(data, encodes) for data in noise]
        judged(f"bytes by chance alone{how}", set(answers) == {"refused"}, f"{set(answers)}")
        answer = answer_to(deep, encodes)
        judged(f"brackets without end{how}", answer == "refused", answer)
    large(program)


def cut_and_changed(name: str, whole: bytes, encodes: bool, behind: int) -> None:
    """A script that is cut before the module's last bracket is refused. With changed bytes it may be refused or not."""
    chance = random.Random(53)
    ends = [found.end() for found in re.finditer(rb"[A-Za-z0-9_]+|[^\sA-Za-z0-9_]", whole)]
    answers = [answer_to(whole[:end], encodes) for end in ends[:-behind]]
    wrong = [(end, answer) for end, answer in zip(ends, answers) if answer != "refused"]
    judged(f"{name}, cut behind each token", not wrong and len(answers) > 200, f"{wrong[:3]}")
    signs = [bytes([byte]) for byte in range(256)] + [b"{", b"}", b"(", b"alt {", b"[]", b"-> value", b"template"]
    counts: Counter[str] = Counter()
    for _ in range(300):
        data = bytearray(whole)
        for _ in range(chance.randrange(1, 6)):
            place = chance.randrange(len(data))
            data[place : place + chance.randrange(3)] = chance.choice(signs)
        counts[answer_to(bytes(data), encodes)] += 1
    is_so = counts.keys() == {"refused", "written"} and counts["refused"] > 200
    judged(f"{name}, with bytes by chance", is_so, f"{counts}")


def answer_to(data: bytes, encodes: bool) -> str:
    """`written`; `refused`, with reasons and places in the text; or what is wrong with the answer. Also checks that the
    places of `explain --every` are in the text."""
    from tpr_tools.rewrite.listing import constructs_of

    try:
        found = rewrite([Source("x", data)], options=Options(encodes=encodes))
        listed, faults = constructs_of("x", data)
    except Exception as error:  # Any traceback is what this test looks for.
        return f"{type(error).__name__}: {error}"
    lines = len(data.split(b"\n"))
    places = [(one.at.line, one.at.column) for one in listed] + [(one.line, one.column) for one in faults]
    if not all(1 <= line <= lines and column >= 1 for line, column in places):
        return f"a place that isn't in the text: {places}"
    if not found.refused:
        return "written" if found.text.startswith("// ") and found.text.endswith("}\n") else "a script that is cut"
    well = all(1 <= one.line <= lines and one.column >= 1 and one.reason for one in found.refused)
    return "refused" if well else f"{found.refused}"


def seconds_of_others() -> float:
    """The processor time of the programs that this process has run, which doesn't depend on the load of the machine."""
    used = resource.getrusage(resource.RUSAGE_CHILDREN)
    return used.ru_utime + used.ru_stime


def large(program: str) -> None:
    """Tests a script of 10,000 lines."""
    lines = ["module Large {", "type port P message { inout integer }", "type component C { port P p, q; }"]
    for number in range(900):
        lines += [f"const integer c_{number} := {number};", f"template integer m_{number} := (c_{number}, 0);"]
        lines += [f"function f_{number}(integer n)", "runs on C", "{", "  p.send(n);", f"  q.receive(m_{number});"]
        lines += ["  if (n > 5) { log(n); }", "  vc();", "}"]
    lines += ["function vc() { }", "testcase t() runs on C {", "  connect(self:p, self:q);"]
    lines += [f"  f_{number}(c_{number});" for number in range(900)]
    lines += ["  setverdict(pass);", "}", "}"]
    with tempfile.TemporaryDirectory() as folder:
        file = f"{folder}/large.ttcn"
        with open(file, "w", encoding="utf-8") as opened:
            opened.write("\n".join(lines) + "\n")
        begun = seconds_of_others()
        ended = run(REWRITE, "--tpr", program, file)
        took = seconds_of_others() - begun
    judged("10,000 lines are carried over", ended.status == 0 and len(lines) > 9_900, ended.said[:200])
    judged("10,000 lines take 5 seconds of the processor at most", took <= SECONDS_OF_LARGE, f"{took:.1f}")


def listed(program: str) -> None:
    """`explain --every` lists nothing in a script of the profile, and in another script among others what `explain`
    names. `explain --all` lists nothing that tools/rewrite carries over, and in another script what that refuses."""
    accepted = [file for file in sorted(examples()) if run(program, "check", file).status == 0]
    for option in ("--every", "--all"):
        ended = run(EXPLAIN, option, *accepted)
        judged(f"nothing in a script of the profile: {option}", (ended.status, ended.printed) == (0, ""), ended.printed[:300])
    ended = run(EXPLAIN, "--all", *sorted(glob.glob(f"{FOLDER}/natural/*.ttcn")))
    judged("nothing of what is carried over", (ended.status, ended.printed) == (0, ""), ended.printed[:300])
    held = sorted(glob.glob(f"{FOLDER}/held_back/*.ttcn") + glob.glob(f"{FOLDER}/encoded/*.ttcn") + glob.glob(f"{FOLDER}/listed/*.ttcn"))
    for script in held:
        ended, wanted = run(EXPLAIN, "--all", script), run(REWRITE, "--tpr", program, script)
        is_so = ended.status == wanted.status == 2 and ended.printed == wanted.said
        judged(f"what can't be carried over of {os.path.basename(script)}", is_so, ended.printed[:300])
    places = [f"{ROOT}/tests/tools/explained"] + [f"{FOLDER}/{name}" for name in ("natural", "encoded")]
    scripts = [script for place in places for script in sorted(glob.glob(f"{place}/*.ttcn"))]
    told = json.loads(run(EXPLAIN, "--tpr", program, "--json", *scripts).printed)
    for one in told:
        every = run(EXPLAIN, "--every", one["file"]).printed
        construct, here = one.get("construct"), f"{one['file']}:{one['line']}:"
        is_so = here in every and (not construct or f": {construct} isn't supported" in every)
        judged(f"all of {os.path.basename(one['file'])}", is_so, every[:300])
    for created, construct in (('("a")', "a name or a host of a created component"), (" alive", "`alive`")):
        titles = titles_in(row_script(f"testcase t() runs on C {{ var C a := C.create{created}; }}"))
        judged(f"one construct in C.create{created}", titles == [*titles_in(f"{PRELUDE}}}"), construct], f"{titles}")


def lines(program: str) -> None:
    for script in sorted(glob.glob(f"{FOLDER}/listed/*.ttcn")):
        all_of_lines(script)


def all_of_lines(script: str) -> None:
    """The comments after each line must be exactly the constructs that are listed there; for a line without comments
    nothing may be listed."""
    with open(script, encoding="utf-8") as opened:
        wanted = {number: line.rstrip("\n").split(" // ")[1:] for number, line in enumerate(opened, 1)}
    found: dict[int, list[tuple[int, str]]] = {number: [] for number in wanted}
    for line in run(EXPLAIN, "--every", script).printed.splitlines():
        place = re.fullmatch(rf"{re.escape(script)}:([0-9]+):([0-9]+): (.*?)( isn't supported \(.*)?", line)
        if place:
            found.setdefault(int(place[1]), []).append((int(place[2]), place[3]))
    other = [number for number, told in found.items() if [what for _, what in sorted(told)] != wanted.get(number, [])]
    judged(f"all of the lines of {os.path.basename(script)}", not other, f"{[(line, found[line]) for line in other]}")


def rows(program: str) -> None:
    """Each row of docs/FROM_TTCN3.md that isn't `as is`: its script is carried over, or refused, as the row says."""
    with open(f"{ROOT}/docs/FROM_TTCN3.md", encoding="utf-8") as opened:
        cells = [line.strip("| \n").split(" | ") for line in opened if re.match(r"\| [0-9ABD]", line)]
    told = {row[1].strip(): row[-2].strip() for row in cells if not row[2].startswith("as is")}
    with open(f"{FOLDER}/rows", encoding="utf-8") as opened:
        scripts = dict(line.rstrip("\n").split(" | ", 1) for line in opened)
    judged("a script for each row", set(told) == set(scripts), f"{set(told) ^ set(scripts)}")
    for name, script in scripts.items():
        ended = carried(program, "row", row_script(script))
        found = {0: "yes", 2: "no"}[ended.status]
        for option, options in (("encode", Options(encodes=True)), ("timers", Options(timers=Reading.NEVER))):
            if found == "no" and carried(program, "row", row_script(script), options).status == 0:
                found = f"`--{option}`"
        judged(f"row {name}", found == told.get(name), f"{found}: {ended.said}")
        wrong = wrongly_listed(name, row_script(script))
        judged(f"all of row {name}", wrong == "", wrong)


# Rows whose construct has another name.
TITLES = {"another base type, as `verdicttype`": "the type {word}", "`match`, `valueof`": "the operation {word}"}


def titles_in(script: str) -> list[str]:
    """The constructs that `explain --every` lists, in the order of the text."""
    from tpr_tools.rewrite.listing import constructs_of

    return [one.construct.title for one in constructs_of("row", script.encode())[0]]


def wrongly_listed(name: str, script: str) -> str:
    """Empty if `explain --every` lists the construct of a row, or, for a row that has no construct of its own,
    something; otherwise what is wrong."""
    from tpr_tools.script.constructs import Construct

    listed, before, title = titles_in(script), titles_in(f"{PRELUDE}}}"), TITLES.get(name, name)
    is_so = title in listed if title in {one.title for one in Construct} else len(listed) > len(before)
    return "" if is_so else f"{listed}"


def faults(program: str) -> None:
    """For each rewrite a fault is planted, which its entry of the table, or the script in listed/, must detect."""
    with open(f"{FOLDER}/faults", encoding="utf-8") as opened:
        planted = [line.rstrip("\n").split(" | ") for line in opened]
    with ThreadPoolExecutor(os.cpu_count()) as pool:
        answers = pool.map(lambda fault: fault_is_told(program, *fault), planted)
    for (file, old, _, entry), why in zip(planted, answers):
        judged(f"a fault in {file}: {old} ({entry})", why == "", why)


def fault_is_told(program: str, file: str, old: str, new: str, entry: str) -> str:
    """Empty if the fault is detected, otherwise why not."""
    with tempfile.TemporaryDirectory() as folder:
        shutil.copytree(f"{ROOT}/tools", f"{folder}/tools")
        place = f"{folder}/tools/tpr_tools/rewrite/{file}"
        with open(place, encoding="utf-8") as opened:
            text = opened.read()
        old, new = old.replace("\\n", "\n"), new.replace("\\n", "\n")
        if text.count(old) != 1:
            return f"`{old}` stands there {text.count(old)} times"
        with open(place, "w", encoding="utf-8") as opened:
            opened.write(text.replace(old, new))
        part = "lines" if entry.startswith("all of the lines of ") else "table"
        words = [sys.executable, "-B", os.path.realpath(__file__), program, part]
        environment = {**os.environ, "REWRITING": f"{folder}/tools", "ENTRY": entry}
        told = subprocess.run(words, stdout=subprocess.PIPE, stderr=subprocess.STDOUT, env=environment, check=False)
    return "" if f"FAILED: {entry}: " in told.stdout.decode("utf-8", "replace") else "it isn't told"


def row_script(script: str) -> str:
    """The script of a row, in a module with types and ports; some rows are about the module itself."""
    if script.startswith("module M "):
        head, _, body = script.partition("{")
        return PRELUDE.replace("module T ", head.replace("module M", "module T")) + body
    if script.startswith("import "):
        return PRELUDE + "}\nmodule U { " + script + " }\n"
    return PRELUDE + script + "\n}\n"


def main() -> int:
    parts = {one.__name__: one for one in (table, natural, timed, same, broken, listed, lines, rows, faults, instead)}
    words = argparse.ArgumentParser(description="What tools/rewrite makes of scripts, and what it refuses.")
    words.add_argument("program", metavar="PROGRAM", help="tpr")
    words.add_argument("part", metavar="PART", choices=parts, help=", ".join(parts))
    given = words.parse_args()
    parts[given.part](given.program)
    return 0


if __name__ == "__main__":
    sys.exit(main())
