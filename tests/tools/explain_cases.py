#!/usr/bin/env python3
"""What tools/explain says of scripts that are refused: its number and line are those of `tpr check`, its place and its
words were worked out by reading (data/explained.texts, explained/), and keep the rules of explain_rules.py.

    tests/tools/explain_cases.py PROGRAM TEXTS

TEXTS is the number of texts that grammar.py and changes.py write from the tables of tests/checking/.
"""
from __future__ import annotations

import json
import re
import shlex
import shutil
import sys
from collections.abc import Callable
from pathlib import Path
from typing import NamedTuple

sys.dont_write_bytecode = True

import explain_rules
from tool_calls import (
    ROOT, Ended, Test, Tool, block_of, case, difference, file_of, judged, must, prints, prints_line, program_of, room,
    ruled, run, says_alone, says_nothing, says_usage, shown, texts_in, try_groups_of, words_of,
)  # fmt: skip

EXAMPLE = "examples/closed_counter_serves_no_order.ttcn"
BROKEN_LINE = 26  # of the example, as README.md says
RIGHT = "tests/checking/every_line.ttcn"
LAST_OF_SCRIPTS = 28  # the last number of a refused script
MEBIBYTE = 1 << 20

WITH_A_SET = "module M {\n  type set S { }\n}\n"
WITH_NO_FAULT = "module M {\n  type component C { }\n  testcase t() runs on C { }\n}\n"
DONE = "if there is a component variable, `all component.done` ends the test case"
NO_FILE = "the file isn't there, is a folder, or can't be read"
ONE_SIDE = "exactly one is a port of `system`"
UNSURE = "a rule is broken, but explain doesn't find the place"
LISTED = (
    "the message type is in the port's list of sent types, or for a receiving operation in its list of received types;"
    " in the function `sut` the two lists are swapped"
)


class Explained(NamedTuple):
    """The name of a case, its number or script, and the expected output."""

    name: str
    asked: str
    told: str


TEXTS = texts_in("explained.texts")


def explained(kind: str) -> list[Explained]:
    """The cases of this kind."""
    texts = ((heading.partition(": "), text.partition("---\n")) for heading, text in TEXTS.items())
    return [Explained(name, asked, told) for (of, _, name), (asked, _, told) in texts if of == kind]


class Explaining:
    """The tool with the program that it calls, the number of texts in the tables, and a folder for scripts."""

    def __init__(self, program: str, texts: int, room: Path):
        self.program, self.texts, self.room = program, texts, room
        self.tool, self.script = Tool("explain", ("--tpr", program)), room / "script"

    def of_script(self, *options: str, program: str = "") -> Ended:
        """The output for the script, with the file name replaced by FILE; optionally for another program."""
        tool = Tool("explain", ("--tpr", program)) if program else self.tool
        ended = tool.run(*options, self.script)
        return ended._replace(printed=re.sub(b"(?m)^" + re.escape(bytes(self.script)), b"FILE", ended.printed))

    def of_text(self, text: bytes, *options: str) -> Ended:
        self.script.write_bytes(text)
        return self.of_script(*options)

    def by_another(self, name: str, status: int, answer: str, told: str) -> None:
        """The output for a program that always gives this answer."""
        program = program_of(self.room / "program", "cat >/dev/null", f"echo {shlex.quote(answer)}")
        judged(name, self.of_script(program=program), status, prints(told))

    def otherwise(self, name: str, answer: str, sentence: str, reading: str, *rules: str) -> None:
        """The program's answer differs from explain's own reading: all rules of the answer's number are printed, no
        others, and no column."""
        _, number, word, *line = answer.split()
        place = f"{line[1]}:" if line else ""
        head = "rule" if len(rules) == 1 else "one of these rules"
        lines = (
            f"FILE:{place} refused {number} {word}: {sentence}",
            f"  no place is shown, because explain finds something else: {reading}",
            *(f"  {head}: {it}" for it in rules),
        )
        self.by_another(name, 2, answer, "".join(f"{it}\n" for it in lines))


# Tables


def keeps(rule: Callable[..., None], *asked: object) -> Test:
    """The tool writes nothing on standard error, and its output for each script satisfies the rule."""

    def holds(ended: Ended) -> bool:
        rule(explain_rules.told_in(ended.text), *asked)
        return says_nothing(ended)

    return holds


def tables(asked: Explaining) -> None:
    """All texts of tests/checking/, the constructs of the full language, and the scripts of docs/REFUSALS.md."""
    texts = asked.room / "texts"
    made = run(sys.executable, "-B", "tests/checking/check.py", "--texts", texts, "grammar", "changes", folder=ROOT)
    written = len([*texts.glob("*.ttcn")])
    must(made.status == 0 and written >= asked.texts, f"{written} texts are written, {asked.texts} at least are wanted")
    told = asked.tool.run("--json", texts)
    answers = keeps(explain_rules.check_answers, str(texts))
    judged("the number and the line of each text of the tables", told, 2, answers)
    judged("a column for nine of ten", told, 2, keeps(explain_rules.check_columns))
    ruled("other refusals than those of the texts of the tables", explain_rules.check_planted, str(texts))
    table = ROOT / "tests" / "tools" / "explained"
    constructs = keeps(explain_rules.check_table, str(table / "constructs"), 38)
    asked.tool.case("the constructs of the full language", ["--json", table], 2, constructs)
    refusals = keeps(explain_rules.check_table, str(table / "refusals"), 18)
    scripts = scripts_of_refusals(asked.room / "refusals")
    asked.tool.case("the scripts of docs/REFUSALS.md", ["--json", scripts], 2, refusals)
    ruled("the words of explain are those of the documents", explain_rules.check_words)
    ruled("the clauses of rules are those of the document", explain_rules.check_clauses)
    numbers = "the numbers and names of refusals are those of the document and of the program"
    ruled(numbers, explain_rules.check_numbers)


def scripts_of_refusals(folder: Path) -> Path:
    """For each number of refused scripts, the script below its heading, in a file with the number as its name."""
    folder.mkdir()
    for part in (ROOT / "docs" / "REFUSALS.md").read_text(encoding="utf-8").split("\n### ")[1:]:
        found = re.match(r"(\d\d) .*?^```\n(.*?)^```$", part, re.M | re.S)
        if found and int(found[1]) <= LAST_OF_SCRIPTS:
            file_of(folder / f"{found[1]}.ttcn", found[2])
    return folder


# The first example, numbers, and places


def example(asked: Explaining) -> None:
    """Changes line 26 of the first example of README.md in the way that is described there."""
    case = asked.tool.case
    lines = (ROOT / EXAMPLE).read_text(encoding="utf-8").splitlines(keepends=True)
    lines[BROKEN_LINE - 1] = lines[BROKEN_LINE - 1].replace("counter", "bell", 1)
    kitchen, folder = file_of(asked.room / "kitchen.ttcn", "".join(lines)), asked.room / "folder"
    block = block_of("README.md", f"kitchen.ttcn:{BROKEN_LINE}:")
    must(block.count("\n") >= 6, "README.md shows what explain says of its wrong line")
    shown, first = f"{asked.room}/{block}", block.partition("\n")[0]
    case("README.md shows what is said", [kitchen], 2, prints(shown))
    both = prints(f"{asked.room}/{first}\n{EXAMPLE}: accepted\n")
    case("the first line of each", ["--short", kitchen, EXAMPLE], 2, both)
    case("a valid script", [EXAMPLE], 0, prints(f"{EXAMPLE}: accepted\n"))
    folder.mkdir()
    for script in (ROOT / EXAMPLE, kitchen):
        shutil.copy(script, folder)
    all_of_folder = prints(f"{folder}/{Path(EXAMPLE).name}: accepted\n{folder}/{first}\n")
    case("a folder", ["--short", folder], 2, all_of_folder)


def numbers(asked: Explaining) -> None:
    """Two numbers of refused or ended scripts, and the numbers that don't belong to a script."""
    for it in explained("number"):
        asked.tool.case(it.name, ["--number", it.asked.strip()], 0, prints(it.told))


def places(asked: Explaining) -> None:
    for it in explained("place"):
        judged(it.name, asked.of_text(it.asked.encode()), 2, prints(it.told))


def words(asked: Explaining) -> None:
    """The words of the first line, and the advice what to write instead."""
    for it in explained("sentence"):
        ended = asked.of_text(f"{TEXTS['beginning']}{it.asked}".encode())
        first, *others = ended.text.splitlines() or [""]
        told = "".join(f"{one}\n" for one in (first.partition(": refused ")[2], *others) if has_words(one, it.told))
        with case(it.name):
            ended.must_end(2).must(told == it.told, f"another is wanted{shown(difference(it.told, told))}")


def has_words(line: str, told: str) -> bool:
    """Whether it is the sentence, or a line of one of the expected kinds."""
    kinds = {one.partition(":")[0] for one in told.splitlines() if one.startswith("  ")}
    return not line.startswith(" ") and "|" not in line or line.partition(":")[0] in kinds


def warnings(asked: Explaining) -> None:
    """Warnings about accepted scripts: they don't change the status."""
    warnings = explained("warning")
    for it in warnings:
        judged(it.name, asked.of_text(it.asked.encode()), 0, prints(f"FILE: accepted\n{it.told}"))
    first = asked.of_text(warnings[0].asked.encode(), "--short")
    judged("warnings aren't told in short", first, 0, prints("FILE: accepted\n"))
    [told] = json.loads(asked.of_text(warnings[0].asked.encode(), "--json").printed)
    sentences = [it["sentence"] for it in told["warnings"]]
    wanted = re.findall("warning: (.*)", warnings[0].told)
    ruled("warnings in JSON", must, sentences == wanted != [], f"{sentences}")
    # One more warning than are listed.
    last = next(it for it in warnings if it.name == "a receiver that receives nothing")
    many = asked.of_text(last.asked.replace("p.send(integer:2);", 25 * "p.send(integer:2); ").encode())
    judged("many warnings are counted", many, 0, lambda ended: ended.text.endswith("FILE: 5 more warnings\n"))


# Unusual input


def texts_that_are_none(asked: Explaining) -> None:
    missing = asked.room / "missing"
    told = f"{missing}: refused 2 Read: {NO_FILE}\n  rule: {NO_FILE}\n"
    asked.tool.case("a missing file", [missing], 2, prints(told))
    ends = prints("FILE:1:1: refused 10 Syntax: unexpected end of the text at the beginning\n")
    judged("an empty file", asked.of_text(b"", "--short"), 2, ends)
    too_long = prints("FILE:0: refused 15 Limit: the text has more than 1,048,576 bytes\n")
    judged("2 MiB", asked.of_text(b" " * 2 * MEBIBYTE, "--short"), 2, too_long)
    with open(sys.executable, "rb") as program:
        no_text = program.read(65536)
    judged("bytes that are no text", asked.of_text(no_text), 2, says_nothing)
    no_token = prints("FILE:1:1: refused 10 Syntax: the byte 255 isn't a valid token\n")
    judged("a byte that begins no token", asked.of_text(b"\377\376\r\n\0module", "--short"), 2, no_token)
    empty = asked.room / "empty"
    empty.mkdir()
    no_script = says_alone(f"explain: there is no script *.ttcn in {empty}")
    asked.tool.case("a folder without scripts", [empty], 2, no_script)


def calls(asked: Explaining) -> None:
    """Wrong command lines, a full device, a missing program, and the help."""
    tool, missing = asked.tool, asked.room / "missing"
    tool.case("nothing to explain", [], 4, says_usage("explain"))
    listed = "isn't one of 1, 2, 10, 11"
    tool.case("a number that isn't given", ["--number", "19"], 4, says_usage("explain", f"'19' {listed}"))
    tool.case("the number that is never printed", ["--number", "3"], 4, says_usage("explain", f"'3' {listed}"))
    tool.case("two forms", ["--short", "--json", RIGHT], 4, says_usage("explain"))
    tool.full_device("onto a full device", RIGHT)
    closed = run("sh", "-c", 'exec "$0" "$@" <&-', ROOT / "tools" / "explain", "--tpr", asked.program, "/dev/stdin")
    judged("a closed standard input", closed, 2, prints_line("/dev/stdin: refused 2 Read"))
    nowhere = Tool("explain", ("--tpr", str(missing)))
    nowhere.case("a program that isn't there", [RIGHT], 1, says_alone(f"explain: {missing} can't be run"))
    tool.case("the help", ["--help"], 0, prints_line("  2  a script is refused, or can't be read\n"))


# Other programs' answers


def other_answers(asked: Explaining) -> None:
    """If the answer differs from explain's own reading, less is printed."""
    case, by_another, set_is_none = asked.otherwise, asked.by_another, "refused 10 Syntax line 2"
    no_token = ("a byte that begins no token", "a token that isn't allowed at its place")
    file_of(asked.script, WITH_A_SET)
    case("another line than its own reading", "refused 10 Syntax line 3", UNSURE, set_is_none, *no_token)
    case("a line behind the text", "refused 10 Syntax line 99", UNSURE, set_is_none, *no_token)
    case("another number than its own reading", "refused 17 NoDone line 2", DONE, set_is_none, DONE)
    rules = ("it isn't started twice", "each component variable is started")
    case("several rules of another number", "refused 18 NotStarted line 2", UNSURE, set_is_none, *rules)
    case("a file that can be read", "refused 2 Read", NO_FILE, set_is_none, NO_FILE)
    other_name = "refused 12 Syntax line 2"
    by_another("a number with the name of another", 1, other_name, f"FILE: {other_name}\n")
    by_another("a fault", 3, "fault 50 Memory", "FILE: fault 50 Memory\n")
    by_another("no answer of tpr", 1, "hello", "FILE: hello\n")
    long = f"refused {'9' * 5000} Limit"
    by_another("a number that is none", 1, long, f"FILE: {long}\n")
    killed = program_of(asked.room / "killed", "kill -9 $$")
    by_signal = prints(f"FILE: {killed} was ended by signal 9\n")
    judged("a program that is ended by a signal", asked.of_script(program=killed), 1, by_signal)
    asked.script.write_bytes(b" " * 2 * MEBIBYTE)
    too_long = "refused 15 Limit line 0"
    case("another number of a long text", "refused 14 Direction line 3", LISTED, too_long, LISTED)
    file_of(asked.script, WITH_NO_FAULT)
    refused = "refused 28 NotSystem line 3"
    case("a valid script, refused by another program", refused, ONE_SIDE, "accepted", ONE_SIDE)


def at_length(asked: Explaining) -> None:
    """A script of 1 MiB with one wrong line. bench/explaining/run measures how long it takes."""
    made = run("bash", "-c", ". bench/explaining/script.sh && script_of_a_mebibyte", folder=ROOT)
    must(len(made.text) > MEBIBYTE - 1000, "the script is long")
    line = made.text.count("\n") - 2
    told = f"FILE:{line}:28: refused 13 WrongType: `2` is an integer, but `charstring` is expected\n"
    judged("1 MiB", asked.of_text(made.text.encode(), "--short"), 2, prints(told))


GROUPS = (
    (tables, 8), (example, 4), (numbers, 7), (places, 10), (words, 14), (warnings, 12), (texts_that_are_none, 6),
    (calls, 8), (other_answers, 12), (at_length, 1),
)  # fmt: skip


if __name__ == "__main__":
    with room() as folder:
        asked_program, least = words_of(__doc__, "PROGRAM", "TEXTS")
        sys.exit(try_groups_of(Explaining(asked_program, int(least), folder), GROUPS))
