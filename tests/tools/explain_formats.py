#!/usr/bin/env python3
"""Tests `tools/explain --format`: all faults of several files, in each form, as vim's quickfix and the schema of SARIF
read them.

    tests/tools/explain_formats.py PROGRAM
"""
from __future__ import annotations

import importlib
import importlib.util
import json
import os
import re
import shutil
import sys
from collections.abc import Callable, Iterable
from functools import partial
from pathlib import Path
from typing import Any, NamedTuple
from urllib.parse import unquote, urlsplit

sys.dont_write_bytecode = True

from tool_calls import (
    ROOT, Ended, Group, case, example, file_of, must, must_be, onto_a_full_device, program_of, room, run, try_groups,
)  # fmt: skip

PROGRAM = sys.argv[1]
EXPLAIN = ROOT / "tools" / "explain"
FORMS = ("text", "json", "gcc", "github", "sarif", "codeclimate")
KITCHEN = example("closed_counter_serves_no_order.ttcn").read_text(encoding="utf-8")
# A name with every character that a form must escape.
NAMED = "a,b #1%é:.ttcn"
BROKEN = (
    KITCHEN.replace("chef:bell", "chef:bel")
    .replace('bell.send(charstring:"we close")', '/* é\U0001f600 */ counter.send(charstring:"we close")')
    .replace('bell.send(charstring:"one more?")', 'bell.send(Order:{2, "x"})')
    .replace("\n", "\r\n")
)
FULL = """module Full {
  type port P message { inout integer; }
  type component C { port P p; }
  testcase TC() runs on C { /* é */ log("begins"); var float v := 1.0; setverdict(pass); }
}
"""
LETTER = "Dear all,\nthis is a letter.\n"
IN_VAIN = """module M {
  type port P message { inout integer; }
  type component C { port P p; }
  testcase t() runs on C { p.send(integer:1); }
}
"""


class Wanted(NamedTuple):
    """A fault: its file, the text at its place and before it on its line, its code, and how its sentence begins."""

    file: str
    line: int
    before: str
    piece: str
    code: str
    sentence: str


def wanted_at(file: str, text: str, piece: str, inside: str, code: str, sentence: str) -> Wanted:
    offset = text.index(piece) + piece.index(inside)
    return Wanted(file, text.count("\n", 0, offset) + 1, text[:offset].rpartition("\n")[2], inside, code, sentence)


WANTED = (
    wanted_at(NAMED, BROKEN, "chef:bel)", "bel", "11 Unknown", "`chef` has no port `bel` (did you mean `bell`?)"),
    wanted_at(
        NAMED, BROKEN, "counter.send(charstring", "charstring", "14 Direction", "`counter` sends no `charstring`"
    ),
    wanted_at(NAMED, BROKEN, "bell.send(Order", "Order", "14 Direction", "`bell` sends no `Order`"),
    wanted_at("full.ttcn", FULL, "log(", "(", "10 Syntax", "`log` isn't supported"),
    wanted_at("full.ttcn", FULL, "var float", "var", "ES 201 873-1, 19.14", "a declaration after statements isn't"),
    wanted_at("full.ttcn", FULL, "float", "float", "ES 201 873-1, 6.1.0", "a float isn't supported"),
    wanted_at("full.ttcn", FULL, "v := 1", "v", "ES 201 873-1, 11.1", "a variable that has a value at once isn't"),
    wanted_at("full.ttcn", FULL, "1.0", "1.0", "ES 201 873-1, 6.1.0", "a float isn't supported"),
    wanted_at("letter.ttcn", LETTER, "Dear", "Dear", "10 Syntax", "unexpected `Dear` at the beginning"),
    Wanted("missing.ttcn", 1, "", "", "2 Read", "the file isn't there"),
)
WITHOUT_PLACE = WANTED[-1]


class Room(NamedTuple):
    """A folder with files, in which the tool is called."""

    folder: Path

    def write(self, name: str, text: str) -> str:
        return file_of(self.folder / name, text).name

    def explain(self, *words: str, program: str = PROGRAM) -> Ended:
        return run(EXPLAIN, "--tpr", program, *words, folder=self.folder)

    def all(self, form: str) -> Ended:
        """The output for a script with three faults, a script of the full language, a file that isn't a script, and a
        missing file."""
        right = self.write("right.ttcn", KITCHEN)
        self.write(NAMED, BROKEN)
        self.write("full.ttcn", FULL)
        self.write("letter.ttcn", LETTER)
        return self.explain("--format", form, right, *dict.fromkeys(it.file for it in WANTED)).must_say_nothing(1)


def must_be_sentences(found: Iterable[str]) -> None:
    """The sentences must have the expected beginnings."""
    must_be([one[: len(it.sentence)] for it, one in zip(WANTED, found)], [it.sentence for it in WANTED])


def columns(wanted: Wanted) -> dict[str, int]:
    begin = len(wanted.before) + 1
    return {"startColumn": begin, "endColumn": begin + len(wanted.piece)}


# Each form of the same faults


def texts(room: Room) -> None:
    with case("as text: all faults of several files"):
        found = re.findall(r"(?m)^([^ |\n][^\n]*?\.ttcn(?::\d+:\d+)?): ([^\n]*)", room.all("text").text)
        told = [f"refused {it.code}: {it.sentence}" if it.code[0].isdigit() else it.sentence for it in WANTED]
        places = [f"{it.file}:{it.line}:{len(it.before) + 1}" for it in WANTED[:-1]] + [WITHOUT_PLACE.file]
        must_be([(place, text[: len(one)]) for (place, text), one in zip(found, told)], [*zip(places, told)])
        must_be(len(found), len(WANTED))
    with case("as text: what to write instead, the rule and the related place"):
        text = room.all("text").text
        for piece in ("  no replacement: the report lists each", "  rule: its type has the port", "^^^^ the port type"):
            must(piece in text, f"no {piece!r} in {text}")


def objects(room: Room) -> None:
    with case("as JSON: the objects of --json, one for each fault"):
        found = json.loads(room.all("json").text)
        places = [(it["file"], it["line"] or 1, it["column"] or 1) for it in found]
        must_be(places, [(it.file, it.line, len(it.before) + 1) for it in WANTED])
        first = json.loads(room.explain("--json", NAMED).text)
        must_be(found[0], first[0])
    with case("as JSON: the first fault of each script is that of --json"):
        for folder in ("tests/tools/explained", "tests/rewrites/listed"):
            words = ("--tpr", PROGRAM, str(ROOT / folder))
            firsts = {it["file"]: it for it in json.loads(run(EXPLAIN, "--json", *words).text)}
            every = json.loads(run(EXPLAIN, "--format", "json", *words).text)
            told = {it["file"]: it for it in reversed(every)}
            must_be(told, {file: it for file, it in firsts.items() if it["answer"] != "accepted"})


GCC = re.compile(r"(.+?):(\d+):(\d+): (error|warning|note): (.*)")


def of_a_compiler(room: Room) -> None:
    with case("as a compiler: columns in bytes"):
        found = [GCC.fullmatch(line) for line in room.all("gcc").text.splitlines()]
        must(all(found), "a line has another form")
        errors = [it.groups() for it in found if it and it[4] == "error"]
        places = [(it.file, it.line, len(it.before.encode()) + 1) for it in WANTED]
        must_be([(it[0], int(it[1]), int(it[2])) for it in errors], places)
        must(all(f"[{it.code}]" in error[4] for it, error in zip(WANTED, errors)), f"other codes: {errors}")
        must_be_sentences(error[4] for error in errors)
        notes = [it[5] for it in found if it and it[4] == "note"]
        must("the port type" in notes and any("no replacement: " in it for it in notes), f"other notes: {notes}")
    vim = shutil.which("vim") or shutil.which("nvim")
    if vim is None or "+quickfix" not in run(vim, "--version").text and "nvim" not in vim:
        print("left out vim's quickfix as a reader of --format gcc: there is no vim that has it")
        return
    with case("as a compiler: vim's quickfix leads to each place"):
        must_be(places_in_vim(room, vim), [[it.file, it.line, it.piece] for it in WANTED[:-1]])


def places_in_vim(room: Room, vim: str) -> Any:
    """The file, the line and the text at the cursor, for each error of the list."""
    (room.folder / "errors").write_bytes(room.all("gcc").printed)
    quiet = {"HOME": str(room.folder), "LC_ALL": "C.UTF-8"}
    script = str(ROOT / "tests" / "tools" / "data" / "places.vim")
    run(vim, "-u", "NONE", "-n", "-es", "-c", "set encoding=utf-8", "-S", script, folder=room.folder, more=quiet)
    found = json.loads((room.folder / "found").read_text(encoding="utf-8"))
    return [[file, line, piece.strip()] for file, line, piece in found]


COMMAND = re.compile(r"::(error|warning) ([^:]*)::(.*)")


def of_github(room: Room) -> None:
    with case("for GitHub: a command for each fault"):
        found = [COMMAND.fullmatch(line) for line in room.all("github").text.splitlines()]
        rows = [dict(pair.split("=", 1) for pair in it[2].split(",")) for it in found if it]
        told = [{name: unquote(text) for name, text in row.items()} for row in rows]
        places = [(it["file"], *(int(it.get(name, 1)) for name in ("line", "col", "endColumn"))) for it in told]
        must_be(places, [(it.file, it.line, *columns(it).values()) for it in WANTED])
        must_be([it["title"] for it in told], [f"tpr {it.code}" for it in WANTED])
        sentences = [unquote(it[3]) for it in found if it]
        must_be_sentences(sentences)
        must(any("\nno replacement: " in it for it in sentences), f"no advice in {sentences}")


def of_gitlab(room: Room) -> None:
    with case("for GitLab: a row with each property that it needs"):
        found = json.loads(room.all("codeclimate").text)
        rows = [(it["location"]["path"], it["location"]["lines"]["begin"], it["check_name"]) for it in found]
        must_be(rows, [(it.file, it.line, f"tpr {it.code}") for it in WANTED])
        must_be_sentences(row["description"] for row in found)
        must_be({(it["type"], it["severity"], *it["categories"]) for it in found}, {("issue", "major", "Bug Risk")})
        must_be(len({it["fingerprint"] for it in found}), len(WANTED))
    with case("for GitLab: a line more above leaves the fingerprints"):
        room.write(NAMED, f"// new\r\n{BROKEN}")
        words = ("--format", "codeclimate", f"./{NAMED}")
        later = {it["fingerprint"]: it["location"] for it in json.loads(room.explain(*words).text)}
        must_be([*later], [it["fingerprint"] for it in found[:3]])
        must_be([*later.values()], [{"path": NAMED, "lines": {"begin": it.line + 1}} for it in WANTED[:3]])


def of_sarif(room: Room) -> None:
    with case("as SARIF: each result, and its place in code points"):
        log = json.loads(room.all("sarif").text)
        (ran,) = log["runs"]
        must_be(ran["columnKind"], "unicodeCodePoints")
        places = [it["locations"][0]["physicalLocation"] for it in ran["results"]]
        must_be([unquote(it["artifactLocation"]["uri"]) for it in places], [it.file for it in WANTED])
        regions = [{"startLine": it.line, **columns(it)} for it in WANTED[:-1]]
        must_be([it.get("region") for it in places], [*regions, None])
        must_be([it["ruleId"] for it in ran["results"]], [it.code for it in WANTED])
        must_be_sentences(it["message"]["text"] for it in ran["results"])
        ids = [it["id"] for it in ran["tool"]["driver"]["rules"]]
        must_be(ids, list(dict.fromkeys(it.code for it in WANTED)))
        related = ran["results"][1]["relatedLocations"][0]
        must_be([related["message"]["text"], related["physicalLocation"]["region"]["startLine"]], ["the port type", 4])
    with case("as SARIF: a file outside the folder has a URI"):
        inner = room.folder / "inner"
        inner.mkdir()
        words = ("--tpr", PROGRAM, "--format", "sarif", str(room.folder / NAMED))
        far = json.loads(run(EXPLAIN, *words, folder=inner).text)["runs"][0]["results"][0]
        uri = urlsplit(far["locations"][0]["physicalLocation"]["artifactLocation"]["uri"])
        must_be([uri.scheme, unquote(uri.path)], ["file", str(room.folder / NAMED)])


def by_schema(room: Room) -> None:
    if importlib.util.find_spec("jsonschema") is None:
        print("left out the schema of SARIF: python3 has no jsonschema")
        return
    judged_by(room, "what we read of the schema", ROOT / "tests" / "tools" / "data" / "sarif.schema.json")
    if whole := os.environ.get("SARIF_SCHEMA"):
        judged_by(room, "the whole schema", Path(whole))
    else:
        print("left out the whole schema of SARIF: SARIF_SCHEMA doesn't name it (data/sarif.schema.json)")


def judged_by(room: Room, told: str, file: Path) -> None:
    jsonschema: Any = importlib.import_module("jsonschema")
    schema = json.loads(file.read_text(encoding="utf-8"))
    validator = jsonschema.validators.validator_for(schema, jsonschema.Draft7Validator)
    judge = validator(schema, format_checker=jsonschema.FormatChecker())
    validator.check_schema(schema)
    right, vain = room.write("right.ttcn", KITCHEN), room.write("vain.ttcn", IN_VAIN)
    for name, ended in (
        ("several files", room.all("sarif")),
        ("a valid file", room.explain("--format", "sarif", right)),
        ("a warning", room.explain("--format", "sarif", vain)),
    ):
        with case(f"SARIF: {told} accepts the log of {name}"):
            must_be([it.message for it in judge.iter_errors(json.loads(ended.text))], [])
    with case(f"SARIF: {told} refuses other logs"):
        log = room.all("sarif").text
        for old, new in (
            ('"version": "2.1.0"', '"version": "2.2.0"'),
            ('"level": "error"', '"level": "fatal"'),
            ('"startLine": 5', '"startLine": 0'),
            ('"columnKind"', '"columnKinds"'),
            ('"uri": ', '"url": '),
            ('"name": "tpr",', ""),
        ):
            must(old in log and [*judge.iter_errors(json.loads(log.replace(old, new)))], f"{new} is accepted")


# Faults that are reported together


TYPES = """module M {
  type port P message { inout integer; }
  type component C { port P p; }
"""


def marked_in(text: str) -> list[tuple[int, int]]:
    """The numbers of faults in the comments, each with its line. The program's own fault is `first`."""
    lines = enumerate(text.splitlines(), 1)
    marks = [(mark, line) for line, it in lines for mark in it.partition(" // ")[2].split(", ") if mark]
    marks.sort(key=lambda it: (not it[0].endswith(" first"), it[1]))
    return [(int(mark.split()[0]), line) for mark, line in marks]


def together(room: Room) -> None:
    """Scripts with their faults in comments."""
    for script in sorted((ROOT / "tests" / "tools" / "data" / "together").iterdir()):
        with case(f"told at once: {script.stem.replace('_', ' ')}"):
            found = json.loads(room.explain("--format", "json", str(script)).must_say_nothing(1).text)
            must_be([(it["number"], it["line"]) for it in found], marked_in(script.read_text(encoding="utf-8")))
    with case("told at once: 100 broken rules of a script, and no more"):
        room.write("one.ttcn", f"{TYPES}  testcase t() runs on C {{\n{'    q.clear;' * 150}\n  }}\n}}\n")
        must_be(len(json.loads(room.explain("--format", "json", "one.ttcn").text)), 100)
    with case("told at once: 20 lines that can't be read, and no more"):
        room.write("one.ttcn", "`\n" * 50)
        must_be(len(json.loads(room.explain("--format", "json", "one.ttcn").text)), 20)


# Documents without a fault, and other answers


EMPTY = {"text": "", "json": "[]\n", "gcc": "", "github": "", "codeclimate": "[]\n"}


def valid_scripts(room: Room) -> None:
    right, vain = room.write("right.ttcn", KITCHEN), room.write("vain.ttcn", IN_VAIN)
    for form in FORMS:
        with case(f"a valid script, as {form}"):
            ended = room.explain("--format", form, right).must_say_nothing()
            if form == "sarif":
                must_be(json.loads(ended.text)["runs"][0]["results"], [])
            else:
                must_be(ended.text, EMPTY[form])
        with case(f"a warning, as {form}"):
            sentence = "the port `p` of `mtc` is never connected or mapped"
            room.explain("--format", form, vain).must_say_nothing().must_show(re.escape(sentence)).must_show("warning")


def other_answers(room: Room) -> None:
    right = room.write("right.ttcn", KITCHEN)
    for answer, status in (("fault 50 Memory", 3), ("hello", 1)):
        program = program_of(room.folder / "program", "cat >/dev/null", f"echo {answer}")
        for form in FORMS:
            with case(f"a program that prints {answer}, as {form}"):
                room.explain("--format", form, right, program=program).must_show(answer, status)
    with case("a program that isn't there"):
        room.explain("--format", "json", right, program="nowhere").must_say("explain: ", 1)
    with case("another fault than that of explain's own reading"):
        program = program_of(room.folder / "program", "cat >/dev/null", "echo refused 14 Direction line 3")
        room.write("one.ttcn", BROKEN)
        found = json.loads(room.explain("--format", "json", "one.ttcn", program=program).text)
        must_be([(it["number"], it["line"]) for it in found], [(14, 3)])
    with case("a script of more than 1 MiB"):
        room.write("one.ttcn", " " * (1 << 21))
        room.explain("--format", "gcc", "one.ttcn").must_print(
            "one.ttcn:1:1: error: the text has more than 1,048,576 bytes [15 Limit]\n"
            "one.ttcn:1:1: note: write instead: a script for each test case\n",
            1,
        )


def files_of_all_kinds(room: Room) -> None:
    with case("a name that is no UTF-8"):
        name = os.fsdecode(b"\xff.ttcn")
        (room.folder / name).write_text(LETTER, encoding="utf-8")
        for form in FORMS:
            room.explain("--format", form, name).must_say_nothing(1)
        log = json.loads(room.explain("--format", "sarif", name).text)["runs"][0]["results"][0]
        must_be(log["locations"][0]["physicalLocation"]["artifactLocation"]["uri"], "%FF.ttcn")
    with case("bytes that are no UTF-8 before a place"):
        (room.folder / "one.ttcn").write_bytes(TYPES.encode() + b"  /* \xff\xe2\x82 */ testcase t() runs on D { }\n}\n")
        must_be(room.explain("--format", "gcc", "one.ttcn").text.split(": ")[0], "one.ttcn:4:34")
    with case("the bytes of a program"):
        (room.folder / "one.ttcn").write_bytes(Path(sys.executable).read_bytes()[:65536])
        for form in FORMS:
            room.explain("--format", form, "one.ttcn").must_say_nothing(1)
    with case("a folder"):
        (room.folder / "scripts").mkdir()
        file_of(room.folder / "scripts" / "one.ttcn", LETTER)
        room.explain("--format", "gcc", "scripts").must_show("^scripts/one.ttcn:1:1: error: ", 1)
    with case("a script of tools/rewrite, and where its lines come from"):
        room.write("one.ttcn", "module M {\n  type component C { }\n  testcase t() runs on C { q.clear; } // 7\n}\n")
        room.write("one.ttcn.map", "3 7:5 login.ttcn\n")
        room.explain("--format", "gcc", "one.ttcn").must_show("note: comes from login.ttcn:7:5$", 1)


def calls(room: Room) -> None:
    right = room.write("right.ttcn", KITCHEN)
    for words in (("--format", "xml"), ("--format", "gcc", "--json"), ("--format", "gcc", "--all"), ("--format",)):
        with case(f"a wrong command line: {' '.join(words)}"):
            room.explain(right, *words).must_complain("^explain: ", 4)
    with case("onto a full device"):
        onto_a_full_device(EXPLAIN, "--tpr", PROGRAM, "--format", "sarif", EXPLAIN).must_say(
            "explain: the answer can't be written", 3
        )


GROUPS = (
    (texts, 2), (objects, 2), (of_a_compiler, 1), (of_github, 1), (of_gitlab, 2), (of_sarif, 2), (by_schema, 0),
    (together, 10), (valid_scripts, 12), (other_answers, 15), (files_of_all_kinds, 5), (calls, 5),
)  # fmt: skip


def in_a_room(group: Callable[[Room], None]) -> None:
    with room() as folder:
        group(Room(folder))


if __name__ == "__main__":
    del sys.argv[1:]
    sys.exit(try_groups(Group(partial(in_a_room, it), least, it.__name__) for it, least in GROUPS))
