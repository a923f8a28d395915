"""Tests that the other tools name the original lines of a script that tools/rewrite wrote (mapped/).

    tests/rewrites/map_rules.py PROGRAM

`mapped/why` and the files there that end with `annotated` or `explored` were worked out by hand. It prints a line
`passed ..` or `FAILED: ..` for each case.
"""
from __future__ import annotations

import argparse
import json
import os
import shutil
import subprocess
import sys
import tempfile

FOLDER = os.path.dirname(os.path.realpath(__file__))
ROOT = os.path.dirname(os.path.dirname(FOLDER))
sys.path.insert(0, f"{ROOT}/tools")

from tpr_tools.explore.forced_script import forced_script
from tpr_tools.explore.parting import Deed, Parting, Unordered
from tpr_tools.origins import Line, Origins, Row, lines_told


def judged(name: str, is_so: bool, why: str) -> None:
    print(f"passed {name}" if is_so else f"FAILED: {name}: {why}")


def read(file: str) -> str:
    with open(file, encoding="utf-8") as opened:
        return opened.read()


def tool(program: str, *words: str, beside: str = f"{FOLDER}/mapped", ordered: str = f"{FOLDER}/nowhere") -> str:
    """The output of a tool, standard error included, run in the folder of the modules."""
    run = subprocess.run(
        [f"{ROOT}/tools/{words[0]}", *words[1:]], cwd=beside, check=False, text=True,
        stdout=subprocess.PIPE, stderr=subprocess.STDOUT,
        env={**os.environ, "TPR": program, "TPR_ORDERED": ordered},
    )
    return run.stdout


def main() -> None:
    words = argparse.ArgumentParser(description="What the other tools say of a script that tools/rewrite wrote.")
    words.add_argument("program", metavar="PROGRAM", help="tpr")
    program = os.path.abspath(words.parse_args().program)
    with tempfile.TemporaryDirectory() as folder:
        output = f"{folder}/kitchen.ttcn"
        tool(program, "rewrite", "--ended=queued", "kitchen.ttcn", "types.ttcn", "-o", output)
        with open(f"{folder}/report", "w", encoding="utf-8") as opened:
            subprocess.run([program, "run", output], stdout=opened, check=False)
        look_at_why(program, output, f"{folder}/report")
        look_at_annotated(program, output)
        look_at_chart(program, output, f"{folder}/report")
        look_at_explain(program, output)
        look_at_another(program, output)
        one_module(program, f"{folder}/login.ttcn")
        parted(program, folder)
        raced(program, f"{folder}/race.ttcn")
        of_odd_names(program, folder)
    look_at_partings()
    look_at_forced_lines()
    look_at_lines()


def look_at_why(program: str, output: str, report: str) -> None:
    found = tool(program, "why", output, report)
    judged("why, of two modules", found == read(f"{FOLDER}/mapped/why"), found)


def look_at_annotated(program: str, output: str) -> None:
    found = tool(program, "why", "--annotate", output)
    judged("what was done in two modules", found == read(f"{FOLDER}/mapped/annotated"), found)
    summary = "10 statements, 3 never reached: line 15 of kitchen.ttcn and line 13 of types.ttcn"
    found = tool(program, "why", "--summary", output)
    wanted = f"{output}  {summary}\n1 script: 10 statements, 3 never reached\n"
    judged("a summary of two modules", found == wanted, found)
    found = tool(program, "why", "--annotate", output, beside=ROOT)
    told = "why: types.ttcn can't be read: No such file or directory\n"
    judged("modules that aren't where they were", found == told, found)


def parted(program: str, folder: str) -> None:
    """A statement with several copies is reached if one of them is, and its count is the sum of theirs."""
    module, output = f"{folder}/parted.ttcn", f"{folder}/out.ttcn"
    text = read(f"{FOLDER}/mapped/parted.ttcn")
    with open(module, "w", encoding="utf-8") as opened:
        opened.write(text)
    tool(program, "rewrite", "parted.ttcn", "-o", output, beside=folder)
    found = tool(program, "why", "--annotate", output, beside=folder)
    judged("what was done where the ways part", found == read(f"{FOLDER}/mapped/parted.annotated"), found)
    with open(module, "w", encoding="utf-8") as opened:
        opened.write(text.replace("\n\n", "\n", 1))
    found = tool(program, "why", "--annotate", output, beside=folder)
    told = "why: parted.ttcn:8:11: the map names a statement there, but the line has none; run tools/rewrite again\n"
    judged("a module that was changed", found == told, found)


def look_at_chart(program: str, output: str, report: str) -> None:
    found = tool(program, "chart", "--text", "--script", output, report)
    marks = ("took hatch (types.ttcn:10)", "[set fail (kitchen.ttcn:16)]", "end waiting (types.ttcn:12)")
    judged("chart, of two modules", all(mark in found for mark in marks), found)


def look_at_explain(program: str, output: str) -> None:
    """The written script is changed to have a fault; its lines stay at their places."""
    with open(output, encoding="utf-8") as opened:
        lines = opened.read().splitlines()
    place = next(number for number, line in enumerate(lines) if "setverdict(fail)" in line)
    lines[place] = lines[place].replace("(fail)", "(fall)")
    with open(output, "w", encoding="utf-8") as opened:
        opened.write("\n".join(lines) + "\n")
    found = tool(program, "explain", output).splitlines()
    judged("explain", found[1:2] == ["  comes from kitchen.ttcn:16:40"], f"{found}")
    told = tool(program, "explain", "kitchen.ttcn")
    judged("explain of another script", "comes from" not in told, told)


def look_at_another(program: str, output: str) -> None:
    """A line is inserted, so that the map doesn't belong to the script any more."""
    with open(output, encoding="utf-8") as opened:
        text = opened.read().replace("(fall)", "(fail)")
    with open(output, "w", encoding="utf-8") as opened:
        opened.write("\n" + text)
    found = tool(program, "why", output)
    told = f"why: {output}.map, line 1: it isn't the map of {output}; tools/rewrite writes both\n"
    judged("the map of another script", found == told, found)
    with open(f"{output}.map", "w", encoding="utf-8") as opened:
        opened.write("no map\n")
    found = tool(program, "why", output)
    judged("what isn't a map", found == told, found)


def one_module(program: str, output: str) -> None:
    """For a single module the lines are shown without the file, which is named before them."""
    script = f"{FOLDER}/natural/login_with_templates.ttcn"
    tool(program, "rewrite", script, "-o", output)
    found = tool(program, "why", output).splitlines()
    is_so = found[:1] == [f"lines of {script}"]
    judged("whose lines are told", is_so, f"{found[:1]}")
    sent = next((line.split("  sent")[0].split() for line in found if "sent v_server" in line), ["nothing"])
    judged("why, of one module", sent == ["34", "->", "24"], f"{sent}")


def of_odd_names(program: str, folder: str) -> None:
    """A row of the map is one line, whatever the name of the module is."""
    for name in (b"\xff.ttcn", b"two\nlines.ttcn", "two\u2028lines.ttcn".encode()):
        module, output = f"{folder}/{os.fsdecode(name)}", f"{folder}/of_odd_name.ttcn"
        shutil.copy(f"{FOLDER}/mapped/parted.ttcn", module)
        found = tool(program, "rewrite", module, "-o", output) + tool(program, "why", "--summary", output)
        judged(f"the map of a module with the name {name!r}", found.startswith(f"{output}  "), found)


def raced(program: str, output: str) -> None:
    """Where two runs diverge: in the text and in JSON each line is the original one."""
    tool(program, "rewrite", "race.ttcn", "says.ttcn", "-o", output)
    found = tool(program, "explore", output)
    told = found[found.find("lines of ") : found.find("\nNo reports: ")]
    is_so = found.startswith("pass or fail\n") and told == read(f"{FOLDER}/mapped/race.explored")
    judged("where two runs diverge, of two modules", is_so, found)
    printed = tool(program, "explore", output, "--json")
    where = json.loads(printed)["partings"][0]["where"] if printed.startswith("{") else {}
    places = [where.get(key, {}).get("origin") for key in ("first", "second")]
    judged("the same as an object", places == ["race.ttcn:12:16", "race.ttcn:13:16"], printed)
    unordered = [place["origin"] for place in where.get("unordered") or []]
    judged("what has no order, as an object", unordered == ["says.ttcn:7:11"] * 2, printed)
    texts = [where.get(key, {}).get("text", "").rpartition(", ")[2] for key in ("first", "second")]
    judged("where a message was sent, as an object", texts == ["sent at line 7 of says.ttcn"] * 2, printed)
    found = tool(program, "explore", output, ordered=program_of_line(f"{output}.ordered", "refused 15 Limit line 6"))
    told = "No reports: with a step more in each body the script is refused 15 Limit line 7 of says.ttcn\n"
    judged("where what is run in its place is refused", found.endswith(told), found)
    with open(f"{output}.map", "a", encoding="utf-8") as opened:
        opened.write("2 1:1 race.ttcn\n")
    found = tool(program, "explore", output)
    is_so = "it isn't the map of" in found and "Where the runs diverge" not in found
    judged("explore, of a map that isn't the script's", is_so, found)


def program_of_line(file: str, line: str) -> str:
    """A program that refuses every script with this line."""
    with open(file, "w", encoding="utf-8") as opened:
        opened.write(f"#!/bin/sh\necho '{line}'\nexit 2\n")
    os.chmod(file, 0o755)
    return file


def look_at_forced_lines() -> None:
    """A line of the script that is run for a forced order is reported as the original line."""
    text = "module T {\n\n\n  type component C { }\n  testcase t() runs on C {\n\n    setverdict(pass);\n  }\n}\n"
    script = forced_script(text.encode())
    found = [script.own_line(number) for number in range(1, script.text().count("\n") + 1)]
    judged("lines of what is run in its place", found == [1, 4, 5, 7, 8, 9], f"{found}")


def look_at_partings() -> None:
    """Where two runs diverge, as tools/explore prints it."""
    origins = Origins([Row(3, 9, 5, "a.ttcn"), Row(4, 9, 5, "a.ttcn"), Row(6, 2, 1, "b.ttcn")])
    parting = Parting("mtc", Deed(3, "sent"), Deed(7, "waits forever"), Unordered(4, 6))
    wanted = (
        "line 9 of a.ttcn: mtc sent;\n  in the other run, at line 2 of b.ttcn, it waits forever\n"
        "line 9 of a.ttcn and line 2 of b.ttcn can come in either order\n"
    )
    judged("where two runs part", parting.text(origins) == wanted, parting.text(origins))
    told = Parting("mtc", Deed(3, "sent"), Deed(None, "waits"), None).as_json(origins)
    first, second = {"line": 3, "origin": "a.ttcn:9:5", "text": "sent"}, {"line": None, "origin": None, "text": "waits"}
    is_so = told == {"component": "mtc", "first": first, "second": second, "unordered": None}
    judged("where two runs part, as an object", is_so, f"{told}")
    same = Parting("mtc", Deed(3, "sent"), Deed(4, "sent"), None).text(origins)
    judged("where they part at one line", same == "line 9 of a.ttcn: mtc sent;\n  in the other run it sent\n", same)


def look_at_lines() -> None:
    lines = [Line("b.ttcn", 3), Line("a.ttcn", 8), Line("a.ttcn", 7), Line("a.ttcn", 7), Line("a.ttcn", 12)]
    told = lines_told(lines)
    judged("lines of two files", told == "lines 7-8 and 12 of a.ttcn and line 3 of b.ttcn", told)
    own = Origins([Row(5, 1, 1, "a.ttcn"), Row(8, 2, 1, "a.ttcn")])
    found = [own.line(number).number for number in (1, 5, 7, 8, 99)]
    judged("a line without a place has that above it", found == [1, 1, 1, 2, 2], f"{found}")


if __name__ == "__main__":
    main()
