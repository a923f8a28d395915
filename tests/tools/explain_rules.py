"""Rules for the output of tools/explain for many scripts, and for its words. explain_cases.py uses them."""
from __future__ import annotations

import json
import os
import re
from typing import Any

from tool_calls import ROOT, must, read
from tpr_tools.explain.explaining import explain, reading_of
from tpr_tools.explain.explanation import Explanation
from tpr_tools.refusals import SEND_FAULTS, Refusal
from tpr_tools.script.constructs import Construct
from tpr_tools.script.refusal_rules import BEYOND_SCRIPTS, RULES_OF, Rule, clauses_of
from tpr_tools.words import RESERVED, RESERVED_ELSEWHERE

Told = dict[str, dict[str, Any]]  # the output for each script, by its name without folder and ending


def told_in(printed: str) -> Told:
    """The output of `explain --json`."""
    told = json.loads(printed)
    must(told, "nothing is told")
    return {os.path.basename(one["file"]).removesuffix(".ttcn"): one for one in told}


def check_answers(told: Told, folder: str) -> None:
    """The answer for each script of the folder is the one in NAME.answer."""
    names = [name.removesuffix(".answer") for name in sorted(os.listdir(folder)) if name.endswith(".answer")]
    must(len(names) == len(told), f"{len(told)} scripts are told of, and there are {len(names)}")
    for name in names:
        one, wanted = told[name], read(os.path.join(folder, f"{name}.answer")).split()
        if wanted == ["accepted"]:
            must(one["answer"] == "accepted" and not one["places"], f"{name}: {one}")
            continue
        number, word, line = int(wanted[0]), wanted[1], int(wanted[2])
        is_told = [one["number"], one["name"], one["line"]] == [number, word, line]
        must(is_told, f"{name}: {wanted}, and {one}")
        check_places(os.path.join(folder, f"{name}.ttcn"), one)


def check_places(file: str, one: dict[str, Any]) -> None:
    """The column is in its line, and each line is shown unchanged."""
    with open(file, "rb") as opened:
        lines = opened.read().decode("utf-8", "replace").split("\n")
    must(one["sentence"] and len(one["can_stand"]) <= 6, f"{file}: {one}")
    must(one["rules"] or one["number"] == 10, f"{file}: no rule is told")
    of_number = [rule.value for rule in RULES_OF[Refusal(one["number"])]]
    must(set(one["rules"]) <= set(of_number), f"{file}: {one['rules']} aren't rules of {one['number']}")
    must(bool(one["own_reading"]) == (one["column"] is None and one["line"] != 0), f"{file}: {one}")
    if one["column"] is not None:
        last = len(lines[one["line"] - 1]) + 1
        must(1 <= one["column"] <= last, f"{file}: there is no column {one['column']}")
        must(one["places"], f"{file}: a column, and no place")
    for place in one["places"]:
        line = lines[place["line"] - 1].rstrip("\r")
        must(len(line) == len(place["text"]), f"{file}: line {place['line']} isn't shown as it is")


def check_planted(folder: str) -> None:
    """For an answer that differs from explain's own reading (in number, name or line), only the rules are printed."""
    numbers = [it for it in RULES_OF if it is not Refusal.READ]
    names = [name.removesuffix(".answer") for name in sorted(os.listdir(folder)) if name.endswith(".answer")]
    must(len(names) >= 1000, f"there are {len(names)} texts alone")
    for at, name in enumerate(names):
        with open(os.path.join(folder, f"{name}.ttcn"), "rb") as opened:
            data = opened.read()
        own = reading_of(data).answer
        line = int(own.split()[-1]) if own != "accepted" else 1
        same, other = (own.split(" line ")[0], numbers[at % len(numbers)].told())
        planted = {f"{same} line {line + 1}", f"refused {other} line {line}", f"refused {other} line {line + 2}"}
        for said in sorted(planted - {own} - {f"accepted line {line + 1}"}):
            check_planted_one(name, explain(name, data, said), said, own)


def check_planted_one(name: str, told: Explanation, said: str, own: str) -> None:
    """The number and the line are those of the answer, and the rules are all those of the number."""
    _, number, word, _, line = said.split()
    rules = list(RULES_OF[Refusal(int(number))])
    must([told.number, told.name, told.line] == [int(number), word, int(line)], f"{name}, {said}: {told}")
    must(told.rules == rules and told.own_reading == own, f"{name}, {said}: {told}")
    of_script = (told.column, told.places, told.can_stand, told.construct, told.clause, told.instead)
    must(of_script == (None, [], [], "", "", ""), f"{name}, {said}: {told}")
    is_first = told.sentence == rules[0].value.partition(". ")[0]
    must(is_first == (len(rules) == 1), f"{name}, {said}: {told.sentence}")
    must(f": {own}\n" in told.text(), f"{name}, {said}: {told.text()}")


def check_columns(told: Told) -> None:
    """At least nine of ten scripts that are refused at a line have a column."""
    refused = [one for one in told.values() if one["answer"] == "refused" and one["line"]]
    have = sum(one["column"] is not None for one in refused)
    must(len(refused) >= 600, f"{len(refused)} scripts alone are refused")
    must(have * 10 >= len(refused) * 9, f"{have} of {len(refused)} have a column")


def check_table(told: Told, table: str, least: int) -> None:
    """The output for each script agrees with its row of a table:
    `NAME|NUMBER|LINE|TEXT AT THE COLUMN|CONSTRUCT|CLAUSE`, or `NUMBER|LINE|..|SENTENCE`."""
    rows = [line.split("|") for line in read(table).splitlines() if not line.startswith("#")]
    must(len(rows) >= least, f"{table} has {len(rows)} rows, and {least} at least are wanted")
    for row in rows:
        name, number, line, behind = row[:4] if len(row) == 6 else [row[0], *row[:3]]
        must(name in told, f"there is no script {name}")
        one = told[name]
        must([one["number"], one["line"]] == [int(number), int(line)], f"{row}: {one}")
        must(one["column"], f"{row}: there is no column")
        place = [it for it in one["places"] if it["line"] == one["line"]][0]
        must(place["text"][one["column"] - 1 :] == behind, f"{row}: the column is {one['column']}")
        if len(row) == 6:
            found = [one["construct"], one["clause"]]
            must(found == row[4:], f"{row}: {found}")
            must(one["instead"] and one["construct"] in one["sentence"], f"{row}: {one}")
        else:
            must(one["sentence"] == row[3], f"{row}: {one['sentence']}")


def check_words() -> None:
    """Each rule is in a document, and each construct has a row with the same words."""
    refusals, profile = read(f"{ROOT}/docs/REFUSALS.md"), read(f"{ROOT}/docs/PROFILE.md")
    beyond = [it.rule for it in BEYOND_SCRIPTS.values()]
    for rule in (rule for rules in (*RULES_OF.values(), beyond) for rule in rules):
        must(rule.value in refusals or rule.value in profile, f"no document says: {rule.value}")
    reserved = set(profile.replace("`", " ").split())
    must(reserved >= RESERVED_ELSEWHERE | RESERVED, "docs/PROFILE.md hasn't each reserved word")
    page = read(f"{ROOT}/docs/FROM_TTCN3.md").splitlines()
    rows = [row.split(" | ") for row in page if row.startswith("| ")]
    told = {(row[0].removeprefix("| "), row[1]): row[2] for row in rows if len(row) == 5}
    for construct in Construct:
        title = construct.title.replace("the type {word}", "another base type, as `verdicttype`")
        title = title.replace("the operation {word}", "`match`, `valueof`")
        here = told.get((construct.clause, title))
        must(here, f"docs/FROM_TTCN3.md has no row for {title}, {construct.clause}")
        assert here is not None
        is_missing = construct.instead.startswith("nothing: ")
        must(here.startswith("no: " if is_missing else "instead: "), f"{title}: {here}")
        words = construct.instead.removeprefix("nothing: ").partition("{")[0]
        must(words in here, f"docs/FROM_TTCN3.md doesn't say of {title}: {words}")


def check_clauses() -> None:
    """The clauses of a rule are those in the heading of its section of docs/REFUSALS.md, if there are any."""
    checks = read(f"{ROOT}/docs/REFUSALS.md").partition("\n## The checks of a test case\n")[2].partition("\n## ")[0]
    found = 0
    for part in checks.split("\n### ")[1:]:
        clauses = re.match(r"[^(\n]*(?:\((?:ES 201 873-1, )?(.*)\))?\n", part)
        for rule in (it for it in Rule if f"| {it.value} |" in part):
            wanted = (clauses and clauses[1]) or ""
            must(clauses_of(rule) == wanted, f"{rule.name}: {clauses_of(rule)!r}, and not {wanted!r}")
            found += 1
    must(found >= 30, f"only {found} rules are found in docs/REFUSALS.md")
    must(not clauses_of(Rule.A_TOKEN) and not clauses_of(Rule.SHORT_NAME), "a rule of the reader has clauses")


def check_numbers() -> None:
    """The numbers and names are those of the document's table, and of the program's own table; each number that is ever
    printed has rules, in one place; and the faults of a send are in their order."""
    table = [(str(it.value), it.word) for it in Refusal]
    page = read(f"{ROOT}/docs/REFUSALS.md").partition("\n## Numbers and names\n")[2].partition("\n## ")[0]
    rows = "\n".join(line for line in page.splitlines() if line.startswith("|"))
    listed = re.findall("([0-9]+) ([A-Za-z]+)", rows)
    must(listed == table, f"docs/REFUSALS.md has {listed}, and tools/tpr_tools/refusals.py {table}")
    source = read(f"{ROOT}/crates/tp_common/src/refusal.rt")
    printed = re.findall(r'Refusal::\w+ => \(([0-9]+), "(\w+)"\)', source)
    must(printed == table, f"the program prints {printed}, and tools/tpr_tools/refusals.py has {table}")
    with_rules = sorted([*RULES_OF, *BEYOND_SCRIPTS])
    wanted = [it for it in Refusal if it != Refusal.WRITE]
    must(with_rules == wanted, f"{with_rules} have rules, and all but {Refusal.WRITE} are printed")
    order = f"the first in the order {', '.join(f'{fault:d}' for fault in SEND_FAULTS)} counts"
    must(order in read(f"{ROOT}/docs/PROFILE.md"), f"docs/PROFILE.md doesn't say: {order}")
