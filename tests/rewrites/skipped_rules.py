"""Tests everything that the reader of tools/rewrite skips: what becomes of it, and why.

    tests/rewrites/skipped_rules.py PROGRAM

Each line of tests/rewrites/skipped has the file and the function that skips something, a script with it, `carried` or
the reason of the refusal, and why. Each function that skips something has a line. It prints a line `passed ..` or
`FAILED: ..` for each case.
"""
from __future__ import annotations

import ast
import glob
import os
import sys

sys.path.insert(0, os.path.dirname(os.path.realpath(__file__)))

from asking import FOLDER, TOOLS, carried, judged
from rewrite_rules import row_script

# Calls that read something. If their result isn't used, it is skipped.
_READING = ("skip_brackets", "known_modifier", "modifiers", "type_name", "name", "expression", "_redirect")


def passing() -> set[tuple[str, str]]:
    """The functions of the reader that skip something."""
    found: set[tuple[str, str]] = set()
    for file in [*glob.glob(f"{TOOLS}/tpr_tools/rewrite/reading_*.py"), f"{TOOLS}/tpr_tools/rewrite/cursor.py"]:
        with open(file, encoding="utf-8") as opened:
            tree = ast.parse(opened.read())
        for function in (node for node in ast.walk(tree) if isinstance(node, ast.FunctionDef)):
            unused = [node.value for node in ast.walk(function) if isinstance(node, ast.Expr)]
            both = [part for one in unused for part in ((one.body, one.orelse) if isinstance(one, ast.IfExp) else (one,))]
            if any(is_reading(one) for one in both):
                found.add((os.path.basename(file), function.name))
    return found


def is_reading(node: ast.expr) -> bool:
    return isinstance(node, ast.Call) and isinstance(node.func, ast.Attribute) and node.func.attr in _READING


def main(program: str) -> None:
    with open(f"{FOLDER}/skipped", encoding="utf-8") as opened:
        rows = [line.rstrip("\n").split(" | ") for line in opened]
    told = {(row[0].split()[0], row[0].split()[1]) for row in rows}
    judged("each function that passes something has a row", told == passing(), f"{told ^ passing()}")
    for of, script, wanted, why in rows:
        ended = carried(program, "row", row_script(script))
        is_so = ended.status == 0 if wanted == "carried" else ended.status == 2 and wanted in ended.said
        judged(f"{of}: {script}", is_so and bool(why), f"{ended.status}: {ended.said}")


if __name__ == "__main__":
    main(sys.argv[1])
