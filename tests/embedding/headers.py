#!/usr/bin/env python3
"""Tests that tp_port.h declares what `tp_c` exports, with the same parameters in the same order and the same numbers.

It prints a line `passed NAME` or `FAILED: NAME: WHY` for each function and each number.
"""
from __future__ import annotations

import re
import sys

sys.dont_write_bytecode = True

from exports import ROOT, Export, exports

HEADER = ROOT / "embedding" / "tp_port.h"
SOURCE = ROOT / "crates" / "tp_c" / "src" / "port.rt"

# Each type of an export as C has it. A `Global` has no size, so C passes nothing for it.
TYPES = {
    "bool": "bool",
    "u32": "uint32_t",
    "u64": "uint64_t",
    "usize": "size_t",
    "Answer": "tp_answer",
    "*mut Opaque": "tp_port *",
    "": "void",
}
NUMBERS = ("NOTHING", "TOOK", "DROPPED", "STARTED", "HALTED", "STOPPED")


def declared(export: Export) -> str:
    """The declaration that the header must have."""
    given = [(name, kind) for name, kind in export.parameters if kind != "Global"]
    words = ", ".join(f"{TYPES[kind]} {name}".replace("* ", "*") for name, kind in given) or "void"
    return f"{TYPES[export.result]} tp_port_{export.name}({words});"


def text_of_header() -> str:
    """The header without its comments."""
    return re.sub(r"/\*.*?\*/", "", HEADER.read_text(encoding="utf-8"), flags=re.S)


def wrong_functions(text: str) -> dict[str, str]:
    """The fault of each function, or an empty text."""
    there = re.findall(r"(?m)^\w+ tp_port_\w+\(.*\);$", text)
    wanted = {f"tp_port_{it.name}": declared(it) for it in exports()}
    wrong = {name: "" if line in there else f"the header lacks `{line}`" for name, line in wanted.items()}
    others = [line for line in there if line not in wanted.values()]
    wrong["no other function"] = f"the header declares `{others[0]}`, which isn't exported so" if others else ""
    return wrong


def wrong_numbers(text: str) -> dict[str, str]:
    source = SOURCE.read_text(encoding="utf-8")
    wrong = {}
    for name in NUMBERS:
        ours = re.findall(rf"(?m)^const {name}: u32 = (\d+);", source)
        theirs = re.findall(rf"\bTP_{name} = (\d+)", text)
        is_same = ours == theirs and len(ours) == 1
        wrong[f"TP_{name}"] = "" if is_same else f"it is {theirs} in the header, and {ours} in port.rt"
    return wrong


def wrong_answer(text: str) -> dict[str, str]:
    ours = [it for it in re.findall(r"(?m)^    pub (\w+): (u32|u64),", SOURCE.read_text(encoding="utf-8"))]
    body = re.search(r"typedef struct tp_answer \{(.*?)\}", text, re.S)
    theirs = re.findall(r"(\w+) (\w+);", body[1]) if body else []
    is_same = theirs == [(TYPES[kind], name) for name, kind in ours] and len(ours) == 4
    return {"tp_answer": "" if is_same else f"its fields are {theirs} in the header, and {ours} in port.rt"}


def main() -> int:
    text = text_of_header()
    wrong = {**wrong_functions(text), **wrong_numbers(text), **wrong_answer(text)}
    for name, why in wrong.items():
        print(f"FAILED: {name}: {why}" if why else f"passed {name}")
    return 1 if any(wrong.values()) else 0


if __name__ == "__main__":
    sys.exit(main())
