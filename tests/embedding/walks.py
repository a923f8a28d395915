#!/usr/bin/env python3
"""Writes the proofs of the exports of `tp_c`. Each export lends the queue at an address to a function of `port`, so one
template, walk.template, has the proof of them all.

    tests/embedding/walks.py          checks that each proof is as this script writes it
    tests/embedding/walks.py write    writes them

It prints a line `passed NAME` or `FAILED: NAME: WHY` for each. `tp_port_init` and `tp_port_drop` move a whole queue,
and their proofs are written by hand.
"""
from __future__ import annotations

import argparse
import re
import string
import sys
from pathlib import Path
from typing import Iterable

sys.dont_write_bytecode = True

from exports import ROOT, Export, calls

PROOFS = ROOT / "crates" / "tp_c" / "proofs"
TEMPLATE = Path(__file__).resolve().with_name("walk.template")

# The words of the logic for each type that crosses: its value, its row, and that a result of it can be landed.
WIDTHS = {"u32": "w32", "u64": "w64"}
DENOTED = {"bool": "Bool", "u32": "ℕ", "u64": "ℕ", "Answer": "Answer"}
ROWS = {"Answer": "answer.the_row"}
LAWFUL = {
    "bool": "bool_Lawful 𝓛",
    "u32": "uint_Lawful 𝓛 w32",
    "u64": "uint_Lawful 𝓛 w64",
    "Answer": "laws.the_row_laws.lawful 𝓛",
}
# The names of `Goes-dropped` at each type, by the size of the type in bytes.
GOES = {"bool": "at_1", "u32": "at_4", "u64": "at_8"}
OF_ANSWER = """\
use Rattle.tp_c.specs.declared.port.Answer.{Answer}
use Rattle.tp_c.specs.contracts.port.Answer as answer
use Rattle.tp_c.proofs.port.Answer.TheLaws as laws
"""


class _Walk(string.Template):
    """A template whose mark is `@`, because the proofs use `$` themselves."""

    delimiter = "@"


def walk_of(export: Export) -> str:
    """The whole proof of an export."""
    types = [kind for _, kind in export.beside_the_port()]
    filled = _Walk(TEMPLATE.read_text(encoding="utf-8"))
    words = {**words_of_parameters(types), **words_of_result(export)}
    fixed = {"name": export.name, "told": export.relation}
    body = filled.substitute(steps="", **fixed, **words)
    text = filled.substitute(steps=", ".join(steps_in(body)), **fixed, **words)
    return re.sub(r" +$", "", text, flags=re.M)


def words_of_parameters(types: list[str]) -> dict[str, str]:
    """The template's words that depend on the types of the parameters after the port."""
    numbered = list(enumerate(types))
    units = nested(["tt"] * (len(types) + 1))
    return {
        "stays": nested(["stay_dropped _ yes"] * (len(types) + 1)),
        "each_type_goes": "".join(goes_line(kind) for kind in dict.fromkeys(types)),
        "goes": nested(["at_ptr", *(GOES[kind] for kind in types)]),
        "makes_words": nested(["rawptr_vals", *(of_kind("vals", kind) for kind in types)]),
        "tells": nested(["rawptr_Tells", *(of_kind("Tells", kind) for kind in types)]),
        "words_type": "".join("List Val × (" for _ in types) + "Unit {0}" + ")" * len(types),
        "lasts_type": "".join("Unit {0} × (" for _ in types) + "Unit {0}" + ")" * len(types),
        "words": nested([f"{of_kind('vals', kind)} {argument(place)}" for place, kind in numbered]),
        "values": "".join(f"{value(kind, argument(place))} ∷ " for place, kind in numbered) + "[]",
        "typed": nested(["(tt, tt)", *(typed(place, kind) for place, kind in numbered)]),
        "owned": "".join(owned(place, kind) for place, kind in reversed(numbered)),
        "gets": "and_then ! (get ! refl) (" * (len(types) + 1) + "no_more !" + ")" * (len(types) + 1),
        "units": units,
        "joins": "nothing ! $ join ! $ " * (len(types) + 1),
    }


def words_of_result(export: Export) -> dict[str, str]:
    """The template's words that depend on the result and on the stated relation."""
    arguments = [argument(place) for place in range(len(export.beside_the_port()))]
    return {
        "result": DENOTED[export.result],
        "row": ROWS.get(export.result, export.result),
        "lawful": LAWFUL[export.result],
        "fact": " ".join([export.relation, "q", *arguments, "r"]),
        "of_answer": OF_ANSWER if export.result == "Answer" else "",
    }


def nested(items: list[str]) -> str:
    """A tuple in the notation of the logic: `(a, (b, tt))`."""
    return "".join(f"({it}, " for it in items) + "tt" + ")" * len(items)


def argument(place: int) -> str:
    """The value of the parameter at this place after the port."""
    return "a." + "1." * (place + 1) + "0"


def is_typed(place: int) -> str:
    return "are." + "1." * (place + 1) + "0.1"


def of_kind(word: str, kind: str) -> str:
    """A word of the logic for a type: `uint_vals w32`, `bool_Tells`."""
    return f"uint_{word} {WIDTHS[kind]}" if kind in WIDTHS else f"{kind}_{word}"


def value(kind: str, said: str) -> str:
    return f"vint {WIDTHS[kind]} {said}" if kind in WIDTHS else f"vbool {said}"


def typed(place: int, kind: str) -> str:
    return f"(tt, record {{ fits = {is_typed(place)} }})" if kind in WIDTHS else "(tt, tt)"


def owned(place: int, kind: str) -> str:
    makes = f"uint_Makes 𝓛 {WIDTHS[kind]}" if kind in WIDTHS else "bool_Makes 𝓛"
    shown = f"(refl, {is_typed(place)})" if kind in WIDTHS else "refl"
    return f"owned ! {kind} _ ({makes}) {argument(place)} _ {shown} $ join ! $ "


def goes_line(kind: str) -> str:
    return f"    let {GOES[kind]} = Goes-dropped 𝓛 0 (plain (λ _. {kind})) yes (λ κs x w. refl) in\n"


def steps_in(body: str) -> list[str]:
    """The names of Steps.antt that a proof uses, in the order of that file."""
    words = set(re.findall(r"[^\s(){},;]+", body))
    return [name for name in steps() if is_used(name, words)]


def steps() -> list[str]:
    text = (PROOFS / "Steps.antt").read_text(encoding="utf-8")
    return [name.strip() for names in re.findall(r"\.\{(.*?)\}", text) for name in names.split(",")]


def is_used(name: str, words: Iterable[str]) -> bool:
    """Whether a word is the name, the operator of that name, or one of its members."""
    core = name.replace("◌", "")
    return any(it in (name, core) or it.startswith(f"{name}.") for it in words)


def place_of(export: Export) -> Path:
    return PROOFS / "export" / f"tp_port_{export.name}" / "Proof.antt"


def write() -> int:
    for export in calls():
        place_of(export).parent.mkdir(parents=True, exist_ok=True)
        place_of(export).write_text(walk_of(export), encoding="utf-8")
    return 0


def compare() -> int:
    failed = 0
    for export in calls():
        place = place_of(export)
        committed = place.read_text(encoding="utf-8") if place.exists() else ""
        is_same = committed == walk_of(export)
        why = f"{place.relative_to(ROOT)} is not what walks.py writes: run tests/embedding/walks.py write"
        name = f"the proof of tp_port_{export.name}"
        print(f"passed {name}" if is_same else f"FAILED: {name}: {why}")
        failed += not is_same
    return 1 if failed else 0


def main() -> int:
    words = argparse.ArgumentParser(description="The proofs of the exports of tp_c.")
    words.add_argument("what", nargs="?", choices=("write",), help="writes them; else compares what is there")
    return write() if words.parse_args().what else compare()


if __name__ == "__main__":
    sys.exit(main())
