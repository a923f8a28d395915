"""The functions that `tp_c` exports, as crates/tp_c/src/export.rt declares them."""
from __future__ import annotations

import re
from dataclasses import dataclass
from pathlib import Path

ROOT = Path(__file__).resolve().parents[2]
SOURCE = ROOT / "crates" / "tp_c" / "src" / "export.rt"

_HEAD = re.compile(r'pub (?:unsafe )?extern "C" fn tp_port_(\w+)\((.*?)\)(?: -> (\w+))?\n?(.*?)\{\n', re.S)
# The relation between the queue before and after a call that the `ensures*` of an export states.
_RELATION = re.compile(r"⌜ (\w+) q .*? after ⌝")


@dataclass(frozen=True)
class Export:
    """`tp_port_NAME`: its parameters with their types, its result, and the relation that it states."""

    name: str
    parameters: tuple[tuple[str, str], ...]
    result: str
    relation: str

    def beside_the_port(self) -> tuple[tuple[str, str], ...]:
        """The parameters after the port."""
        return self.parameters[1:]


def exports() -> list[Export]:
    """All exports, in the order of the source."""
    found = []
    for name, given, result, clauses in _HEAD.findall(SOURCE.read_text(encoding="utf-8")):
        names = [tuple(it.strip().split(": ", 1)) for it in given.split(",") if it.strip()]
        relation = _RELATION.search(clauses)
        found.append(Export(name, tuple((it[0], it[1]) for it in names), result, relation[1] if relation else ""))
    return found


def calls() -> list[Export]:
    """The exports that state a relation: they lend the port's queue to the function of `port` with the same name."""
    return [it for it in exports() if it.relation]
