#!/usr/bin/env python3
"""Says what each function cost in the first check of a crate.

    tools/costs.py CRATE_FOLDER [COUNT]
    tools/costs.py -h | --help | --version

Prints the seconds of each, the dearest first: COUNT of them, or 25. Before it, in the crate's
folder, on a machine without other work:

    rm -rf out && rt check --jobs 1

A check writes a module into out/incremental as soon as it is done. So the time between two modules
is that of the later one, and is charged to the function, the type or the file of lemmas that it is
of. Behind F.Lts, in which the steps of F are gone through, it is charged to F: what follows there
is work on F, though its module is that of another.

What it can't tell: a module that is the first to cite a library waits until that is loaded, and
pays for it; what happens before the first module and behind the last is in none; with more than one
job, or beside other work, the order of the costs is all that is left; and over kept work only what
was checked anew counts, with the time between two checks as one long wait. So of two forms of a
function compare whole checks from nothing, and take a difference below a fifth for noise.

The status is 0 where it is told, 1 where no check has left a module, 3 where the answer can't be
written, and 4 for a wrong command line.
"""
from __future__ import annotations

import os
import sys

sys.dont_write_bytecode = True
sys.path.insert(0, os.path.dirname(os.path.realpath(__file__)))  # Python leaves it out if PYTHONSAFEPATH is set

from tpr_tools.interrupts import let_interrupts_end

let_interrupts_end()

import re
from collections import defaultdict

from tpr_tools import command

USAGE = "usage: tools/costs.py CRATE_FOLDER [COUNT]\n"
NOT_CHECKED = 1  # no check has left a module
MOST_TOLD = "25"

# The kinds of modules that a check makes for a function or a type, by the word after its name.
OF_ONE = (
    "Answers|Borrow|Carried|Code|Given|Goals|Invariants|Key|Kinds|Laws|Layout|Lts|Met|Named|Proof"
    "|Reads|Statement|Symbol|The[A-Z][A-Za-z]*|Tie"
)
MODULE = re.compile(r"Rattle-\w+?[-.](?:(?:proofs|specs)(?:\.contracts)?\.)?(?P<inner>.*?)(?:\.decls)?\.oantt")
PART = re.compile(rf"\.(?:{OF_ONE})(?=[.-]|$).*")
LINK = re.compile(r"(?:.*\.)?TheLinks\.\w+?-(?P<path>.+)")


def written(folder: str) -> list[tuple[float, str]]:
    """The modules of a check, each with the moment at which it was written, the oldest first."""
    found: list[tuple[float, str]] = []
    for at, _, names in os.walk(folder):
        modules = [name for name in names if name.endswith(".oantt")]
        found += [(os.stat(f"{at}/{name}").st_mtime, name) for name in modules]
    return sorted(found)


def owner_of(name: str) -> str:
    """The function, type or file of lemmas that a module belongs to."""
    module = MODULE.fullmatch(name)
    inner = module["inner"] if module else name
    link = LINK.fullmatch(inner)
    return link["path"].replace("-", ".") if link else PART.sub("", inner)


def costs_of(modules: list[tuple[float, str]]) -> dict[str, float]:
    """The seconds of each owner."""
    found: dict[str, float] = defaultdict(float)
    before, earlier = modules[0]
    for at, name in modules[1:]:
        is_behind_steps = re.search(r"\.Lts\b", earlier)
        found[owner_of(earlier if is_behind_steps else name)] += at - before
        before, earlier = at, name
    return found


def table(found: dict[str, float], most: int) -> str:
    """The total, and the `most` dearest owners."""
    whole = sum(found.values())
    lines = [f"{whole:8.1f} s in all, {len(found)} parts"]
    for owner, seconds in sorted(found.items(), key=lambda it: it[1], reverse=True)[:most]:
        lines.append(f"{seconds:8.1f} s {100 * seconds / whole if whole else 0:5.1f} %  {owner}")
    return "".join(f"{line}\n" for line in lines)


def main() -> int:
    words = sys.argv[1:]
    if words in (["-h"], ["--help"]):
        command.write_out(__doc__)
        return command.DONE
    if words == ["--version"]:
        command.write_out(command.version_line("costs.py"))
        return command.DONE
    folder, most = [*words, MOST_TOLD][:2] if len(words) in (1, 2) else ("", "")
    if folder.startswith("-") or not re.fullmatch("[1-9][0-9]{0,8}", most):
        command.say(USAGE)
        return command.WRONG_USAGE
    modules = written(f"{folder}/out/incremental")
    if not modules:
        raise command.Stop(NOT_CHECKED, f"no check has left a module in {folder}/out/incremental")
    command.write_out(table(costs_of(modules), int(most)))
    return command.DONE


command.run("costs.py", main)
