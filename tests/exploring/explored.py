"""Tests tools/explore: for each verdict that `tpr verdicts` names, its order leads to a run with that verdict, whose
report is one that the script may have.

    explored.py each TPR ORDERED SCRIPT..
    explored.py random TPR ORDERED SEED NUMBER
    explored.py grammar TPR ORDERED SEED NUMBER

`each` tests what is shown of each script: each verdict has a report with this result, which the judge of tests/orders
allows, and the place where two runs diverge is printed. It prints a line `passed VERDICTS SCRIPT` for each script.
`random` does so with random scripts of few components, and with random orders of their steps: each order is forced, and
must give the report of the model of runs. A hundredth of the scripts must have several verdicts.
`grammar` does all this with scripts in which every form of the grammar occurs (grammar_scripts.py). The model of runs
must also allow what `tpr run` prints for each.

For each fault it prints lines that begin with `FAILED: `.
"""
from __future__ import annotations

import argparse
import os
import random
import re
import sys
import tempfile
from concurrent.futures import ProcessPoolExecutor
from functools import partial
from pathlib import Path
from typing import Callable, NamedTuple, Optional

sys.dont_write_bytecode = True
ROOT = Path(__file__).resolve().parents[2]
sys.path[:0] = [str(ROOT / it) for it in ("tools", "tests/orders")]

from generator import some_script
from grammar_scripts import FORMS, some_grammar_script
from judge import is_allowed
from tpr_tools.explore.answers import Answer
from tpr_tools.explore.asking import printed_by, verdicts_by
from tpr_tools.explore.exploration import Exploration
from tpr_tools.explore.following import result_of, takes_step
from tpr_tools.explore.forced_runs import ForcedRuns
from tpr_tools.explore.forced_script import ForcedScript, forced_script
from tpr_tools.model.bodies import TestCase
from tpr_tools.model.reading import read_script
from tpr_tools.model.run import Run
from tpr_tools.script.tokens import Text

MOST_COMPONENTS = 5  # of a random script
ORDERS_BY_CHANCE = 5  # of each script
NOTHING_ANSWERED = Answer((), False, 0, ())


class Programs(NamedTuple):
    """The program that answers, and the one that forces orders."""

    tpr: str
    ordered: str


class Looked(NamedTuple):
    """The number of a script's verdicts, and what is wrong."""

    verdicts: int
    wrong: Optional[str]


def runs_of(programs: Programs, script: ForcedScript) -> ForcedRuns:
    runs = ForcedRuns(programs.ordered)
    runs.write_script(script.text())
    return runs


def explored(programs: Programs, path: Path) -> Exploration:
    """Explores a script as tools/explore does."""
    data = path.read_bytes()
    answer = verdicts_by(programs.tpr, data)
    assert isinstance(answer, Answer), answer
    script = forced_script(data)
    exploration = Exploration(script, answer)
    exploration.run(runs_of(programs, script))
    return exploration


def wrong_run_in(exploration: Exploration, path: Path) -> Optional[str]:
    """Describes the first wrong run, or returns None."""
    if faults := exploration.faults():
        return faults[0]
    case = TestCase(read_script(str(path)))
    for shown in exploration.all_shown():
        if shown.missing or not shown.report:
            return f"there is no report of {shown.verdict} by {' '.join(shown.order)}: {shown.missing}"
        if shown.report.splitlines()[-1] != f"result {shown.verdict}":
            return f"this is a report of {shown.verdict}\n{shown.report}"
        if not is_allowed(case, shown.report):
            return f"the script can't have this report\n{shown.report}"
    return None


def wrong_in(exploration: Exploration, path: Path) -> Optional[str]:
    """Describes the first fault, or returns None."""
    if wrong := wrong_run_in(exploration, path):
        return wrong
    if [it.verdict for it in exploration.shown] != list(exploration.answer.verdicts):
        return f"runs of {[it.verdict for it in exploration.shown]}"
    told = [it.where for it in exploration.partings()]
    return None if len(told) == len(exploration.shown) - 1 and None not in told else "a parting is missing"


def looked_at(programs: Programs, path: Path) -> Looked:
    try:
        exploration = explored(programs, path)
        return Looked(len(exploration.answer.verdicts), wrong_in(exploration, path))
    except Exception as error:  # a script that can't be read fails, and the others go on
        return Looked(0, repr(error))


def tell_each(looking: Callable[[Path], Looked], paths: list[Path]) -> list[Looked]:
    """Prints the result of each script."""
    with ProcessPoolExecutor(len(os.sched_getaffinity(0))) as pool:
        looked = []
        for path, it in zip(paths, pool.map(looking, paths)):
            wrong = f"FAILED: {path}: {it.wrong}\n{path.read_text('latin-1')}"
            print(wrong if it.wrong else f"passed {it.verdicts} {path}", flush=True)
            looked.append(it)
    return looked


# Random scripts


def is_small(text: str) -> bool:
    return text.count(".create;") + 1 + text.count(" system C") <= MOST_COMPONENTS


def made_by_chance(seed: str, number: int, folder: str, some: Callable[[random.Random], str]) -> list[Path]:
    """Makes this many random scripts of few components."""
    made: list[Path] = []
    for at in range(2 * number):
        text = some(random.Random(f"{seed} {at}"))
        if len(made) < number and is_small(text):
            made.append(Path(folder, f"seed_{seed}_script_{at}.ttcn"))
            made[-1].write_text(text, encoding="latin-1")
    return made


def order_by_chance(case: TestCase, chance: random.Random) -> tuple[str, tuple[str, ...]]:
    """A random order of steps up to an end, and the verdict there."""
    run, names = Run(case), list[str]()
    able = list(case.names)
    while able:
        name = chance.choice(able)
        if takes_step(run, case.places[name]):
            names.append(name)
            able = list(case.names)
        else:
            able.remove(name)
    return result_of(run), tuple(names)


def wrong_by_chance(programs: Programs, path: Path) -> Optional[str]:
    """Describes what is wrong with the first faulty of some random orders, or returns None."""
    script, chance = forced_script(path.read_bytes()), random.Random(path.name)
    case = TestCase(read_script(str(path)))
    exploration = Exploration(script, NOTHING_ANSWERED)
    orders = [order_by_chance(case, chance) for _ in range(ORDERS_BY_CHANCE)]
    exploration.shown = [exploration.followed(*it) for it in orders]
    exploration.run(runs_of(programs, script))
    return wrong_run_in(exploration, path)


def looked_at_by_chance(programs: Programs, path: Path) -> Looked:
    looked = looked_at(programs, path)
    return looked if looked.wrong else looked._replace(wrong=wrong_by_chance(programs, path))


def by_chance(programs: Programs, seed: str, number: int) -> None:
    with tempfile.TemporaryDirectory() as folder:
        made = made_by_chance(seed, number, folder, some_script)
        looked = tell_each(partial(looked_at_by_chance, programs), made)
    several = sum(it.verdicts > 1 for it in looked)
    word = "FAILED: only" if several < number // 100 else "passed"
    print(f"{word} {several} of {number} scripts by chance have several verdicts")


# Scripts with every form of the grammar


def wrong_beside_a_run(programs: Programs, path: Path) -> Optional[str]:
    """Describes what the program prints for a free run, if the model of runs doesn't allow it."""
    status, printed = printed_by([programs.tpr, "run", str(path)])
    if status != 0:
        return f"tpr run ended with status {status}: {printed}"
    return None if is_allowed(TestCase(read_script(str(path))), printed) else f"the model can't have\n{printed}"


def looked_at_beside_a_run(programs: Programs, path: Path) -> Looked:
    looked = looked_at_by_chance(programs, path)
    return looked if looked.wrong else looked._replace(wrong=wrong_beside_a_run(programs, path))


def of_the_grammar(programs: Programs, seed: str, number: int) -> None:
    with tempfile.TemporaryDirectory() as folder:
        made = made_by_chance(seed, number, folder, some_grammar_script)
        tell_each(partial(looked_at_beside_a_run, programs), made)
        tokens = "\n".join(" ".join(Text(it.read_bytes()).tokens) for it in made)
    for form, pattern in FORMS.items():
        print(f"passed {form}" if re.search(pattern, tokens) else f"FAILED: no script has {form}")


def arguments() -> argparse.Namespace:
    words = argparse.ArgumentParser(description="Whether tools/explore shows runs of the verdicts that there are.")
    kinds = words.add_subparsers(dest="what", required=True)
    for name in ("each", "random", "grammar"):
        kind = kinds.add_parser(name)
        kind.add_argument("tpr", metavar="TPR")
        kind.add_argument("ordered", metavar="ORDERED")
        if name != "each":
            kind.add_argument("seed", metavar="SEED")
            kind.add_argument("number", metavar="NUMBER", type=int)
        else:
            kind.add_argument("scripts", metavar="SCRIPT", nargs="+", type=Path)
    return words.parse_args()


def main() -> int:
    asked = arguments()
    programs = Programs(asked.tpr, asked.ordered)
    if asked.what == "random":
        by_chance(programs, asked.seed, asked.number)
    elif asked.what == "grammar":
        of_the_grammar(programs, asked.seed, asked.number)
    else:
        tell_each(partial(looked_at, programs), asked.scripts)
    return 0


if __name__ == "__main__":
    sys.exit(main())
