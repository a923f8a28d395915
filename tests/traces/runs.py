"""Judges the traces of free runs.

    runs.py PROGRAM SCRIPT.. --judge COMMAND..

`PROGRAM trace SCRIPT` is called several times, some of them on one processor. Each trace must be lawful and one run, by
the judge in oracle.py and by the command followed by a file; without its lines `came` it must be a report that the
script may have. It prints a line `passed N SCRIPT by JUDGE` for each script and judge, or lines that begin with
`FAILED: SCRIPT by JUDGE`.
"""
import argparse
import os
import subprocess
import sys
import tempfile
from collections.abc import Callable

from compare import Judge
from oracle import answer_of

HERE = os.path.dirname(os.path.realpath(__file__))
sys.path += [f"{HERE}/../orders", f"{HERE}/../../tools"]

from judge import is_allowed
from judged import expected_beside
from tpr_tools.model.bodies import TestCase
from tpr_tools.model.reading import read_script

RUNS, SECONDS = 6, 20
ONE_PROCESSOR = ["taskset", "-c", str(min(os.sched_getaffinity(0)))]

Answer = Callable[[bytes], tuple[str, int]]


class Reports:
    """The reports that a script may have: those in the files beside it, or without such files those that the judge of
    reports allows. Each is judged once."""

    def __init__(self, script: str):
        self.case, self.known = TestCase(read_script(script)), {it: True for it in expected_beside(script)}
        self.are_all_known = bool(self.known)

    def may_have(self, report: str) -> bool:
        if report not in self.known:
            self.known[report] = not self.are_all_known and is_allowed(self.case, report) is True
        return self.known[report]


def without_arrivals(trace: str) -> str:
    return "".join(line for line in trace.splitlines(True) if not line.startswith("came "))


def run(command: list[str], reports: Reports) -> tuple[bytes, str | None]:
    """Runs the command. Returns its trace, and what is wrong with it as a report, or None."""
    try:
        ended = subprocess.run(
            command, stdin=subprocess.DEVNULL, capture_output=True, timeout=SECONDS, check=False
        )
    except subprocess.TimeoutExpired:
        return b"", f"it hasn't ended after {SECONDS} seconds"
    trace = ended.stdout.decode("latin-1")
    if ended.returncode != 0 or ended.stderr:
        return ended.stdout, f"status {ended.returncode}, and it said {ended.stderr!r}"
    if not reports.may_have(without_arrivals(trace)):
        return ended.stdout, f"without the lines `came` this is no report that it may have\n{trace}"
    return ended.stdout, None


def fault_of(trace: bytes, answer: Answer) -> str | None:
    """Describes the judge's objection to the trace, or returns None."""
    if (found := answer(trace)) == ("lawful\none run\n", 0):
        return None
    return f"with status {found[1]} it is said\n{found[0]}of\n{trace.decode('latin-1')}"


def judged(program: str, script: str, judges: dict[str, Answer]) -> list[str]:
    """The results of one script, one for each judge."""
    reports = Reports(script)
    faults: dict[str, str] = {}
    for turn in range(RUNS):
        before = ONE_PROCESSOR if turn % 3 == 2 else []
        trace, wrong = run([*before, program, "trace", script], reports)
        for name, answer in judges.items():
            fault = fault_of(trace, answer) if wrong is None else wrong
            if fault is not None:
                faults.setdefault(name, f"run {turn + 1}: {fault}")
    failed = [f"FAILED: {script} by {name}, {fault}" for name, fault in faults.items()]
    return [*(f"passed {RUNS} {script} by {name}" for name in judges if name not in faults), *failed]


def main() -> int:
    words = argparse.ArgumentParser(description="Judges the traces of free runs.")
    words.add_argument("program", metavar="PROGRAM")
    words.add_argument("scripts", metavar="SCRIPT", nargs="+")
    words.add_argument("--judge", metavar="COMMAND", nargs=argparse.REMAINDER, required=True)
    asked = words.parse_args()
    with tempfile.TemporaryDirectory() as room:
        command = Judge(asked.judge, os.path.join(room, "trace"))
        judges: dict[str, Answer] = {"oracle.py": answer_of, "the command": command.answer}
        for script in asked.scripts:
            print("\n".join(judged(asked.program, script, judges)), flush=True)
    return 0


if __name__ == "__main__":
    sys.exit(main())
