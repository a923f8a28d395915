"""Tests the judge: it must allow exactly the reports that some order of the components' acts gives.

    judged.py SCRIPT..

For a small script all reports are found by trying every order of acts. If files NAME.expected, or NAME.expected.1 and
so on, are beside NAME.ttcn, they must be these reports. The judge must allow each of them, and must refuse each report
that is altered a little, unless that is one of them. It prints a line `passed ALLOWED REFUSED SCRIPT` for each script,
or lines that begin with `FAILED: SCRIPT`.
"""
import argparse
import glob
import os
import random
import re
import sys
from concurrent.futures import ProcessPoolExecutor

sys.path.append(os.path.join(os.path.dirname(os.path.realpath(__file__)), "..", "..", "tools"))

from judge import is_allowed
from tpr_tools.model.bodies import TestCase
from tpr_tools.model.reading import read_script
from tpr_tools.model.run import Act, Run

MOST_STATES, MOST_LINES, ALTERED = 20_000, 100, 40


def reports_of(case: TestCase) -> set[str] | None:
    """The reports of all orders of acts, or None if these are too many or too long."""
    seen, reports, open_runs = set(), set(), [Run(case)]
    while open_runs:
        run = open_runs.pop()
        if (key := repr(run.components)) in seen:
            continue
        seen.add(key)
        if len(seen) > MOST_STATES or sum(len(it.lines) for it in run.components) > MOST_LINES:
            return None
        living = [who for who in range(len(run.components)) if run.statement(who) is not None]
        tried = [(after := run.copy(), after.act(who)) for who in living]
        open_runs += [after for after, act in tried if act is not Act.WAITS]
        if all(act is Act.WAITS for _, act in tried):
            reports.add(run.report())
    return reports


def expected_beside(script: str) -> set[str]:
    """The reports in the files beside the script."""
    expected = set()
    for path in glob.glob(glob.escape(script.removesuffix(".ttcn")) + ".expected*"):
        with open(path, encoding="latin-1", newline="") as file:
            expected.add(file.read())
    return expected


def altered(reports: list[str], chance: random.Random) -> set[str]:
    """Reports in which a line is missing or two lines are exchanged, or that combine the components' parts of several
    reports."""
    texts = set()
    for _ in range(ALTERED):
        lines = chance.choice(reports).splitlines(True)
        at = chance.randrange(len(lines) - 1)
        texts.add("".join(lines[:at] + lines[at + 1 :]))
        texts.add("".join([*lines[:at], lines[at + 1], lines[at], *lines[at + 2 :]]))
        parts = zip(*(re.split(r"^(?=component |result )", text, flags=re.M)[1:] for text in reports))
        texts.add("".join(chance.choice(part) for part in parts))
    return texts


def wrongly_judged(case: TestCase, reports: set[str], others: set[str]) -> str | None:
    """Describes the first report that is refused, or other one that is allowed; None if there is none."""
    for report in sorted(reports | others):
        if is_allowed(case, report) is not (report in reports):
            return f"this is {'refused' if report in reports else 'allowed'}\n{report}"
    return None


def judged(script: str) -> str:
    """The result of one script, in one or more lines."""
    case = TestCase(read_script(script))
    expected, reports = expected_beside(script), reports_of(case)
    if reports is None:
        reports = expected
    if expected and expected != reports:
        return f"FAILED: {script}: {len(reports)} reports, and {len(expected)} are expected"
    small = [report for report in sorted(reports) if report.count("\n") < MOST_LINES]
    others = altered(small, random.Random(script)) - reports if small else set()
    wrong = wrongly_judged(case, reports, others)
    if wrong is not None or not reports:
        return f"FAILED: {script}: {wrong or 'there is no report'}"
    return f"passed {len(reports)} {len(others)} {script}"


def main() -> None:
    words = argparse.ArgumentParser(description="Tests the judge of reports.")
    words.add_argument("scripts", metavar="SCRIPT", nargs="+")
    asked = words.parse_args()
    with ProcessPoolExecutor(len(os.sched_getaffinity(0))) as pool:
        for line in pool.map(judged, asked.scripts):
            print(line, flush=True)


if __name__ == "__main__":
    main()
