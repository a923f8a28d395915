"""Runs scripts with many components again and again, and judges each report.

    many.py PROGRAM RUNS [NAME..]

Each script of shapes.py, or each of those named, is run RUNS times by `PROGRAM run`: a quarter of the runs on all
processors, one on two, one on a single one, and one beside a load, which is a busy process for each processor with a
higher priority than the program. A run that hasn't ended after 20 seconds, or beside a load after 100, is stopped, and
is wrong.

It prints a line `passed RUNS REPORTS NAME WAY` for each script and way, where REPORTS is the number of different
reports; or lines that begin with `FAILED: NAME WAY`. The last line says how many runs there were.

Runs of different scripts go on in parallel: each that needs one or two processors on processors of its own, two at a
time that need all, and beside a load as many as there are processors.
"""
import argparse
import os
import subprocess
import sys
import tempfile
from collections.abc import Iterator
from concurrent.futures import ProcessPoolExecutor
from contextlib import contextmanager
from dataclasses import dataclass

from judging import wrong_in
from shapes import Shape, all_shapes

MOST_SECONDS, MOST_SECONDS_LOADED = 20, 100
PROCESSORS = sorted(os.sched_getaffinity(0))


@dataclass(frozen=True)
class Way:
    """How a script is run: on this many processors, or on all, with this many runs at once; and whether with a load."""

    name: str
    processors: int = 0
    at_once: int = 1
    is_loaded: bool = False

    def places(self) -> list[list[int]]:
        """The processors of each of the runs that go on in parallel."""
        if self.processors == 0:
            return [PROCESSORS] * self.at_once
        starts = range(0, len(PROCESSORS) - self.processors + 1, self.processors)
        return [PROCESSORS[start : start + self.processors] for start in starts] or [PROCESSORS]


WAYS = (
    Way("on_all_processors", at_once=2),
    Way("on_two", processors=2),
    Way("on_one", processors=1),
    Way("beside_a_load", at_once=len(PROCESSORS), is_loaded=True),
)


@dataclass(frozen=True)
class Work:
    """A script that is to be run in one way."""

    program: str
    path: str
    shape: Shape
    way: Way
    place: list[int]
    times: int

    def command(self) -> list[str]:
        pinned = ["taskset", "-c", ",".join(map(str, self.place))]
        behind = ["nice", "-n", "10"] if self.way.is_loaded else []
        return [*pinned, *behind, self.program, "run", self.path]

    def wrong(self) -> tuple[str | None, int]:
        """Describes what is wrong in one of the runs, or None, and returns the number of different reports."""
        judged: set[bytes] = set()
        most = MOST_SECONDS_LOADED if self.way.is_loaded else MOST_SECONDS
        for _ in range(self.times):
            try:
                done = subprocess.run(
                    self.command(), stdin=subprocess.DEVNULL, capture_output=True, timeout=most, check=False
                )
            except subprocess.TimeoutExpired:
                return f"a run hasn't ended after {most} seconds", len(judged)
            if done.returncode != 0 or done.stderr:
                said = (done.stdout[-200:] + done.stderr[-200:]).decode("latin-1")
                return f"status {done.returncode}, and it printed and said {said!r}", len(judged)
            if done.stdout in judged:
                continue
            judged.add(done.stdout)
            if (wrong := wrong_in(self.shape, done.stdout.decode("latin-1"))) is not None:
                return wrong, len(judged)
        return None, len(judged)

    def line(self) -> str:
        wrong, reports = self.wrong()
        if wrong is not None:
            return f"FAILED: {self.shape.name} {self.way.name}: {wrong}"
        return f"passed {self.times} {reports} {self.shape.name} {self.way.name}"


@contextmanager
def load(is_wanted: bool) -> Iterator[None]:
    """A busy process for each processor, if a load is wanted."""
    busy = [sys.executable, "-c", "while True: pass"]
    processes = [subprocess.Popen(busy) for _ in PROCESSORS if is_wanted]
    try:
        yield
    finally:
        for process in processes:
            process.kill()
            process.wait()


def work_of(way: Way, program: str, folder: str, shapes: list[Shape], times: int) -> list[list[Work]]:
    """The work to do in one way, by the processors that do it."""
    places = way.places()
    work: list[list[Work]] = [[] for _ in places]
    for number, shape in enumerate(shapes):
        place = number % len(places)
        work[place].append(Work(program, f"{folder}/{shape.name}.ttcn", shape, way, places[place], times))
    return [some for some in work if some]


def lines_of(work: list[Work]) -> list[str]:
    return [one.line() for one in work]


def run_all(program: str, runs: int, shapes: list[Shape]) -> int:
    """Runs all scripts, but none in a further way once it was wrong in one. Returns how many runs were right."""
    right, left = 0, shapes
    with tempfile.TemporaryDirectory() as folder, ProcessPoolExecutor(len(PROCESSORS)) as pool:
        for shape in shapes:
            with open(f"{folder}/{shape.name}.ttcn", "w", encoding="latin-1") as file:
                file.write(shape.script)
        for way in WAYS:
            wrong = set()
            with load(way.is_loaded):
                for lines in pool.map(lines_of, work_of(way, program, folder, left, runs // len(WAYS))):
                    print("\n".join(lines), flush=True)
                    right += sum(int(line.split()[1]) for line in lines if line.startswith("passed "))
                    wrong |= {line.split()[1] for line in lines if line.startswith("FAILED: ")}
            left = [shape for shape in left if shape.name not in wrong]
    return right


def main() -> None:
    words = argparse.ArgumentParser(description="Runs scripts with many components, and judges each report.")
    words.add_argument("program", metavar="PROGRAM")
    words.add_argument("runs", metavar="RUNS", type=int, help="of each script")
    words.add_argument("names", metavar="NAME", nargs="*", help="of the scripts; all without one")
    asked = words.parse_args()
    shapes = [shape for shape in all_shapes() if not asked.names or shape.name in asked.names]
    if unknown := {*asked.names} - {shape.name for shape in shapes}:
        words.error(f"there is no script {', '.join(sorted(unknown))}")
    print(f"many components: {run_all(asked.program, asked.runs, shapes)} runs of {len(shapes)} scripts")


if __name__ == "__main__":
    main()
