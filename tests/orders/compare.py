"""Compares the reports of a program that forces orders with those of the model.

    compare.py PROGRAM SCRIPT..

For each script all orders are passed to the program, `PROGRAM SCRIPT ORDERS`, and its answers must be those of the
model, to the byte. It prints a line `passed ORDERS WAITING SCRIPT` for each script, where WAITING of the ORDERS end
with a behaviour that waits; or lines that begin with `FAILED: SCRIPT`.
"""
import argparse
import os
import subprocess
import sys
import tempfile
from concurrent.futures import ProcessPoolExecutor

sys.path.append(os.path.join(os.path.dirname(os.path.realpath(__file__)), "..", "..", "tools"))

from orders import Ordered, orders_of
from tpr_tools.model.bodies import TestCase
from tpr_tools.model.reading import read_script
from tpr_tools.model.run import Run

MOST_SECONDS = 60


def printed_by(program: str, script: str, orders: list[Ordered]) -> tuple[str, str]:
    """How the program ends, and what it prints, for these orders."""
    with tempfile.NamedTemporaryFile("w", encoding="latin-1", suffix=".orders") as file:
        file.writelines(" ".join(it.names) + "\n" for it in orders)
        file.flush()
        command = [program, script, file.name]
        try:
            done = subprocess.run(
                command,
                stdin=subprocess.DEVNULL,
                stdout=subprocess.PIPE,
                stderr=subprocess.STDOUT,
                timeout=MOST_SECONDS,
                check=False,
            )
        except subprocess.TimeoutExpired as late:
            return f"no end after {MOST_SECONDS} seconds", (late.stdout or b"").decode("latin-1")
    return f"status {done.returncode}", done.stdout.decode("latin-1")


def difference(end: str, printed: str, orders: list[Ordered]) -> str | None:
    """Describes the first order whose answer isn't the model's, with both answers, or returns None."""
    if end == "status 0" and printed == "".join(it.answer() for it in orders):
        return None
    place = 0
    for ordered in orders:
        wanted = ordered.answer()
        if not printed.startswith(wanted, place):
            got = printed[place:].split("\n\n")[0]
            return f"{end}, and\n--- the model says\n{wanted}--- the program says\n{got}"
        place += len(wanted)
    return f"{end}, and behind the last order\n{printed[place:][:2000]}"


def compared(program: str, script: str) -> str:
    """The result of one script, in one or more lines."""
    try:
        orders = list(orders_of(Run(TestCase(read_script(script)))))
        found = difference(*printed_by(program, script, orders), orders)
    except Exception as error:  # a script that can't be read fails, and the others go on
        found = f"the model says {error!r}"
    if found is not None:
        return f"FAILED: {script}: {found}"
    return f"passed {len(orders)} {sum(it.waits for it in orders)} {script}"


def main() -> None:
    words = argparse.ArgumentParser(description="Compares the reports of all orders with those of the model.")
    words.add_argument("program", metavar="PROGRAM", help="tpr_ordered, or another that keeps orders")
    words.add_argument("scripts", metavar="SCRIPT", nargs="+")
    asked = words.parse_args()
    with ProcessPoolExecutor(len(os.sched_getaffinity(0))) as pool:
        for line in pool.map(compared, [asked.program] * len(asked.scripts), asked.scripts):
            print(line, flush=True)


if __name__ == "__main__":
    main()
