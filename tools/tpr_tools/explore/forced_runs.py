"""Runs a script in orders of its steps, by the program that forces them (crates/tpr_ordered)."""
from __future__ import annotations

import subprocess
from dataclasses import dataclass
from enum import Enum
from typing import Optional

from ..command import NOT_WRITTEN, REFUSED
from ..words import VERDICTS
from .asking import HandedFile, broken, printed_by

MOST_SECONDS = 120  # for all orders that run together


class Outcome(Enum):
    """The kinds of results of an order."""

    REPORT = "a report"
    NOT_HELD = "the order couldn't be held"
    FAULT = "a fault"
    NO_END = "no end"


@dataclass(frozen=True)
class ForcedRun:
    """The program's output for an order: a report, or the line in its place."""

    outcome: Outcome
    text: str

    def result(self) -> str:
        """The overall verdict of a report."""
        return self.text.split()[-1]


class ForcedRuns:
    """The program, and the script and the orders that it reads."""

    def __init__(self, program: str):
        self.program = program
        self.forced = HandedFile("forced.ttcn")
        self.script = self.forced.path
        self.orders = HandedFile("orders")
        self.handed = (self.forced.file.fileno(), self.orders.file.fileno())

    def refusal_of(self, script: str) -> Optional[tuple[int, str]]:
        """The status, and the line with which the program refuses the script or reports that memory ran out. None if it
        accepts the script."""
        status, printed = self._run(script, [])
        if status == 0:
            return None
        if status not in (REFUSED, NOT_WRITTEN):
            raise broken(self.program, status, printed)
        return status, printed

    def write_script(self, text: str) -> None:
        self.forced.write(text.encode("latin-1"))

    def run(self, orders: list[str]) -> list[ForcedRun]:
        """The result of each order; an order consists of names of components. If the program doesn't end an order in
        time, that order is given up and the following ones are run again. A program that ends normally has answered
        all."""
        answers: list[ForcedRun] = []
        while len(answers) < len(orders):
            status, printed = self._run(self.script, orders[len(answers) :])
            pieces = [piece.partition("\n") for piece in printed.split("\n\n")[:-1]]
            if not all(line.startswith("order ") and text for line, _, text in pieces):
                raise broken(self.program, status, printed)
            answers += [_answer(f"{text}\n") for _, _, text in pieces]
            if status is None:
                answers.append(ForcedRun(Outcome.NO_END, ""))
            elif status != 0 or len(answers) < len(orders):
                raise broken(self.program, status, printed)
        return answers

    def _run(self, script: str, orders: list[str]) -> tuple[Optional[int], str]:
        """The status (None if the program didn't end), and the output."""
        self.orders.write("".join(f"{order}\n" for order in orders).encode("latin-1"))
        command = [self.program, script, self.orders.path]
        return printed_by(command, says=subprocess.STDOUT, handed=self.handed, most_seconds=MOST_SECONDS)


def _answer(text: str) -> ForcedRun:
    """The result, from the text after the line of an order. A report begins with a component, and has a result."""
    last = text.splitlines()[-1]
    if text.startswith("component ") and last in [f"result {verdict}" for verdict in VERDICTS]:
        return ForcedRun(Outcome.REPORT, text)
    return ForcedRun(Outcome.NOT_HELD if text == "not held\n" else Outcome.FAULT, text)
