"""Plays a script in a random order on the model of runs (tools/tpr_tools/model/), and prints the trace: the report,
with a line `came` wherever a message arrives in a queue.

    player.py SCRIPT [SEED]

In the model a message is in its queue as soon as it is sent, so each of these traces is one run.
"""
import argparse
import os
import random
import sys

sys.path.append(os.path.join(os.path.dirname(os.path.realpath(__file__)), "..", "..", "tools"))

from tpr_tools.model.bodies import TestCase
from tpr_tools.model.reading import read_script
from tpr_tools.model.run import Act, Run
from tpr_tools.model.tree import Send


class Traced(Run):
    """A run that also notes the arrivals."""

    def send(self, who: int, send: Send) -> Act:
        act = super().send(who, send)
        word, _, rest = self.components[who].lines[-1].partition(" ")
        if word == "sent":
            where, number, message = rest.split(" ", 2)
            receiver, _, port = where.rpartition(".")
            at = self.case.names.index(receiver)
            self.components[at].lines.append(f"came {port} {self.case.names[who]} {number} {message}")
        return act


def play(script: str, seed: int) -> str:
    """The trace of one run of the script."""
    chance, run = random.Random(seed), Traced(TestCase(read_script(script)))
    waiting: set[int] = set()
    while True:
        living = [who for who in range(len(run.components)) if run.statement(who) is not None and who not in waiting]
        if not living:
            return run.report()
        who = chance.choice(living)
        if run.act(who) is Act.WAITS:
            waiting.add(who)
        else:
            waiting = set()


def main() -> None:
    words = argparse.ArgumentParser(description="Plays a script on the model of runs, and prints the trace.")
    words.add_argument("script", metavar="SCRIPT")
    words.add_argument("seed", metavar="SEED", nargs="?", type=int, default=1)
    asked = words.parse_args()
    sys.stdout.write(play(asked.script, asked.seed))


if __name__ == "__main__":
    main()
