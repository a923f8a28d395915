"""Makes random reports without scripts: components that send, receive and operate on ports at random.

The ports follow docs/MODEL.md, and are written again, independently of tools/, of which only the table of numbers is
used: a queue, a status, and how many messages are ahead of the mark. So tpr may print each of these reports.
"""
import random
from collections.abc import Callable, Iterable
from typing import Any

from tpr_tools.refusals import SEND_FAULTS

VERDICTS = ("none", "pass", "inconc", "fail", "error")
MESSAGES = ("integer:7", "boolean:true", 'charstring:"a ""b"" {c}"', "List:{1, -2}", 'Pair:{one := "", two := {}}')

Queued = tuple[Any, ...]  # the sender, the number and the message


class Port:
    def __init__(self) -> None:
        self.queue: list[Queued] = []
        self.status = "started"
        self.ahead = 0  # of a halted port

    def deliverable(self) -> int:
        return len(self.queue) if self.status == "started" else self.ahead

    def go(self) -> Queued:
        self.ahead = max(self.ahead - 1, 0)
        return self.queue.pop(0)

    def operate(self, word: str) -> None:
        if word == "halted" and self.status == "started":
            self.status, self.ahead = "halted", len(self.queue)
        elif word == "stopped":
            self.status, self.ahead = "stopped", 0
        elif word in ("cleared", "started"):
            self.queue, self.ahead = [], 0
            self.status = "started" if word == "started" else self.status


class Run:
    """One run: the components' ports, histories and ends."""

    def __init__(self, seed: int) -> None:
        self.random = random.Random(seed)
        self.names = ["mtc", "a", "b", "c", "d"][: self.random.randint(1, 5)]
        if self.random.random() < 0.4:
            self.names.append("system")
        self.ports = {(name, port): Port() for name in self.names for port in ("p", "q", "r")}
        self.histories: dict[str, list[str]] = {name: [] for name in self.names}
        self.ends: dict[str, str] = {}
        self.counts: dict[tuple[str, str, str], int] = {}
        self.operations = self.random.choice([0, 0, 1, 3])
        self.letters = "pqr"  # the names of its ports

    def report(self) -> str:
        for _ in range(self.random.randint(0, 120)):
            name = self.random.choice(self.names)
            if name not in self.ends:
                self.act(name)
        return "".join(f"{line}\n" for line in self.lines())

    def act(self, name: str) -> None:
        by_itself = name != "system"
        kinds: list[tuple[Callable[[str], None], float]] = [(self.send, 5), (self.receive, 5), (self.fail, 0.02)]
        if by_itself:
            kinds += [(self.operate, self.operations), (self.set_verdict, 0.5)]
        kinds.append((self.otherwise, 0.3))
        acts, weights = zip(*kinds)
        self.random.choices(acts, weights)[0](name)

    def send(self, name: str) -> None:
        receiver, port = self.random.choice(list(self.ports))
        number = self.counts.get((name, receiver, port), 0)
        self.counts[name, receiver, port] = number + 1
        message = self.random.choice(MESSAGES)
        self.ports[receiver, port].queue.append((name, number, message))
        self.histories[name].append(f"sent {receiver}.{port} {number} {message}")

    def receive(self, name: str) -> None:
        port = self.random.choice(self.letters)
        queue = self.ports[name, port]
        if queue.deliverable() == 0:
            return
        word = self.random.choice(["took", "took", "found", "dropped"])
        top = queue.queue[0] if word == "found" else queue.go()
        self.histories[name].append(f"{word} {port} {' '.join(map(str, top))}")

    def operate(self, name: str) -> None:
        port, word = self.random.choice(self.letters), self.random.choice(["cleared", "started", "stopped", "halted"])
        self.ports[name, port].operate(word)
        self.histories[name].append(f"{word} {port}")

    def set_verdict(self, name: str) -> None:
        self.histories[name].append(f"set {self.random.choice(VERDICTS[:4])}")

    def otherwise(self, name: str) -> None:
        self.histories[name].append("else")

    def fail(self, name: str) -> None:
        fault = self.random.choice(SEND_FAULTS)
        self.histories[name].append(f"failed {fault:d}")
        self.ends[name] = f"error {fault:d}"

    def lines(self) -> Iterable[str]:
        result = "none"
        for name in self.names:
            history, end = self.histories[name], self.ends.get(name, "done")
            if end == "done" and self.random.random() < 0.1:
                end = "waiting"
            verdict = worst([line.split()[1] for line in history if line.startswith("set ")])
            verdict = "error" if end.startswith("error") else verdict
            result = worst([result, verdict, "error" if end == "waiting" else "none"])
            yield from [f"component {name}", *history, f"end {end}", f"verdict {verdict}"]
            for port in self.letters:
                yield from (f"left {port} {' '.join(map(str, env))}" for env in self.ports[name, port].queue)
        yield f"result {result}"


def worst(verdicts: list[str]) -> str:
    return max(verdicts, key=VERDICTS.index, default="none")
