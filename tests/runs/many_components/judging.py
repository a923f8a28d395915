"""Decides whether a report is one that a script with many components may have.

Its lines must be those of the form, except for the open words. It must also be possible to carry out all lines, one
after the other: a message is queued when it is sent, and is taken from the front of the queue. The messages of a port
arrived in the order in which they were taken, followed by those that are left. So each line can be carried out as soon
as it is its turn, and there is no choice: no statement of these scripts looks whether nothing has arrived, and none
empties a queue.
"""
from collections import defaultdict
from typing import NamedTuple

from shapes import Shape


class Came(NamedTuple):
    """A message in its receiver's part of a report."""

    sender: str
    number: str
    message: str


def is_line(wanted: str, line: str) -> bool:
    """Whether the line is the expected one, in which a `?` stands for any word."""
    if "?" not in wanted:
        return wanted == line
    one, other = wanted.split(" "), line.split(" ")
    return len(one) == len(other) and all(word in ("?", found) for word, found in zip(one, other))


class Report:
    """The lines of a report by component, and for each port the messages that arrived there, the oldest first."""

    def __init__(self, lines: list[str]):
        self.sent_or_took: dict[str, list[list[str]]] = {}
        self.came: dict[tuple[str, str], list[Came]] = defaultdict(list)
        name = ""
        for line in lines:
            words = line.split(" ")
            if words[0] == "component":
                name = words[1]
                self.sent_or_took[name] = []
            if words[0] in ("sent", "took"):
                self.sent_or_took[name].append(words)
            if words[0] in ("took", "left"):
                self.came[name, words[1]].append(Came(*words[2:]))


class Replay:
    """How far a report is carried out: the number of lines of each component, and for each port how many messages have
    arrived and how many were taken."""

    def __init__(self, report: Report):
        self.report = report
        self.done = dict.fromkeys(report.sent_or_took, 0)
        self.queued: dict[tuple[str, str], int] = defaultdict(int)
        self.taken: dict[tuple[str, str], int] = defaultdict(int)

    def all(self) -> str | None:
        """Carries out as much as possible. Describes what is wrong, or returns None."""
        while any([self.some_of(name) for name in self.done]):
            pass
        for name, done in self.done.items():
            if done < len(self.report.sent_or_took[name]):
                return f"{name} can't have come to: {' '.join(self.report.sent_or_took[name][done])}"
        for (name, port), came in self.report.came.items():
            if self.queued[name, port] < len(came):
                return f"nobody sent to {name}.{port} what came as {' '.join(came[self.queued[name, port]])}"
        return None

    def some_of(self, name: str) -> bool:
        """Carries out the component's next lines, until it has to wait. Returns whether there were any."""
        entries, begun = self.report.sent_or_took[name], self.done[name]
        while self.done[name] < len(entries) and self.one(name, entries[self.done[name]]):
            self.done[name] += 1
        return self.done[name] > begun

    def one(self, name: str, words: list[str]) -> bool:
        """Carries out one line. Returns False if it can't be carried out yet."""
        if words[0] == "took":
            end = (name, words[1])
            if self.taken[end] == self.queued[end]:
                return False
            self.taken[end] += 1
            return True
        receiver, port = words[1].split(".")
        came, place = self.report.came.get((receiver, port), []), self.queued[receiver, port]
        if place >= len(came) or came[place] != Came(name, words[2], words[3]):
            return False
        self.queued[receiver, port] += 1
        return True


def wrong_in(shape: Shape, report: str) -> str | None:
    """Describes what is wrong in a report of the script, or returns None."""
    if not report.endswith("\n"):
        return f"the report is cut: {report[-100:]}"
    lines = report[:-1].split("\n")
    for number, (wanted, line) in enumerate(zip(shape.lines, lines), 1):
        if not is_line(wanted, line):
            return f"line {number} is: {line[:100]}, and wanted: {wanted}"
    if len(lines) != len(shape.lines):
        return f"there are {len(lines)} lines, and wanted: {len(shape.lines)}"
    return Replay(Report(lines)).all()
