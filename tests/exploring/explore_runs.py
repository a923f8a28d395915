"""Runs tools/explore with any programs, and tests what it prints."""
from __future__ import annotations

from itertools import takewhile
from pathlib import Path

from tool_calls import ROOT, Ended, Test, Tool, prints, says_nothing

OVERTAKEN = "examples/broadcast_is_overtaken_by_an_answer"
PING_PONG = "examples/ping_pong.ttcn"
DEPENDS, UNDECIDED = 5, 6  # the statuses for several verdicts, and for an answer that guarantees nothing


class Exploring:
    """The programs that the tool runs, and a folder for files."""

    def __init__(self, tpr: str, ordered: str, room: Path):
        self.tpr, self.ordered, self.room = tpr, ordered, room
        self.nowhere = str(room / "nowhere")
        self.tool = self.asking(tpr, ordered)

    def asking(self, tpr: str, ordered: str, name: str = "explore") -> Tool:
        """The tool with these programs: the one that answers, and the one that forces orders."""
        return Tool(name, variables={"TPR": tpr, "TPR_ORDERED": ordered})


def begins_with(*lines: str) -> Test:
    """The output begins with these lines, and standard error is empty."""
    return lambda ended: tuple(ended.text.split("\n")[: len(lines)]) == lines and says_nothing(ended)


def prints_file(file: str) -> Test:
    return prints((ROOT / file).read_bytes().decode("utf-8"))


def has_in_order(*lines: str) -> Test:
    """The output has each of these lines once, in this order, and standard error is empty."""
    return lambda ended: tuple(it for it in ended.text.split("\n") if it in lines) == lines and says_nothing(ended)


def tells_faults(*lines: str) -> Test:
    """These lines follow the first two, no two runs diverge, and standard error is empty."""
    return lambda ended: faults_of(ended) == lines and not parts_runs(ended) and says_nothing(ended)


def faults_of(ended: Ended) -> tuple[str, ...]:
    return tuple(takewhile(bool, ended.text.split("\n")[2:]))


def parts_runs(ended: Ended) -> bool:
    return "\nWhere the runs diverge (" in f"\n{ended.text}"


# The lines on the two runs of OVERTAKEN, in the words of the script.
TELLS_PARTING = has_in_order(
    '  line 13: b took charstring:"begin" from mtc at port line, sent at line 32;',
    '    in the other run, at line 17, it took charstring:"hello" from a at port line, sent at line 8',
    "  line 32 and line 8 can come in either order",
)
