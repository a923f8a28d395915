"""A report of `tpr run`, in the terms of its lines."""
from __future__ import annotations

from dataclasses import dataclass
from typing import NamedTuple, Optional, Union

from ..refusals import Refusal


class NotAReport(Exception):
    """The text isn't a report of `tpr run`, from this line on."""

    def __init__(self, line: int, reason: str):
        super().__init__(f"line {line}: {reason}")
        self.line = line
        self.reason = reason


class Line(NamedTuple):
    """A line of a report: its number, from 1, and its text."""

    number: int
    text: str


class Sent(NamedTuple):
    """`sent COMP.PORT NUMBER MESSAGE`"""

    line: Line
    receiver: str
    port: str
    number: int
    message: str


class Received(NamedTuple):
    """`took`, `found`, `dropped` or `left`, and `PORT SENDER NUMBER MESSAGE`"""

    line: Line
    word: str
    port: str
    sender: str
    number: int
    message: str


class Operation(NamedTuple):
    """`cleared`, `started`, `stopped` or `halted`, and a port"""

    line: Line
    word: str
    port: str

    def empties(self) -> bool:
        """Whether the messages queued at the port are discarded (22.5.1, 22.5.2)."""
        return self.word in ("cleared", "started")


class Otherwise(NamedTuple):
    """`else`"""

    line: Line


class VerdictSet(NamedTuple):
    """`set VERDICT`"""

    line: Line
    verdict: str


class Failed(NamedTuple):
    """`failed CODE`, after which there is no further entry"""

    line: Line
    fault: Refusal


Entry = Union[Sent, Received, Operation, Otherwise, VerdictSet, Failed]


class End(NamedTuple):
    """`end done`, `end waiting` or `end error CODE`"""

    line: Line
    word: str
    fault: Optional[Refusal]


@dataclass(frozen=True)
class Component:
    """The report on a component: its history, how its behaviour ended, and what is left."""

    name: str
    line: Line
    entries: tuple[Entry, ...]
    end: End
    verdict: str
    verdict_line: Line
    left: tuple[Received, ...]


@dataclass(frozen=True)
class Report:
    """The components in their order, and the overall verdict."""

    components: tuple[Component, ...]
    result: str
    result_line: Line

    def names(self) -> list[str]:
        return [component.name for component in self.components]
