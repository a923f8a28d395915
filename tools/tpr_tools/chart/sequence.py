"""The contents of a chart before the layout: arrows, badges on life lines, and the foot."""
from __future__ import annotations

from dataclasses import dataclass
from typing import NamedTuple, Optional

from ..report.deliveries import Deliveries, Message, Place, deliveries_of
from ..report.order import Row, rows_of
from ..report.report import Component, Failed, Operation, Otherwise, Received, Report, Sent, VerdictSet
from ..words import counted, readable
from .geometry import short

# The fates of a message that stays in the queue, in the row of its sending.
_AT_THE_QUEUE = ("left", "discarded")
LONG = 14  # an arrow over more rows is drawn as two ends
FAR = 3  # life lines: an arrow over more of them has the names of both components at each end
_MOST_TOLD = 20  # of the messages that one entry discards
_DOES = {"took": "takes", "found": "finds", "dropped": "drops"}


class Marks:
    """The text after an entry of a chart: nothing, or the line of the script if a script is given."""

    def at(self, place: Place) -> str:
        """The text after an entry."""
        return ""

    def at_end(self, component: int) -> str:
        """The text after the end of a behaviour."""
        return ""


class Arrow(NamedTuple):
    """An arrow of a message, from the row of its sending to the row where it ends."""

    message: Message
    word: str  # took, found, dropped, left or discarded
    sender: int
    receiver: int
    start: int
    stop: int
    mark: str = ""
    is_split: bool = False  # it would cross something

    def outside(self) -> str:
        """The text beside the receiver's life line, on the side away from the sender."""
        return f"{self.word} {self.message.route.port}{self.mark}"

    def is_long(self) -> bool:
        """Whether it is drawn as two ends."""
        return self.is_split or self.stop - self.start > LONG

    def is_loop(self) -> bool:
        """Whether it goes over several rows, from a component to itself."""
        return self.sender == self.receiver and self.start < self.stop and not self.is_long()

    def is_far(self) -> bool:
        """Whether one can see one end but perhaps not the other, so that each names the other."""
        return self.is_long() or abs(self.receiver - self.sender) > FAR

    def at_sender(self) -> str:
        """The text at the sender: the message, and where it goes."""
        to = f"to {short(self.message.route.receiver)} #{self.message.number} " if self.is_far() else ""
        return to + self.message.text

    def at_receiver(self) -> str:
        """The text beside the receiver's life line, with where the message comes from."""
        if not self.is_far():
            return self.outside()
        return f"{self.outside()} from {short(self.message.route.sender)} #{self.message.number}"


class Badge(NamedTuple):
    """Something that a component does by itself, on its life line."""

    column: int
    text: str
    verdict: Optional[str]


class Step(NamedTuple):
    """One row of the chart: at most one message is sent in it, and at most one arrow of another row
    ends in it."""

    row: int
    said: str  # a description
    lines: str  # the lines of the report
    numbers: tuple[int, ...]  # and their numbers
    sends: Optional[Arrow] = None  # the arrow of the message whose text is written in this row
    ends: tuple[Arrow, ...] = ()
    badge: Optional[Badge] = None
    note: str = ""  # a text across all life lines, instead of anything else


class Foot(NamedTuple):
    """The text below a life line."""

    end: str
    verdict: str
    left: tuple[str, ...]


@dataclass(frozen=True)
class Sequence:
    """The whole chart: the steps from top to bottom, and for each component its last row."""

    title: str
    names: tuple[str, ...]
    steps: tuple[Step, ...]
    feet: tuple[Foot, ...]
    last_rows: tuple[int, ...]
    result: str
    summary: str
    deliveries: Deliveries

    def line_of(self, place: Place) -> int:
        """The line number of an entry in the report."""
        return self.deliveries.entry(place).line.number


def sequence_of(report: Report, title: str, marks: Optional[Marks] = None) -> Sequence:
    """The chart of a report. Raises NotAReport if its components don't agree, or its entries have no order."""
    deliveries = deliveries_of(report)
    return sequence_in(deliveries, rows_of(deliveries), title, marks or Marks())


def sequence_in(deliveries: Deliveries, rows: list[Row], title: str, marks: Marks) -> Sequence:
    """The chart of these rows."""
    report = deliveries.report
    for message in deliveries.messages:
        message.text += marks.at(message.sent)
    steps = _Steps(deliveries, _split(deliveries, rows), marks)
    return Sequence(
        " ".join(readable(title).split()),
        tuple(report.names()),
        tuple(steps.all()),
        tuple(_foot(component, marks.at_end(place)) for place, component in enumerate(report.components)),
        tuple(steps.last_rows),
        report.result,
        _summary(deliveries),
        deliveries,
    )


def _split(deliveries: Deliveries, rows: list[Row]) -> list[Row]:
    """If a message was found directly after it was sent, and is left in the end, its row shows the queue, and the next
    row that it was found."""
    split = []
    for row in rows:
        message = deliveries.message(row.first)
        if row.second and message and message.fate == "left":
            split += [Row(row.first), Row(row.second)]
        else:
            split.append(row)
    return split


class _Steps:
    """Makes the steps, one for each row."""

    def __init__(self, deliveries: Deliveries, rows: list[Row], marks: Marks):
        self.deliveries = deliveries
        self.marks = marks
        self.rows = rows
        self.names = deliveries.report.names()
        self.columns = {name: place for place, name in enumerate(self.names)}
        self.row_of: dict[Place, int] = {}
        self.last_rows = [-1] * len(self.names)
        for number, row in enumerate(rows):
            self.place_row(number, row)

    def place_row(self, number: int, row: Row) -> None:
        for place in row.places():
            self.row_of[place] = number
            self.last_rows[place.component] = number

    def all(self) -> list[Step]:
        return [self.step(number, row) for number, row in enumerate(self.rows)]

    def step(self, number: int, row: Row) -> Step:
        entry = self.deliveries.entry(row.first)
        lines = self.lines(row), self.numbers(row)
        if isinstance(entry, Sent):
            return self.sending(number, row, lines)
        if isinstance(entry, Received):
            message = self.deliveries.message(row.first)
            assert message is not None
            arrow = self.arrow(message, entry.word, row.first)
            return Step(number, self.got(message, entry), *lines, ends=(arrow,))
        badge = self.badge(row.first)
        return Step(number, f"{self.names[badge.column]}: {badge.text}", *lines, badge=badge)

    def sending(self, number: int, row: Row, lines: tuple[str, tuple[int, ...]]) -> Step:
        message = self.deliveries.message(row.first)
        assert message is not None
        route = message.route
        said = f"{route.sender} sends {message.text} to port {route.port} of {route.receiver}"
        if row.second:
            entry = self.deliveries.entry(row.second)
            assert isinstance(entry, Received)
            arrow = self.arrow(message, entry.word, row.second)
            return Step(number, f"{said}, which {_DOES[entry.word]} it", *lines, arrow, (arrow,))
        if message.fate in _AT_THE_QUEUE and not (message.found and message.fate == "discarded"):
            arrow = self.arrow(message, message.fate, row.first)
            return Step(number, f"{said}, where {self.stays(message)}", *lines, arrow, (arrow,))
        stop = message.gone if message.fate != "discarded" else message.found[0]
        assert stop is not None
        return Step(number, said, *lines, self.arrow(message, self.word_at(stop), stop))

    def stays(self, message: Message) -> str:
        """What happens to a message that stays in the queue."""
        if message.gone is None:
            return "it is left in the queue"
        return f"{self.deliveries.told_line(message.gone)} discards it"

    def word_at(self, place: Place) -> str:
        entry = self.deliveries.entry(place)
        assert isinstance(entry, Received)
        return entry.word

    def arrow(self, message: Message, word: str, stop: Place) -> Arrow:
        sender, receiver = (self.columns[name] for name in message.route[:2])
        mark = self.marks.at(stop) if stop != message.sent else ""
        return Arrow(message, word, sender, receiver, self.row_of[message.sent], self.row_of[stop], mark)

    def got(self, message: Message, entry: Received) -> str:
        route = message.route
        return f"{route.receiver} {_DOES[entry.word]} {message.text} of {route.sender} at port {route.port}"

    def badge(self, place: Place) -> Badge:
        entry, mark = self.deliveries.entry(place), self.marks.at(place)
        if isinstance(entry, VerdictSet):
            return Badge(place.component, f"set {entry.verdict}{mark}", entry.verdict)
        if isinstance(entry, Failed):
            return Badge(place.component, f"failed {entry.fault.told()}{mark}", "error")
        if isinstance(entry, Otherwise):
            return Badge(place.component, f"else{mark}", None)
        assert isinstance(entry, Operation)
        discards = len(self.deliveries.discarded.get(place, ()))
        told = f", discards {discards}" if discards else ""
        return Badge(place.component, f"{entry.word} {entry.port}{told}{mark}", None)

    def numbers(self, row: Row) -> tuple[int, ...]:
        return tuple(self.deliveries.entry(place).line.number for place in row.places())

    def lines(self, row: Row) -> str:
        """The lines of the report that the row stands for."""
        told = [self.deliveries.told_line(place) for place in row.places()]
        for message in self.deliveries.discarded.get(row.first, [])[:_MOST_TOLD]:
            told.append(f"discards {self.deliveries.told_line(message.sent)}")
        return "\n".join(told)


def _foot(component: Component, mark: str = "") -> Foot:
    end = component.end.word
    if component.end.fault is not None:
        end = f"error {component.end.fault.told()}"
    return Foot(f"end {end}{mark}", component.verdict, tuple(left.line.text for left in component.left))


def _summary(deliveries: Deliveries) -> str:
    """How many messages there are, what happened to them, and the verdicts."""
    report, messages = deliveries.report, deliveries.messages
    fates = {"took": "taken", "dropped": "dropped", "discarded": "discarded", "left": "left in a queue"}
    counts = [(sum(message.fate == fate for message in messages), told) for fate, told in fates.items()]
    became = ", ".join(f"{count} {told}" for count, told in counts if count)
    ends = "; ".join(
        f"{component.name}: {_foot(component).end}, verdict {component.verdict}" for component in report.components
    )
    sent = counted(len(messages), "message")
    return f"{sent} sent{': ' + became if became else ''}. {ends}. Result {report.result}."
