"""Reads the form of a trace (docs/TRACES.md): its text as sections of lines, or the first line of another form.

A trace is any number of sections and then, perhaps, a line `result VERDICT`. The form says nothing about what the lines
mean to each other, except that each name has one section, and that the lines `left` of a section follow its other
lines.
"""
import re
from dataclasses import dataclass, field

MOST_BYTES = 268_435_456
BEHIND_THE_NUMBERS = 2**63

_WORD = rb"[!-~]+"
_PORT = rb"[!-\-/-~]+"
_NUMBER = rb"0|[1-9][0-9]*"
_VERDICT = rb"none|pass|inconc|fail|error"

_SECTION = re.compile(rb"component (%s)" % _WORD)
_SENT = re.compile(rb"sent (%s)\.(%s) (%s) (.+)" % (_WORD, _PORT, _NUMBER), re.DOTALL)
_MESSAGE = re.compile(
    rb"(came|took|found|dropped|left) (%s) (%s) (%s) (.+)" % (_PORT, _WORD, _NUMBER), re.DOTALL
)
_OPERATION = re.compile(rb"(cleared|started|stopped|halted) (%s)" % _PORT)
_REPORTED = re.compile(rb"(else)|(set|verdict) (?:%s)|(failed) (%s)|(end) .+" % (_VERDICT, _NUMBER), re.DOTALL)
_RESULT = re.compile(rb"result (?:%s)" % _VERDICT)

TAKING = (b"took", b"found", b"dropped")
LOOKING = (*TAKING, b"cleared", b"started", b"stopped", b"halted", b"else")


class OfAnotherForm(Exception):
    """The text isn't a trace: this is the first line that isn't allowed in its place."""

    def __init__(self, line: int):
        super().__init__(line)
        self.line = line


class TooLong(Exception):
    """The text has more bytes than a trace may have."""


@dataclass(frozen=True)
class Line:
    """A line of a section: its number in the text, from 1, its word, and what the word requires. `partner` is the
    receiver of a sending, and otherwise the sender; `port` is the receiver's; `number` is also that of a failure."""

    place: int
    word: bytes
    port: bytes = b""
    partner: bytes = b""
    number: int = -1
    message: bytes = b""

    def envelope(self) -> tuple[bytes, int, bytes]:
        """The values that distinguish a message at a port from another one."""
        return self.partner, self.number, self.message

    def __bytes__(self) -> bytes:
        """The line as a text has it, for the lines that small ports and routes have."""
        if not self.partner:
            return b"%s %s\n" % (self.word, self.port)
        place = self.partner + b"." + self.port if self.word == b"sent" else self.port + b" " + self.partner
        return b"%s %s %d %s\n" % (self.word, place, self.number, self.message)

    def parcel(self) -> tuple[int, bytes]:
        """The values that distinguish a message on a route from another one."""
        return self.number, self.message


@dataclass
class Section:
    """The acts of one component, in their order."""

    name: bytes
    place: int
    lines: list[Line] = field(default_factory=list)

    def is_open(self) -> bool:
        """Whether its log may have stopped before its queues were reported."""
        return all(line.word not in (b"left", b"end") for line in self.lines)


@dataclass
class Trace:
    """The sections by their names, in the order of the text."""

    sections: dict[bytes, Section]


def read_trace(text: bytes) -> Trace:
    """Reads the text as a trace. Raises OfAnotherForm or TooLong if it isn't one."""
    if len(text) > MOST_BYTES:
        raise TooLong
    texts = text.split(b"\n")
    if not texts[-1]:
        texts.pop()
    trace, open_section, has_ended = Trace({}), None, False
    for place, line in enumerate(texts, 1):
        if has_ended:
            raise OfAnotherForm(place)
        if found := _SECTION.fullmatch(line):
            open_section = section_of(trace, found[1], place)
        elif _RESULT.fullmatch(line):
            has_ended = True
        elif open_section is not None:
            open_section.lines.append(line_of(open_section, line, place))
        else:
            raise OfAnotherForm(place)
    return trace


def section_of(trace: Trace, name: bytes, place: int) -> Section:
    """Adds a section to the trace. A name can have only one."""
    if name in trace.sections:
        raise OfAnotherForm(place)
    trace.sections[name] = Section(name, place)
    return trace.sections[name]


def line_of(section: Section, text: bytes, place: int) -> Line:
    """The next line of the section."""
    line = read_line(text, place)
    is_behind_left = bool(section.lines) and section.lines[-1].word == b"left"
    if line is None or line.number >= BEHIND_THE_NUMBERS or (is_behind_left and line.word != b"left"):
        raise OfAnotherForm(place)
    return line


def read_line(text: bytes, place: int) -> Line | None:
    """The line by itself, or None if it has another form."""
    if found := _SENT.fullmatch(text):
        receiver, port, number, message = found.groups()
        return Line(place, b"sent", port, receiver, int(number), message)
    if found := _MESSAGE.fullmatch(text):
        word, port, sender, number, message = found.groups()
        return Line(place, word, port, sender, int(number), message)
    if found := _OPERATION.fullmatch(text):
        return Line(place, found[1], found[2])
    if found := _REPORTED.fullmatch(text):
        word = found[1] or found[2] or found[3] or found[5]
        return Line(place, b"end" if word == b"end error" else word, number=int(found[4] or -1))
    return None
