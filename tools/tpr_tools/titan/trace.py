"""Makes one trace (docs/TRACES.md) of the logs that Titan wrote of one test case.

A log says on which port a message was sent, and to which component; the receiver's port follows from the connections
that were made until then. A log doesn't number sends. An arrival gets the number of the first unused send on its route
with the same message; if there is none, a number that no send has.
"""
from __future__ import annotations

import re
from collections import deque
from dataclasses import dataclass, field
from typing import NamedTuple, Optional

from .events import Enqueued, Event, Extracted, Failed, Joined, Operation, Parted, Sent, Succeeded, Unknown
from .events import event_of
from .log import Entry, Log, Trouble, short

_NO_WORD = re.compile("[^!-~]")


class Message(NamedTuple):
    """A line with a message: `sent`, `came`, `took`, `found` or `dropped`. The component is the receiver of a `sent`,
    and otherwise the sender; `arrival` is the place of the line `came` in its section."""

    word: str
    component: str
    port: str
    text: str
    arrival: int = -1


class Cannot(Exception):
    """The entry was read, but something that it refers to isn't known."""


@dataclass
class Section:
    """The actions of one component, and the state that is needed to read further entries."""

    name: str
    lines: list[Message | Operation] = field(default_factory=list)
    troubles: list[Trouble] = field(default_factory=list)
    last_sent_on: Optional[str] = None
    joined: dict[str, set[tuple[str, str]]] = field(default_factory=dict)
    partners: dict[str, set[str]] = field(default_factory=dict)
    arrivals: dict[tuple[str, str], int] = field(default_factory=dict)
    got: set[tuple[str, str]] = field(default_factory=set)
    gone: list[tuple[str, int]] = field(default_factory=list)

    def read(self, entry: Entry) -> None:
        """Adds the event of the entry."""
        try:
            event = event_of(entry)
            self._settle_gone(event)
            if event is not None:
                self._add(event)
        except Unknown:
            self._settle_gone(None)
            self.troubles.append(Trouble(entry.line, f"can't be read: {short(entry.text)}"))
        except Cannot as cannot:
            self.troubles.append(Trouble(entry.line, f"{cannot}: {short(entry.text)}"))

    def _settle_gone(self, event: Optional[Event]) -> None:
        """Handles messages that were extracted without a successful operation. They were discarded by the clear, start
        or stop that follows at once, or else by a trigger. If the log ends there, it isn't known by which."""
        if isinstance(event, Extracted) or not self.gone:
            return
        emptied = event.port if isinstance(event, Operation) and event.word != "halted" else None
        for port, arrival in self.gone:
            if port != emptied:
                self._took("dropped", port, arrival)
        self.gone = []

    def _add(self, event: Event) -> None:
        if isinstance(event, Operation):
            self.lines.append(event)
        elif isinstance(event, Joined):
            far = event.component or self.name
            self.joined.setdefault(event.port, set()).add((far, event.far_port))
            self.partners.setdefault(event.port, set()).add(far)
        elif isinstance(event, Parted):
            self.joined.get(event.port, set()).discard((event.component or self.name, event.far_port))
        elif isinstance(event, Sent):
            self._send(event)
        elif isinstance(event, Failed):
            self._unsend(event)
        elif isinstance(event, Enqueued):
            sender, text = self._parted(event.port, event.rest)
            self.arrivals[event.port, event.id] = len(self.lines)
            self.lines.append(Message("came", sender, event.port, text))
        elif isinstance(event, Succeeded):
            self._get(event)
        else:
            self._extract(event)

    def _parted(self, port: str, rest: str) -> tuple[str, str]:
        """Separates the component from the message. A name may have spaces, so it is searched among those that the port
        has been connected with. The brackets after `system` contain an address, which stays with the message."""
        if rest.startswith("system(") and "system" in self.partners.get(port, ()):
            return "system", rest[len("system") :]
        found = [name for name in self.partners.get(port, ()) if rest.startswith(f"{name} ")]
        if len(found) != 1:
            raise Cannot(f"it isn't known which of the components that {port} is connected with this is")
        return found[0], rest[len(found[0]) + 1 :]

    def _send(self, event: Sent) -> None:
        receiver, text = self._parted(event.port, event.rest)
        ports = [port for far, port in self.joined.get(event.port, ()) if far == receiver]
        if len(ports) != 1:
            raise Cannot(f"it isn't known with which port of {receiver} {event.port} is connected")
        self.lines.append(Message("sent", receiver, ports[0], text))
        self.last_sent_on = event.port

    def _unsend(self, event: Failed) -> None:
        last = self.lines[-1] if self.lines else None
        if not isinstance(last, Message) or last.word != "sent" or self.last_sent_on != event.port:
            raise Cannot("no sending of this port stands before it")
        del self.lines[-1]

    def _arrival(self, port: str, id_there: str) -> int:
        if (port, id_there) not in self.arrivals:
            raise Cannot("no message with this id came there")
        return self.arrivals[port, id_there]

    def _get(self, event: Succeeded) -> None:
        arrival = self._arrival(event.port, event.id)
        if event.how == "Check-receive":
            self._took("found", event.port, arrival)
        else:
            self.got.add((event.port, event.id))

    def _extract(self, event: Extracted) -> None:
        arrival = self._arrival(event.port, event.id)
        if (event.port, event.id) in self.got:
            self.got.discard((event.port, event.id))
            self._settle_gone(None)
            self._took("took", event.port, arrival)
        else:
            self.gone.append((event.port, arrival))

    def _took(self, word: str, port: str, arrival: int) -> None:
        came = self.lines[arrival]
        assert isinstance(came, Message)
        self.lines.append(came._replace(word=word, arrival=arrival))


def section_of(log: Log) -> Section:
    """The section of the component that the log belongs to."""
    section = Section(log.name)
    for entry in log.entries:
        section.read(entry)
    section.troubles = sorted([*log.troubles, *section.troubles], key=lambda trouble: trouble.line)
    return section


class _Numbers:
    """The numbers of sends and arrivals on each route: sender, receiver, port of the receiver."""

    def __init__(self, sections: list[Section]):
        self.sent: dict[tuple[str, str, str], int] = {}
        self.unused: dict[tuple[str, str, str, str], deque[int]] = {}
        self.extra: dict[tuple[str, str, str], int] = {}
        self.senders = {section.name for section in sections}

    def of_sending(self, route: tuple[str, str, str], text: str) -> int:
        number = self.sent.get(route, 0)
        self.sent[route] = number + 1
        self.unused.setdefault((*route, text), deque()).append(number)
        return number

    def of_arrival(self, route: tuple[str, str, str], text: str) -> int:
        """The number of an arrival. Messages of a sender without a log are numbered in their order of arrival."""
        same = self.unused.get((*route, text))
        if same:
            return same.popleft()
        extra = self.extra.get(route, 0)
        self.extra[route] = extra + 1
        return self.sent.get(route, 0) + extra


def trace_of(sections: list[Section]) -> str:
    """The trace: `mtc` first, then the others in the order of their numbers."""
    numbers = _Numbers(sections)
    ordered = sorted(sections, key=lambda section: _place(section.name))
    sent = [_numbers_of_sendings(section, numbers) for section in ordered]
    return "".join(_text_of(section, mine, numbers) for section, mine in zip(ordered, sent))


def _place(name: str) -> tuple[int, str]:
    found = re.search(r"([0-9]+)\)?$", name)
    return (int(found[1]) if found and name != "mtc" else 0), name


def _numbers_of_sendings(section: Section, numbers: _Numbers) -> dict[int, int]:
    """The number of each send, by its place in the section."""
    found = {}
    for place, line in enumerate(section.lines):
        if isinstance(line, Message) and line.word == "sent":
            found[place] = numbers.of_sending((section.name, line.component, line.port), line.text)
    return found


def _text_of(section: Section, sent: dict[int, int], numbers: _Numbers) -> str:
    """The text of the section, given the numbers of its sends by their places."""
    came: dict[int, int] = {}
    texts = [f"component {_word(section.name)}\n"]
    for place, line in enumerate(section.lines):
        if isinstance(line, Operation):
            texts.append(f"{line.word} {line.port}\n")
        elif line.word == "sent":
            texts.append(f"sent {_word(line.component)}.{line.port} {sent[place]} {line.text}\n")
        else:
            if line.word == "came":
                came[place] = numbers.of_arrival((line.component, section.name, line.port), line.text)
            number = came[place if line.word == "came" else line.arrival]
            texts.append(f"{line.word} {line.port} {_word(line.component)} {number} {line.text}\n")
    return "".join(texts)


def _word(name: str) -> str:
    """The name of a component as a word of a trace. A name may have spaces; its number distinguishes it from others."""
    return _NO_WORD.sub("_", name)
