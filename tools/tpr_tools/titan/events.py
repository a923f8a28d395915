"""What an entry of Titan's log says about ports and messages.

    Port p was started.                                           an operation: started, stopped, halted, cleared
    Port p has accepted the connection from x(3):q.               p leads to q of x(3), until
    Port p was disconnected from x(3):q.
    Sent on p to x(3) integer : 1                                 a send, unless the next entry is
    Dynamic test case error: Sending data on the connection of port p to 3:q failed. (Broken pipe)
    Message enqueued on p from x(3) integer : 1 id 4              an arrival, and its name on this port
    Receive operation on port p succeeded, .. id 4                the next extraction of 4 is due to a receive
    Message with id 4 was extracted from the queue of p.          it is no longer queued
"""
from __future__ import annotations

import re
from typing import NamedTuple, Optional, Union

from .log import Entry


class Operation(NamedTuple):
    """`started`, `stopped`, `halted` or `cleared`"""

    word: str
    port: str


class Joined(NamedTuple):
    """The port is connected with this port of this component; None stands for the component itself."""

    port: str
    far_port: str
    component: Optional[str] = None


class Parted(NamedTuple):
    """The connection has ended."""

    port: str
    far_port: str
    component: Optional[str] = None


class Sent(NamedTuple):
    """A send: `rest` is the receiver and the message, which can only be separated by means of the connections."""

    port: str
    rest: str


class Failed(NamedTuple):
    """The send before it on this port, which Titan logs first, has failed."""

    port: str


class Enqueued(NamedTuple):
    """An arrival: `rest` is the sender and the message."""

    port: str
    rest: str
    id: str


class Succeeded(NamedTuple):
    """A receiving operation got the message: `Receive`, `Trigger` or `Check-receive`."""

    how: str
    port: str
    id: str


class Extracted(NamedTuple):
    """The message is no longer queued."""

    port: str
    id: str


Event = Union[Operation, Joined, Parted, Sent, Failed, Enqueued, Succeeded, Extracted]


class Unknown(Exception):
    """The entry is about a port, and has no known form."""


_P = r"([^ ]+)"
_FAILED = re.compile(rf"(?:.+: )?Dynamic test case error: Sending data on the connection of port {_P} to .+ failed\..*")
_PORT, _ENDS = r"(?P<port>[^ ]+)", r"(?P<component>.+):(?P<far_port>[^ :]+)"
_LOCALLY = r"local port (?P<far_port>[^ ]+)\."
# The event for each form: the names in the form are the fields of the event.
_FORMS: tuple[tuple[type[Event], str], ...] = (
    (Operation, rf"Port {_PORT} was (?P<word>started|stopped|halted|cleared)\."),
    (Joined, rf"Port {_PORT} has established the connection with {_LOCALLY}"),
    (Joined, rf"Port {_PORT} has established the connection with {_ENDS} using transport type .+\."),
    (Joined, rf"Port {_PORT} has accepted the connection from {_ENDS}\."),
    (Joined, rf"Port {_PORT} was mapped to (?P<component>system):(?P<far_port>[^ ]+)\."),
    (Parted, rf"Port {_PORT} was (?:disconnected|unmapped) from {_ENDS}\."),
    (Parted, rf"Removing unterminated (?:connection|mapping) between port {_PORT} and {_ENDS}\."),
    (Parted, rf"Port {_PORT} has terminated the connection with {_LOCALLY}"),
    (Sent, rf"Sent on {_PORT} to (?P<rest>.+)"),
    (Enqueued, rf"Message enqueued on {_PORT} from (?P<rest>.+) id (?P<id>[0-9]+)"),
    (Succeeded, rf"(?P<how>Receive|Trigger|Check-receive) operation on port {_PORT} succeeded, .* id (?P<id>[0-9]+)"),
    (Extracted, rf"Message with id (?P<id>[0-9]+) was extracted from the queue of {_PORT}\."),
)
_COMPILED = [(kind, re.compile(form)) for kind, form in _FORMS]

# Entries about ports without anything that belongs into a trace.
_OF_NO_USE = re.compile(
    rf"Port {_P} is waiting for connection from .+"
    rf"|Connection of port {_P} to .+ was (?:closed unexpectedly|reset) by the peer\."
    rf"|Connection termination request was received on port {_P} from .+"
    rf"|Terminating the connection of port {_P} to .+"
    rf"|Destroying unestablished connection of port {_P} to .+"
    rf"|Sending data on the connection of port {_P} to .+ would block execution\. .+"
    rf"|The message finally was sent on port {_P} to .+"
)

# The beginnings of entries without which a trace would be incomplete. If kinds are logged, these are all entries of the
# kind PORTEVENT.
_OF_A_PORT = re.compile(
    r"(?:Sent|Called|Replied|Raised) on |(?:Message|Call|Reply|Exception) enqueued on |(?:Message|Operation) with id "
    r"|Port [^ ]+ (?:was|has) |Removing unterminated |[A-Z][a-z-]+ operation on port [^ ]+ succeeded"
)


def event_of(entry: Entry) -> Optional[Event]:
    """What the entry says about ports, or None if it says nothing."""
    if entry.kind in (None, "ERROR") and (found := _FAILED.fullmatch(entry.text)):
        return Failed(found[1])
    is_of_a_port = entry.kind == "PORTEVENT" if entry.kind else _OF_A_PORT.match(entry.text) is not None
    if not is_of_a_port:
        return None
    for kind, form in _COMPILED:
        if found := form.fullmatch(entry.text):
            return kind(**found.groupdict())
    if not _OF_NO_USE.fullmatch(entry.text):
        raise Unknown
    return None
