"""The statements that a rewrite writes, each with its place in the original text."""
from __future__ import annotations

from dataclasses import dataclass
from enum import Enum
from typing import Optional, Union

from .tokens import Token
from .types import Type
from .values import Form, Symbol


@dataclass
class Message:
    """A value or a template with its type, or a whole message that was received."""

    type: Type
    form: Form


Who = Union[int, Symbol]


@dataclass
class Sent:
    at: Token
    port: str
    message: Message
    to: Optional[Who]
    to_all: bool


@dataclass
class Got:
    """A receiving operation, alone or in a branch."""

    at: Token
    how: str
    port: str
    message: Optional[Message]
    sender: Optional[Who]
    value: Optional[Symbol] = None
    sent_by: Optional[Symbol] = None


@dataclass
class GotDone:
    """A wait for a component's last message."""

    at: Token
    component: int


@dataclass
class Told:
    """A component gets the message to begin."""

    at: Token
    component: int


@dataclass
class Failed:
    """Something that the script never reaches, by everything that is known of it. It is written as a send that fails,
    so that a run that does reach it is an `error`."""

    at: Token


@dataclass
class GotEnd:
    """The test case has ended, which ends every component that still waits."""

    at: Token


@dataclass
class EndTold:
    """A component gets the message that the test case has ended."""

    at: Token
    component: int


class Ticking(Enum):
    START = "start"
    STOP = "stop"
    EXPIRE = "timeout"


@dataclass
class Ticked:
    """A timer was started or stopped, or its timeout is waited for."""

    at: Token
    timer: str
    act: Ticking


@dataclass
class Unstarted:
    """On this path a timer is started `number` times less than on another."""

    at: Token
    timer: str
    count: int


@dataclass
class Went:
    """A path sends its number to its own component."""

    at: Token
    number: int


@dataclass
class Came:
    """The paths with this number continue here."""

    at: Token
    number: int


@dataclass
class Way:
    """A branch; without an operation it is `[else]`."""

    at: Token
    operation: Optional[Union[Got, GotDone, GotEnd, Ticked, Came]]
    code: Code


@dataclass
class Ways:
    at: Token
    branches: list[Way]


@dataclass
class Operated:
    at: Token
    ports: list[str]
    act: str
    is_all: bool


@dataclass
class Verdict:
    at: Token
    word: str


@dataclass
class StillRuns:
    """The question whether one of these components runs was answered with yes, which must be certain. Nothing is
    written."""

    at: Token
    components: frozenset[int]


Emitted = Union[
    Sent, Got, GotDone, Told, Ways, Operated, Verdict, Failed, Ticked, Unstarted, GotEnd, EndTold, Went, Came, StillRuns
]
Code = list[Emitted]
