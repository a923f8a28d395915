"""The numbers and names of all refusals and faults. `tests/tools/explain_rules.py` compares them with docs/REFUSALS.md,
and with the table by which the program prints them (`crates/tp_common`)."""
from __future__ import annotations

from enum import IntEnum


class Refusal(IntEnum):
    """A refusal or a fault by its number."""

    BAD_LINE = 1
    READ = 2
    WRITE = 3
    SYNTAX = 10
    UNKNOWN = 11
    DUPLICATE = 12
    WRONG_TYPE = 13
    DIRECTION = 14
    LIMIT = 15
    NOT_IN_SUT = 16
    NO_DONE = 17
    NOT_STARTED = 18
    DIRECTIONS = 20
    TWO_PORTS_OF_ONE = 21
    MIXED = 22
    NOT_ONE_TO_ONE = 23
    MAP_DIRECTIONS = 24
    SYSTEM_PORT = 25
    SAME_PORT = 26
    ALREADY = 27
    NOT_SYSTEM = 28
    NOT_SENDING = 40
    NO_ROUTE = 41
    NEEDS_TO = 42
    UNSET_VARIABLE = 43
    MEMORY = 50
    NO_THREAD = 51
    RESTLESS = 61
    NO_ORDER = 62

    @property
    def word(self) -> str:
        """Its name as the program prints it, such as `NotSending`."""
        return self.name.title().replace("_", "")

    def told(self) -> str:
        """For example, `40 NotSending`."""
        return f"{self.value} {self.word}"


# Why a send can't be carried out; if there are several reasons, the first counts
# (docs/PROFILE.md, "How a behaviour ends").
SEND_FAULTS = (Refusal.NOT_SENDING, Refusal.UNSET_VARIABLE, Refusal.NO_ROUTE, Refusal.NEEDS_TO)
