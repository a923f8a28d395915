"""The rules of refusals: refusal_rules.table has the words of each, its numbers and its clauses."""
from __future__ import annotations

import re
from enum import Enum
from typing import NamedTuple

from ..refusals import Refusal
from ..template import rows_of

_ROWS = {name: row for name, *row in rows_of(__file__, "refusal_rules.table")}


class Rule(Enum):
    """A rule in the words of the documents."""

    def told(self) -> str:
        """The rule without the numbers of refusals, which are in brackets in the documents."""
        return re.sub(r" \([0-9]+\)", "", self.value)

    (
        A_BYTE, A_TOKEN, SHORT_TEXT, SHORT_NAME, SMALL_NUMBER, POSITIVE_NUMBER, FEW_BRACKETS, A_TEST_CASE,
        ONE_NAME, ONE_TEST_CASE, ONE_INNER_NAME, MESSAGE_TYPE, COMPONENT_TYPE, FEW_PORTS, SUT, CREATED_NAME,
        CREATED_TYPE, CREATED_SAME, FEW_COMPONENTS, KNOWN_COMPONENT, KNOWN_PORT, NO_SYSTEM_PORT,
        DIFFERENT_PORTS, NOT_YET, NOT_MAPPED, ONE_OF_EACH, ALL_RECEIVED, ONE_SYSTEM_PORT, NOT_CONNECTED,
        MAP_DIRECTIONS, STARTED_VARIABLE, STARTED_ONCE, STARTED_FUNCTION, STARTED_TYPE, ARGUMENT_COUNT,
        ARGUMENTS, ALL_STARTED, DONE, NOT_IN_SUT, NOT_ERROR, BODY_PORT, BODY_TYPE, LISTED, FITS, SENT_VARIABLE,
        PEER, VALUE_TO, SENDER_TO, VARIABLE_TYPE, NEW_NAME, FEW_STATEMENTS, READ, NOT_SENDING, NO_ROUTE,
        NEEDS_TO, UNSET, BAD_LINE, MEMORY, NO_THREAD, RESTLESS, NO_ORDER,
    ) = (text for _, _, text, *_ in _ROWS.values())


def clauses_of(rule: Rule) -> str:
    """The clauses of ES 201 873-1 for the pass that checks the rule; none for the reader and for limits of the text."""
    return _ROWS[rule.name][1].strip("-")


class Beyond(NamedTuple):
    """For a number that isn't about a script: when it is printed, and what to do then."""

    rule: Rule
    remedy: str


BEYOND_SCRIPTS = {
    Refusal(int(number)): Beyond(Rule[name], *remedy) for name, (number, _, _, *remedy) in _ROWS.items() if remedy
}
# The rules of scripts, in the order of the table.
RULES_OF = {
    refusal: tuple(Rule[name] for name, (numbers, *_) in _ROWS.items() if str(refusal.value) in numbers.split(", "))
    for refusal in Refusal
    if refusal not in (*BEYOND_SCRIPTS, Refusal.WRITE)
}
