"""The constructs of the full language that the profile writes in another way or leaves out (docs/FROM_TTCN3.md). For
each, constructs.table has its name, its clause of ES 201 873-1, and what to write instead."""
from __future__ import annotations

from enum import Enum

from ..template import rows_of

_ROWS = {name: row for name, *row in rows_of(__file__, "constructs.table")}


class Construct(Enum):
    """The construct of a row, by the name there."""

    def __init__(self, _: int):
        self.clause, self.title, self.instead = _ROWS[self.name]

    (
        # 5 to 7: basics, types, expressions
        NAME_BEGIN, MACRO, MODIFIER, NAMED_ARGUMENT, FLOAT, OTHER_BASE, STRING_OF_BITS, UNIVERSAL, SUBTYPE, ALIAS,
        OPTIONAL, NESTED_TYPE, SET, SET_OF, ENUMERATED, UNION, ANYTYPE, ARRAY, DEFAULT_TYPE, PROCEDURE_PORT,
        PORT_ALL, PORT_PARAMETERS, COMPONENT_MEMBER, EXTENDS, ADDRESS, COMPATIBLE, EXPRESSION, COMPARISON, FIELD,
        # 8: modules
        LANGUAGE, GLOBAL_NAME, MODULEPAR, GROUP, IMPORT, VISIBILITY, CONTROL, EXECUTE,
        # 10 to 16: declarations, templates, functions
        CONST, INITIAL_VALUE, SEVERAL_VARIABLES, VAR_TEMPLATE, TIMER, SIGNATURE, TEMPLATE, TEMPLATE_BY_NAME,
        NO_TYPE, MODIFIES, OMIT, IFPRESENT, LENGTH, PERMUTATION, SUPERSET, NOT_USED, LIST_BARE, PATTERN_SIGNS,
        MATCHING, NO_RUNS_ON, VALUE_PARAMETER, RETURN, CALL_FUNCTION, PREDEFINED, EXTERNAL, ALTSTEP, CASE_PARAMETER,
        # 19, 20: statements
        ASSIGNMENT, IF, SELECT, LOOP, WHILE, GOTO, STOP, LOG, BREAK, BLOCK, LATE_VARIABLE, GUARD, BRANCH_ALTSTEP,
        REPEAT, INTERLEAVE, DEFAULT,
        # 21: components
        LATE_SETUP, UNMAP, PARAM, CREATE_ARGUMENTS, ALIVE, START_ARGUMENT, KILL, RUNNING, DONE_OF_ONE, ALL_DONE,
        # 22: communication
        CALL, ANY_PORT, FROM_ANY, TO_LIST, TO_SYSTEM, REDIRECT, CHECK, CHECKSTATE, PORT_BRACKETS,
        # 24 to 27
        REASON, GETVERDICT, ACTION, WITH,
    ) = range(len(_ROWS))
