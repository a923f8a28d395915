"""Which construct of the full language is meant by a sign that isn't in the profile, where no token begins."""
from __future__ import annotations

import re
from typing import Optional

from ..script.constructs import Construct
from ..script.cursor import GrammarFault
from ..script.tokens import Text
from .construct_signs import Found, Signs, by_words

_SIGNS = (
    (re.compile(r"=>"), Construct.NAMED_ARGUMENT),
    (re.compile(r"==|>=|=|>|!="), Construct.COMPARISON),
    (re.compile(r"&|/(?!\*)|%"), Construct.EXPRESSION),
    (re.compile(r"'[0-9A-Fa-f?*\s]*'[BHO]"), Construct.STRING_OF_BITS),
    (re.compile(r"@[a-z]+"), Construct.MODIFIER),
    (re.compile(r"__[A-Z]+__"), Construct.MACRO),
    (re.compile(r"_"), Construct.NAME_BEGIN),
)

# The statements and definitions that contain an expression, by their first word.
_WITH_EXPRESSIONS = frozenset("if else while do select const template log return modulepar".split())

# The words after which a bracket holds an expression.
_BEFORE_BRACKETS = by_words("IF if, WHILE while, SELECT select, LOG log, LOOP for, MATCHING match")


def construct_of_rest(text: Text, offset: int) -> Optional[Found]:
    """The construct of the statement that contains the sign, or else of the sign itself."""
    place = len(text.tokens)
    if offset < len(text.letters) - len(text.rest):
        return None
    begin = _begin_of(text, place)
    fault = GrammarFault(10, place, begin, "a statement", "")
    if found := _of_statement(text, fault):
        return found
    for form, construct in _SIGNS:
        if form.match(text.rest):
            return Found(construct, place)
    return None


def _begin_of(text: Text, place: int) -> int:
    """The first token of the statement at the place: the one after a `;` or a brace."""
    while place > 0 and text.spelling(place - 1) not in (";", "{", "}"):
        place -= 1
    return place


def _of_statement(text: Text, fault: GrammarFault) -> Optional[Found]:
    """A statement that isn't in the profile at all, or a loop or a guard of another form."""
    signs = Signs(text, fault)
    if signs.first() in _WITH_EXPRESSIONS:
        return signs.make(_known(signs), fault.begin)
    opened = _opened(text, fault.place)
    before = text.spelling(opened - 1)
    if before in _BEFORE_BRACKETS:
        return signs.make(_BEFORE_BRACKETS[before], opened - 1, word=before)
    if text.spelling(opened) == "[":
        return signs.make(Construct.GUARD, opened)
    if ":=" in (signs.first(1), signs.first(2)) and not _is_in_value(text, fault.begin):
        return signs.make(Construct.ASSIGNMENT, fault.begin)
    return None


def _is_in_value(text: Text, begin: int) -> bool:
    """Whether a field of a value begins here, not a statement: the brace before it opens a value."""
    return begin > 1 and text.spelling(begin - 1) == "{" and text.spelling(begin - 2) in (":=", ":", "(", ",", "{")


def _known(signs: Signs) -> Construct:
    found = signs.found()
    return found.construct if found else Construct.EXPRESSION


def _opened(text: Text, place: int) -> int:
    """The place of the innermost bracket that is open, or -1."""
    closed = 0
    while place > 0:
        place -= 1
        word = text.spelling(place)
        if word in (")", "]"):
            closed += 1
        elif word in ("(", "["):
            if closed == 0:
                return place
            closed -= 1
        elif word in ("{", "}"):
            return -1
    return -1
