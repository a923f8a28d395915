"""Which bracket isn't closed, when a text ends too early or a definition or a branch begins inside another."""
from __future__ import annotations

from typing import NamedTuple, Optional

from ..script.tokens import Text

_CLOSING = {"}": "{", ")": "(", "]": "["}
_DEFINITIONS = ("function", "testcase", "type")


class Unclosed(NamedTuple):
    """The place of a bracket, and whether only the indentation of the text says that it is the one."""

    place: int
    is_guess: bool


def unclosed_at(text: Text, place: int) -> Optional[Unclosed]:
    """The unclosed bracket that makes the token at the place unexpected, if there is one: the text ends there, or the
    token begins a definition, which only the bracket of the module may hold, or a branch inside another."""
    word = text.spelling(place)
    if word and word not in (*_DEFINITIONS, "["):
        return None
    open_here: list[int] = []
    guess: Optional[int] = None
    for at in range(place):
        token = text.tokens[at]
        if token in _CLOSING.values():
            open_here.append(at)
        elif token in _CLOSING and open_here and text.tokens[open_here[-1]] == _CLOSING[token]:
            opened = open_here.pop()
            if guess is None and token == "}" and _closes_another(text, opened, at):
                guess = opened
    if len(open_here) <= (1 if word else 0):
        return None
    if word == "[" and text.spelling(open_here[-2] - 1) != "alt":
        return None
    return Unclosed(open_here[-1] if guess is None else guess, guess is not None)


def _closes_another(text: Text, opened: int, closed: int) -> bool:
    """Whether a bracket that begins its line is further left than the line of the bracket that it closes."""
    before = text.shown_line(text.line(closed))[: text.position(closed).column - 1]
    return not before.strip() and _width(before) < _width(text.shown_line(text.line(opened)))


def _width(line: str) -> int:
    """How far the line is indented."""
    return len(line) - len(line.lstrip())
