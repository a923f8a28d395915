"""The exception that stops a rewrite at a place: a construct that can't be carried over."""
from __future__ import annotations

from typing import NoReturn

from .tokens import Token


class Refusal(Exception):
    """A construct that can't be carried over. Without a reason it results from one that was reported already."""

    def __init__(self, at: Token, reason: str, is_open: bool = False):
        super().__init__(reason)
        self.at = at
        self.reason = reason
        # It may be carried over if the messages that can come are known.
        self.is_open = is_open


def refuse(at: Token, reason: str) -> NoReturn:
    raise Refusal(at, reason)


def refuse_silently(at: Token) -> NoReturn:
    """Refuses something that results from an earlier refusal."""
    raise Refusal(at, "")


def refuse_open(at: Token, reason: str) -> NoReturn:
    raise Refusal(at, reason, True)
