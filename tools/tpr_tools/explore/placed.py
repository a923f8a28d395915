"""The places and lines of the script for the statements of the model of runs."""
from __future__ import annotations

from typing import Optional

from ..model.bodies import Begun, TestCase, Tried
from ..model.reading import Reader
from ..origins import Line, Origins
from ..script.tokens import Text


class Placed(str):
    """A token with its line."""

    line: int

    def __new__(cls, spelling: str, line: int) -> "Placed":
        token = super().__new__(cls, spelling)
        token.line = line
        return token


def placed_tokens(data: bytes) -> list[Placed]:
    """The tokens of an accepted script, with their lines."""
    text = Text(data)
    return [Placed(*it) for it in zip(text.tokens, text.lines)]


class PlacedCase(TestCase):
    """A test case that knows the lines of its statements, and where these come from."""

    def __init__(self, tokens: list[Placed], origins: Optional[Origins] = None):
        reader = Reader(Text(" ".join(tokens).encode("latin-1")))
        super().__init__(reader.script)
        self.module, self._reader, self._tokens = reader.names.module, reader, tokens
        self.origins = origins or Origins([])

    def told(self, line: int) -> Line:
        """A line of the script as the user knows it: in the original file, if there is one."""
        return self.origins.line(line)

    def line(self, node: object) -> Optional[int]:
        """Where a statement, or a receiving operation, begins."""
        if isinstance(node, Tried):
            node = node.choice
        if isinstance(node, Begun):
            node = node.loop
        place = self._reader.places.get(id(node))
        return None if place is None else self._tokens[place].line
