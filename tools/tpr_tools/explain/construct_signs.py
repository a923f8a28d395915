"""Which construct of the full language is at the place where the profile's grammar ends.

Only words and symbols near that place count, the most specific first (signs.table). If none of them indicates a
construct, the result is None.
"""
from __future__ import annotations

import functools
from dataclasses import dataclass, field
from typing import Callable, NamedTuple, Optional

from ..script.constructs import Construct
from ..script.cursor import GrammarFault
from ..script.tokens import Text, is_name, is_number, is_text, is_word
from ..template import rows_of


def by_words(table: str) -> dict[str, Construct]:
    """The constructs by their words, from a table with the words after each construct."""
    rows = [it.split() for it in table.replace("\n", " ").split(",")]
    return {word: Construct[name] for name, *words in rows for word in words}


# The first word of a statement or a definition.
_FIRST = by_words(
    """IF if else, WHILE while do, SELECT select case, GOTO goto label, RETURN return, LOG log, STOP stop,
    REPEAT repeat, BREAK break continue, INTERLEAVE interleave, DEFAULT activate deactivate default, EXECUTE execute,
    ACTION action, CONST const, TEMPLATE template, TIMER timer, MODULEPAR modulepar, IMPORT import, GROUP group,
    SIGNATURE signature, EXTERNAL external, ALTSTEP altstep, CONTROL control, VISIBILITY friend public private,
    LANGUAGE language, WITH with, UNMAP unmap disconnect, CHECK check, BLOCK {"""
)
# The word that is refused, or the one before it.
_INNER = by_words(
    """LENGTH length, IFPRESENT ifpresent, PERMUTATION permutation, SUPERSET superset subset, MODIFIES modifies,
    OMIT omit, OPTIONAL optional, SET set, UNION union, ENUMERATED enumerated, UNIVERSAL universal, ANYTYPE anytype,
    EXTENDS extends, PROCEDURE_PORT procedure mixed, ADDRESS address, TIMER timeout timer read,
    CALL call getcall reply getreply raise catch, CHECKSTATE checkstate, ALIVE alive, KILL kill, RUNNING running,
    DONE_OF_ONE done killed, PARAM param, RETURN return, WITH with, LANGUAGE language, TEMPLATE template,
    CONST const, REPEAT repeat, LOG log, MATCHING match valueof decmatch, GETVERDICT getverdict,
    EXPRESSION mod rem not and or xor"""
)
# A name that isn't defined.
_NAMES = by_words(
    """OMIT omit, FLOAT float, STRING_OF_BITS bitstring hexstring octetstring, ANYTYPE anytype, DEFAULT_TYPE default,
    TIMER timer, ADDRESS address, OTHER_BASE verdicttype objid"""
)
_TABLES = {"FIRST": _FIRST, "INNER": _INNER}
_KINDS: dict[str, Callable[[str], bool]] = {
    "NAME": is_name, "WORD": is_word, "NUMBER": is_number, "TEXT": is_text, "_": lambda token: True,
    "FIRST": lambda token: token in _FIRST, "INNER": lambda token: token in _INNER,
}  # fmt: skip
_SETUP, _STATEMENTS = ("the setup", "the start of a component"), ("a variable", "a statement", "a branch")
_PARTS_OF_BODIES = ("a body", *_SETUP, *_STATEMENTS, "the end of the test case")
_NOT_OUTER = ("a field", "the ports of a component type", "the end of the module")
# Words of the script that are inserted into the texts of a construct: tokens from the beginning of the statement, or
# the token before the place.
_FROM_BEGIN = {
    Construct.INITIAL_VALUE: {"type": 1, "name": 2},
    Construct.NO_RUNS_ON: {"name": 1},
    Construct.CASE_PARAMETER: {"name": 1},
    Construct.CREATE_ARGUMENTS: {"type": 1},
    Construct.CHECK: {"port": 0},
}
_BEFORE = {Construct.PORT_BRACKETS: "operation", Construct.REASON: "verdict"}
# The type of a message that begins with this token, and how the message is written.
_TYPES = {"-": "integer", "true": "boolean", "false": "boolean", "pattern": "charstring"}
_WRITTEN = {"{": "{..}", "-": "-1", "pattern": 'pattern ".."'}
_MOST_AHEAD = 10  # most tokens among which one is searched for


@dataclass(frozen=True)
class Found:
    """A construct, its first token, and the words of the script that are inserted into its texts."""

    construct: Construct
    start: int
    words: dict[str, str] = field(default_factory=dict)

    def told(self, text: str) -> str:
        for key, word in self.words.items():
            text = text.replace("{" + key + "}", word)
        return text

    def title(self) -> str:
        return self.told(self.construct.title)

    def instead(self) -> str:
        return self.told(self.construct.instead)


class _Sign(NamedTuple):
    """A row of the table."""

    parts: str
    first: str
    around: str
    construct: str
    start: str


@functools.lru_cache(maxsize=None)
def _signs() -> list[_Sign]:
    return [_Sign(*row) for row in rows_of(__file__, "signs.table")]


class Signs:
    """The tokens around the place of a fault: `begin` is where its statement or definition begins."""

    def __init__(self, text: Text, fault: GrammarFault):
        self.text = text
        self.place = fault.place
        self.begin = fault.begin
        self.parts = {"any", fault.part}
        if fault.part in _PARTS_OF_BODIES:
            self.parts.add("body")
        if fault.part not in _NOT_OUTER:
            self.parts.add("outer")
        before = self._before()
        if before.count("(") > before.count(")"):
            self.parts.add(f"{fault.part} in brackets")

    def word(self, distance: int = 0) -> str:
        return self.text.spelling(self.place + distance)

    def first(self, distance: int = 0) -> str:
        return self.text.spelling(self.begin + distance)

    def found(self) -> Optional[Found]:
        return next((self._made(it) for it in _signs() if self._fits(it)), None)

    def make(self, construct: Construct, start: int, **words: str) -> Found:
        return Found(construct, start, words)

    def _made(self, sign: _Sign) -> Found:
        start = self.begin if sign.start == "first" else self.place + int(sign.start[1:] or 0)
        word = self.text.spelling(start)
        construct = _TABLES[sign.construct][word] if sign.construct in _TABLES else Construct[sign.construct]
        words = {name: self.first(at) for name, at in _FROM_BEGIN.get(construct, {}).items()}
        if construct in _BEFORE:
            words[_BEFORE[construct]] = self.word(-1)
        if construct is Construct.NO_TYPE:
            words = self._of_message(word)
        return Found(construct, start, {"word": word, **words})

    def _of_message(self, word: str) -> dict[str, str]:
        """The words for a value or a template in the place of its type."""
        type_name = "integer" if is_number(word) else "charstring" if is_text(word) else _TYPES.get(word, "TYPE")
        port = self.word(-4) if self.word(-3) == "." else "p"
        return {"type": type_name, "value": _WRITTEN.get(word, word), "operation": self.word(-2), "port": port}

    # Whether a row fits

    def _fits(self, sign: _Sign) -> bool:
        before, _, ahead = (it.split() for it in sign.around.partition("^"))
        return (
            not self.parts.isdisjoint(sign.parts.split(", "))
            and self._is_first(sign.first.split())
            and all(self._has(at - len(before), it) for at, it in enumerate(before + ahead))
        )

    def _is_first(self, wanted: list[str]) -> bool:
        """Whether the tokens from the beginning on are these, with the place at the `^`."""
        if "^" in wanted:
            at, distance = wanted.index("^"), self.place - self.begin
            if distance < at - 1 if wanted[at - 1] == "…" else distance != at:
                return False
        tokens = [it for it in wanted if it not in ("^", "…")]
        return all(_is_one_of(self.first(at), it) for at, it in enumerate(tokens))

    def _has(self, distance: int, wanted: str) -> bool:
        if wanted.endswith("…"):
            return wanted[:-1] in self._before()
        if wanted.startswith("…"):
            ahead = [self.word(it) for it in range(_MOST_AHEAD)]
            return wanted[1:] in (ahead[: ahead.index("{")] if "{" in ahead else ahead)
        return _is_one_of(self.word(distance), wanted)

    def _before(self) -> list[str]:
        """The tokens of the statement before the place."""
        return [self.text.spelling(place) for place in range(self.begin, self.place)]


def _is_one_of(token: str, wanted: str) -> bool:
    if wanted[:1] == "!":
        return token not in wanted[1:].split("|")
    return any(_KINDS[it](token) if it in _KINDS else it == token for it in wanted.split("|"))


def construct_of_name(name: str) -> Optional[Construct]:
    """The construct that an unknown name may stand for."""
    return _NAMES.get(name)
