"""The words of a report, from docs/PROFILE.md."""
from __future__ import annotations

import functools
import re
from typing import Iterable

# From the best to the worst (ES 201 873-1, 24.1).
VERDICTS = ("none", "pass", "inconc", "fail", "error")

RESERVED = frozenset(
    """all alt boolean charstring check clear complement component connect create done else error fail
    false for from function halt in inconc infinity inout integer map message module mtc none of on
    out pass pattern port receive record runs self send sender setverdict start stop system testcase
    to trigger true type value var""".split()
)

# The additional reserved words of the full language.
RESERVED_ELSEWHERE = frozenset(
    """action activate address alive altstep and and4b any anytype bitstring break call case catch
    const continue control deactivate decmatch default disconnect display do encode enumerated
    except exception execute extends extension external float friend getcall getreply getverdict
    goto group hexstring if ifpresent import interleave kill killed label language length log match
    mixed mod modifies modulepar noblock not not4b not_a_number nowait null octetstring omit
    optional or or4b override param permutation present private procedure public raise read
    recursive rem repeat reply return running select set signature subset superset template timeout
    timer union universal unmap valueof variant verdicttype while with xor xor4b""".split()
)

MOST_COMPONENTS = 64
MOST_ON_A_ROUTE = 100_000

# Patterns are compiled when they are first used, because not every tool uses them, and a tool must start quickly.
_NO_LETTER = "[^\t\n\r\x20-\ud7ff\ue000-\ufffd\U00010000-\U0010ffff]"

_WORD = r"[A-Za-z][A-Za-z0-9_]{0,63}"


@functools.lru_cache(maxsize=4096)
def is_name(word: str) -> bool:
    """Whether a script can declare a port, a type, a field or a created component with this name."""
    return re.fullmatch(_WORD, word) is not None and word not in RESERVED


def is_component_name(word: str) -> bool:
    return word in ("mtc", "system") or is_name(word)


def readable(text: str) -> str:
    """The text, with characters that an XML file can't contain replaced."""
    return re.sub(_NO_LETTER, "\ufffd", text)


_CONTROL = "[\x00-\x1f\x7f-\x9f]"


def shown(text: str) -> str:
    """The text on one line, in the form that a terminal can show."""
    return re.sub(_CONTROL, lambda found: f"\\x{ord(found[0]):02x}", text)


def worst(verdicts: list[str]) -> str:
    """The worst of these, `none` where there are none."""
    return max(verdicts, key=VERDICTS.index, default="none")


def counted(number: int, what: str) -> str:
    """`1 message`, `2 messages`."""
    return f"{number} {what}" if number == 1 else f"{number} {what}s"


def and_(things: Iterable[object]) -> str:
    """`a`, `a and b`, `a, b and c`."""
    *first, last = map(str, things)
    return f"{', '.join(first)} and {last}" if first else last
