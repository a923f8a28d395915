"""What is expected of a script: by a file beside it, or else by the command line.

`NAME.wanted` has the results that are expected of `NAME.ttcn`, a line for each: a result, or the whole line of a
refusal. A line such as `pass or fail` is the expected answer of `tpr verdicts`, and its verdicts are expected results.
If there is no such file, but `NAME.expected` or `NAME.expected.N`, the output must be one of these texts.
"""
from __future__ import annotations

import glob
import os
from dataclasses import dataclass, field
from typing import Optional, Sequence

from ..command import REFUSED, Stop, read_bytes
from ..words import VERDICTS, counted

CAN_BE_WANTED = (*VERDICTS, "refused")
ALWAYS = "always"  # also allowed on the command line: a verdict that doesn't depend on the schedule
ENDING = ".ttcn"


@dataclass(frozen=True)
class Wanted:
    """The expected results, and whole lines for refusals; or texts, of which one must be printed."""

    results: frozenset[str]
    lines: frozenset[str] = frozenset()
    texts: tuple[str, ...] = field(default=())  # their files
    answers: frozenset[str] = frozenset()  # of `tpr verdicts`

    def fault(self, result: str, printed: bytes) -> Optional[str]:
        """Why the output isn't expected, or None if it is. The text is empty if the result itself says why."""
        if self.texts:
            # A program that breaks off may have printed everything expected before.
            return _difference(printed, self.texts) if result in CAN_BE_WANTED else ""
        if result in self.results:
            return None
        line = printed.decode("utf-8", "replace").rstrip("\n") if result == "refused" else ""
        return None if line in self.lines else ""


def wanted_of(script: str, results: frozenset[str]) -> Wanted:
    base = script.removesuffix(ENDING)
    if os.path.exists(f"{base}.wanted"):
        return _read(f"{base}.wanted")
    numbered = [it for it in glob.glob(f"{glob.escape(base)}.expected.*") if it.rpartition(".")[2].isdecimal()]
    texts = [it for it in (f"{base}.expected", *sorted(numbered)) if os.path.isfile(it)]
    return Wanted(frozenset(), texts=tuple(texts)) if texts else Wanted(results)


def _read(file: str) -> Wanted:
    results, refusals, answers = set(), set(), set()
    for number, line in enumerate(read_bytes(file).decode("utf-8", "replace").split("\n"), 1):
        word = line.strip()
        if word in CAN_BE_WANTED:
            results.add(word)
        elif word.startswith("refused "):
            refusals.add(word)
        elif verdicts := _verdicts_of(word):
            results.update(verdicts)
            answers.add(word)
        elif word:
            raise Stop(REFUSED, f"{file}, line {number}: {word!r} isn't one of {', '.join(CAN_BE_WANTED)}")
    if not results and not refusals:
        raise Stop(REFUSED, f"{file} names no result")
    return Wanted(frozenset(results), frozenset(refusals), answers=frozenset(answers))


def _verdicts_of(line: str) -> Sequence[str]:
    """The verdicts in the first line of an answer of `tpr verdicts`; none if the line has another form."""
    verdicts = line.removeprefix("always ").split(" or ")
    is_answer = line.startswith("always ") == (len(verdicts) == 1) and all(it in VERDICTS for it in verdicts)
    return verdicts if is_answer else ()


def _difference(printed: bytes, files: tuple[str, ...]) -> Optional[str]:
    """None if one of the files equals the output; otherwise where the output first differs from the nearest one."""
    best, told = -1, ""
    ours = printed.split(b"\n")
    for file in files:
        text = read_bytes(file)
        if text == printed:
            return None
        theirs = text.split(b"\n")
        same = next((n for n, (a, b) in enumerate(zip(ours, theirs)) if a != b), min(len(ours), len(theirs)))
        if same > best:
            best = same
            told = f"differs from {os.path.basename(file)}: report line {same + 1} is {_line(ours, same)}"
            told += f", expected {_line(theirs, same)}"
    more = f"; {counted(len(files) - 1, 'other expected report')} differ too" if len(files) > 1 else ""
    return told + more


def _line(lines: list[bytes], place: int) -> str:
    is_there = place < len(lines) - 1 or (place < len(lines) and lines[place])
    return repr(lines[place].decode("utf-8", "replace")[:80]) if is_there else "missing"
