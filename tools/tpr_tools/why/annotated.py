"""What the components did at each line of a script, and which statements none of them reached.

For a script that tools/rewrite wrote, these are the lines and statements of the original. A statement of the original
may have several copies, and it is reached if one of them is.
"""
from __future__ import annotations

from collections import Counter
from dataclasses import dataclass, field
from typing import Iterable, Iterator

from ..command import REFUSED, Stop, read_bytes
from ..origins import Line, Origins, lines_told
from ..report.report import Entry, Failed, Operation, Otherwise, Received, Sent, VerdictSet
from ..script.case import Case
from ..script.tokens import shown_lines
from ..script.tree import Alt, Statement, blocks_of
from ..words import counted, shown
from .walk import StopKind, Walk

_MOST_TOLD = 4  # components beside one line
_WIDEST = 80  # the text for a longer line comes directly after the line


@dataclass
class LineDone:
    """A line with statements: the places of these and their branches, how often the components reached each, and what
    they did."""

    statements: set[int] = field(default_factory=set)
    times: Counter[int] = field(default_factory=Counter)
    did: dict[str, Counter[str]] = field(default_factory=dict)

    def never_reached(self) -> frozenset[int]:
        return frozenset(self.statements - self.times.keys())

    def never(self) -> int:
        return len(self.never_reached())

    def mark(self) -> str:
        """How often the line was reached; or that no component reached it, or only a part of it."""
        if self.never() == len(self.statements):
            return "never"
        return "partly" if self.never() else str(max(self.times.values()))

    def told(self) -> str:
        components = [self._told_of(name, words) for name, words in self.did.items()]
        more = len(components) - _MOST_TOLD
        return "; ".join(components[:_MOST_TOLD]) + (f"; and {more} more" if more > 0 else "")

    def _told_of(self, name: str, words: Counter[str]) -> str:
        told = [word if count == 1 else f"{word} {count} times" for word, count in words.items()]
        return f"{name} {', '.join(told)}"


class Done:
    """All lines with statements, including those of functions that aren't started."""

    def __init__(self, case: Case, walks: list[Walk]):
        self.case = case
        self.lines: dict[Line, LineDone] = {}
        # Tokens inside another copy of the same statement: reaching them was counted there.
        self.inner: set[int] = set()
        for body in case.bodies():
            for token, around in tokens_in(body.statements):
                line, statement = case.source(token)
                self.lines.setdefault(line, LineDone()).statements.add(statement)
                if (line, statement) in map(case.source, around):
                    self.inner.add(token)
        for walk in walks:
            self._add(walk)

    def _add(self, walk: Walk) -> None:
        for token, times in walk.visits.items():
            line, statement = self.case.source(token)
            self.lines[line].times[statement] += 0 if token in self.inner else times
        for entry, origin in zip(walk.component.entries, walk.origins):
            line, statement = self.case.source(origin.start)
            self.lines[line].times[statement] += 0  # a branch that discards, and isn't chosen
            self._note(walk, line, _word(entry))
        if walk.stop is not None and walk.stop.kind is StopKind.WAITS:
            self._note(walk, self.case.line(walk.stop.start), "waits forever")

    def _note(self, walk: Walk, line: Line, word: str) -> None:
        self.lines[line].did.setdefault(walk.player.name, Counter())[word] += 1

    def statements(self) -> int:
        return sum(len(line.statements) for line in self.lines.values())

    def never(self) -> int:
        return sum(line.never() for line in self.lines.values())

    def annotated(self) -> str:
        """The script, or all files that it comes from, with the marks to the left and what was done to the right."""
        files = zip(self.texts().items(), self.case.origins.files or [""])
        texts = [self._annotated(file, lines, heading) for (file, lines), heading in files]
        return "\n".join(texts) + f"{self.summary()}\n"

    def texts(self) -> dict[str, list[str]]:
        """The lines of the script, or of each file that it comes from, by the file name in its lines."""
        origins = self.case.origins
        if not origins.files:
            return {"": self.case.text.shown_lines()}
        has_several = len(origins.files) > 1
        return {file if has_several else "": lines_in(file, origins) for file in origins.files}

    def _annotated(self, file: str, lines: list[str], heading: str) -> str:
        texts = [text.expandtabs() for text in lines]
        width = min(max(map(len, texts), default=0), _WIDEST)
        rows = [f"{'times':>6} {'line':>5}  {shown(heading)}"]
        for number, text in enumerate(texts, 1):
            line = self.lines.get(Line(file, number))
            mark = line.mark() if line else ""
            told = f"  | {line.told()}" if line and line.did else ""
            rows.append(f"{mark:>6} {number:5}  {text:<{width if told else 0}}{told}")
        return "".join(row.rstrip() + "\n" for row in rows)

    def summary(self) -> str:
        never = self.never()
        of = counted(self.statements(), "statement")
        if not self.lines:
            return "no statements"
        if not never:
            return f"{of}, all of them reached"
        return f"{of}, {never} never reached: {lines_told(line for line, done in self.lines.items() if done.never())}"


def tokens_in(statements: Iterable[Statement], around: tuple[int, ...] = ()) -> Iterator[tuple[int, tuple[int, ...]]]:
    """The tokens of all statements, and of the branches in them, each with the tokens around it."""
    for statement in statements:
        yield statement.start, around
        inner = (*around, statement.start)
        if isinstance(statement, Alt):
            branches = [(branch.receive.start, branch.block) for branch in statement.branches]
            branches += [(statement.otherwise.start, statement.otherwise.block)] if statement.otherwise else []
            for start, block in branches:
                yield start, inner
                yield from tokens_in(block, (*inner, start))
        else:
            for block in blocks_of(statement):
                yield from tokens_in(block, inner)


def lines_in(file: str, origins: Origins) -> list[str]:
    """The lines of a file that the script comes from. If the file has nothing at the place of a statement, it was
    changed, and the tool ends."""
    lines = shown_lines(read_bytes(file))
    for row in (row for row in origins.rows if row.file == file):
        text = lines[row.line - 1] if row.line <= len(lines) else ""
        if not text[row.column - 1 : row.column].strip():
            place = f"{shown(file)}:{row.line}:{row.column}"
            raise Stop(REFUSED, f"{place}: the map names a statement there, but the line has none; run tools/rewrite again")
    return lines


def _word(entry: Entry) -> str:
    """What the entry says that a component did."""
    if isinstance(entry, Sent):
        return "sent"
    if isinstance(entry, (Received, Operation)):
        return entry.word
    if isinstance(entry, Otherwise):
        return "chose else"
    if isinstance(entry, VerdictSet):
        return f"set {entry.verdict}"
    assert isinstance(entry, Failed)
    return f"failed {entry.fault:d}"
