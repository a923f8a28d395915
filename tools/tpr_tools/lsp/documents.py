"""A text that is open in the editor, and everything that is known of this version of it."""
from __future__ import annotations

import os
from dataclasses import dataclass, field
from typing import Optional, Union
from urllib.parse import unquote, urlsplit

from ..explore.answers import first_line, read_answer
from .diagnostics import Found
from .frames import Json
from .jobs import Job
from .outline import Outline
from .positions import Lines, without_halves

SHOW_RUNS = "tpr.showDivergingRuns"


@dataclass(frozen=True)
class Held:
    """A request that waits for a program: what it asks for, and until when it waits; None means without a limit."""

    number: Union[int, str]
    wants: str
    until: Optional[float]


@dataclass
class Document:
    uri: str
    version: Optional[int]
    lines: Lines
    is_saved: bool = True
    check_at: Optional[float] = None
    # None until it is known whether this version is accepted.
    is_accepted: Optional[bool] = None
    found: list[Found] = field(default_factory=list)
    verdict: str = ""
    hints: Optional[list[Json]] = None
    jobs: dict[str, Job] = field(default_factory=dict)
    held: list[Held] = field(default_factory=list)
    # Whether the editor has a lens for this version that doesn't show the verdict yet.
    has_early_lens: bool = False
    _outline: Optional[Outline] = None

    @property
    def file(self) -> str:
        """The name of the file, or the URI of a text that isn't in a file."""
        try:
            parts = urlsplit(self.uri)
        except ValueError:  # for `file://[`
            return self.uri
        return unquote(parts.path) if parts.scheme == "file" else self.uri

    @property
    def data(self) -> bytes:
        return self.lines.text.encode()

    @property
    def outline(self) -> Outline:
        if self._outline is None:
            self._outline = Outline(self.lines.text)
        return self._outline

    def change(self, version: Optional[int], text: str) -> None:
        """Stores a new version, about which nothing is known yet."""
        self.version = version
        self.lines = Lines(without_halves(text))
        self.is_saved = False
        self.is_accepted = self.hints = self._outline = None
        self.verdict = ""
        self.has_early_lens = False

    def cancel_jobs(self) -> None:
        for job in self.jobs.values():
            job.cancel()
        self.jobs.clear()

    def has_ready(self, wants: str) -> bool:
        if wants == "runs" or self.is_accepted is None:
            return False
        if wants == "lenses":
            return not self.is_accepted or bool(self.verdict)
        return self.hints is not None or "ways" not in self.jobs

    def result(self, wants: str) -> list[Json]:
        return self.lenses() if wants == "lenses" else self.hints or []

    def is_in_file(self) -> bool:
        """Whether the file has the same bytes."""
        try:
            with open(self.file, "rb") as opened:
                return os.path.isabs(self.file) and opened.read() == self.data
        except (OSError, ValueError):
            return False

    def lenses(self) -> list[Json]:
        """The verdict, above the test case of an accepted script."""
        case = self.outline.case
        if case is None or not self.is_accepted:
            return []
        name = self.outline.offsets[case.name]
        shows: Json = {"title": self.verdict or "computing the verdicts", "command": ""}
        if " or " in self.verdict or self.verdict.startswith("undecided"):
            shows.update(command=SHOW_RUNS, arguments=[self.uri])
        return [{"range": self.lines.region(name, self.outline.end(case.name)), "command": shows}]


def verdict_told(printed: str, why: str) -> str:
    """The title of the lens, from the output of `tpr verdicts`, or from the reason why it printed nothing."""
    answer = read_answer(printed)
    if answer is None or answer.fault() is not None:
        return f"no verdicts: {printed.partition(chr(10))[0] or why}"
    if not answer.decided:
        return f"undecided after {answer.states:,} states"
    return first_line(answer) + (": show where the runs diverge" if len(answer.verdicts) > 1 else "")
