"""Rewrites scripts of the full language to one of the profile, or lists everything that can't be carried over."""
from __future__ import annotations

import re
from dataclasses import dataclass, field, replace
from typing import Optional

from ..words import shown
from .ended import EndedFinder
from .flowing import Flows
from .following import Followed, NotClosed, follow, look_at_ends, with_ends
from .parameters import expressions_of
from .program import Program
from .refusing import Refusal
from .run import Options, Run, TooMany
from .tokens import Refused, Source, refused_at
from .tree import TestCase
from .writing import Lines, Writer


@dataclass
class Rewritten:
    """The script, or the refusals; and notes about parts that are carried over."""

    lines: Lines
    refused: list[Refused] = field(default_factory=list)
    notes: list[Refused] = field(default_factory=list)

    @property
    def text(self) -> str:
        return "".join(text + "\n" for text in self.lines.texts)

    @property
    def map(self) -> str:
        """A line for each statement: its line, and its original line, column and file."""
        origins = self.lines.origins
        return "".join(f"{one.line} {one.at.line}:{one.at.column} {shown(one.at.file)}\n" for one in origins)


def rewrite(
    sources: list[Source],
    case: Optional[str] = None,
    parameters: Optional[dict[str, str]] = None,
    options: Options = Options(),
) -> Rewritten:
    program = Program(sources)
    nowhere = sources[0].tokens[0]
    chosen = program.chosen_case(case)
    if isinstance(chosen, str):
        return Rewritten(Lines(), sorted_places(program.faults) or [refused_at(nowhere, chosen)])
    program.case_name = chosen.name
    values, wrong = expressions_of(parameters or {}, program)
    if wrong:
        return Rewritten(Lines(), sorted_places([*program.faults, *wrong]))
    files = [source.file for source in sources]
    run = Run(program, values, options, may_leave=True)
    lines = written(run, chosen, files)
    if (run.open or run.is_behind or run.has_left) and not program.faults:
        run, lines = with_what_comes(run, chosen, files)
    if lines is not None and not program.faults:
        return Rewritten(lines, notes=sorted_places([*run.notes, *_backslashes(sources)]))
    if not run.refused and not program.faults:
        run.tell(Refusal(run.lost or nowhere, "a value isn't known here"))
    told = list(run.refused.values())
    if program.faults:
        # Definitions that couldn't be read are unknown in the places that use them.
        told = [one for one in told if not _FOLLOWS.search(one.reason)]
    told = without_what_follows(told)
    encoding = [one for one in told if "--encode" in one.reason]
    if encoding and not program.faults:
        # The other refusals are those that remain with --encode.
        told = encoding + rewrite(sources, case, parameters, replace(options, encodes=True)).refused
    return Rewritten(Lines(), sorted_places([*told, *program.faults]))


def without_what_follows(told: list[Refused]) -> list[Refused]:
    """Leaves out consequences: a refused statement sets no variable, so later a variable may seem to have no value, or
    another alternative."""
    return [one for one in told if not _SEEMING.search(one.reason)] or told


def written(run: Run, chosen: TestCase, files: list[str]) -> Optional[Lines]:
    """The script; None if something is refused, which the run has noted."""
    followed: Optional[Followed] = None
    try:
        followed = with_ends(run, chosen)
        if not run.refused and run.lost is None:
            look_at_ends(run, followed)
            look_at_sends(run, followed, chosen)
        lines = Writer(run, followed, files).write()
        return None if run.refused or run.lost is not None else lines
    except Refusal as refusal:
        run.tell(refusal)
    except TooMany:
        pass
    except RecursionError:
        run.tell(Refusal(chosen.at, "this test case is nested too deep to be followed"))
    return None


def with_what_comes(before: Run, chosen: TestCase, files: list[str]) -> tuple[Run, Optional[Lines]]:
    """Does it again with the messages that can come to each port, if none comes from outside. A refusal for another
    reason than unknown messages stays, unless no message can reach its place."""
    try:
        run, lines = sorted_if_large(before, chosen, files)
    except NotClosed:
        return whole(before, chosen, files)
    if lines is not None:
        return run, lines
    if not before.refused:
        before, lines = whole(before, chosen, files)
    if lines is not None:
        return before, lines
    for place, told in before.refused.items():
        if place not in before.open:
            run.refused.setdefault(place, told)
    return run, None


def sorted_if_large(before: Run, chosen: TestCase, files: list[str]) -> tuple[Run, Optional[Lines]]:
    """The tree of all paths; if that becomes large or deep, a script in which equivalent paths are written once. If
    that is refused for another reason than its size, returns the tree as far as it may grow."""
    run = before.anew(flows=Flows(), may_sort=True)
    lines = written(run, chosen, files)
    if lines is not None or not (run.is_large or any(_LARGE.search(one.reason) for one in run.refused.values())):
        return run, lines
    found = before.anew(flows=Flows(), sorts=True)
    lines = written(found, chosen, files)
    if lines is None and run.is_large and not any(_LARGE.search(one.reason) for one in found.refused.values()):
        found = before.anew(flows=Flows())
        lines = written(found, chosen, files)
    return found, lines


def whole(before: Run, chosen: TestCase, files: list[str]) -> tuple[Run, Optional[Lines]]:
    """Follows everything although the messages that can come aren't known, if much of it was left out before."""
    if not before.has_left:
        return before, None
    run = before.anew()
    return run, written(run, chosen, files)


def look_at_sends(run: Run, followed: Followed, chosen: TestCase) -> None:
    """Refuses a send to a component that has ended; reports it as a note if the option asks for that."""
    finder = EndedFinder(followed)
    for late in finder.all():
        if run.options.queues_ended:
            run.notes.append(refused_at(late.at, f"{late.reason} (--ended=queued)"))
            run.queued.add(late.at)
        else:
            run.tell(Refusal(late.at, late.reason))
    if finder.unsure:
        # It is refused there, and both cases are followed.
        run.unsure |= finder.unsure
        follow(run, chosen)


def _backslashes(sources: list[Source]) -> list[Refused]:
    """The first text with a backslash, because tools disagree about its meaning."""
    reason = "a backslash in a text stands for itself, as in the standard; Eclipse Titan reads the start of an escape"
    return [refused_at(source.escaped, reason) for source in sources if source.escaped is not None][:1]


_LARGE = re.compile(r"nested too deep|brackets open|statements would be written|takes more than|repeated more than|goes on and on")
_SEEMING = re.compile(r"this has no value yet|isn't the chosen one")
_FOLLOWS = re.compile(r"isn't known|is no |no value|returns nothing|without a `return`|there is no |no branch")


def sorted_places(refused: list[Refused]) -> list[Refused]:
    once = {(one.file, one.line, one.column): one for one in reversed(refused)}
    return [once[place] for place in sorted(once)]
