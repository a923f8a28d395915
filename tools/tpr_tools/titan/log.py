"""Reads a log of Eclipse Titan: the component that it belongs to, and the text of each entry.

An entry begins with a time stamp, and continues over all lines without one. The parts between the stamp and the text,
the kind of event and the place in the source, are in every entry or in none. The first entry, which always has the same
form, shows which.
"""
from __future__ import annotations

import re
from dataclasses import dataclass
from typing import NamedTuple, Optional

_STAMPS = (
    re.compile(r"[0-9]{4}/[A-Z][a-z]{2}/[0-9]{2} [0-9]{2}:[0-9]{2}:[0-9]{2}\.[0-9]{6} "),
    re.compile(r"[0-9]{2}:[0-9]{2}:[0-9]{2}\.[0-9]{6} "),
    re.compile(r"[0-9]+\.[0-9]{6} "),
)
_FIRST = re.compile(
    r"(?P<kind>EXECUTOR(?:_[A-Z]+)? )?(?P<source>- )?TTCN-3 "
    r"(?:Main Test Component|(?P<parallel>Parallel Test Component)|(?P<host>Host Controller)) started on .*",
    re.DOTALL,
)
_REFERENCE = re.compile(r"\. Component reference: (.+?), component type: ")
_KIND = re.compile(r"([A-Z]+)(?:_[A-Z0-9]+)* ")
# A place, or several of them joined by `->`; `-` if there is none.
_SOURCE = re.compile(r"(?:-|[^ ]+:[0-9]+(?:\([a-z]+:[^ ()]+\))?) ")
_ENDS = re.compile(r"TTCN-3 Parallel Test Component finished\.|Test case [^ ]+ finished\. Verdict: .*", re.DOTALL)
_MASK = re.compile(r"TTCN Logger .* options: .*FileMask:=([^;]*).*", re.DOTALL)
_CASE = re.compile(r"Test case ([^ ]+) started\.")
_CASE_AROUND = re.compile(r"Initializing variables, timers and ports of component type .+ inside testcase ([^ ]+)\.")


class NotALog(Exception):
    """This line shows that the file isn't the log of one component."""

    def __init__(self, line: int, reason: str):
        super().__init__(f"{line}: {reason}")


class Entry(NamedTuple):
    """The number of the entry's first line, its kind if kinds are logged, and its text, whose lines are joined by a
    single space."""

    line: int
    kind: Optional[str]
    text: str


class Trouble(NamedTuple):
    """A line that can't be read, and why."""

    line: int
    reason: str


@dataclass
class Log:
    """The log of one component, by the name that Titan's logs give it."""

    name: str
    entries: list[Entry]
    troubles: list[Trouble]
    last_line: int

    def check_mask(self) -> None:
        """Adds a trouble if Titan was told not to log all events of ports."""
        for entry in self.entries:
            found = _MASK.fullmatch(entry.text)
            if found and not {"LOG_ALL", "PORTEVENT"} & set(found[1].split(" | ")):
                self.troubles.append(Trouble(entry.line, f"not all events of ports are logged: FileMask := {found[1]}"))

    def cases(self) -> list[str]:
        """The test cases in the log, in order: those that mtc executed, or the one that created another component."""
        form = _CASE if self.name == "mtc" else _CASE_AROUND
        return [found[1] for entry in self.entries if (found := form.fullmatch(entry.text))]

    def of_case(self, case: str) -> Log:
        """The part of mtc's log for this test case, which was executed once."""
        starts = [place for place, entry in enumerate(self.entries) if _CASE.fullmatch(entry.text)]
        first = starts[self.cases().index(case)]
        behind = next((place for place in starts if place > first), len(self.entries))
        last_line = self.entries[behind].line - 1 if behind < len(self.entries) else self.last_line
        before, lines = self.entries[starts[0]].line, range(self.entries[first].line, last_line + 1)
        troubles = [trouble for trouble in self.troubles if trouble.line < before or trouble.line in lines]
        return Log(self.name, self.entries[first:behind], troubles, last_line)

    def check_end(self) -> None:
        """Adds a trouble if the log stops before its component or its test case does."""
        if not any(_ENDS.fullmatch(entry.text) for entry in self.entries):
            reason = f"the log of {self.name} ends here, before its component or its test case did"
            self.troubles.append(Trouble(self.last_line, reason))


def read_log(text: str) -> Optional[Log]:
    """The log; None for the log of a host controller, which isn't a component."""
    raw, cut = _raw_entries(text)
    first = _FIRST.fullmatch(raw[0].text)
    if first is None:
        raise NotALog(1, f"it isn't known whose log this is: it begins with {short(raw[0].text)}")
    if first["host"]:
        return None
    log = Log(_name(first), [], [], text.count("\n") + (not text.endswith("\n")))
    for entry in raw[1:]:
        if _FIRST.fullmatch(entry.text):
            raise NotALog(entry.line, "the log of another component begins here")
        _add(log, entry, first)
    log.check_mask()
    if cut is not None:
        log.troubles.append(cut)
    return log


def short(text: str) -> str:
    return repr(text if len(text) <= 90 else text[:87] + "...")


def _raw_entries(text: str) -> tuple[list[Entry], Optional[Trouble]]:
    """The entries with everything after the time stamp, and the place where the last one is cut off."""
    lines = text.split("\n")
    stamp = next((stamp for stamp in _STAMPS if stamp.match(lines[0])), None)
    if stamp is None:
        raise NotALog(1, f"a log begins with a time stamp, and this with {short(lines[0])}")
    entries: list[tuple[int, list[str]]] = []
    for number, line in enumerate(lines, 1):
        found = stamp.match(line)
        if found:
            entries.append((number, [line[found.end() :]]))
        elif line or number < len(lines):
            entries[-1][1].append(line.strip())
    whole = [Entry(number, None, " ".join(parts)) for number, parts in entries]
    if not lines[-1]:
        return whole, None
    if len(whole) == 1:
        raise NotALog(1, "its first entry is cut off")
    return whole[:-1], Trouble(whole[-1].line, f"this entry is cut off: {short(whole[-1].text)}")


def _name(first: re.Match[str]) -> str:
    if not first["parallel"]:
        return "mtc"
    found = _REFERENCE.search(first[0])
    if found is None:
        raise NotALog(1, f"the component has no reference here: {short(first[0])}")
    return found[1]


def _add(log: Log, raw: Entry, first: re.Match[str]) -> None:
    """Adds the entry without the parts before its text."""
    kind, text = None, raw.text
    if first["kind"]:
        found = _KIND.match(text)
        if found is None:
            log.troubles.append(Trouble(raw.line, f"the kind of this entry can't be read: {short(text)}"))
            return
        kind, text = found[1], text[found.end() :]
    if first["source"]:
        found = _SOURCE.match(text)
        if found is None:
            log.troubles.append(Trouble(raw.line, f"the place in the source can't be read: {short(text)}"))
            return
        text = text[found.end() :]
    log.entries.append(Entry(raw.line, kind, text))
