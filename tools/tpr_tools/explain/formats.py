"""The faults and warnings of scripts in the forms that build servers and editors read (`explain --format`)."""
from __future__ import annotations

import hashlib
import json
import os
from collections import Counter
from pathlib import Path
from typing import Any, Callable, Iterator, NamedTuple, Optional
from urllib.parse import quote

from ..command import version
from ..refusals import Refusal
from ..script.refusal_rules import RULES_OF
from ..words import counted, shown
from .explanation import Answer, Explanation, Shown

_SCHEMA = "https://docs.oasis-open.org/sarif/sarif/v2.1.0/errata01/os/schemas/sarif-schema-2.1.0.json"
_NO_ANSWER, _UNREADABLE, _WARNING = "no answer", "unreadable", "warning"
_MEANINGS = {
    _NO_ANSWER: "the program prints whether a script is accepted or refused",
    _UNREADABLE: "the text is TTCN-3",
    _WARNING: "this holds for every run of the accepted script",
}


class Told(NamedTuple):
    """A fault or a warning. Its first line says what is wrong, and its first place is the reported one."""

    file: str
    level: str
    code: str
    lines: list[str]
    places: list[Shown]
    line: Optional[int]


def _told(explanations: list[Explanation]) -> Iterator[Told]:
    for it in explanations:
        if it.answer is Answer.REFUSED:
            line = it.places[0].position.line if it.places else it.line or None
            comes = [f"comes from {it.origin}"] if it.origin else []
            lines = [it.sentence, *comes, *it.advice()]
            yield Told(it.file, "error", it.code() or _UNREADABLE, lines, it.places, line)
        elif it.answer is not Answer.ACCEPTED:
            yield Told(it.file, "error", _NO_ANSWER, [f"tpr check failed: {it.said}"], [], None)
        for warned in it.warnings:
            line = warned.places[0].position.line
            yield Told(it.file, "warning", _WARNING, [warned.sentence], warned.places, line)
        if it.more_warnings:
            yield Told(it.file, "warning", _WARNING, [counted(it.more_warnings, "more warning")], [], None)


def _path(file: str) -> str:
    """The file name relative to the current folder, if the file is below it."""
    from_here = os.path.relpath(file)
    return file if from_here.startswith("..") else from_here


def _readable(file: str) -> str:
    return os.fsencode(_path(file)).decode("utf-8", "replace")


def _text(explanations: list[Explanation]) -> str:
    return "\n".join(it.text() for it in explanations)


def _json(explanations: list[Explanation]) -> str:
    return _dumped([it.as_json() for it in explanations])


def _dumped(value: Any) -> str:
    return json.dumps(value, indent=2) + "\n"


def _gcc(explanations: list[Explanation]) -> str:
    """Columns count bytes, as editors expect them in the messages of compilers."""
    lines = []
    for it in _told(explanations):
        at = f"{it.line or 1}:{it.places[0].position.byte if it.places else 1}"
        lines.append((it.file, at, it.level, f"{it.lines[0]} [{it.code}]"))
        lines += [(it.file, at, "note", line) for line in it.lines[1:]]
        for place in it.places[1:]:
            there = f"{place.position.line}:{place.position.byte}"
            lines.append((it.file, there, "note", place.label or "here"))
    return "".join(f"{shown(file)}:{at}: {kind}: {shown(text)}\n" for file, at, kind, text in lines)


def _github(explanations: list[Explanation]) -> str:
    """Workflow commands, which GitHub shows beside the lines of a change."""
    lines = []
    for it in _told(explanations):
        where = {"file": _readable(it.file), "title": f"tpr {it.code}"}
        if it.line is not None:
            where["line"] = str(it.line)
        if it.places:
            begin = it.places[0].position
            where.update(col=str(begin.column), endColumn=str(begin.column + begin.length))
        told = ",".join(f"{name}={_escaped(text, ':,')}" for name, text in where.items())
        lines.append(f"::{it.level} {told}::{_escaped(chr(10).join(it.lines))}\n")
    return "".join(lines)


def _escaped(text: str, more: str = "") -> str:
    for letter in "%\r\n" + more:
        text = text.replace(letter, f"%{ord(letter):02X}")
    return text


def _codeclimate(explanations: list[Explanation]) -> str:
    """The code quality report that GitLab reads. The fingerprint of a row stays the same if lines are shifted."""
    rows: list[Any] = []
    times: Counter[tuple[str, str, str]] = Counter()
    for it in _told(explanations):
        path = _readable(it.file)
        same = (path, it.code, it.lines[0])
        times[same] += 1
        row = {"type": "issue", "categories": ["Bug Risk"], "check_name": f"tpr {it.code}"}
        row["severity"] = "major" if it.level == "error" else "minor"
        row["description"] = "; ".join(it.lines)
        row["fingerprint"] = hashlib.sha256(repr((same, times[same])).encode()).hexdigest()
        rows.append({**row, "location": {"path": path, "lines": {"begin": it.line or 1}}})
    return _dumped(rows)


def _sarif(explanations: list[Explanation]) -> str:
    told = list(_told(explanations))
    rules = [_rule(code) for code in dict.fromkeys(it.code for it in told)]
    driver = {"name": "tpr", "version": version() or "unknown", "rules": rules}
    results = [
        {
            "ruleId": it.code,
            "level": it.level,
            "message": {"text": "\n".join(it.lines)},
            "locations": [_location(it.file, it.places[0] if it.places else None, it.line)],
            "relatedLocations": [
                {**_location(it.file, place, None), "message": {"text": place.label or "here"}}
                for place in it.places[1:]
            ],
        }
        for it in told
    ]
    run = {"tool": {"driver": driver}, "columnKind": "unicodeCodePoints", "results": results}
    return _dumped({"$schema": _SCHEMA, "version": "2.1.0", "runs": [run]})


def _rule(code: str) -> dict[str, Any]:
    """The meaning of a code; for a refusal the rules, in the words of the documents."""
    number = code.partition(" ")[0]
    rules = RULES_OF[Refusal(int(number))] if number.isdecimal() else ()
    text = "; ".join(it.told() for it in rules) or _MEANINGS.get(code, "this construct isn't in the profile")
    return {"id": code, "shortDescription": {"text": code}, "fullDescription": {"text": text}, "help": {"text": text}}


def _location(file: str, place: Optional[Shown], line: Optional[int]) -> dict[str, Any]:
    path = _path(file)
    uri = Path(path).as_uri() if os.path.isabs(path) else quote(os.fsencode(path))
    physical: dict[str, Any] = {"artifactLocation": {"uri": uri}}
    if place is not None:
        begin = place.position
        region = {"startLine": begin.line, "startColumn": begin.column, "endColumn": begin.column + begin.length}
        physical["region"] = region
    elif line is not None:
        physical["region"] = {"startLine": line}
    return {"physicalLocation": physical}


# Each gets the explanations of scripts that have a fault or a warning.
FORMATS: dict[str, Callable[[list[Explanation]], str]] = {
    "text": _text,
    "json": _json,
    "gcc": _gcc,
    "github": _github,
    "sarif": _sarif,
    "codeclimate": _codeclimate,
}
