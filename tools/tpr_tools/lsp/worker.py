"""The slow work of the server, in a process that the server can kill. It reads a text, and prints a list in JSON."""
from __future__ import annotations

import json
import os
import re
import subprocess
from collections import Counter
from dataclasses import asdict
from pathlib import Path
from typing import Callable

from .. import command
from ..explain.everything import further, is_same, with_further
from ..explain.explanation import Explanation
from ..report.deliveries import Place
from ..report.reader import read_report
from ..report.report import NotAReport, Sent
from ..rewrite.staying import refused_of
from ..rewrite.tokens import Source
from ..script.case import Case
from ..script.checks import check_script
from ..script.tokens import Text
from ..why.annotated import Done
from ..why.walk import DoesNotFit
from ..why.ways import Ways
from .diagnostics import explained, found_in
from .frames import Json
from .positions import Lines

_MOST_LISTED = 200  # constructs of one text: more are of no use in an editor
_MOST_WAYS = 4  # that are named at one line
_MOST_FILES = 1000  # of a folder
_IMPORT, _MODULE = re.compile(rb"\bimport\s+from\s+(\w+)"), re.compile(rb"\bmodule\s+(\w+)")


def constructs(file: str, said: str, data: bytes) -> list[Json]:
    """The faults of a text and each construct that isn't in the profile, with what to write instead, and whether
    tools/rewrite carries it over."""
    listed = list(further(file, data))[:_MOST_LISTED]
    told = refused_of([Source(*it) for it in _with_imported(file, data).items()])
    refused = {(it.line, it.column): it.reason for it in told if it.file == file}
    reasons = {line: reason for (line, _), reason in refused.items()}
    elsewhere = next((it.text() for it in told if not refused), None)
    on_line = Counter(one.line for one in listed if one.construct)

    def carried(one: Explanation) -> str:
        # A reason for another place of the line belongs to this construct if nothing else is listed there.
        nearby = reasons.get(one.line or 0) if on_line[one.line] == 1 else None
        reason = refused.get((one.line or 0, one.column or 0), nearby) or elsewhere
        if reason is not None:
            return f"\ntools/rewrite can't carry it over: {reason}"
        return "" if told else "\ntools/rewrite carries it over"

    explanations = with_further(explained(file, data, said), listed)
    found = found_in(Lines(data.decode()), explanations)
    of_one = {id(it): it for it in listed}
    for shown, explanation in zip(found, explanations):
        same = of_one.get(id(explanation)) or next((it for it in listed if is_same(it, explanation)), None)
        shown.message += carried(same) if same is not None and same.construct else ""
    return [asdict(it) for it in found]


def _with_imported(file: str, data: bytes) -> dict[str, bytes]:
    """The text, and the texts of the files beside it whose modules are imported, directly or indirectly."""
    texts, names = {file: data}, _IMPORT.findall(data)
    paths = sorted(Path(file).parent.glob("*.ttcn*")) if names and os.path.isabs(file) else []
    readable = [it for it in paths[:_MOST_FILES] if it.is_file() and os.access(it, os.R_OK) and str(it) != file]
    beside = [(str(it), it.read_bytes()) for it in readable]
    modules = {name: it for it in beside for name in _MODULE.findall(it[1])}
    for name in names:
        other, text = modules.get(name, (file, data))
        if other not in texts:
            texts[other] = text
            names += _IMPORT.findall(text)
    return texts


def ways(program: str, seconds: float, data: bytes) -> list[Json]:
    """Where the messages of one run went, and the lines that it didn't reach; empty if the run takes too long."""
    try:
        run = subprocess.run([program, "run"], input=data, stdout=subprocess.PIPE, timeout=seconds, check=False)
    except (OSError, subprocess.TimeoutExpired):
        return []
    text = Text(data)
    try:
        found = Ways(Case(text, check_script(text)), read_report(run.stdout))
    except (NotAReport, DoesNotFit):
        return []
    labels = _ways_by_lines(found)
    for line, done in Done(found.case, found.walks).lines.items():
        if done.never():
            is_all = done.never() == len(done.statements)
            labels.setdefault(line.number, {})["never reached" if is_all else "partly reached"] = None
    return [[line, _label(list(labels[line]))] for line in sorted(labels)]


def _ways_by_lines(found: Ways) -> dict[int, dict[str, None]]:
    """For each line that sends, where its messages went."""
    labels: dict[int, dict[str, None]] = {}
    for number, component in enumerate(found.report.components):
        for place, entry in enumerate(component.entries):
            at = Place(number, place)
            message = found.deliveries.message(at) if isinstance(entry, Sent) else None
            if message is not None:
                gone = " or ".join(str(line) for line in found.lines_gone(message)) or "left"
                labels.setdefault(found.line(at).number, {})[f"→ {gone}"] = None
    return labels


def _label(texts: list[str]) -> str:
    more = f", and {len(texts) - _MOST_WAYS} more" if len(texts) > _MOST_WAYS else ""
    return ", ".join(texts[:_MOST_WAYS]) + more


def work(task: list[str]) -> int:
    """`constructs FILE ANSWER`, or `ways PROGRAM SECONDS`."""
    data = command.read_bytes(None)
    tasks: dict[str, Callable[[], list[Json]]] = {
        "constructs": lambda: constructs(task[1], task[2], data),
        "ways": lambda: ways(task[1], float(task[2]), data),
    }
    command.write_out(json.dumps(command.on_large_stack(tasks[task[0]])))
    return command.DONE
