"""The cases of a suite as JUnit XML, for a build server.

An unexpected result is a failure if it is a verdict of the test case, and so is a verdict that depends on the schedule.
It is an error if the test case has no verdict: the result error, a refused script, a fault. A script that wasn't done
when the suite ended is skipped.
"""
from __future__ import annotations

import os
import xml.etree.ElementTree as xml
from datetime import datetime

from ..command import NOT_WRITTEN, Stop, write_file
from ..words import counted, readable
from .cases import Case

_FAILURES = ("none", "pass", "inconc", "fail")
SKIPPED = "the suite ended before this script was done"


def look_whether_written(file: str) -> None:
    """Refuses a file that can't be written, before anything is run. Leaves no file that wasn't there."""
    is_new = not os.path.exists(file)
    try:
        with open(file, "ab"):
            pass
        if is_new:
            os.remove(os.path.realpath(file))
    except OSError as error:
        raise Stop(NOT_WRITTEN, f"{file} can't be written: {error.strerror}") from None


def write_junit(cases: list[Case], began: datetime, file: str) -> None:
    root = xml.Element("testsuites", _counts(cases, "tpr"))
    taken: set[str] = set()
    for folder in dict.fromkeys(os.path.dirname(case.script) for case in cases):
        inside = [case for case in cases if os.path.dirname(case.script) == folder]
        root.append(_suite(folder, inside, began, alone(_class_name(folder), taken)))
    xml.indent(root)
    text = xml.tostring(root, encoding="unicode")
    write_file(file, f'<?xml version="1.0" encoding="UTF-8"?>\n{text}\n')


def alone(name: str, taken: set[str]) -> str:
    """The name, with a number if the name is taken."""
    alone, number = name, 1
    while alone in taken:
        number += 1
        alone = f"{name}_{number}"
    taken.add(alone)
    return alone


def _suite(folder: str, cases: list[Case], began: datetime, class_name: str) -> xml.Element:
    suite = xml.Element("testsuite", _counts(cases, readable(folder or ".")))
    suite.set("skipped", str(sum(not case.is_done for case in cases)))
    suite.set("timestamp", began.strftime("%Y-%m-%dT%H:%M:%S"))
    suite.set("hostname", "localhost")
    taken: set[str] = set()
    for case in cases:
        suite.append(_case(case, class_name, alone(readable(case.name()), taken)))
    return suite


def _counts(cases: list[Case], name: str) -> dict[str, str]:
    kinds = [_kind(case) for case in cases]
    return {
        "name": name,
        "tests": str(len(cases)),
        "failures": str(kinds.count("failure")),
        "errors": str(kinds.count("error")),
        "time": f"{sum(case.seconds() for case in cases):.3f}",
    }


def _kind(case: Case) -> str:
    """failure, error, or nothing, for example for a skipped case."""
    if not case.is_done or case.is_wanted():
        return ""
    schedule = case.schedule()
    is_broken = case.has_wanted_results() and schedule is not None and schedule.is_broken
    return "failure" if case.worst().result in _FAILURES and not is_broken else "error"


def _case(case: Case, class_name: str, name: str) -> xml.Element:
    made = xml.Element("testcase", name=name, classname=class_name)
    made.set("time", f"{case.seconds():.3f}")
    if not case.is_done:
        xml.SubElement(made, "skipped", message=SKIPPED)
        return made
    if (schedule := case.schedule()) is not None:
        _add_properties(made, {"verdicts": schedule.answer, "explored": schedule.explored})
    kind, worst = _kind(case), case.worst()
    if kind:
        reason = readable(case.reason() or "this result isn't expected")
        of_schedule = case.has_wanted_results()
        message, of = (reason, "schedule") if of_schedule else (f"{worst.result}: {reason}", worst.result)
        told = xml.SubElement(made, kind, message=message, type=of)
        run = f", run {worst.number} of {counted(len(case.runs), 'run')}" if len(case.runs) > 1 else ""
        told.text = f"{readable(case.script)}{run}\nresult {worst.result}\n{reason}\n{_explained(case)}"
    xml.SubElement(made, "system-out").text = readable(worst.printed)
    if worst.said:
        xml.SubElement(made, "system-err").text = readable(worst.said)
    return made


def _add_properties(made: xml.Element, values: dict[str, str]) -> None:
    properties = xml.SubElement(made, "properties")
    for name, value in values.items():
        if value:
            xml.SubElement(properties, "property", name=name, value=readable(value))


def _explained(case: Case) -> str:
    """The texts of the other tools, first about the result, then about the schedule."""
    schedule = case.schedule()
    told = [case.worst().explained, schedule.text() if schedule is not None and schedule.fault else ""]
    return "".join(f"\n{readable(piece)}" for piece in told if piece)


def _class_name(folder: str) -> str:
    """The folder as a build server groups by it: its parts joined by dots."""
    parts = [part for part in readable(folder).split(os.sep) if part not in ("", ".", "..")]
    return ".".join(part.replace(".", "_") for part in parts) or "scripts"
