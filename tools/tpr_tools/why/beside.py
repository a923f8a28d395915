"""Reads a script, matches a report with it, and ends the tool if one of them isn't valid."""
from __future__ import annotations

from typing import Optional

from ..command import REFUSED, Stop, read_bytes, refusal_of
from ..explain.explaining import Fault, line_of
from ..origins import lines_told, origins_of
from ..report.report import NotAReport, Report
from ..script.case import Case
from ..script.checks import check_script
from ..script.cursor import GrammarFault
from ..script.faults import RuleFault
from ..script.tokens import MOST_BYTES, Text
from ..words import shown
from .walk import DoesNotFit
from .ways import Ways

NOT_OF_IT = 1  # the report doesn't belong to the script


def case_of(script: str) -> Case:
    data = read_bytes(script)
    if len(data) > MOST_BYTES:
        raise Stop(REFUSED, f"{script}: the script is refused: it has more than {MOST_BYTES:,} bytes")
    text = Text(data)
    fault: Optional[Fault] = text.fault()
    try:
        if fault is None:
            return Case(text, check_script(text), origins_of(script))
    except (GrammarFault, RuleFault) as found:
        fault = found
    if data.startswith(b"component "):
        raise Stop(REFUSED, f"{script}: this is a report or a trace; a script is needed, and its report after it")
    told = f"{script}, line {line_of(text, fault)}: the script is refused; tools/explain says what is wrong"
    raise Stop(REFUSED, told)


def ways_of(case: Case, report: Report, file: str) -> Ways:
    """Matches the report with its script; `file` is its name."""
    try:
        return Ways(case, report)
    except NotAReport as fault:
        raise refusal_of(file, fault) from None
    except DoesNotFit as fault:
        raise Stop(NOT_OF_IT, f"{file}, line {fault.line}: {_told(fault)}") from None


def _told(fault: DoesNotFit) -> str:
    """What can't come from the script, and the lines that could have been next."""
    told = f"{fault.component}: `{shown(fault.text)}` doesn't fit the script: {fault.reason}"
    return f"{told} ({lines_told(fault.possible)})" if fault.possible else told
