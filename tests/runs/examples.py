"""The examples that are run, and the reports that each may have."""
from __future__ import annotations

from functools import cache

import example_files
from refusing import Ran


def names() -> list[str]:
    """The names of the examples that aren't refused."""
    return [it.stem for it in example_files.texts("ttcn") if not example_files.is_refused(it)]


def script(name: str) -> str:
    return str(example_files.example(f"{name}.ttcn"))


@cache
def reports(name: str) -> frozenset[bytes]:
    return frozenset(it.read_bytes() for it in example_files.answers(example_files.example(f"{name}.ttcn")))


def is_report(ran: Ran, allowed: frozenset[bytes], mode: str = "run") -> bool:
    """Whether the run ended with a report that it may have. In mode `trace` the report has arrivals too."""
    report = ran.printed
    if mode == "trace":
        report = b"".join(it for it in report.splitlines(keepends=True) if not it.startswith(b"came "))
    return ran.is_so(0, ran.printed) and report in allowed
