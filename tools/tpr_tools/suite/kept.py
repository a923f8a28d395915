"""The files that a suite keeps: for each script a folder, with the files of the first run that printed each different
text, by the run's number and result."""
from __future__ import annotations

import os
import re
from typing import Optional

from ..chart.sequence import Marks, sequence_of
from ..chart.svg import svg_of
from ..command import NOT_WRITTEN, Stop, write_file
from ..report.order import NoOrderFound
from .judging import Judged
from .runs import Printed

CONNECTIONS, DIVERGING = "connections.svg", "diverging.svg"  # only for a page
_OWN = re.compile(rf"run[0-9]+\.[a-z]+\.(report|svg|printed|said)|{CONNECTIONS}|{DIVERGING}")


def folders_of(scripts: list[str], folder: str) -> list[str]:
    """The folder of each script, named after it, below the common folder."""
    paths = [os.path.abspath(script) for script in scripts]
    above = os.path.commonpath([os.path.dirname(path) for path in paths])
    return [os.path.join(folder, os.path.relpath(path, above)) for path in paths]


def prepare(folders: list[str]) -> None:
    """Makes the folders, and removes the files that an earlier suite has kept in them."""
    for folder in folders:
        try:
            os.makedirs(folder, exist_ok=True)
            for name in os.listdir(folder):
                if _OWN.fullmatch(name):
                    os.remove(os.path.join(folder, name))
            write_file(os.path.join(folder, "run0.is.said"), b"")
            os.remove(os.path.join(folder, "run0.is.said"))
        except OSError as error:
            raise Stop(NOT_WRITTEN, f"{folder} can't be made or written to: {error.strerror}") from None


def keep(run: Printed, judged: Judged, folder: str, number: int, title: str, marks: Optional[Marks]) -> tuple[str, ...]:
    """Writes the run's report and its chart, or what was printed instead, and its standard error."""
    base = os.path.join(folder, f"run{number}.{judged.result}")
    files = {f"{base}.printed" if judged.report is None else f"{base}.report": run.printed}
    if judged.report is not None:
        try:
            files[f"{base}.svg"] = svg_of(sequence_of(judged.report, title, marks)).encode()
        except NoOrderFound:
            pass
    if run.said:
        files[f"{base}.said"] = run.said
    for file, data in files.items():
        write_file(file, data)
    return tuple(files)


def drop(files: tuple[str, ...]) -> None:
    """Removes the files of a run that printed the same as an earlier one."""
    for file in files:
        try:
            os.remove(file)
        except OSError:
            pass
