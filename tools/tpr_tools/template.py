"""Files beside the modules: texts in which `{name}` stands for a part, parts that are files themselves, and tables."""
from __future__ import annotations

import os
import re
from typing import Iterator, Mapping


class Template:
    """A folder with such files."""

    def __init__(self, folder: str):
        self.folder = folder

    def part(self, name: str) -> str:
        with open(os.path.join(self.folder, name), encoding="utf-8") as opened:
            return opened.read()

    def filled(self, name: str, parts: Mapping[str, str]) -> str:
        places = re.compile("{(%s)}" % "|".join(parts))
        return places.sub(lambda found: parts[found[1]], self.part(name))


def rows_of(module: str, name: str) -> Iterator[list[str]]:
    """The rows of a table beside the module. Columns are separated by at least two spaces. Lines that begin with `#`
    are comments."""
    with open(os.path.join(os.path.dirname(os.path.realpath(module)), name), encoding="utf-8") as opened:
        yield from (re.split(" {2,}", line.strip()) for line in opened if not line.startswith("#"))
