"""The files of a release."""
from __future__ import annotations

import os
import re
from dataclasses import dataclass
from datetime import datetime, timezone

from ..command import REFUSED, Stop
from ..version import has_later_changes, is_number, newest_in

from .gate import git
from .port_library import EXAMPLES, HEADERS, LIBRARY, PKG_CONFIG, below_its_folder

# The parts of the repository that a release has; and the files among these that it leaves out, because only developers
# of tpr need them.
_PLACES = ("CHANGELOG.md", "LICENSE", "README.md", "VERSION", "docs", "examples", "tools")
_KEPT_BACK = ("examples/.gitattributes", "tools/costs.py", "tools/release", "tools/tpr_tools/release/")

MANUAL = "docs/tpr.1"
PROGRAMS = ("tpr", "tpr_ordered")  # tools/explore runs the second


@dataclass(frozen=True)
class Entry:
    """A file of an archive, or a link if it has a target."""

    path: str
    data: bytes = b""
    mode: int = 0o644
    target: str = ""


@dataclass(frozen=True)
class Release:
    version: str
    time: int  # the time of the commit, which each file gets
    maintainer: str
    programs: tuple[bytes, ...]  # in the order of PROGRAMS
    entries: tuple[Entry, ...]  # by their paths in the repository
    library: tuple[Entry, ...]  # the library for C and C++, by the paths below its folder

    def tools(self) -> list[str]:
        """The names of the commands in tools/."""
        found = (re.fullmatch("tools/([a-z]+)", it.path) for it in self.entries)
        return [it[1] for it in found if it]


def release_of(root: str, programs: tuple[bytes, ...], library: bytes, said: str) -> Release:
    """The programs and the library, the files of the repository that belong to them, and the gate's last lines."""
    time, maintainer = git(root, "log", "-1", "--format=%ct %an <%ae>").strip().split(" ", 1)
    tracked = git(root, "ls-files", "-z", *_PLACES).split("\0")
    paths = [path for path in tracked if path and not path.startswith(_KEPT_BACK)]
    if MANUAL not in paths:
        raise Stop(REFUSED, f"there is no {MANUAL}")
    version = version_of(root, int(time))
    entries = [Entry("GATE", said.encode()), *(Entry(*it, 0o755) for it in zip(PROGRAMS, programs))]
    entries += [_entry(root, path) for path in paths if path != "VERSION"]
    entries.append(Entry("VERSION", f"{version}\n".encode()))
    return Release(version, int(time), maintainer, programs, tuple(entries), _library(root, library, version))


def _library(root: str, library: bytes, version: str) -> tuple[Entry, ...]:
    texts = [Entry(place, bytes_of(f"{root}/{file}")) for place, file in {**HEADERS, **EXAMPLES}.items()]
    return (*texts, Entry(LIBRARY, library), Entry(PKG_CONFIG, below_its_folder(version).encode()))


def _entry(root: str, path: str) -> Entry:
    file = f"{root}/{path}"
    return Entry(path, bytes_of(file), 0o755 if os.access(file, os.X_OK) else 0o644)


def bytes_of(file: str) -> bytes:
    try:
        with open(file, "rb") as opened:
            return opened.read()
    except OSError as error:
        raise Stop(REFUSED, f"{file} can't be read: {error.strerror}") from None


def version_of(root: str, time: int) -> str:
    """The version in VERSION, which must be the newest in CHANGELOG.md. If CHANGELOG.md has later changes too, the day
    and the commit follow, as in 0.9.0+git20261128.71076b9a, which is later than 0.9.0 and earlier than 0.9.1."""
    version = bytes_of(f"{root}/VERSION").decode("utf-8", "replace").removesuffix("\n")
    if not is_number(version):
        raise Stop(REFUSED, f"{version!r} in VERSION isn't a version such as 1.0.0")
    changes = bytes_of(f"{root}/CHANGELOG.md").decode("utf-8", "replace")
    told = newest_in(changes)
    if told != version:
        raise Stop(REFUSED, f"VERSION says {version}, and the newest version in CHANGELOG.md is {told or 'none'}")
    if not has_later_changes(changes):
        return version
    day = datetime.fromtimestamp(time, timezone.utc).strftime("%Y%m%d")
    return f"{version}+git{day}.{git(root, 'rev-parse', 'HEAD').strip()[:8]}"
