"""The version of tpr, as --version prints it and a release is named."""
from __future__ import annotations

import re
from typing import Optional

_NUMBER = r"[0-9]+\.[0-9]+\.[0-9]+"
# A commit after the release of this number has this suffix.
_LATER = "+git"


def version_in(root: str) -> Optional[str]:
    """The text of VERSION, in the folder that contains the tools. In the repository it is the number of the last
    release; if CHANGELOG.md has later changes, `+git` follows. None if there is no VERSION."""
    version = _text_of(f"{root}/VERSION").removesuffix("\n")
    return f"{version}{_LATER if has_later_changes(_text_of(f'{root}/CHANGELOG.md')) else ''}" if version else None


def has_later_changes(changes: str) -> bool:
    """Whether CHANGELOG.md lists changes that aren't in a release yet."""
    heading, _, rest = changes.partition("\n## [Unreleased]")
    return bool(rest) and re.split(rf"(?m)^## \[{_NUMBER}\]", rest)[0].strip() != ""


def is_number(version: str) -> bool:
    return re.fullmatch(_NUMBER, version) is not None


def newest_in(changes: str) -> Optional[str]:
    """The number of the newest release in CHANGELOG.md."""
    found = re.search(rf"(?m)^## \[({_NUMBER})\]", changes)
    return found[1] if found else None


def _text_of(file: str) -> str:
    try:
        with open(file, encoding="utf-8", errors="replace") as opened:
            return opened.read()
    except OSError:
        return ""
