"""Finds the files of the examples: those of examples/, which are worth showing to users, and those of tests/golden/."""
from __future__ import annotations

from itertools import chain
from pathlib import Path

ROOT = Path(__file__).resolve().parents[2]
FOLDERS = (ROOT / "examples", *sorted(it for it in (ROOT / "tests" / "golden").iterdir() if it.is_dir()))


def texts(ending: str) -> list[Path]:
    """All texts with this ending, sorted by their names."""
    return sorted(chain.from_iterable(it.glob(f"*.{ending}") for it in FOLDERS), key=lambda it: it.name)


def example(file: str) -> Path:
    """The example with this name."""
    found = [it / file for it in FOLDERS if (it / file).exists()]
    if len(found) != 1:
        raise ValueError(f"there are {len(found)} examples {file}")
    return found[0]


def answers(text: Path) -> list[Path]:
    """The files with its allowed outputs: NAME.expected, or NAME.expected.1, .2 and so on."""
    one, several = text.with_suffix(".expected"), text.parent.glob(f"{text.stem}.expected.[0-9]*")
    return [it for it in (one, *several) if it.exists()]


def is_refused(text: Path) -> bool:
    return any(it.read_bytes().startswith(b"refused ") for it in answers(text))
