#!/usr/bin/env python3
"""Checks the types of tools/ and tests/ with `mypy --strict` (pyproject.toml).

    tests/gate/python_types.py [FOLDER..]

For each folder that has modules, or each of those named, it prints a line `passed FOLDER`, or lines `FAILED: ..`. The
modules of tests/ have short names, and two folders may have modules of the same name. So each folder is checked by
itself, with the folders whose modules it uses.
"""
from __future__ import annotations

import argparse
import os
import subprocess
import sys
from pathlib import Path

ROOT = Path(__file__).resolve().parents[2]

# The folders of tests/ whose modules a folder uses. All use tools/.
USES = {
    "tests/exploring": ("orders", "program", "tools"),
    "tests/forced": ("program",),
    "tests/gate": ("checking", "program"),
    "tests/lsp": ("tools", "program"),
    "tests/program": ("traces",),
    "tests/rewrites/chance": ("orders",),
    "tests/runs": ("program", "orders", "traces"),
    "tests/runs/many_components": ("orders",),
    "tests/tools": ("orders", "program"),
    "tests/traces": ("orders", "program"),
    "tests/verdicts": ("orders",),
}
PACKAGES = ("tools/tpr_tools",)


def is_python(file: Path) -> bool:
    if file.suffix:
        return file.suffix == ".py"
    return file.is_file() and file.read_bytes().startswith(b"#!/usr/bin/env python3\n")


def files_of(folder: str) -> list[str]:
    """The modules and commands of a folder, and its packages."""
    files = [str(it.relative_to(ROOT)) for it in sorted((ROOT / folder).iterdir()) if is_python(it)]
    return [*files, *(it for it in PACKAGES if it.startswith(f"{folder}/"))]


def folders() -> list[str]:
    """The folders that have modules or commands."""
    found = {str(it.parent.relative_to(ROOT)) for it in (ROOT / "tests").rglob("*") if is_python(it)}
    return ["tools", "embedding", *sorted(found)]


def wrong_in(folder: str) -> str:
    """The messages of mypy on a folder; empty if all types fit."""
    used = [str(ROOT / "tests" / it) for it in USES.get(folder, ())]
    environment = {**os.environ, "MYPYPATH": os.pathsep.join(used)}
    command = ["mypy", "--no-error-summary", *files_of(folder)]
    ended = subprocess.run(command, cwd=ROOT, env=environment, capture_output=True, text=True, check=False)
    said = ended.stdout + ended.stderr
    return said or (f"mypy ended with status {ended.returncode}" if ended.returncode else "")


def main() -> int:
    words = argparse.ArgumentParser(description="Whether the types of tools/ and tests/ fit.")
    words.add_argument("folders", nargs="*", metavar="FOLDER", help="all without one")
    status = 0
    for folder in words.parse_args().folders or folders():
        said = wrong_in(folder)
        print(f"FAILED: the types of {folder}\n{said}" if said else f"passed the types of {folder}", flush=True)
        status = status or bool(said)
    return int(status)


if __name__ == "__main__":
    sys.exit(main())
