"""A tree of five crates with the repository's ./tpr, ./try and ./build, and a command `rt` instead of the toolchain,
which proves nothing, and prints its arguments."""
from __future__ import annotations

import argparse
import os
import pty
import re
import shutil
import subprocess
import sys
import tempfile
from collections.abc import Callable, Iterable, Iterator, Sequence
from contextlib import contextmanager
from pathlib import Path
from typing import Any, Optional

from calling import MOST_SECONDS, Cases, Ended, Tried, Word, call, take_signals
from refusing import ROOT, must

# The program that it makes prints its words and ends with 7. Files beside the crates of the tree TREE make it refuse a
# crate, fail once it has made the program, edit a source meanwhile, hang, or wait for another crate. For `rt try` it
# executes the file `tried`.
RT = r"""#!/bin/sh
# Waits until two crates are at work.
meet() {
    touch "$TREE/met in $crate"
    for _ in 1 2 3 4 5 6 7 8 9 10 11 12 13 14 15 16 17 18 19 20; do
        if [ -e "$TREE/met in low" ] && [ -e "$TREE/met in side" ]; then return; fi
        sleep 0.5
    done
    exit 2
}
crate=${PWD##*/}
if [ "$1" = try ]; then exec sh ../tried "$@"; fi
echo "rt was asked in $crate: $*"
if [ -e "$TREE/refused in $crate" ]; then exit 2; fi
if [ -e "$TREE/meet" ]; then meet; fi
if [ -e "$TREE/hangs in $crate" ]; then echo $$ >"$TREE/hanging" && sleep 60; fi
mkdir -p out/rlib && touch out/rlib/stamp
if [ -e "$TREE/edits" ]; then rm "$TREE/edits" && sleep 0.1 && touch "$TREE/low/src/lib.rt"; fi
if [ "$1" = run ]; then printf '#!/bin/sh\nprintf "%%s;" "$@"\nexit 7\n' >"out/$crate" && chmod +x "out/$crate"; fi
if [ -e "$TREE/fails in $crate" ]; then exit 2; fi
"""
# `tpr` and `tpr_ordered` depend on `low` and `side`, but not on `beside`.
CRATES = """low: thiserror
side: thiserror
beside: low
tpr may_wait=5: low side
tpr_ordered: low side
"""
SOURCES = ("src/lib.rt", "src/more.rt", "specs/Lib.antt", "proofs/Lib.antt")
COMMANDS = (
    "bash", "cat", "chmod", "env", "find", "grep", "mkdir", "mktemp", "mv", "readlink", "rm", "setsid", "sh", "sleep",
    "tail", "tee", "touch",
)
NAME = "a tree"
# The folders of commands, by what they contain.
ALL, WITHOUT_RT, WITHOUT_PYTHON = ("rt", "without_rt"), ("without_rt",), ("without_python",)


class Tree:
    """The tree, in a folder in which its commands are called, and the cases."""

    def __init__(self, folder: Path):
        self.folder, self.cases = folder, Cases()
        self.path, self.rooms = folder / NAME, folder / "rooms"
        self.crates, self.out = self.path / "crates", self.path / "out"
        self.rooms.mkdir()
        self.path.mkdir()
        for name in ("tpr", "try", "build"):
            shutil.copy(ROOT / name, self.path)
        (self.path / "crates.txt").write_text(CRATES)
        for file in (self.crates / crate / file for crate in self.names_of_crates() for file in SOURCES):
            file.parent.mkdir(parents=True, exist_ok=True)
            file.touch()
        make_commands(folder / "commands")
        found = re.search(r"^MINUTES_OF_A_FIRST_BUILD = (\d+)", (ROOT / "build").read_text(), re.MULTILINE)
        must(found, "./build doesn't say how many minutes it takes")
        self.minutes = found[1] if found else ""

    @staticmethod
    def names_of_crates() -> list[str]:
        return re.findall(r"^\w+", CRATES, re.MULTILINE)

    def environment(self, commands: Sequence[str]) -> dict[str, str]:
        """The environment of the tree's commands: without TPR, and with temporary files in `rooms`."""
        path = os.pathsep.join(str(self.folder / "commands" / it) for it in commands)
        of_this = {"TREE": str(self.crates), "PATH": path, "TMPDIR": str(self.rooms)}
        return {**{name: value for name, value in os.environ.items() if name != "TPR"}, **of_this}

    def call(
        self, words: Sequence[Word], commands: Sequence[str] = ALL, more: Optional[dict[str, str]] = None, **how: Any
    ) -> Ended:
        """Calls a command in the folder of the tree. Its standard error also lists remaining temporary files."""
        ended = call(words, cwd=self.folder, env={**self.environment(commands), **(more or {})}, **how)
        return ended._replace(said=ended.said + "".join(f"{it} is left\n" for it in self.left_files()).encode())

    def said_on_a_terminal(self, *words: str) -> str:
        """The standard error of a command, if that is a terminal."""
        ours, theirs = pty.openpty()
        self.call(words, stderr=theirs)
        os.close(theirs)
        try:
            return said_at(ours)
        finally:
            os.close(ours)

    def left_files(self) -> list[Path]:
        return sorted(self.rooms.rglob("*"))

    def must_end(self, name: str, ended: Ended, status: int, printed: str = "", said: str = "") -> None:
        self.cases.must_end(name, ended, status, printed.encode("latin-1"), said.encode())

    def runs(self, name: str, program: str = f"{NAME}/tpr") -> None:
        """The built program runs, and `rt try` doesn't."""
        self.must_end(f"{name}, and the program runs", self.call([program, "run", "a file"]), 7, "run;a file;")

    @contextmanager
    def started(self, *words: str) -> Iterator[subprocess.Popen[bytes]]:
        """A running command, which takes the signals that would end it, and is ended if its case breaks off."""
        with subprocess.Popen(
            words,
            cwd=self.folder,
            env=self.environment(ALL),
            stdin=subprocess.DEVNULL,
            stdout=subprocess.PIPE,
            stderr=subprocess.PIPE,
            preexec_fn=take_signals,
        ) as process:
            try:
                yield process
            except BaseException:
                process.terminate()
                raise


def make_commands(folder: Path) -> None:
    """Makes folders of commands: `rt` alone, all but `rt`, and all but python3."""
    without_rt, without_python, alone = (folder / it for it in ("without_rt", "without_python", "rt"))
    without_rt.mkdir(parents=True)
    for name in COMMANDS:
        found = shutil.which(name)
        must(found, f"there is no command {name}")
        (without_rt / name).symlink_to(found or "")
    shutil.copytree(without_rt, without_python, symlinks=True)
    alone.mkdir()
    write_command(without_rt / "python3", f'#!/bin/sh\nexec "{sys.executable}" "$@"\n')
    write_command(alone / "rt", RT)
    write_command(without_python / "rt", RT)


def write_command(file: Path, text: str) -> None:
    file.write_text(text)
    file.chmod(0o755)


def end_of(process: subprocess.Popen[bytes]) -> Ended:
    printed, said = process.communicate(timeout=MOST_SECONDS)
    return Ended(process.returncode, printed, said)


def said_at(terminal: int) -> str:
    """The text at a terminal that nobody else has open any more, including the answer that was given there."""
    said = b""
    try:
        while piece := os.read(terminal, 1 << 16):
            said += piece
    except OSError:
        pass
    return said.decode().replace("\r\n", "\n")


def lines(*texts: str) -> str:
    return "".join(f"{it}\n" for it in texts)


def is_gone(file: Path) -> bool:
    """Whether the process whose number is in the file has ended."""
    try:
        status = Path(f"/proc/{int(file.read_text())}/stat").read_text(encoding="latin-1")
    except (FileNotFoundError, ProcessLookupError):
        return True
    return status.rpartition(")")[2].split()[0] == "Z"


def has_begun(file: Path) -> bool:
    """Whether the file has any text."""
    return file.exists() and file.stat().st_size > 0


def try_in_a_tree(
    description: str, trying: Callable[[Tree], Tried], groups: Iterable[tuple[Callable[[Tried], None], int]]
) -> int:
    """Tries the groups in a new tree. Returns the exit status."""
    argparse.ArgumentParser(description=description).parse_args()
    with tempfile.TemporaryDirectory() as folder:
        tree = Tree(Path(folder))
        return tree.cases.try_groups(trying(tree), groups)
