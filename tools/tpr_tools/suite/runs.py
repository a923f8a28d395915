"""Runs one command on a script in a process of its own, with limits on time and output."""
from __future__ import annotations

import os
import selectors
import shutil
import subprocess
import time
from dataclasses import dataclass
from enum import Enum
from typing import Mapping, Optional, Sequence

from ..command import NOT_BUILT, Stop
from ..program import build_if_wanted, ended, kill_session

_MEGABYTE = 1_000_000
_PIECE = 1 << 16


class Stopped(Enum):
    """Why a process was stopped."""

    LATE = "it wasn't done within the bound"
    MUCH = "it printed too much"


@dataclass(frozen=True)
class Printed:
    """The result of a process: its status, or why it was stopped, also as a text."""

    status: Optional[int]
    stopped: Optional[Stopped]
    told: str
    printed: bytes
    said: bytes
    seconds: float


def program_of(named: str) -> str:
    """The path of a program. A word without a slash is searched on PATH, and then in the current folder."""
    found = None if os.sep in named else shutil.which(named)
    return os.path.abspath(found or named)


def built(program: str, root: str) -> str:
    """The program, built before the first clock starts. For ./tpr of a repository, returns the program that ./build
    makes, because ./tpr would otherwise compile all sources for each script. A release has the program itself there,
    and no ./build."""
    if os.path.exists(f"{root}/build") and _is_same(program, f"{root}/tpr"):
        build_if_wanted(root)
        program = f"{root}/crates/tpr/out/tpr"
    try:
        status = ended([program, "queue"], stdout=subprocess.DEVNULL).returncode
    except OSError as error:
        raise Stop(NOT_BUILT, f"{program} can't be run: {error.strerror}") from None
    if status != 0:
        raise Stop(NOT_BUILT, f"{program} queue, on no text, ended with status {status}")
    return program


def _is_same(file: str, other: str) -> bool:
    try:
        return os.path.samefile(file, other)
    except OSError:
        return False


class Runner:
    """Runs the program, or a tool that calls it, on one script at a time."""

    def __init__(self, program: str, bound: float, megabytes: int):
        self.program = program
        self.bound = bound
        self.megabytes = megabytes
        self.stopping = False
        self.process: Optional[subprocess.Popen[bytes]] = None

    def run(self, script: str) -> Printed:
        return self.ended(self.program, "run", script)

    def ended(self, *words: str, variables: Optional[Mapping[str, str]] = None) -> Printed:
        """The result of a command, within the limits."""
        began = time.monotonic()
        process = self.start(words, variables)
        reading = _Reading(process, began + self.bound, self.megabytes * _MEGABYTE)
        try:
            stopped, status = reading.read(), None
            if stopped is None:
                stopped, status = self.end_of(process, began + self.bound)
            told = self.told(stopped, process) if stopped else ""
            return Printed(status, stopped, told, *reading.texts(), time.monotonic() - began)
        finally:
            kill_session(process)
            process.wait()
            reading.close()
            self.process = None

    def end_of(self, process: subprocess.Popen[bytes], until: float) -> tuple[Optional[Stopped], Optional[int]]:
        """The status of a process that has closed its output."""
        try:
            return None, process.wait(max(until - time.monotonic(), 0.01))
        except subprocess.TimeoutExpired:
            return Stopped.LATE, None

    def told(self, stopped: Stopped, process: subprocess.Popen[bytes]) -> str:
        """Why it was stopped."""
        if stopped is Stopped.MUCH:
            return f"printed more than {self.megabytes} MB"
        status = process.poll()
        if status is not None and status >= 0:
            held = f"what it has started held its output open for {self.bound:g} seconds"
            return f"ended with status {status}, and {held}"
        return f"not done within {self.bound:g} seconds"

    def start(self, words: Sequence[str], variables: Optional[Mapping[str, str]]) -> subprocess.Popen[bytes]:
        """Starts a process in a group of its own, so that all its children can be stopped too."""
        try:
            self.process = subprocess.Popen(
                words,
                stdin=subprocess.DEVNULL,
                stdout=subprocess.PIPE,
                stderr=subprocess.PIPE,
                start_new_session=True,
                env=variables,
            )
        except OSError as error:
            raise Stop(NOT_BUILT, f"{words[0]} can't be run: {error.strerror}") from None
        if self.stopping:
            self.stop()
        return self.process

    def stop(self) -> None:
        """Stops the current run, and prevents new ones."""
        self.stopping = True
        if self.process is not None:
            kill_session(self.process)


class _Reading:
    """The standard output and standard error of a process, read while it runs."""

    def __init__(self, process: subprocess.Popen[bytes], until: float, most: int):
        self.process = process
        self.until = until
        self.most = most
        assert process.stdout is not None and process.stderr is not None
        self.pipes = process.stdout, process.stderr
        self.pieces: dict[int, list[bytes]] = {pipe.fileno(): [] for pipe in self.pipes}
        self.size = 0

    def read(self) -> Optional[Stopped]:
        """Reads both to their ends. If that isn't possible, returns why."""
        with selectors.DefaultSelector() as selector:
            for pipe in self.pipes:
                selector.register(pipe, selectors.EVENT_READ)
            while selector.get_map():
                left = self.until - time.monotonic()
                if left <= 0 and self.process.poll() is None:
                    return Stopped.LATE
                ready = selector.select(max(left, 0))
                if not ready and left <= 0:
                    return Stopped.LATE
                for key, _ in ready:
                    if not self.take(key.fd):
                        selector.unregister(key.fileobj)
                if self.size > self.most:
                    return Stopped.MUCH
        return None

    def take(self, pipe: int) -> bool:
        piece = os.read(pipe, _PIECE)
        self.size += len(piece)
        self.pieces[pipe].append(piece)
        return bool(piece)

    def texts(self) -> tuple[bytes, bytes]:
        printed, said = (b"".join(it) for it in self.pieces.values())
        return printed, said

    def close(self) -> None:
        for pipe in self.pipes:
            pipe.close()
