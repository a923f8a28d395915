"""Calls commands as users call them, tests how they end, and prints the result of each case."""
from __future__ import annotations

import difflib
import fcntl
import os
import signal
import subprocess
import sys
import termios
import time
from collections.abc import Callable, Iterable, Iterator, Sequence
from contextlib import contextmanager
from pathlib import Path
from typing import IO, Any, NamedTuple, Optional, TypeVar, Union

from refusing import Wrong, must

MOST_SECONDS, MOST_SECONDS_OF_A_CALL = 20, 120
MOST_LINES = 40  # of a wrong output that a failure shows
ENDING = (signal.SIGINT, signal.SIGTERM, signal.SIGHUP)

Word = Union[str, bytes]
Tried = TypeVar("Tried")


class Ended(NamedTuple):
    """How a run ended: its status, its standard output and its standard error."""

    status: int
    printed: bytes
    said: bytes

    def must_be(self, status: int, printed: bytes) -> None:
        wanted = Ended(status, printed, b"")
        must(self == wanted, f"status {self.status}, printed {self.printed[-80:]!r}, said {self.said[-80:]!r}")

    def difference(self, wanted: Ended) -> Optional[str]:
        """Describes how the result differs from the expected one, or returns None."""
        if self == wanted:
            return None
        other = "" if self.status == wanted.status else f", and {wanted.status} is expected"
        return "\n".join([
            f"status {self.status}{other}",
            *different_lines("printed", wanted.printed, self.printed),
            *different_lines("said", wanted.said, self.said),
        ])


def different_lines(what: str, wanted: bytes, found: bytes) -> list[str]:
    before, after = ([repr(line)[2:-1] for line in text.splitlines(keepends=True)] for text in (wanted, found))
    return [*difflib.unified_diff(before, after, f"{what}, as expected", what, lineterm="")][:MOST_LINES]


def take_signals() -> None:
    """Takes these signals, even if a script, nohup or a daemon has started this process so that it ignores or blocks
    them. Processes that it starts take them too."""
    signal.pthread_sigmask(signal.SIG_UNBLOCK, ENDING)
    for number in ENDING:
        signal.signal(number, signal.SIG_DFL)


def wait_until(holds: Callable[[], bool], what: str) -> None:
    end = time.monotonic() + MOST_SECONDS
    while not holds():
        must(time.monotonic() < end, f"it never was so that {what}")
        time.sleep(0.01)


def waiting_bytes(pipe: Union[int, IO[bytes], None]) -> int:
    """The number of unread bytes in a pipe."""
    assert pipe is not None
    return int.from_bytes(fcntl.ioctl(pipe, termios.FIONREAD, b"\0" * 4), sys.byteorder)


def give(process: subprocess.Popen[bytes], piece: bytes) -> None:
    """Writes a piece to the process's standard input, and waits until the process has read it."""
    assert process.stdin is not None
    os.write(process.stdin.fileno(), piece)
    wait_until(lambda: waiting_bytes(process.stdin) == 0, f"{piece!r} was read")


@contextmanager
def opened(file: Path) -> Iterator[int]:
    """A file or a folder, opened for reading."""
    number = os.open(file, os.O_RDONLY)
    try:
        yield number
    finally:
        os.close(number)


@contextmanager
def printed_by(*command: str) -> Iterator[IO[bytes]]:
    """A pipe with the output of a command, which may be endless."""
    with subprocess.Popen(command, stdout=subprocess.PIPE, stderr=subprocess.DEVNULL) as process:
        assert process.stdout is not None
        yield process.stdout


def call(words: Sequence[Word], pieces: Sequence[bytes] = (), closed: Sequence[int] = (), **streams: Any) -> Ended:
    """Calls a command, by default with an empty standard input. The pieces are written there one by one. The standard
    streams with the numbers in `closed` are closed."""
    stdin = subprocess.PIPE if pieces else subprocess.DEVNULL
    given: dict[str, Any] = {"stdin": stdin, "stdout": subprocess.PIPE, "stderr": subprocess.PIPE, **streams}

    def close() -> None:
        for stream in closed:
            os.close(stream)

    with subprocess.Popen(words, preexec_fn=close, **given) as process:
        try:
            for piece in pieces:
                give(process, piece)
            printed, said = process.communicate(timeout=MOST_SECONDS_OF_A_CALL)
        except BaseException:
            process.kill()
            raise
    return Ended(process.returncode, printed or b"", said or b"")


class Cases:
    """The cases that were tried, each with a unique name, and whether one failed."""

    def __init__(self) -> None:
        self.names: set[str] = set()
        self.count, self.has_failed = 0, False

    def told(self, name: str, wrong: Optional[str]) -> None:
        """Prints the result of a case, with what is wrong, if anything is."""
        if name in self.names:
            wrong = "two cases have this name"
        self.names.add(name)
        self.count += 1
        self.has_failed |= wrong is not None
        print(f"passed {name}" if wrong is None else f"FAILED: {name}: {wrong}", flush=True)

    def must_end(self, name: str, ended: Ended, status: int, printed: bytes = b"", said: bytes = b"") -> None:
        self.told(name, ended.difference(Ended(status, printed, said)))

    def must_be(self, name: str, found: object, wanted: object) -> None:
        self.told(name, None if found == wanted else f"{found!r}, and {wanted!r} is wanted")

    def must_come(self, name: str, holds: Callable[[], bool]) -> None:
        """The condition holds, or does so soon."""
        try:
            wait_until(holds, "it holds")
            self.told(name, None)
        except Wrong as late:
            self.told(name, str(late))

    def try_groups(self, tried: Tried, groups: Iterable[tuple[Callable[[Tried], None], int]]) -> int:
        """Tries each group of cases, with its minimum number of them. Returns the exit status."""
        for group, least in groups:
            before = self.count
            try:
                group(tried)
            except (Wrong, OSError, subprocess.SubprocessError) as wrong:
                self.told(f"{group.__name__} broke off", str(wrong))
            if (count := self.count - before) < least:
                self.told(group.__name__, f"there are {count} cases of it, and {least} are wanted at least")
        return int(self.has_failed)
