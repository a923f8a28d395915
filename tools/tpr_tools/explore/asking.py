"""Runs a program in a session of its own, so that an interrupt in a terminal reaches only the tool."""
from __future__ import annotations

import contextlib
import os
import re
import signal
import subprocess
import sys
from typing import IO, Callable, Iterator, Optional, Sequence, Union

from ..command import NOT_BUILT, NOT_WRITTEN, REFUSED, Stop, called, say
from ..program import ENDING, end, kill_session
from .answers import Answer, read_answer


class HandedFile:
    """A file in memory that is passed to programs. It disappears with the tool, however the tool ends; and importing
    `tempfile` takes long."""

    def __init__(self, name: str):
        self.file = open(os.memfd_create(name), "wb")
        self.path = f"/proc/self/fd/{self.file.fileno()}"

    def write(self, data: bytes) -> None:
        """Replaces the contents. Readers begin at the start."""
        self.file.seek(0)
        self.file.truncate()
        self.file.write(data)
        self.file.flush()


def printed_by(
    command: Sequence[str],
    reads: Union[int, IO[bytes]] = subprocess.DEVNULL,
    says: Optional[int] = None,
    handed: Sequence[int] = (),
    most_seconds: Optional[float] = None,
    shows: Optional[Callable[[int], None]] = None,
) -> tuple[Optional[int], str]:
    """The status (None if the program was killed or took too long), and the output. Calls `shows` each second with the
    number of seconds so far; a call with `shows` has no `most_seconds`."""
    process: Optional[subprocess.Popen[bytes]] = None
    try:
        with _interrupts_held():
            process = subprocess.Popen(
                command, stdin=reads, stdout=subprocess.PIPE, stderr=says, start_new_session=True, pass_fds=handed
            )
        return _end_of(process, most_seconds, shows)
    except OSError as error:
        raise Stop(NOT_BUILT, f"{command[0]} can't be run: {error.strerror}") from None
    finally:
        if process is not None and process.returncode is None:
            end(process)


def _end_of(
    process: subprocess.Popen[bytes], most_seconds: Optional[float], shows: Optional[Callable[[int], None]]
) -> tuple[Optional[int], str]:
    """The same for a program that has started."""
    is_late = False
    try:
        printed = _output_of(process, most_seconds, shows)
    except subprocess.TimeoutExpired:
        is_late = True
        kill_session(process)
        printed, _ = process.communicate()
    status = process.wait()
    return None if is_late or status < 0 else status, printed.decode("latin-1")


def _output_of(
    process: subprocess.Popen[bytes], most_seconds: Optional[float], shows: Optional[Callable[[int], None]]
) -> bytes:
    if shows is None:
        return process.communicate(timeout=most_seconds)[0]
    seconds = 0
    while True:
        with contextlib.suppress(subprocess.TimeoutExpired):
            return process.communicate(timeout=1)[0]
        seconds += 1
        shows(seconds)


def broken(program: str, status: Optional[int], printed: str) -> Stop:
    """The end of the tool, if a program doesn't do what it should."""
    ended = "was killed or took too long" if status is None else f"ended with status {status}"
    told = " ".join(printed[-200:].split())
    return Stop(NOT_BUILT, f"{program} {ended}{f': {told}' if told else ', and printed nothing'}")


def verdicts_by(program: str, data: bytes) -> Union[Answer, tuple[int, str]]:
    """The answer of `tpr verdicts` for the script; or else the status, and the line that refuses the script or reports
    that memory ran out."""
    handed = HandedFile("script.ttcn")
    handed.write(data)
    with open(handed.path, "rb") as script, _line_on_a_terminal() as shows:
        status, printed = printed_by([program, "verdicts"], script, shows=shows)
    answer = read_answer(printed)
    if answer is not None and answer.fault() is None and answer.status() == status:
        return answer
    if status in (REFUSED, NOT_WRITTEN) and re.fullmatch(r"(refused|fault) .*\n", printed):
        return status, printed
    if status == NOT_BUILT:
        raise Stop(NOT_BUILT, f"{program} can't be built")
    raise broken(f"{program} verdicts", status, printed)


@contextlib.contextmanager
def _line_on_a_terminal() -> Iterator[Optional[Callable[[int], None]]]:
    """Shows on a terminal how long the search has taken, in a line that is erased at the end."""
    if sys.stderr is None or not sys.stderr.isatty():
        yield None
        return
    try:
        yield lambda seconds: say(f"\r\x1b[K{called('explore')}: `tpr verdicts` has been searching for {seconds} s")
    finally:
        say("\r\x1b[K")


@contextlib.contextmanager
def _interrupts_held() -> Iterator[None]:
    """Delays an interrupt that arrives during the block until its end, so that a program that has started is known, and
    can be ended."""
    came: list[int] = []
    heard = [it for it in ENDING if callable(signal.getsignal(it))]
    before = [signal.signal(it, lambda number, _: came.append(number)) for it in heard]
    try:
        yield
    finally:
        for number, handler in zip(heard, before):
            signal.signal(number, handler)
    if came:
        raise KeyboardInterrupt
