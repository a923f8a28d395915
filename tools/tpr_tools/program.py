"""Runs the program for a tool, and reads its output. Whatever is started here ends when the tool is interrupted."""
from __future__ import annotations

import os
import re
import signal
import subprocess
import sys
from types import FrameType
from typing import Any, Callable, Optional, Sequence, Union

from .command import NOT_BUILT, Stop, say

ENDING = (signal.SIGINT, signal.SIGTERM, signal.SIGHUP)
# ./build puts back what it has set aside, and `rt` removes its folders: on a busy machine that takes seconds.
_MOST_SECONDS_TO_END = 30


class NoProgram(Stop):
    """The program can't be run, for any script."""

    def __init__(self, text: str):
        super().__init__(NOT_BUILT, text)


class EndedBySignal(Stop):
    """A signal ended the program, so its output isn't its whole answer."""


def program_of(named: Optional[str], root: str) -> str:
    """The program of the command line or of TPR; otherwise the one in the folder that contains the tools."""
    return os.path.abspath(named or os.environ.get("TPR") or os.path.join(root, "tpr"))


def ordered_program_of(root: str) -> str:
    """The program that forces orders: that of TPR_ORDERED; in a release the one beside tpr; otherwise the one that
    `./build tpr_ordered` makes."""
    released = os.path.join(root, "tpr_ordered")
    made = os.path.join(root, "crates", "tpr_ordered", "out", "tpr_ordered")
    return os.path.abspath(os.environ.get("TPR_ORDERED") or (released if os.path.exists(released) else made))


def printed_by(program: str, *words: str, given: bytes = b"") -> bytes:
    """The program's output for these arguments and this standard input."""
    try:
        run = ended([program, *words], given, stdout=subprocess.PIPE)
    except (OSError, ValueError) as error:
        raise NoProgram(f"{program} can't be run: {getattr(error, 'strerror', None) or error}") from None
    if run.returncode == NOT_BUILT:
        raise NoProgram(f"{program} can't be built")
    if run.returncode < 0:
        raise EndedBySignal(NOT_BUILT, f"{program} was ended by signal {-run.returncode}")
    return run.stdout


def on_ending(handler: Union[Callable[[int, Optional[FrameType]], Any], signal.Handlers]) -> None:
    """Handles the signals that end a tool. Those that the tool ignores stay ignored."""
    for number in ENDING:
        if signal.getsignal(number) is not signal.SIG_IGN:
            signal.signal(number, handler)


class _Interrupts:
    """Raises KeyboardInterrupt for the first signal that ends a tool, but not before the started process is known.
    Signals that the tool ignores stay ignored."""

    def __init__(self) -> None:
        self.came = False
        self.are_held = True
        heard = [it for it in ENDING if signal.getsignal(it) not in (signal.SIG_IGN, None)]
        try:
            self.before = {it: signal.signal(it, self._take) for it in heard}
        except ValueError:  # only the main thread can set handlers
            self.before = {}

    def _take(self, _number: int, _frame: Optional[FrameType]) -> None:
        self.came = True
        if not self.are_held:
            self.are_held = True
            raise KeyboardInterrupt

    def release(self) -> None:
        self.are_held = False
        if self.came:
            self.are_held = True
            raise KeyboardInterrupt

    def forget(self) -> None:
        for number, handler in self.before.items():
            signal.signal(number, handler)


def ended(command: Sequence[str], given: bytes = b"", **how: Any) -> subprocess.CompletedProcess[bytes]:
    """Runs a command that may start others, such as ./tpr and ./build. It has a session of its own, so that Ctrl-C in a
    terminal reaches only the tool. The tool then tells the command to end, and waits until it has cleaned up. If the
    tool can't handle signals here, the command stays in the tool's session, so that Ctrl-C reaches it too."""
    interrupts = _Interrupts()
    process: Optional[subprocess.Popen[bytes]] = None
    try:
        process = subprocess.Popen(command, stdin=subprocess.PIPE, start_new_session=bool(interrupts.before), **how)
        interrupts.release()
        printed, said = process.communicate(given)
        return subprocess.CompletedProcess(process.args, process.returncode, printed or b"", said or b"")
    except BaseException:
        interrupts.are_held = True
        if process is not None:
            end(process, bool(interrupts.before))
        raise
    finally:
        interrupts.forget()


def end(process: subprocess.Popen[bytes], has_session: bool = True) -> None:
    """Tells a process to end, and waits for it. Kills it if it takes too long, and then the rest of its session."""
    process.terminate()
    try:
        process.wait(_MOST_SECONDS_TO_END)
    except subprocess.TimeoutExpired:
        process.kill()
    finally:
        if has_session:
            kill_session(process)
        process.wait()


def kill_session(process: subprocess.Popen[bytes]) -> None:
    """Kills a process that leads a session, and everything that it has started."""
    try:
        os.killpg(process.pid, signal.SIGKILL)
    except (ProcessLookupError, PermissionError):
        pass


def build_if_wanted(root: str) -> None:
    """Builds the program unless it is up to date. That takes minutes, so asks on a terminal, and refuses elsewhere."""
    build = f"{root}/build"
    if ended([build, "is_built"]).returncode == 0:
        return
    lacks = "the program isn't built, or is older than its sources"
    takes = f"`./build` builds it, the first time in about {_minutes_of_a_first_build(build)} minutes"
    if not _is_wanted(f"{lacks}; {takes}. Build it now? [y/N] "):
        raise Stop(NOT_BUILT, f"{lacks}: {takes}; TPR={root}/try runs the sources without proofs")
    if ended([build]).returncode != 0:
        raise Stop(NOT_BUILT, f"{build} has not built the program")


def _minutes_of_a_first_build(build: str) -> str:
    with open(build, encoding="utf-8") as file:
        found = re.search(r"(?m)^MINUTES_OF_A_FIRST_BUILD = (\d+)", file.read())
    return found[1] if found else "some"


def _is_wanted(question: str) -> bool:
    """Whether a user at a terminal answers yes."""
    if not all(stream is not None and stream.isatty() for stream in (sys.stdin, sys.stderr)):
        return False
    say(question)
    return sys.stdin.readline().strip().lower() in ("y", "yes")
