"""The common parts of the tools' command lines.

The statuses are those of tpr and ./tpr, and one more: 5, if the answer to the tool's question is no.
"""
from __future__ import annotations

import argparse
import gc
import os
import re
import sys
from typing import TYPE_CHECKING, Callable, NoReturn, Optional, Sequence, TypeVar, Union

from .interrupts import INTERRUPTED as INTERRUPTED, let_interrupts_raise

if TYPE_CHECKING:
    from .report.report import NotAReport, Report

DONE, NOT_BUILT, REFUSED, NOT_WRITTEN, WRONG_USAGE, NOT_SO = range(6)

Result = TypeVar("Result")
# Nested parts of a script are handled by nested calls.
_STACK = 512 * 1024 * 1024
_CALLS = 60_000

_MEANINGS = {
    DONE: "all went well",
    NOT_BUILT: "the tool failed",
    REFUSED: "what was read isn't a report, or can't be read; standard error has the line",
    NOT_WRITTEN: "the answer can't be written",
    WRONG_USAGE: "the command line is wrong",
}

_ROOT = os.path.dirname(os.path.dirname(os.path.dirname(os.path.realpath(__file__))))


def called(name: str) -> str:
    """The name by which the tool is called: `tpr-why` for an installed `why`."""
    installed = f"tpr-{name}"
    return installed if sys.argv and os.path.basename(sys.argv[0]) == installed else name


def as_called(name: str, text: str) -> str:
    """The text with the names of commands as they are installed, if the tool is called so."""
    return with_installed_names(text) if called(name) != name else text


def with_installed_names(text: str) -> str:
    """The text with `tpr-why` in place of `tools/why`, and `tpr` in place of `./tpr`. Paths keep their names, and so do
    commands that aren't installed."""
    text = re.sub(r"(?<![\w/.-])tools/(?!release\b)([a-z]+)(?![\w/]|\.\w)", r"tpr-\1", text)
    return re.sub(r"(?<![\w/.])\./tpr(?![\w/])", "tpr", text)


def statuses(*numbers: int, **others: str) -> str:
    """The statuses in the form of --help: those of all tools, and those with an additional meaning in this tool."""
    told = {number: _MEANINGS[number] for number in numbers}
    told.update({int(name.removeprefix("status_")): text for name, text in others.items()})
    return "status:\n" + "\n".join(f"  {number}  {text}" for number, text in sorted(told.items()))


class Stop(Exception):
    """Ends the tool with this status, and prints this text on standard error."""

    def __init__(self, status: int, text: str):
        super().__init__(text)
        self.status = status
        self.text = text


class Arguments(argparse.ArgumentParser):
    """A command line whose help also lists the statuses."""

    def __init__(self, name: str, description: str, statuses: str):
        super().__init__(
            prog=called(name),
            description=as_called(name, description),
            epilog=as_called(name, statuses),
            formatter_class=argparse.RawDescriptionHelpFormatter,
            allow_abbrev=False,
        )
        self.add_argument("--version", action=_Version, help="print which version of tpr this is")

    def print_help(self, file: object = None) -> None:
        """Prints the help like any other answer, so that a failure to write it has the usual status."""
        write_out(self.format_help())

    def error(self, message: str) -> NoReturn:
        say(self.format_usage())
        raise Stop(WRONG_USAGE, message)


class _Version(argparse.Action):
    """Prints the version and ends, like --help."""

    def __init__(self, option_strings: Sequence[str], dest: str, help: Optional[str] = None):
        super().__init__(option_strings, dest, nargs=0, default=argparse.SUPPRESS, help=help)

    def __call__(self, parser: argparse.ArgumentParser, *_: object) -> NoReturn:
        write_out(version_line(parser.prog))
        parser.exit(DONE)


def version_line(name: str) -> str:
    """Such as `why (tpr) 0.9.0`."""
    return f"{name} (tpr) {version() or 'of no known version'}\n"


def version() -> Optional[str]:
    # Imported here, because few calls need it, and a tool must start quickly.
    from .version import version_in

    return version_in(_ROOT)


def read_bytes(file: Optional[str]) -> bytes:
    """The bytes of the file; without a file, of standard input."""
    try:
        if file is None:
            return sys.stdin.buffer.read()
        with open(file, "rb") as opened:
            return opened.read()
    except (OSError, AttributeError, ValueError) as error:
        why = getattr(error, "strerror", None) or "it is closed"
        name = "standard input" if file is None else file or "a file without a name"
        raise Stop(REFUSED, f"{name} can't be read: {why}") from None


def report_in(file: Optional[str]) -> Report:
    """The report in a file. Its messages aren't matched yet."""
    # Imported here, because not every tool reads a report, and the reader took a third of the start of a tool that
    # doesn't.
    from .report.reader import read_report
    from .report.report import NotAReport

    try:
        return read_report(read_bytes(file))
    except NotAReport as fault:
        raise refusal_of(file, fault) from None


def refusal_of(file: Optional[str], fault: NotAReport) -> Stop:
    return Stop(REFUSED, f"{file or 'standard input'}, {fault}")


def write_out(text: str) -> None:
    """Writes the answer on standard output."""
    try:
        # The name of a file may have bytes that aren't valid text: they are written unchanged.
        sys.stdout.buffer.write(text.encode("utf-8", "surrogateescape"))
        sys.stdout.buffer.flush()
    except (OSError, AttributeError):
        raise Stop(NOT_WRITTEN, "the answer can't be written") from None


def say(text: str) -> None:
    """Prints a text on standard error, if there is one."""
    try:
        sys.stderr.buffer.write(text.encode("utf-8", "surrogateescape"))
        sys.stderr.buffer.flush()
    except (OSError, AttributeError, ValueError):
        pass


def write_file(file: str, text: Union[str, bytes]) -> None:
    try:
        with open(file, "wb") as opened:
            opened.write(text if isinstance(text, bytes) else text.encode("utf-8", "surrogateescape"))
    except OSError as error:
        raise Stop(NOT_WRITTEN, f"{file} can't be written: {error.strerror}") from None


def on_large_stack(task: Callable[[], Result]) -> Result:
    """Runs the task in a thread of its own, because only such a thread gets a stack large enough for the nested calls
    that read a script. Returns its result."""
    import threading  # most tools don't need it, and must start quickly

    ended: list[Result] = []
    broken: list[BaseException] = []

    def work() -> None:
        try:
            ended.append(task())
        except BaseException as error:
            broken.append(error)

    threading.stack_size(_STACK)
    sys.setrecursionlimit(_CALLS)
    thread = threading.Thread(target=work)
    try:
        thread.start()
    except RuntimeError:  # there is no memory for its stack
        raise MemoryError from None
    thread.join()
    if broken:
        raise broken[0]
    return ended[0]


def run(name: str, tool: Callable[[], int], at_once: bool = False) -> NoReturn:
    """Ends the process with the status of the tool. `at_once` is for a tool that has nothing left to do, and may hold
    so much memory that freeing it takes long."""
    # The tools make no cycles, and looking for them costs a quarter of the time.
    gc.disable()
    try:
        let_interrupts_raise()
        status = tool()
    except Stop as stop:
        say(f"{called(name)}: {stop.text}\n")
        status = stop.status
    except MemoryError:
        say(f"{called(name)}: out of memory\n")
        status = NOT_BUILT
    except KeyboardInterrupt:
        status = INTERRUPTED
    _forget_output()
    if at_once:
        os._exit(status)
    sys.exit(status)


def _forget_output() -> None:
    """Discards output that couldn't be written. Otherwise the interpreter would write it again at its end, and end with
    a status of its own."""
    for stream in ("stdout", "stderr"):
        try:
            getattr(sys, stream).flush()
        except (OSError, AttributeError, ValueError):
            setattr(sys, stream, None)
