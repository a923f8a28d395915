#!/usr/bin/env python3
"""Tests how the program ends if something outside it fails: docs/PROFILE.md, "The program".

    tests/program/from_outside.py PROGRAM FOLDER [REFUSED]

Its texts are written into FOLDER. REFUSED is the library of refused.c, which is loaded before the C library; without it
the cases that need it are left out. It prints a line `passed NAME` for each case, `left out NAME: WHY` for one that
can't be tried here, or lines that begin with `FAILED: NAME`.
"""
from __future__ import annotations

import argparse
import os
import resource
import signal
import subprocess
import time
from collections.abc import Callable, Iterable, Iterator
from typing import Any, Optional

from calling import ENDING, MOST_SECONDS, Ended, take_signals, wait_until, waiting_bytes
from example_files import example
from refusing import NO_MEMORY, NO_READ, NO_THREAD, Wrong, must, refused_calls

NOBODY = 65534

SENDS_TO_ITSELF = """module Sends {
    type port P message { inout integer; }
    type component C { port P p, q; }
    testcase t() runs on C {
        connect(self:p, self:q);
        for (var integer turn := 0; turn < 5000; turn := turn + 1) {
            p.send(integer:turn);
            q.receive(integer:turn);
        }
    }
}
"""
# `mtc` looks at a list of 2,000 numbers for half a minute and more, while `a` waits for it.
WAITS_LONG = f"""module Waits {{
    type record of integer L;
    type port P message {{ inout L; }}
    type component C {{ port P p, q; }}
    function waits() runs on C {{ p.receive; }}
    testcase t() runs on C {{
        var C a := C.create;
        connect(self:p, self:q);
        a.start(waits());
        p.send(L:{{{', '.join(['1'] * 2000)}}});
        for (var integer turn := 0; turn < 90000; turn := turn + 1) {{
            alt {{
                [] q.receive(L:{{*, 1, *, 1, *, 1, *, 1, *, 1, *, 2, *}}) {{ }}
                [else] {{ }}
            }}
        }}
        all component.done;
    }}
}}
"""


class LeftOut(Exception):
    """A case that can't be tried here."""


class Program:
    """The program, its texts, and its answers if nothing fails."""

    def __init__(self, path: str, folder: str, refused: Optional[str]):
        self.path, self.folder, self.refused = path, folder, refused
        self.texts = {
            "queue": b"halt\n" * 20000,
            "check": SENDS_TO_ITSELF.encode(),
            "run": SENDS_TO_ITSELF.encode(),
            "trace": SENDS_TO_ITSELF.encode(),
            "judge": trace_of_sends(),
            "verdicts": SENDS_TO_ITSELF.replace("5000", "500").encode(),
        }
        self.answers = {
            "queue": b"halted 0\n" + b"unchanged\n" * 19999 + b"left 0\n",
            "check": b"accepted\n",
            "run": report_of_sends(),
            "trace": trace_of_sends(),
            "judge": b"lawful\none run\n",
            "verdicts": b"always none\nstates 1\n",
        }
        for mode, text in self.texts.items():
            with open(self.file(mode), "wb") as file:
                file.write(text)

    def file(self, mode: str) -> str:
        return f"{self.folder}/text_of_{mode}"

    def run(self, *words: str, before: Optional[Callable[[], None]] = None, **files: Any) -> Ended:
        """Runs the program with these words, and `before` in its process before it begins."""
        pipes = {"stdin": subprocess.DEVNULL, "stdout": subprocess.PIPE, "stderr": subprocess.PIPE}
        given: dict[str, Any] = {**pipes, **files}
        try:
            done = subprocess.run(
                [self.path, *words], preexec_fn=before, timeout=MOST_SECONDS, check=False, **given
            )
        except subprocess.TimeoutExpired:
            raise Wrong(f"no end after {MOST_SECONDS} seconds") from None
        return Ended(done.returncode, done.stdout or b"", done.stderr or b"")

    def run_with(self, refusals: dict[str, int], *words: str, **files: Any) -> tuple[Ended, set[str]]:
        """Runs it with the call of this number refused, of each kind. Returns also the kinds that it reached."""
        if self.refused is None:
            raise LeftOut("there is no library that refuses calls")
        with refused_calls(self.refused, refusals) as (more, came):
            ended = self.run(*words, env={**os.environ, **more}, **files)
        return ended, came

    def must_be_cut(self, mode: str, printed: bytes) -> None:
        """The output is the beginning of the answer, and doesn't look complete."""
        whole = self.answers[mode]
        must(whole.startswith(printed) and len(printed) < len(whole), f"printed {printed[-80:]!r}")
        last = b"\nresult " if mode in ("run", "trace") else b"\nleft "
        must(last not in printed and b"accepted" not in printed, f"it looks whole: {printed[-80:]!r}")


def trace_of_sends() -> bytes:
    lines = ["component mtc"]
    for turn in range(5000):
        lines += [f"{words} {turn} integer:{turn}" for words in ("sent mtc.q", "came q mtc", "took q mtc")]
    return "".join(f"{line}\n" for line in [*lines, "end done", "verdict none", "result none"]).encode()


def report_of_sends() -> bytes:
    lines = trace_of_sends().splitlines(keepends=True)
    return b"".join(line for line in lines if not line.startswith(b"came "))


def limited(kind: int, most: int) -> Callable[[], None]:
    return lambda: resource.setrlimit(kind, (most, most))


# Where the answer goes


def full_device(program: Program, mode: str) -> None:
    with open("/dev/full", "wb") as full:
        program.run(mode, program.file(mode), stdout=full).must_be(3, b"")


def closed_pipe(program: Program, mode: str) -> None:
    """The pipe has no reader from the start."""
    reader, writer = os.pipe()
    os.close(reader)
    try:
        program.run(mode, program.file(mode), stdout=writer).must_be(3, b"")
    finally:
        os.close(writer)


def pipe_that_closes(program: Program, mode: str) -> None:
    """The reader closes the pipe after a line, once the pipe is full."""
    with started(program, mode, program.file(mode), stdin=subprocess.DEVNULL) as process:
        wait_until(lambda: waits_for_a_reader(process), "the pipe is full")
        assert process.stdout is not None and process.stderr is not None
        printed = os.read(process.stdout.fileno(), 100)
        process.stdout.close()
        must(process.wait(MOST_SECONDS) == 3, f"status {process.returncode}")
        must(process.stderr.read() == b"", "it said something")
    program.must_be_cut(mode, printed)


def file_that_is_full(program: Program, mode: str) -> None:
    """A file can take only about half of the answer, as on a full disk."""
    most = len(program.answers[mode]) // 2 + 3

    def limit() -> None:
        signal.signal(signal.SIGXFSZ, signal.SIG_IGN)
        limited(resource.RLIMIT_FSIZE, most)()

    path = f"{program.folder}/full"
    with open(path, "wb") as file:
        program.run(mode, program.file(mode), before=limit, stdout=file).must_be(3, b"")
    with open(path, "rb") as written:
        program.must_be_cut(mode, written.read())


def small_disk(program: Program, mode: str) -> None:
    """A file system of 64 KiB in memory, if one can be mounted."""
    disk, kept = f"{program.folder}/disk", f"{program.folder}/kept"
    os.makedirs(disk, exist_ok=True)
    script = """mount -t tmpfs -o size=64k small "$1" || exit 99
        "$3" "$4" "$5" >"$1/answer"
        status=$?
        cat "$1/answer" >"$2"
        exit $status"""
    command = ["unshare", "--mount", "sh", "-c", script, "sh", disk, kept, program.path, mode, program.file(mode)]
    try:
        done = subprocess.run(command, capture_output=True, timeout=MOST_SECONDS, check=False)
    except FileNotFoundError:
        raise LeftOut("there is no unshare") from None
    if done.returncode in (1, 99):
        raise LeftOut("no file system can be mounted")
    must((done.returncode, done.stderr) == (3, b""), f"status {done.returncode}, said {done.stderr!r}")
    with open(kept, "rb") as file:
        program.must_be_cut(mode, file.read())


# Refused resources


def no_threads(program: Program, mode: str) -> None:
    """No thread can be started at all. `mtc` needs none, so the script has another component."""
    ended, refused = program.run_with({"THREADS_FROM": 1}, mode, str(example("ping_pong.ttcn")))
    must(refused, "no thread was asked for")
    ended.must_be(3, NO_THREAD)


def limit_on_processes(program: Program, mode: str) -> None:
    """The user may start no further process or thread: the report of `mtc` alone is printed, that of two components
    isn't. This limit doesn't hold for root, which runs it as nobody."""

    def limit() -> None:
        resource.setrlimit(resource.RLIMIT_NPROC, (0, 0))
        if os.getuid() == 0:
            os.setgid(NOBODY)
            os.setuid(NOBODY)

    with open(program.file("check"), "rb") as file:
        try:
            reached = program.run("check", before=limit, stdin=file)
        except (PermissionError, subprocess.SubprocessError):
            raise LeftOut("nobody can't run the program") from None
    if os.getuid() == 0 and reached.status in (126, 127):
        raise LeftOut("nobody can't run the program")
    reached.must_be(0, b"accepted\n")
    with open(program.file(mode), "rb") as file:
        program.run(mode, before=limit, stdin=file).must_be(0, program.answers[mode])
    with open(example("ping_pong.ttcn"), "rb") as file:
        program.run(mode, before=limit, stdin=file).must_be(3, NO_THREAD)


def limit_on_memory(program: Program, mode: str) -> None:
    """Limits from too little memory up to enough: the output is the line of the fault alone, or the answer."""
    refusals, low, high = 0, 0, 1 << 20
    while high - low > 64:
        kib = (low + high) // 2
        ended = program.run(mode, program.file(mode), before=limited(resource.RLIMIT_AS, kib << 10))
        if ended == Ended(0, program.answers[mode], b""):
            high = kib
        else:
            low = kib
    for kib in range(high - 900, high + 900, 36):
        ended = program.run(mode, program.file(mode), before=limited(resource.RLIMIT_AS, kib << 10))
        if ended.printed == program.answers[mode]:
            ended.must_be(0, ended.printed)
        elif ended.status == 3:
            refusals += 1
            ended.must_be(3, NO_THREAD if mode in ("run", "trace") and ended.printed == NO_THREAD else NO_MEMORY)
        else:
            must(ended.printed == b"" and not ended.status == 0, f"{kib} KiB: status {ended.status}")
    must(refusals > 0, "memory was refused in no run")


def no_file_more(program: Program, mode: str) -> None:
    """Opening a file is refused because too many are open: nothing can be read."""
    for number in range(1, 20):
        ended, refused = program.run_with({"OPEN": number}, mode, program.file(mode))
        if not refused:
            must(number > 1, "nothing was opened")
            return ended.must_be(0, program.answers[mode])
        if ended != Ended(0, program.answers[mode], b""):
            ended.must_be(2, NO_READ)
    raise Wrong("20 files are opened")


def few_files(program: Program, mode: str) -> None:
    """Four files may be open, and three of them are: one more is enough."""
    program.run(mode, program.file(mode), before=limited(resource.RLIMIT_NOFILE, 4)).must_be(0, program.answers[mode])


# Calls that are interrupted or cut short: the answer is complete


def each_call(kind: str) -> Callable[[Program, str], None]:
    def each(program: Program, mode: str) -> None:
        for number in range(1, 1000):
            with open(program.file(mode), "rb") as file:
                ended, came = program.run_with({kind: number}, mode, stdin=file)
            ended.must_be(0, program.answers[mode])
            if not came:
                return must(number > 1, "there is no such call")
        raise Wrong("there are 1,000 such calls")

    return each


# Signals


def started(program: Program, *words: str, **files: Any) -> subprocess.Popen[bytes]:
    given: dict[str, Any] = {"stdin": subprocess.PIPE, "stdout": subprocess.PIPE, "stderr": subprocess.PIPE, **files}
    return subprocess.Popen([program.path, *words], **given)


def waits_for_a_reader(process: subprocess.Popen[bytes]) -> bool:
    """Whether the process has written much, and now sleeps."""
    before = waiting_bytes(process.stdout)
    time.sleep(0.1)
    with open(f"/proc/{process.pid}/stat", encoding="ascii", errors="replace") as file:
        sleeps = file.read().rpartition(")")[2].split()[0] == "S"
    return sleeps and waiting_bytes(process.stdout) == before >= 32768


def threads_of(process: subprocess.Popen[bytes]) -> int:
    return len(os.listdir(f"/proc/{process.pid}/task"))


def must_be_ended_by(number: signal.Signals, process: subprocess.Popen[bytes]) -> bytes:
    """The signal ends the process, which prints nothing on standard error. Returns its output."""
    process.send_signal(number)
    printed, said = process.communicate(timeout=MOST_SECONDS)
    must((process.returncode, said) == (-number, b""), f"status {process.returncode}, said {said!r}")
    return printed


def signal_while_reading(number: signal.Signals) -> Callable[[Program, str], None]:
    """The first bytes of the text have arrived and been read."""

    def sent(program: Program, mode: str) -> None:
        with started(program, mode) as process:
            assert process.stdin is not None
            os.write(process.stdin.fileno(), program.texts[mode][:100])
            wait_until(lambda: waiting_bytes(process.stdin) == 0, "the text was read")
            must(must_be_ended_by(number, process) == b"", "it printed something")

    return sent


def signal_while_writing(number: signal.Signals) -> Callable[[Program, str], None]:
    """Nobody reads the answer, and the pipe is full."""

    def sent(program: Program, mode: str) -> None:
        with started(program, mode, program.file(mode), stdin=subprocess.DEVNULL) as process:
            wait_until(lambda: waits_for_a_reader(process), "the pipe is full")
            program.must_be_cut(mode, must_be_ended_by(number, process))

    return sent


def signal_while_running(number: signal.Signals) -> Callable[[Program, str], None]:
    """One component looks for a long time, and another one waits for it."""

    def sent(program: Program, mode: str) -> None:
        path = f"{program.folder}/waits_long"
        with open(path, "w", encoding="ascii") as file:
            file.write(WAITS_LONG)
        with started(program, mode, path, stdin=subprocess.DEVNULL) as process:
            wait_until(lambda: threads_of(process) >= 2, "both threads run")
            must(must_be_ended_by(number, process) == b"", "it printed something")

    return sent


def signal_that_is_ignored(program: Program, mode: str) -> None:
    """If the caller has it ignore SIGHUP, as nohup does, the program goes on to its answer."""
    reader, writer = os.pipe()
    ignored = {"preexec_fn": lambda: signal.signal(signal.SIGHUP, signal.SIG_IGN) and None}
    with started(program, mode, stdin=reader, **ignored) as process:
        os.write(writer, program.texts[mode][:100])
        wait_until(lambda: waiting_bytes(reader) == 0, "the text was read")
        process.send_signal(signal.SIGHUP)
        with open(writer, "wb") as file:
            file.write(program.texts[mode][100:])
        printed, said = process.communicate(timeout=MOST_SECONDS)
        Ended(process.returncode, printed, said).must_be(0, program.answers[mode])
    os.close(reader)


Case = tuple[str, str, Callable[[Program, str], None]]


def cases() -> Iterator[Case]:
    """Each case: its name, its mode, and what is tried."""
    long_modes = ("queue", "run")
    for mode in ("queue", "check", "run", "trace", "judge", "verdicts"):
        yield "a full device", mode, full_device
        yield "a pipe that nobody reads", mode, closed_pipe
        yield "a limit on memory", mode, limit_on_memory
        yield "no file more can be opened", mode, no_file_more
        yield "four files may be open", mode, few_files
        yield "SIGHUP where it is ignored", mode, signal_that_is_ignored
        for kind in ("INTERRUPTED_READ", "SHORT_READ", "INTERRUPTED_WRITE", "SHORT_WRITE"):
            yield f"{kind.lower().replace('_', ' ')}, each in turn", mode, each_call(kind)
        for number in ENDING:
            yield f"{number.name} while it reads", mode, signal_while_reading(number)
    for mode in long_modes:
        yield "a pipe that closes", mode, pipe_that_closes
        yield "a file that may not grow", mode, file_that_is_full
        yield "a small disk that is full", mode, small_disk
        for number in ENDING:
            yield f"{number.name} while it writes", mode, signal_while_writing(number)
    for tried in (pipe_that_closes, file_that_is_full):
        yield f"{tried.__name__.replace('_', ' ')}, with the arrivals", "trace", tried
    yield "no thread to be had", "run", no_threads
    yield "a limit on processes", "run", limit_on_processes
    for number in ENDING:
        yield f"{number.name} in a run in which one waits", "run", signal_while_running(number)


def try_each(tried: Iterable[Case]) -> None:
    """Tries each case on the program of the command line, and prints the result."""
    take_signals()
    words = argparse.ArgumentParser(description="What the program answers where something outside it fails.")
    words.add_argument("program", metavar="PROGRAM")
    words.add_argument("folder", metavar="FOLDER", help="where texts are written")
    words.add_argument("refused", metavar="REFUSED", nargs="?", help="the library of refused.c")
    asked = words.parse_args()
    program = Program(asked.program, asked.folder, asked.refused)
    for name, mode, attempt in tried:
        try:
            attempt(program, mode)
            print(f"passed {name}, mode {mode}", flush=True)
        except LeftOut as why:
            print(f"left out {name}, mode {mode}: {why}", flush=True)
        except (Wrong, subprocess.TimeoutExpired, OSError) as wrong:
            print(f"FAILED: {name}, mode {mode}: {wrong}", flush=True)


if __name__ == "__main__":
    try_each(cases())
