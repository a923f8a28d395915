#!/usr/bin/env python3
"""Tests the program's command line, its input and its output.

    tests/program/command_line.py PROGRAM

It prints a line `passed NAME` for each case, or lines that begin with `FAILED: NAME`.
"""
from __future__ import annotations

import argparse
import os
import subprocess
import sys
import tempfile
from collections.abc import Iterator
from pathlib import Path
from typing import Any, NamedTuple

sys.dont_write_bytecode = True

from calling import MOST_SECONDS, Cases, Ended, Word, call, opened, printed_by
from refusing import NO_READ, must

USAGE, TOO_LONG = b"usage: tpr MODE [FILE]\n", b"refused 15 Limit line 0\n"
MODES = ("queue", "check", "run", "trace", "judge", "verdicts")
NO_TEXT = b"\xff"
TEXT, ANSWER = b"arrive a 1\nreceive ?\n", b"queued\ntook a 1\nleft 0\n"
LAWFUL = b"lawful\none run\n"
MOST_BYTES = 1 << 20  # of a text

SENDS_TWICE = b"""module M { type port P message { inout integer; } type component C { port P p, q; }
    testcase t() runs on C { connect(self:p, self:q); p.send(integer:4); p.send(integer:5); q.receive(integer:4); } }"""


class Program:
    """The program, a folder in which it is called, and the cases."""

    def __init__(self, path: str, folder: Path):
        self.path, self.folder, self.cases = os.path.abspath(path), folder, Cases()

    def answers(self, name: str, words: list[Word], status: int, printed: bytes, said: bytes = b"", **how: Any) -> None:
        """The program, called with these words, must end so."""
        self.cases.must_end(name, call([self.path, *words], cwd=self.folder, **how), status, printed, said)

    def write(self, name: str, text: bytes) -> Path:
        (self.folder / name).write_bytes(text)
        return self.folder / name


def command_lines(program: Program) -> None:
    """Wrong command lines, to which the program prints only its usage."""
    lines: dict[str, list[Word]] = {
        "no word": [],
        "an unknown word": ["replay"],
        "an empty word": [""],
        "a mode in capitals": ["QUEUE"],
        "a mode that begins with a capital": ["Queue"],
        "another mode that begins with a capital": ["Run"],
        "a mode with a space": ["queue "],
        "three words": ["queue", "text", "text"],
        "three words, the last of which is a mode": ["queue", "text", "check"],
        "--help alone": ["--help"],
        "a mode that is no text": [NO_TEXT],
        "a file name that is no text": ["queue", NO_TEXT],
    }
    for name, words in lines.items():
        program.answers(name, words, 4, b"", USAGE)


def what_cannot_be_read(program: Program) -> None:
    """A file that can't be read, while standard input has a text; and a standard input that can't be read."""
    text, folder = program.write("text", TEXT), program.folder / "a folder"
    folder.mkdir()
    files = {
        "a missing file": "missing",
        "a file in a missing folder": "missing/text",
        "a folder": "a folder",
        "a file as a folder": "text/text",
        "an empty file name": "",
        "a minus sign as a missing file": "-",
        "--help as a missing file": "--help",
    }
    for name, mode in ((name, mode) for name in files for mode in MODES):
        with opened(text) as given:
            program.answers(f"{name} in mode {mode}", [mode, files[name]], 2, NO_READ, stdin=given)
    with opened(folder) as given:
        program.answers("a folder on standard input", ["queue"], 2, NO_READ, stdin=given)
    program.answers("a closed standard input", ["queue"], 2, NO_READ, closed=[0])


def what_is_read(program: Program) -> None:
    """The same text in files with several names, and on standard input, also in pieces."""
    text, folder = program.write("text", TEXT), program.folder
    program.write("--help", TEXT)
    program.write("a folder/a text", TEXT)
    (folder / "link").symlink_to("text")
    (folder / "program").symlink_to(program.path)
    program.answers("--help as a file", ["queue", "--help"], 0, ANSWER)
    program.answers("a file in a folder, names with spaces", ["queue", "a folder/a text"], 0, ANSWER)
    program.answers("a file by its whole path", ["queue", str(text)], 0, ANSWER)
    program.answers("a link to a file", ["queue", "link"], 0, ANSWER)
    with opened(program.write("other", b"halt\n")) as other:
        program.answers("a file goes before standard input", ["queue", "text"], 0, ANSWER, stdin=other)
    with opened(text) as given:
        program.answers("standard input", ["queue"], 0, ANSWER, stdin=given)
    pieces = [b"arr", b"ive a 1", b"\nre", b"ceive ?", b"\n"]
    program.answers("standard input that comes in pieces", ["queue"], 0, ANSWER, pieces=pieces)
    pieces = [b"compo", b"nent a", b"\nelse", b"\n"]
    program.answers("a trace that comes in pieces and is one", ["judge"], 0, LAWFUL, pieces=pieces)
    pieces[-1] = b"\ncame p b"
    bad = b"refused 1 BadLine line 3\n"
    program.answers("a trace that comes in pieces", ["judge"], 2, bad, pieces=pieces)
    through_link = call(["./program", "queue", "text"], cwd=folder)
    program.cases.must_end("the program through a link", through_link, 0, ANSWER)


class Text(NamedTuple):
    """A text, and its answer in a mode."""

    name: str
    mode: str
    status: int
    text: bytes
    answer: bytes


def what_sends_twice_does(*came: str) -> bytes:
    """The report of a component that sends twice to itself, or its trace, with these arrivals."""
    sent, ends = ["component mtc", "sent mtc.q 0 integer:4", "sent mtc.q 1 integer:5"], ["end done", "verdict none"]
    lines = [*sent, *came, "took q mtc 0 integer:4", *ends, "left q mtc 1 integer:5", "result none"]
    return "".join(f"{line}\n" for line in lines).encode()


def listed_texts() -> Iterator[Text]:
    """Texts for each mode, some without the end of their last line."""
    yield Text("a queue file without a line", "queue", 0, b"", b"left 0\n")
    halts = b"arrive a 1\nhalt\narrive a 2\nreceive ?\nreceive ?\n"
    answer = b"queued\nhalted 1\nqueued\ntook a 1\nno\nleft 1\na 2\n"
    yield Text("a message before a halt, and one behind it", "queue", 0, halts, answer)
    large = b"arrive a 9223372036854775808"
    yield Text("an integer too large, in a line without its end", "queue", 2, large, b"refused 1 BadLine line 1\n")
    yield Text("an empty line", "queue", 2, b"halt\n\nhalt\n", b"refused 1 BadLine line 2\n")
    yield Text("a trace without a line", "judge", 0, b"", LAWFUL)
    came = b"component a\nsent b.p 0 m\ncomponent b\ncame p a 0 m\ntook p a 0 m\nend done\n"
    yield Text("a message that came, and was taken", "judge", 0, came, LAWFUL)
    never = b"component a\nsent b.p 0 m\ncomponent b\ntook p a 0 m\n"
    answer = b"unlawful Lost line 2\nunlawful NotTop line 4\n"
    yield Text("a message that was taken, and never came", "judge", 2, never, answer)
    early = b"component a\nsent"
    yield Text("a line of a trace that ends early", "judge", 2, early, b"refused 1 BadLine line 2\n")
    yield Text("a script that is right", "check", 0, SENDS_TWICE, b"accepted\n")
    yield Text("its report", "run", 0, SENDS_TWICE, what_sends_twice_does())
    trace = what_sends_twice_does("came q mtc 0 integer:4", "came q mtc 1 integer:5")
    yield Text("its trace, with what came where it came", "trace", 0, SENDS_TWICE, trace)
    yield Text("its one verdict", "verdicts", 0, SENDS_TWICE, b"always none\nstates 1\n")


def texts(program: Program) -> None:
    """A text has the same answer on standard input and in a file, where standard input has another text."""
    listed = [*listed_texts()]
    must(len({(it.mode, it.text) for it in listed}) == len(listed), "two have the same text in the same mode")
    other = program.write("other", b"no line of any\n")
    for it in listed:
        given = program.write("given", it.text)
        with opened(given) as stdin:
            program.answers(f"{it.name}, on standard input", [it.mode], it.status, it.answer, stdin=stdin)
        with opened(other) as stdin:
            program.answers(f"{it.name}, in a file", [it.mode, "given"], it.status, it.answer, stdin=stdin)


def of_a_file_and_a_pipe(program: Program, name: str, text: bytes, status: int, answer: bytes) -> None:
    program.write("long", text)
    program.answers(name, ["queue", "long"], status, answer)
    with printed_by("cat", str(program.folder / "long")) as pipe:
        program.answers(f"{name}, through a pipe", ["queue"], status, answer, stdin=pipe)


def limits(program: Program) -> None:
    """A text may have 1,048,576 bytes. A longer one isn't read to its end, although some read-ahead is allowed."""
    longest = b"halt\n" * 209714 + b"clear\n"
    must(len(longest) == MOST_BYTES, f"the longest text has {len(longest)} bytes")
    answer = b"halted 0\n" + b"unchanged\n" * 209713 + b"cleared 0\nleft 0\n"
    of_a_file_and_a_pipe(program, "the longest text", longest, 0, answer)
    of_a_file_and_a_pipe(program, "a text one byte too long", longest + b"\n", 2, TOO_LONG)
    program.write("long", b"resume\n" + longest)
    program.answers("a text too long that begins with a bad line", ["queue", "long"], 2, TOO_LONG)
    with opened(program.write("long", 4 * longest)) as given:
        program.answers("a text far too long", ["queue"], 2, TOO_LONG, stdin=given)
        rest = 4 * MOST_BYTES - os.lseek(given, 0, os.SEEK_CUR)
    program.cases.must_be("a text far too long isn't read to its end", rest > 3_000_000, True)


def reader_that_leaves(program: Program) -> Ended:
    """How the program ends if its reader closes the pipe after a line, with that line."""
    words = [program.path, "queue", "many"]
    how: dict[str, Any] = {"stdin": subprocess.DEVNULL, "stdout": subprocess.PIPE, "stderr": subprocess.PIPE}
    with subprocess.Popen(words, cwd=program.folder, **how) as process:
        assert process.stdout is not None and process.stderr is not None
        printed = process.stdout.readline()
        process.stdout.close()
        process.wait(MOST_SECONDS)
        return Ended(process.returncode, printed, process.stderr.read())


def writing(program: Program) -> None:
    """The program prints into a file that takes nothing, or not everything."""
    for name, text in (("many", b"halt\n" * 200000), ("text", TEXT), ("bad", b"resume\n"), ("trace", b"component a\n")):
        program.write(name, text)
    must(not (program.folder / "missing").exists(), "there is a file of the name missing")
    program.cases.must_end("a reader that leaves after a line", reader_that_leaves(program), 3, b"halted 0\n")
    for line in (
        "queue many", "queue text", "queue bad", "queue missing", "judge trace", "judge bad", "judge missing"
    ):
        words: list[Word] = [*line.split()]
        with open("/dev/full", "wb") as full:
            program.answers(f"a full device, with the words {line}", words, 3, b"", stdout=full)
        program.answers(f"a closed standard output, with the words {line}", words, 3, b"", closed=[1])


# Each group, with its minimum number of cases.
GROUPS = ((command_lines, 12), (what_cannot_be_read, 44), (what_is_read, 10), (texts, 24), (limits, 7), (writing, 15))


def main() -> int:
    words = argparse.ArgumentParser(description="What the program makes of its command line, and of its streams.")
    words.add_argument("program", metavar="PROGRAM")
    path = words.parse_args().program
    with tempfile.TemporaryDirectory() as folder:
        program = Program(path, Path(folder))
        return program.cases.try_groups(program, GROUPS)


if __name__ == "__main__":
    sys.exit(main())
