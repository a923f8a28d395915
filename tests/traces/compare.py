"""Compares a program that judges traces with the judge in oracle.py, to the line.

    compare.py planted TRACE.. --judge COMMAND..    each trace, and each fault that planting.py plants in it
    compare.py several TRACE.. --judge COMMAND..    each trace, with two to four of these faults, chosen at random
    compare.py cuts TRACE.. --judge COMMAND..       each trace, cut off after each of its bytes
    compare.py bytes TRACE.. --judge COMMAND..      each trace, with each of its bytes replaced by some others
    compare.py played SCRIPT.. --judge COMMAND..    traces of each script, played in a random order
    compare.py chance SEED.. --judge COMMAND..      small random traces, lawful and with a fault; and small ports and
                                                    routes, most of which have a fault

COMMAND, followed by a file, must print what the judge prints, and end with its status. If a trace has several circles,
it may report the first line of any of them. It prints a line `passed N WHAT` for each trace, script or seed, or lines
that begin with `FAILED: WHAT`. It compares as many at once as there are processors.
"""
import argparse
import os
import random
import subprocess
import sys
import tempfile
from collections.abc import Iterator
from concurrent.futures import ProcessPoolExecutor

from chance import small_history, small_route, small_trace
from planting import planted_in
from player import play
from oracle import answers_of

SEVERAL, PLAYED, BY_CHANCE = 100, 2, 25


class Judge:
    """The program, and the file that it is given."""

    def __init__(self, command: list[str], file: str):
        self.command, self.file = command, file

    def answer(self, text: bytes) -> tuple[str, int]:
        with open(self.file, "wb") as file:
            file.write(text)
        run = subprocess.run([*self.command, self.file], stdin=subprocess.DEVNULL, capture_output=True, check=False)
        return run.stdout.decode("latin-1") + run.stderr.decode("latin-1"), run.returncode

    def difference(self, text: bytes) -> str | None:
        """Describes how the two answers to the trace differ, or returns None."""
        allowed, found = answers_of(text), self.answer(text)
        if found in allowed:
            return None
        wanted = "or\n".join(f"{answer}with status {status}\n" for answer, status in allowed)
        return f"wanted\n{wanted}printed, with status {found[1]}\n{found[0]}of\n{text.decode('latin-1')}"


def compared(kind: str, what: str, command: list[str]) -> str:
    """The result of the texts of a trace, script or seed."""
    count = 0
    with tempfile.TemporaryDirectory() as room:
        judge = Judge(command, os.path.join(room, "trace"))
        for how, text in TEXTS[kind](what):
            if (difference := judge.difference(text)) is not None:
                return f"FAILED: {what}, {how}: {difference}"
            count += 1
    return f"passed {count} {what}"


def planted_texts(path: str) -> Iterator[tuple[str, bytes]]:
    text = text_in(path)
    yield "as it is", text
    for planted in planted_in(text):
        yield f"{planted.edit} {planted.line}", planted.text


def texts_of_several(path: str) -> Iterator[tuple[str, bytes]]:
    chance, text = random.Random(os.path.basename(path)), text_in(path)
    for _ in range(SEVERAL):
        changed, edits = text, []
        for _ in range(chance.randrange(2, 5)):
            planted = chance.choice(list(planted_in(changed)))
            changed = planted.text
            edits.append(f"{planted.edit} {planted.line}")
        yield " / ".join(edits), changed


def cut_texts(path: str) -> Iterator[tuple[str, bytes]]:
    text = text_in(path)
    for length in range(len(text)):
        yield f"cut off behind {length} bytes", text[:length]


def texts_of_bytes(path: str) -> Iterator[tuple[str, bytes]]:
    text = text_in(path)
    for place in range(len(text)):
        for byte in b" .0\n\r\x7f":
            yield f"byte {byte} at {place}", text[:place] + bytes([byte]) + text[place + 1 :]


def played_texts(script: str) -> Iterator[tuple[str, bytes]]:
    for seed in range(PLAYED):
        yield f"seed {seed}", play(script, seed).encode("latin-1")


def texts_by_chance(seed: str) -> Iterator[tuple[str, bytes]]:
    chance = random.Random(seed)
    for _ in range(BY_CHANCE):
        text = small_trace(chance)
        yield "a trace", text
        yield "a trace with a fault", chance.choice(list(planted_in(text))).text
        route = small_route(chance)
        sections = [b"component a\n", *map(bytes, route.sent)], [b"component b\n", *map(bytes, route.came)]
        yield "a route", b"".join(line for section in chance.sample(sections, 2) for line in section)
        yield "a port", b"".join([b"component c\n", *map(bytes, small_history(chance))])


def text_in(path: str) -> bytes:
    with open(path, "rb") as file:
        return file.read()


TEXTS = {
    "planted": planted_texts,
    "several": texts_of_several,
    "cuts": cut_texts,
    "bytes": texts_of_bytes,
    "played": played_texts,
    "chance": texts_by_chance,
}


def main() -> int:
    words = argparse.ArgumentParser(description="Compares a program that judges traces with the judge in oracle.py.")
    words.add_argument("kind", choices=TEXTS)
    words.add_argument("texts", metavar="TRACE|SCRIPT|SEED", nargs="+")
    words.add_argument("--judge", metavar="COMMAND", nargs=argparse.REMAINDER, required=True, help="what is compared")
    asked = words.parse_args()
    with ProcessPoolExecutor(len(os.sched_getaffinity(0))) as pool:
        waiting = [pool.submit(compared, asked.kind, text, asked.judge) for text in asked.texts]
        for done in waiting:
            print(done.result(), flush=True)
    return 0


if __name__ == "__main__":
    sys.exit(main())
