"""A judge of traces, written from docs/TRACES.md and not from the code: it prints what `tpr judge` must print.

    oracle.py [FILE]

It prints `lawful`, and `one run` or `delayed line L`; or a line `unlawful RULE line L` for each place; or a
refusal. The status is that of `tpr judge`.
"""
import argparse
import sys

from form import OfAnotherForm, TooLong, read_trace
from lawful import Place, places_of
from one_run import delayed_lines


def answers_of(text: bytes) -> list[tuple[str, int]]:
    """The allowed outputs, each with its status: several if there are several circles."""
    try:
        trace = read_trace(text)
    except TooLong:
        return [("refused 15 Limit line 0\n", 2)]
    except OfAnotherForm as fault:
        return [(f"refused 1 BadLine line {fault.line}\n", 2)]
    told = list(places_of(trace))
    if told != [[]]:
        return [(text_of_places(places), 2) for places in told]
    delayed = delayed_lines(trace)
    return [(f"lawful\ndelayed line {line}\n", 0) for line in delayed] or [("lawful\none run\n", 0)]


def text_of_places(places: list[Place]) -> str:
    return "".join(f"unlawful {place.rule} line {place.line}\n" for place in places)


def answer_of(text: bytes) -> tuple[str, int]:
    """The output and the status. Of several circles, it reports the one that begins first."""
    return answers_of(text)[0]


def main() -> int:
    words = argparse.ArgumentParser(description="Judges a trace.")
    words.add_argument("file", metavar="FILE", nargs="?", help="standard input without it")
    asked = words.parse_args()
    try:
        if asked.file is not None:
            with open(asked.file, "rb") as file:
                text = file.read()
        else:
            text = sys.stdin.buffer.read()
    except OSError:
        print("refused 2 Read")
        return 2
    answer, status = answer_of(text)
    sys.stdout.write(answer)
    return status


if __name__ == "__main__":
    sys.exit(main())
