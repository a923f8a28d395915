#!/usr/bin/env python3
"""tools/compare: reports that are equal, equal except for the order between senders, and different.

    tests/tools/comparisons.py FOLDER

Reports are written into FOLDER.
"""
from __future__ import annotations

import sys
from pathlib import Path

sys.dont_write_bytecode = True

from example_reports import named
from tool_calls import ROOT, case, example_files, run, texts_in, try_groups_of, words_of

COMPARE = ROOT / "tools" / "compare"
EQUAL_EXCEPT_FOR_THE_ORDER = "equal except for the order between senders\n"
PRINTED = texts_in("printed.texts")


def compared(name: str, status: int, printed: str, one: Path, other: Path) -> None:
    with case(f"compare: {name}"):
        run(COMPARE, one, other).must_print(printed, status)


# The output for reports that differ


def printed(name: str, status: int, one: Path, other: Path) -> None:
    compared(name, status, PRINTED[name], one, other)


def comparisons(folder: Path) -> None:
    login, one = named("login"), named("stop")
    lines = login.read_text(encoding="utf-8").splitlines(keepends=True)
    compared("a report with itself", 0, "equal\n", login, login)
    printed("two orders", 0, one, one.with_suffix(".2"))
    failed = [it.replace("pass", "fail", 1) if number in (4, 9, 17) else it for number, it in enumerate(lines, 1)]
    printed("another verdict", 5, login, written(folder / "failed", failed))
    guest = [it.replace("guess", "guest", 1) for it in lines]
    printed("another message", 5, login, written(folder / "guest", guest))
    later = [*lines[:3], lines[4], lines[3], *lines[5:]]
    printed("a verdict that is set later", 5, login, written(folder / "later", later))
    printed("other components", 5, login, one)


def written(file: Path, lines: list[str]) -> Path:
    file.write_text("".join(lines), encoding="utf-8")
    return file


# Reports in which mtc takes a message of a and one of b, and sets a verdict

ENTRIES = {
    "a_then_b": "took p a 0 integer:1|took p b 0 integer:1|set fail",
    "b_then_a": "took p b 0 integer:1|took p a 0 integer:1|set fail",
    "a_then_fail": "took p a 0 integer:1|set fail|took p b 0 integer:1",
    "three": "took p a 0 integer:1|took p b 0 integer:1|took p a 1 integer:1|set fail",
    "fail_between": "took p b 0 integer:1|took p a 0 integer:1|set fail|took p a 1 integer:1",
    "sent_to_a": "sent a.p 0 integer:2|sent b.p 0 integer:2|took p a 0 integer:1|took p b 0 integer:1",
    "sent_to_b": "sent b.p 0 integer:2|sent a.p 0 integer:2|took p a 0 integer:1|took p b 0 integer:1",
}


def report_of_two_senders(name: str) -> list[str]:
    entries = ENTRIES[name].split("|")
    sends = name.startswith("sent_")
    result = "none" if sends else "fail"
    lines = ["component mtc", *entries, "end done", f"verdict {result}"]
    for sender in ("a", "b"):
        messages = 2 if f"took p {sender} 1 integer:1" in entries else 1
        lines += [f"component {sender}", *(f"sent mtc.p {number} integer:1" for number in range(messages))]
        lines += ["end done", "verdict none", *(["left p mtc 0 integer:2"] if sends else [])]
    return [f"{line}\n" for line in (*lines, f"result {result}")]


OPEN, OWN_ORDER = "mtc, open: which came first", "mtc, the order of what it did"
A, B, FAIL, SECOND_OF_A = "took p a 0 integer:1", "took p b 0 integer:1", "set fail", "took p a 1 integer:1"
TO_A, TO_B = "sent a.p 0 integer:2", "sent b.p 0 integer:2"
# The name, the two reports, and the difference: its kind, the line, and the text there in each report.
Place = tuple[str, int, str, str]
OF_TWO_SENDERS: tuple[tuple[str, str, str, tuple[Place, ...]], ...] = (
    ("two senders", "a_then_b", "b_then_a", ((OPEN, 2, A, B),)),
    ("a verdict between two senders", "a_then_b", "a_then_fail", ((OWN_ORDER, 3, B, FAIL),)),
    ("the same behind each message", "b_then_a", "a_then_fail", ((OPEN, 2, B, A),)),
    (
        "a verdict at another place behind an open order",
        "three",
        "fail_between",
        ((OWN_ORDER, 4, SECOND_OF_A, FAIL), (OPEN, 2, A, B)),
    ),
    ("the order of its own sendings", "sent_to_a", "sent_to_b", ((OWN_ORDER, 2, TO_A, TO_B),)),
)


def comparisons_of_two_senders(folder: Path) -> None:
    reports = {name: written(folder / name, report_of_two_senders(name)) for name in ENTRIES}
    for name, one, other, places in OF_TWO_SENDERS:
        is_open = all(what == OPEN for what, *_ in places)
        status, head = (0, EQUAL_EXCEPT_FOR_THE_ORDER) if is_open else (5, "different\n")
        lines = (f"{what}\n  - report A, line {at}: {a}\n  + report B, line {at}: {b}\n" for what, at, a, b in places)
        compared(name, status, "".join([head, *lines]), reports[one], reports[other])


# The reports of the examples


def comparisons_of_examples(folder: Path) -> None:
    for second in pairs_of_examples():
        first = second.with_suffix(".1")
        ends = {it.read_bytes().splitlines()[-1] for it in (first, second)}
        results = "one result" if len(ends) == 1 else "two results"
        with case(f"compare: the first two reports of {second.stem}, of {results}"):
            ended = run(COMPARE, first, second)
            if len(ends) == 1:
                ended.must_show(f"^{EQUAL_EXCEPT_FOR_THE_ORDER}").must_say_nothing()
            else:
                ended.must_show("^the result$", 5).must(ended.text.startswith("different\n"), "they differ")
    missing = folder / "missing"
    with case("compare: a missing file"):
        run(COMPARE, named("login"), missing).must_say(f"compare: {missing} can't be read", 2)
    with case("compare: one file"):
        run(COMPARE, named("login")).must_complain("^usage: compare", 4)


def pairs_of_examples() -> list[Path]:
    """The second report of each example that may have two."""
    found = [it for script in example_files.texts("ttcn") for it in example_files.answers(script)]
    return [it for it in found if it.suffix == ".2"]


GROUPS = ((comparisons, 6), (comparisons_of_two_senders, len(OF_TWO_SENDERS)), (comparisons_of_examples, 2))

if __name__ == "__main__":
    sys.exit(try_groups_of(Path(*words_of(__doc__, "FOLDER")).resolve(), GROUPS))
