"""Cuts off logs of Titan after each of their characters, and tests that no part says more than the whole log.

    cuts.py LOG..

Each part must be refused; or it must be reported as cut off or as ending early, and its lines must be the first lines
of the whole log. It prints a line `passed LOG` for each log, or one that begins with `FAILED: LOG`.
"""
import argparse
import os
import sys
from collections.abc import Sequence

sys.path.append(os.path.join(os.path.dirname(os.path.realpath(__file__)), "..", "..", "tools"))

from tpr_tools.titan.log import NotALog, read_log
from tpr_tools.titan.trace import section_of


def wrong(text: str, length: int, whole: Sequence[object]) -> str | None:
    try:
        log = read_log(text[:length])
    except NotALog:
        return None
    if log is None:
        return "it is taken for the log of no component"
    log.check_end()
    section = section_of(log)
    if length < len(text) and not section.troubles:
        return "nothing is told"
    return None if [*section.lines] == [*whole[: len(section.lines)]] else "its lines aren't those of the whole log"


def told(path: str) -> str:
    with open(path, encoding="utf-8", newline="") as file:
        text = file.read()
    log = read_log(text)
    assert log is not None, f"{path} is the log of no component"
    whole = section_of(log).lines
    for length in range(len(text) + 1):
        if (reason := wrong(text, length, whole)) is not None:
            return f"FAILED: {path}, cut off behind {length} characters: {reason}"
    return f"passed {path}"


def main() -> None:
    words = argparse.ArgumentParser(description="Cuts logs of Titan's off behind each of their bytes.")
    words.add_argument("logs", metavar="LOG", nargs="+")
    for path in words.parse_args().logs:
        print(told(path), flush=True)


if __name__ == "__main__":
    main()
