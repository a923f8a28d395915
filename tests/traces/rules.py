"""Tests the judge of traces in oracle.py, and the modules on which it depends.

    rules.py planted|forms|titan TABLE [--judge COMMAND..]
    rules.py document FILE [--judge COMMAND..]
                                  each row of the table, or each example of the document, has the answer that was worked
                                  out by hand: from the judge in oracle.py, or from the command followed by a file
    rules.py lines FILE           each text has the form of a trace, or its first line of another form is the one that
                                  was found by hand
    rules.py reports TRACE..      each trace of an example, without its arrivals, is a report that the example may have
    rules.py played SCRIPT..      traces of these scripts, played in random orders, are lawful and one run
    rules.py tried NUMBER         a small trace is judged to be one run if and only if some order of its lines is a run;
                                  the first line of each circle of a small graph is found; and the places of ports and
                                  routes are those of docs/MODEL.md. There are NUMBER random ones of each. At least a
                                  twentieth must be of each of two kinds

Each prints lines `passed ..`, or lines that begin with `FAILED: `.
"""
import argparse
import os
import random
import re
import sys
import tempfile
from collections.abc import Callable, Iterator
from pathlib import Path

sys.path.append(os.path.join(os.path.dirname(os.path.realpath(__file__)), "..", "program"))

import example_files
from chance import small_graph, small_history, small_route, small_trace
from circles import firsts_of_circles
from compare import Judge
from form import Line, OfAnotherForm, Section, read_trace
from histories import first_unlawful, queued
from lawful import place_of_port, place_of_route, places_of, places_of_route
from one_run import delayed_lines, is_one_run_by_trying
from planting import plant
from player import play
from oracle import answer_of
from runs import without_arrivals

SEEDS = 3

_EXAMPLE = re.compile(r"^```\n(.*?)^```\n\n((?:`[^`]+`(?:, )?)+)", re.DOTALL | re.MULTILINE)


def rows(path: str) -> Iterator[tuple[str, str]]:
    """The rows of a table, `WHAT => ANSWER; ANSWER`: the text before the answers, and the answers as they are printed.
    A line that begins with `#` is a comment."""
    with open(path, encoding="ascii") as file:
        for line in file:
            what, arrow, answers = line.removesuffix("\n").rpartition(" => ")
            if arrow and not line.startswith("#"):
                yield what, "".join(f"{answer}\n" for answer in answers.split("; "))


def planted(path: str, what: str) -> bytes:
    """The trace of a row `TRACE: EDIT LINE / EDIT LINE ..` of the table in this file."""
    name, _, edits = what.partition(": ")
    with open(os.path.join(os.path.dirname(path), "lawful", f"{name}.trace"), "rb") as file:
        text = file.read()
    for edit in edits.split(" / "):
        if found := re.fullmatch("put ([0-9]+) (.+)", edit):
            lines = text.splitlines(True)
            lines[int(found[1]) - 1] = found[2].encode("ascii") + b"\n"
            text = b"".join(lines)
        else:
            text = plant(text, *edit.rsplit(" ", 1))
    return text


def form(_: str, what: str) -> bytes:
    """The text of a row of forms.table."""
    return what.encode("ascii").decode("unicode_escape").encode("latin-1")


def titan(path: str, what: str) -> bytes:
    """The trace beside the logs of the folder that a row names."""
    with open(os.path.join(os.path.dirname(path), what, "trace"), "rb") as file:
        return file.read()


def rows_of_document(path: str) -> Iterator[tuple[str, str]]:
    """The examples of a document: a fenced trace, followed by a line of answers in backquotes."""
    with open(path, encoding="utf-8") as file:
        for trace, answers in _EXAMPLE.findall(file.read()):
            yield trace, "".join(f"{answer}\n" for answer in re.findall("`([^`]+)`", answers))


def document(_: str, what: str) -> bytes:
    return what.encode("ascii")


TEXTS: dict[str, Callable[[str, str], bytes]] = {
    "planted": planted,
    "forms": form,
    "titan": titan,
    "document": document,
}


def answered(kind: str, path: str, answer: Callable[[bytes], tuple[str, int]]) -> Iterator[str]:
    """The result of each row of the table, or of each example of the document."""
    for what, wanted in rows_of_document(path) if kind == "document" else rows(path):
        text = TEXTS[kind](path, what)
        found = answer(text)
        if found == (wanted, 0 if wanted.startswith("lawful") else 2):
            yield f"passed {what!r}"
        else:
            yield f"FAILED: {what}: with status {found[1]} it is said\n{found[0]}and wanted\n{wanted}of\n{text!r}"


def first_bad(text: bytes) -> str:
    """The number of the first line of another form, or `read` if there is none."""
    try:
        read_trace(text)
    except OfAnotherForm as bad:
        return str(bad.line)
    return "read"


def lines(path: str) -> Iterator[str]:
    """The result of each text of the file. Each follows `read`, or the number of its first line of another form."""
    with open(path, encoding="ascii") as file:
        for row in file:
            wanted, _, text = row.removesuffix("\n").partition(" ")
            if not wanted or row.startswith("#"):
                continue
            found = first_bad(form(path, text))
            yield f"passed {text!r}" if found == wanted else f"FAILED: {text}: {found}, and {wanted} is wanted"


def reports(path: str) -> Iterator[str]:
    """The result of a trace that has the name of an example; other traces have none."""
    example, trace = f"{Path(path).stem}.ttcn", Path(path).read_text(encoding="latin-1")
    if not any((it / example).exists() for it in example_files.FOLDERS):
        return
    allowed = [it.read_text(encoding="latin-1") for it in example_files.answers(example_files.example(example))]
    is_one = without_arrivals(trace) in allowed
    yield f"passed {path}" if is_one else f"FAILED: {path} without its arrivals isn't a report of {example}"


def played(script: str) -> str:
    for seed in range(SEEDS):
        text = play(script, seed)
        if (answer := answer_of(text.encode("latin-1"))) != ("lawful\none run\n", 0):
            return f"FAILED: {script}, seed {seed}: {answer[0]}of\n{text}"
    return f"passed {SEEDS} {script}"


def of_two_kinds(one: int, number: int, what: str) -> str:
    """The result of a test in which `one` of the number were of one kind. With too few of either kind it fails."""
    return f"FAILED: {what} of {number}" if min(one, number - one) < number // 20 else f"passed {what}"


def tried(number: int) -> str:
    chance, one = random.Random(number), 0
    for _ in range(number):
        text = small_trace(chance)
        trace = read_trace(text)
        if list(places_of(trace)) != [[]]:
            return f"FAILED: this should be lawful\n{text.decode('latin-1')}"
        lines, is_one = delayed_lines(trace), is_one_run_by_trying(trace)
        if (lines == []) is not is_one:
            return f"FAILED: the demands say delayed lines {lines}, all orders {is_one}\n{text.decode('latin-1')}"
        one += is_one
    return of_two_kinds(one, number, f"{one} one run, {number - one} delayed")


def followed(behind: dict[int, list[int]], first: int) -> dict[int, set[int]]:
    """The lines that follow each line in any number of steps, if only the lines from the first one on exist."""
    follows = {line: {it for it in others if it >= first} for line, others in behind.items() if line >= first}
    for _ in behind:
        follows = {line: others.union(*(follows[it] for it in others)) for line, others in follows.items()}
    return follows


def graphs(number: int) -> str:
    """Compares the first lines of circles with what follows each line, and the first of all with lines on circles."""
    chance, with_several = random.Random(number), 0
    for _ in range(number):
        behind = small_graph(chance)
        wanted = [line for line in sorted(behind) if line in followed(behind, line)[line]]
        if (found := list(firsts_of_circles(behind))) != wanted:
            return f"FAILED: the first lines of circles of {behind} are {wanted}, and not {found}"
        on_circles = [line for line, others in followed(behind, 0).items() if line in others]
        if wanted[:1] != sorted(on_circles)[:1]:
            return f"FAILED: the first line on a circle of {behind} is {sorted(on_circles)[0]}"
        with_several += len(wanted) > 1
    return of_two_kinds(with_several, number, f"{with_several} graphs with several circles")


def ports(number: int) -> str:
    """Compares the first unlawful line of a port, and its queue at the end, with what the histories say."""
    chance, unlawful = random.Random(number), 0
    for _ in range(number):
        history = small_history(chance)
        wanted = first_unlawful(history)
        found = place_of_port(Section(b"a", 1, [Line(0, b"end")]), history)
        if wanted is not None and (found is None or found.line != history[wanted].place or found.rule == "Left"):
            return f"FAILED: line {history[wanted].place} is unlawful, and not {found}, of {history}"
        if wanted is None and (found is None) is not (queued(history) == []):
            return f"FAILED: {queued(history)} is queued in the end, and {found} is told, of {history}"
        unlawful += wanted is not None
    return of_two_kinds(unlawful, number, f"{unlawful} unlawful ports")


def routes(number: int) -> str:
    """A route has a place if and only if the arrivals differ from the sendings, or its numbers aren't 0, 1, 2 and so
    on; and the reported place is one of those that it has."""
    chance, lawful = random.Random(number), 0
    for _ in range(number):
        route = small_route(chance)
        sent, came = ([(line.number, line.message) for line in lines] for lines in (route.sent, route.came))
        is_lawful = sent == came and [one for one, _ in sent] == list(range(len(sent)))
        places, told = list(places_of_route(route)), place_of_route(route)
        if is_lawful is not (places == []) or (told not in places if places else told is not None):
            return f"FAILED: lawful {is_lawful}, there are {places}, and {told} is told, of {route}"
        lawful += is_lawful
    return of_two_kinds(lawful, number, f"{lawful} lawful routes")


def judge_of(command: list[str], room: str) -> Callable[[bytes], tuple[str, int]]:
    """The judge with this command, or that of oracle.py without one."""
    return Judge(command, os.path.join(room, "trace")).answer if command else answer_of


def main() -> int:
    words = argparse.ArgumentParser(description="Tests the judge of traces in oracle.py, and what it stands on.")
    words.add_argument("what", choices=(*TEXTS, "lines", "reports", "played", "tried"))
    words.add_argument("words", metavar="TABLE|FILE|TRACE|SCRIPT|NUMBER", nargs="+")
    words.add_argument("--judge", metavar="COMMAND", nargs=argparse.REMAINDER, default=[], help="asked in its place")
    asked = words.parse_args()
    if asked.what in TEXTS:
        with tempfile.TemporaryDirectory() as room:
            for line in answered(asked.what, asked.words[0], judge_of(asked.judge, room)):
                print(line, flush=True)
    elif asked.what == "lines":
        for line in lines(asked.words[0]):
            print(line, flush=True)
    elif asked.what == "reports":
        for line in (line for trace in asked.words for line in reports(trace)):
            print(line, flush=True)
    elif asked.what == "played":
        for script in asked.words:
            print(played(script), flush=True)
    else:
        for test in (tried, graphs, ports, routes):
            print(test(int(asked.words[0])), flush=True)
    return 0


if __name__ == "__main__":
    sys.exit(main())
