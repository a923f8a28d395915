"""Rules for the output of tools/, independent of its code: charts are well-formed and show what their reports say, rows
are an order that the ports allow, cut reports are refused, JUnit files are valid. A broken rule raises an exception.

It also runs commands that are interrupted, or on a terminal.
"""
from __future__ import annotations

import contextlib
import functools
import os
import pty
import random
import re
import signal
import subprocess
import sys
import time
import xml.etree.ElementTree as xml
from collections.abc import Iterable
from pathlib import Path
from typing import Any, Optional

from played import Played, Small, Unplayable, changed, has_order
from random_reports import Run
from tool_calls import Ended, Word, Wrong, must, read
from tpr_tools.chart.letters import letters_of
from tpr_tools.chart.part import Asked, part_of
from tpr_tools.chart.sequence import Sequence, sequence_of
from tpr_tools.chart.svg import svg_of
from tpr_tools.report.deliveries import deliveries_of
from tpr_tools.report.differences import EQUAL, compare
from tpr_tools.report.order import rows_of
from tpr_tools.report.reader import read_report
from tpr_tools.report.report import NotAReport

SVG = "{http://www.w3.org/2000/svg}"
ENDS = ("took", "found", "dropped", "left")


def check_charts(*files: Path) -> None:
    for report, svg in zip(files[::2], files[1::2]):
        try:
            check_drawing(read(report), read(svg))
        except (Wrong, xml.ParseError) as wrong:
            raise Wrong(f"{svg}: {wrong}") from None


def check_drawing(report: str, svg: str) -> None:
    """The chart of a report; both are texts."""
    root = xml.fromstring(svg.encode())
    must(root.tag == f"{SVG}svg" and root.get("role") == "img", "it is no picture")
    for part in ("title", "desc"):
        element = root.find(f"{SVG}{part}")
        must(element is not None and element.text and element.get("id"), f"it has no {part}")
        assert element is not None
        must(element.get("id") in root.get("aria-labelledby", "").split(), f"its {part} isn't named")
    lines = report.splitlines()
    for word in ENDS:
        arrows = [path for path in root.iter(f"{SVG}path") if path.get("class") == word]
        wanted = sum(line.startswith(f"{word} ") for line in lines)
        must(len(arrows) == wanted, f"{len(arrows)} arrows, and {wanted} lines {word}")
        must(all(arrow.get("marker-end") for arrow in arrows), f"an arrow {word} has no end")
    check_texts(root, lines)
    check_strokes(root)
    check_legend(root)


def number_of(element: xml.Element, name: str) -> float:
    """The value of this attribute."""
    found = element.get(name)
    must(found is not None, f"{element.tag} has no {name}")
    return float(found or "")


def check_inside(root: xml.Element) -> None:
    """No text may extend beyond the picture."""
    width, height = number_of(root, "width"), number_of(root, "height")
    for text in root.iter(f"{SVG}text"):
        must(0 < number_of(text, "y") < height, f"{text.text!r} stands outside")
        check_width(text, width)


def check_texts(root: xml.Element, lines: list[str]) -> None:
    """The texts are there and within the picture, and each row that shows an entry has its line."""
    check_inside(root)
    texts = list(root.iter(f"{SVG}text"))
    shown = [text.text or "" for text in texts]
    for line in lines:
        if re.match("component|set|result|end|verdict", line):
            word = line.removeprefix("component ")
            must(any(is_shown(word, text) for text in shown), f"{line!r} isn't shown")
    told = "\n".join(title.text or "" for title in root.iter(f"{SVG}title"))
    for line in lines:
        must(line.startswith(("component ", "result ")) or line in told, f"{line!r} isn't told")
    groups = [group for group in root.iter(f"{SVG}g") if group.get("aria-hidden") != "true"]
    must(all(group.get("aria-label") for group in groups), "a group has no label")


def is_shown(word: str, text: str) -> bool:
    """Whether the word is shown, whole or with its end or middle left out. Other words may follow it."""
    before, cut, behind = text.partition("…")
    return text.startswith(word) or (cut != "" and word.startswith(before) and word.endswith(behind))


def check_width(text: xml.Element, width: float) -> None:
    letter = 11.2 if text.get("class") == "head" else 7.25
    if "small" in (text.get("class") or "") or "strip" in (text.get("class") or ""):
        letter = 6.65
    x, long = number_of(text, "x"), len(text.text or "") * letter
    left = x - long if "end" in (text.get("class") or "").split() else x
    left = x - long / 2 if "middle" in (text.get("class") or "").split() else left
    must(left >= -2 and left + long <= width + 2, f"{text.text!r} is clipped")


def check_strokes(root: xml.Element) -> None:
    """No arrow over several rows may cross a text or a badge: it must be beside the middle of each."""
    middles = [middle_of(text) for text in root.iter(f"{SVG}text") if "halo" in (text.get("class") or "")]
    for badge in root.iter(f"{SVG}rect"):
        if badge.get("rx") == "9":
            x, y, width = (number_of(badge, name) for name in ("x", "y", "width"))
            middles.append((x, x + width, y + 9, "a badge"))
    for path in root.iter(f"{SVG}path"):
        if path.get("class") in ENDS:
            for left, right, y, told in middles:
                at = place_at(path.get("d") or "", y)
                must(at is None or not left < at < right, f"an arrow strikes through {told}: {path.get('d')}")


def middle_of(text: xml.Element) -> tuple[float, float, float, str]:
    """Where it begins and ends, the height of its middle, and its text."""
    classes = (text.get("class") or "").split()
    long = len(text.text or "") * (6.65 if "small" in classes else 7.25)
    x = number_of(text, "x") - (long if "end" in classes else long / 2 if "middle" in classes else 0)
    return x, x + long, number_of(text, "y") - 4, text.text or ""


def place_at(way: str, y: float) -> Optional[float]:
    """The place of an arrow at this height, if it goes down there."""
    if found := re.fullmatch(r"M([-0-9.]+) ([-0-9.]+)L([-0-9.]+) ([-0-9.]+)", way):
        x, top, to_x, foot = map(float, found.groups())
        return x + (to_x - x) * (y - top) / (foot - top) if top < y < foot else None
    if found := re.fullmatch(r"M([-0-9.]+) ([-0-9.]+)h([-0-9.]+)V([-0-9.]+)H[-0-9.]+", way):
        x, top, far, foot = map(float, found.groups())
        return x + far if top < y < foot else None
    return None


def check_legend(root: xml.Element) -> None:
    """A sign is explained below each chart in which it occurs, and in no other."""
    classes = [path.get("class") or "" for path in root.iter(f"{SVG}path")]
    arrows = [path.get("d") or "" for path in root.iter(f"{SVG}path") if path.get("class") in (*ENDS, "discarded")]
    texts = [text.text or "" for text in root.iter(f"{SVG}text")]
    for word in (*ENDS[1:], "discarded"):
        must((word in classes) == (f"{word} key" in classes), f"what {word} means is told wrongly")
    has_stubs = any("m0 -4v8M" in way for way in arrows)
    must(has_stubs == ("took key" in classes), "what an arrow of two ends means is told wrongly")
    has_numbers = any(re.search(r"^to \w+ #\d+ ", text) or re.search(r" from \w+ #\d+$", text) for text in texts)
    must(has_numbers <= ("#0" in texts), "what the number of a message means isn't told")


def check_orders(*files: Path) -> None:
    for file in files:
        check_order(read(file).encode(), file)


def check_order(data: bytes, file: object) -> None:
    """The rows are an order of all entries that the ports allow, and each message is discarded where the tool says."""
    deliveries = deliveries_of(read_report(data))
    rows = rows_of(deliveries)
    places = [(place.component, place.entry) for row in rows for place in (row.first, row.second) if place]
    discarded: dict[tuple[int, int], list[tuple[Any, ...]]] = {
        (place.component, place.entry): [(message.route.sender, str(message.number)) for message in messages]
        for place, messages in deliveries.discarded.items()
    }
    try:
        Played(data.decode().splitlines()).play(places, discarded)
    except Unplayable as wrong:
        raise Wrong(f"{file}: {wrong}") from None


def check_played(number: int) -> None:
    for seed in range(number):
        check_order(Run(seed).report().encode(), f"seed {seed}")


def check_tried(number: int) -> None:
    """Tests the report of each small run, and three that differ from it in a line or two."""
    counts = {True: 0, False: 0, None: 0}
    for seed in range(number):
        lines = Small(seed).lines()
        for text in (lines, *(changed(lines, f"{seed} {turn}") for turn in range(3))):
            has = has_order(text)
            counts[has] += 1
            data = "".join(f"{line}\n" for line in text).encode()
            is_refused = refused_at(data) is not None
            must(has is None or has != is_refused, f"seed {seed}: an order {has}, refused {is_refused}: {text}")
            if has:
                check_order(data, f"seed {seed}: {text}")
    least = number // 2
    must(counts[True] > least and counts[False] > least and counts[None] < least, f"too few were tried: {counts}")


def check_cuts(*files: Path) -> None:
    for file in files:
        data = read(file).encode()
        for size in range(len(data)):
            line = refused_at(data[:size])
            must(line == data.count(b"\n", 0, size) + 1, f"{file}, cut after {size} bytes: line {line}")
        must(refused_at(data) is None, f"{file} is refused")


def refused_at(data: bytes) -> Optional[int]:
    """The line at which the bytes are refused, or None."""
    try:
        rows_of(deliveries_of(read_report(data)))
    except NotAReport as fault:
        return fault.line
    return None


def check_random(number: int) -> None:
    refused = 0
    for seed in range(number):
        text = Run(seed).report()
        report = read_report(text.encode())
        sequence = sequence_of(report, f"seed {seed}")
        try:
            check_drawing(text, svg_of(sequence))
        except Wrong as wrong:
            raise Wrong(f"seed {seed}: {wrong}") from None
        drawn = letters_of(sequence)
        must(all(name in drawn for name in report.names()), f"seed {seed}: a name isn't drawn")
        must(compare(report, report).answer == EQUAL, f"seed {seed} differs from itself")
        if not re.search("^(cleared|started) ", text, re.M):
            refused += check_missing_lines(text, seed)
    must(refused > 2 * number, f"only {refused} reports without a line were tried")


def check_parts(number: int) -> None:
    """A part of a chart is drawn within its picture, and shows each entry of its components and rows."""
    for seed in range(number):
        report = read_report(Run(seed).report().encode())
        whole = sequence_of(report, f"seed {seed}")
        chance = random.Random(seed)
        names = report.names()
        only = tuple(chance.sample(names, chance.randint(1, len(names))))
        first, last = sorted(chance.choices(range(1, len(whole.steps) + 1), k=2)) if whole.steps else (0, 0)
        rows = (first, last) if whole.steps else None
        for asked in (Asked(only=only), Asked(rows=rows), Asked(only, rows, fold=True), Asked(fold=True)):
            try:
                check_part(part_of(whole, asked), whole, asked)
            except (Wrong, xml.ParseError) as wrong:
                raise Wrong(f"seed {seed}, {asked}: {wrong}") from None


def check_part(part: Sequence, whole: Sequence, asked: Asked) -> None:
    svg = xml.fromstring(svg_of(part).encode())
    check_inside(svg)
    drawn = letters_of(part)
    must(all(name in drawn for name in part.names), "a name isn't drawn")
    must(set(part.names) == set(asked.only or whole.names), f"{part.names} are drawn")
    first, last = asked.rows or (1, len(whole.steps))
    told = "\n".join(title.text or "" for title in svg.iter(f"{SVG}title"))
    for step in whole.steps[first - 1 : last] if not asked.fold else []:
        for line in step.lines.splitlines():
            mine = re.match(r"line \d+ \((\w+): ", line)
            must(not mine or mine[1] not in part.names or line in told, f"{line!r} isn't told")


def check_missing_lines(text: str, seed: int) -> int:
    """If no port is emptied, a report without one of its messages' lines must be refused."""
    lines = text.splitlines(keepends=True)
    tried = 0
    for number, line in enumerate(lines):
        if line.startswith(("sent ", "took ", "dropped ", "left ", "component ", "end ", "verdict ")):
            data = "".join(lines[:number] + lines[number + 1 :]).encode()
            must(refused_at(data) is not None, f"seed {seed} without line {number + 1} isn't refused")
            tried += 1
    return tried


# The usual schema, as build servers read it. For each element: the attributes that it must have, those that it may
# have, and the elements that it may contain.
COUNTS = {"tests", "failures", "errors", "skipped"}
ELEMENTS: dict[str, tuple[set[str], set[str], set[str]]] = {
    "testsuites": ({"tests", "failures", "errors"}, {"name", "time", "disabled"}, {"testsuite"}),
    "testsuite": (
        {"name", "tests", "failures", "errors", "time", "timestamp", "hostname"},
        {"id", "package", "skipped", "disabled"},
        {"properties", "testcase", "system-out", "system-err"},
    ),
    "testcase": (
        {"name", "classname", "time"},
        {"assertions", "status"},
        {"properties", "skipped", "error", "failure", "system-out", "system-err"},
    ),
    "properties": (set(), set(), {"property"}),
    "property": ({"name", "value"}, set(), set()),
    "skipped": ({"message"}, set(), set()),
    "failure": ({"message", "type"}, set(), set()),
    "error": ({"message", "type"}, set(), set()),
    "system-out": (set(), set(), set()),
    "system-err": (set(), set(), set()),
}
SECONDS = re.compile(r"[0-9]+\.[0-9]{3}")
DATE = re.compile(r"[0-9]{4}-[01][0-9]-[0-3][0-9]T[0-2][0-9]:[0-5][0-9]:[0-5][0-9]")


def check_junit(file: Path, tests: int, failures: int, errors: int, skipped: int = 0) -> None:
    root = xml.parse(file).getroot()
    must(root.tag == "testsuites", "it is no list of suites")
    for element in root.iter():
        check_element(element)
    check_counts(root, root.iter("testcase"))
    counts = [root.get(name) for name in ("tests", "failures", "errors")]
    must(counts == [str(it) for it in (tests, failures, errors)], f"{root.attrib}")
    for suite in root:
        check_counts(suite, list(suite))
        must(number_of(suite, "skipped") == len(suite.findall("testcase/skipped")), "other cases are skipped")
    must(skipped == len(list(root.iter("skipped"))), f"{skipped} cases are skipped")
    names = [(case.get("classname"), case.get("name")) for case in root.iter("testcase")]
    must(len(set(names)) == len(names), f"two cases are alike: {names}")


def check_element(element: xml.Element) -> None:
    must(element.tag in ELEMENTS, f"no {element.tag} stands in such a file")
    needed, allowed, inner = ELEMENTS[element.tag]
    must(needed <= set(element.keys()) <= needed | allowed, f"{element.tag} has {sorted(element.keys())}")
    must(all(child.tag in inner for child in element), f"{element.tag} has {[child.tag for child in element]}")
    must(not inner or not (element.text or "").strip(), f"{element.tag} has text of its own")
    for name, value in element.items():
        must(value != "", f"{name} of {element.tag} is empty")
        must(name not in COUNTS or value.isdecimal(), f"{name} is {value}")
        must(name != "time" or SECONDS.fullmatch(value), f"{name} is {value}")
        must(name != "timestamp" or DATE.fullmatch(value), f"{name} is {value}")
    if element.tag == "testcase":
        tags = [child.tag for child in element]
        must(len(set(tags) & {"failure", "error", "skipped"}) <= 1, "a case has two outcomes")
        order = ["properties", "skipped", "error", "failure", "system-out", "system-err"]
        must(tags == [tag for tag in order if tag in tags], f"{tags} isn't the order of a case's parts")
        reports = 0 if "skipped" in tags else 1
        must(tags.count("system-out") == reports, "a case that was done has its report, once")


def check_counts(element: xml.Element, cases: Iterable[xml.Element]) -> None:
    """The counts of a suite, or of all suites, are those of its cases."""
    tags = [[child.tag for child in case] for case in cases]
    counts = [len(tags), sum("failure" in tag for tag in tags), sum("error" in tag for tag in tags)]
    told = [number_of(element, name) for name in ("tests", "failures", "errors")]
    must(counts == told, f"{element.tag} tells {told}, and has {counts}")


def on_a_terminal(*command: Word, **how: Any) -> Ended:
    """Runs a command with a terminal as its standard output and error. Returns the output and the status."""
    ours, theirs = pty.openpty()
    said = b""
    with subprocess.Popen(command, stdin=subprocess.DEVNULL, stdout=theirs, stderr=theirs, **how) as process:
        os.close(theirs)
        with open(ours, "rb", buffering=0) as ends, contextlib.suppress(OSError):  # the end of a terminal
            while more := ends.read(4096):
                said += more
    return Ended(0, said + b"\nstatus %d\n" % process.returncode, b"")


def interrupted(file: Path, *command: Word, **how: Any) -> Ended:
    """Interrupts a command like Ctrl-C does, once the file exists. The command gets the default action of the signal,
    because a part of the gate runs with the signal ignored."""
    default = functools.partial(signal.signal, signal.SIGINT, signal.SIG_DFL)
    pipe = subprocess.PIPE
    with subprocess.Popen(command, stdout=pipe, stderr=pipe, preexec_fn=default, **how) as process:
        until = time.monotonic() + 60
        while not file.exists() and time.monotonic() < until:
            time.sleep(0.05)
        process.send_signal(signal.SIGINT)
        printed, said = process.communicate()
    return Ended(0, printed + b"status %d\n" % process.returncode, said)
