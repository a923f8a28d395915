#!/usr/bin/env python3
"""Tests tools/chart --connections: each component, port and connection of a script is drawn, and no line crosses a
component.

    tests/tools/connections.py
"""
from __future__ import annotations

import re
import sys
import xml.etree.ElementTree as xml
from collections.abc import Iterator
from pathlib import Path

sys.dont_write_bytecode = True

from tool_calls import EXAMPLES, ROOT, Wrong, case, must, room, run, try_groups_of
from tool_rules import SVG, check_inside, number_of

CHART = ROOT / "tools" / "chart"
LOGIN = EXAMPLES / "login_is_answered.ttcn"
PARTS = 40  # of a line; the ends of the parts are tested

# Two components on each side of a third, one that is connected to itself, one without connections, two that are only
# connected to each other, and the system.
NET = """module Net {
    type port P message { inout integer; }
    type component C { port P left, right, up; }
    function f() runs on C { }
    function sut() runs on C { }
    testcase t() runs on C system C {
        var C a := C.create; var C b := C.create; var C c := C.create; var C lonely := C.create;
        var C far := C.create; var C farther := C.create; connect(far:left, farther:right);
        connect(self:left, a:left); connect(mtc:left, b:left); connect(a:right, c:left); connect(b:right, c:right);
        connect(a:up, b:up); connect(c:up, c:left); map(self:up, system:up);
        a.start(f()); b.start(f()); c.start(f()); lonely.start(f());
        far.start(f()); farther.start(f());
        all component.done;
    }
}
"""
UNUSED = "10 ports without a connection: mtc.right, lonely.left, lonely.right and 7 more"
# From the left to the right.
COLUMNS = [["mtc"], ["a", "b", "system"], ["c"], ["far", "lonely"], ["farther"]]


def right_scripts() -> list[Path]:
    found = [*EXAMPLES.glob("*.ttcn"), *(ROOT / "tests" / "orders").glob("*/*.ttcn")]
    return sorted(found)


def drawn(script: Path) -> xml.Element:
    return xml.fromstring(run(CHART, "--connections", script).must_say_nothing().printed)


def connections_of_scripts(_: Path) -> None:
    for script in right_scripts():
        with case(f"the connections of {script.stem}"):
            must_be_drawn(drawn(script), script.read_text(encoding="latin-1"))


def must_be_drawn(root: xml.Element, script: str) -> None:
    """Everything in the script's text must be in the picture."""
    check_inside(root)
    text = re.sub(r"//[^\n]*", "", script)
    created = re.findall(r"\bvar\s+(\w+)\s+(\w+)\s*:=\s*\w+\.create", text)
    texts = [it.text for it in root.iter(f"{SVG}text")]
    for type_name, name in created:
        must(name in texts and type_name in texts, f"{name} of {type_name} isn't drawn")
    written = re.findall(r"\b(connect|map)\s*\(\s*(\w+)\s*:\s*(\w+)\s*,\s*(\w+)\s*:\s*(\w+)\s*\)", text)
    joined = [f"{word}({mtc(a)}:{p}, {mtc(b)}:{q})" for word, a, p, b, q in written]
    told = [it.findtext(f"{SVG}title") for it in lines_of(root)]
    must(sorted(told, key=str) == sorted(joined), f"the lines are {told}")
    must_run_beside(root)


def mtc(name: str) -> str:
    return "mtc" if name == "self" else name


def lines_of(root: xml.Element) -> list[xml.Element]:
    return [it for it in root.iter(f"{SVG}path") if it.find(f"{SVG}title") is not None]


def must_run_beside(root: xml.Element) -> None:
    """A line may touch components only at its ends."""
    boxes = []
    for box in root.iter(f"{SVG}rect"):
        if box.get("class") == "box":
            x, y, wide, high = (number_of(box, name) for name in ("x", "y", "width", "height"))
            boxes.append((x + 1, y + 1, x + wide - 1, y + high - 1))
    for line in lines_of(root):
        for x, y in points_of(line.get("d") or ""):
            inside = any(left < x < right and top < y < foot for left, top, right, foot in boxes)
            must(not inside, f"a line runs through a component: {line.get('d')}")


def points_of(way: str) -> Iterator[tuple[float, float]]:
    """Points on a curve that is given by four points."""
    numbers = [float(it) for it in re.findall(r"-?[0-9.]+", way)]
    if len(numbers) != 8:
        raise Wrong(f"no such line is known: {way}")
    for at in range(PARTS + 1):
        there = at / PARTS
        shares = [(1 - there) ** 3, 3 * there * (1 - there) ** 2, 3 * there**2 * (1 - there), there**3]
        x, y = (sum(share * it for share, it in zip(shares, numbers[axis::2])) for axis in (0, 1))
        yield x, y


def connections_of_a_net(room: Path) -> None:
    script = room / "net.ttcn"
    script.write_text(NET, encoding="ascii")
    with case("the connections of a net"):
        root = drawn(script)
        must_be_drawn(root, NET)
        texts = [it.text for it in root.iter(f"{SVG}text")]
        must(UNUSED in texts, f"it says {texts[-1]}")
        must("dashed line: mapped to the system" in texts, "it isn't said what a dashed line means")
        mapped = [it.findtext(f"{SVG}title") for it in lines_of(root) if it.get("class") == "found"]
        must(mapped == ["map(mtc:up, system:up)"], f"dashed are {mapped}")
    with case("the columns of a net"):
        columns: dict[float, list[str]] = {}
        for group in root.iter(f"{SVG}g"):
            for box in (it for it in group.iter(f"{SVG}rect") if it.get("class") == "box"):
                middle = number_of(box, "x") + number_of(box, "width") / 2
                columns.setdefault(middle, []).append(group.get("aria-label") or "")
        found = [sorted(columns[middle]) for middle in sorted(columns)]
        must(found == COLUMNS, f"they are {found}")
    script.write_text(NET.replace("lonely.start(f());", ""), encoding="ascii")
    with case("the connections of a script that is refused"):
        said = f"chart: {script}, line 7: the script is refused; tools/explain says what is wrong"
        run(CHART, "--connections", script).must_say(said, 2)


def connections_that_cannot_be(_: Path) -> None:
    login = str(LOGIN)
    calls: tuple[list[str], ...] = ([], ["--only", "mtc", login], ["--script", login, login], ["--text", login])
    for words in (*calls, ["--title", "x", login]):
        with case(f"connections with the words {' '.join(words)}"):
            run(CHART, "--connections", *words).must_complain("^usage: chart", 4)
    with case("the connections of a report"):
        run(CHART, "--connections", EXAMPLES / "login_is_answered.expected").must_complain("this is a report or a trace", 2)


if __name__ == "__main__":
    least = len(right_scripts())
    with room() as folder:
        groups = ((connections_of_scripts, least), (connections_of_a_net, 3), (connections_that_cannot_be, 6))
        sys.exit(try_groups_of(folder, groups))
