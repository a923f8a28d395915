"""An exploration as text and as JSON."""
from __future__ import annotations

import shlex
from typing import Optional

from ..origins import Origins
from .answers import first_line
from .exploration import Exploration, Parted, Shown


def text_of(exploration: Exploration, script: str) -> str:
    answer, shown = exploration.answer, exploration.shown
    pieces = [first_line(answer), f"states {answer.states}", *exploration.faults()]
    lines = [line for it in shown for line in _lines_of(it, dict(answer.orders).get(it.verdict))]
    pieces += ["", *lines] if lines else []
    if partings := exploration.partings():
        pieces.append(text_of_partings(partings, exploration.case.origins))
    if answer.orders:
        pieces += [_text_of_report(it, script) for it in shown if it.report]
    if exploration.no_reports and (answer.orders or exploration.interrupted):
        pieces.append(f"No reports: {exploration.no_reports}")
    return "\n".join(pieces).rstrip("\n") + "\n"


def _lines_of(shown: Shown, steps: Optional[tuple[str, ...]]) -> list[str]:
    """How each component ended, and the messages that are left; without a report, the order, and the reason."""
    if shown.report:
        parts = parts_of(shown.report)
        ends = ", ".join(_end_of(*part) for part in parts)
        left = [f"  {name}: {line}" for name, lines in parts for line in lines if _is_left(line)]
        return [f"{shown.verdict}: {ends}", *left]
    order = [] if steps is None else [f"{shown.verdict}: {' '.join(steps)}"]
    return [*order, *([f"{'  ' if order else ''}no report: {shown.missing}"] if shown.missing else [])]


def parts_of(report: str) -> list[tuple[str, list[str]]]:
    """For each component, the lines of a report that show how it ended."""
    parts: list[tuple[str, list[str]]] = []
    for line in report.splitlines()[:-1]:
        word, rest = line.split(" ", 1) if " " in line else (line, "")
        if word == "component":
            parts.append((rest, []))
        elif word in ("end", "verdict", "left"):
            parts[-1][1].append(line)
    return parts


def _is_left(line: str) -> bool:
    return line.startswith("left ")


def _end_of(name: str, lines: list[str]) -> str:
    end, verdict = (line.split(" ", 1)[1] for line in lines[:2])
    waits = {"done": "", "waiting": ", which waits forever"}.get(end, f", which ended by {end}")
    return f"{name} {verdict}{waits}"


def text_of_partings(partings: list[Parted], origins: Origins) -> str:
    pieces = [f"\n{origins.heading()}"] if origins.files else []
    for it in partings:
        pieces.append(f"\nWhere the runs diverge ({it.better.verdict} and {it.worse.verdict}):\n")
        where = "no component did anything different\n" if it.where is None else it.where.text(origins)
        pieces.append(_indented(where))
        if it.better.report and it.worse.report:
            pieces += [f"  {shown.verdict}: {_order_of(shown)}\n" for shown in (it.better, it.worse)]
    return "".join(pieces)


def _order_of(shown: Shown) -> Optional[str]:
    """The order for the program that forces orders."""
    return None if shown.told is None else shown.told.order()


def _indented(text: str) -> str:
    return "".join(f"  {line}\n" for line in text.splitlines())


def _text_of_report(shown: Shown, script: str) -> str:
    again = f"echo {shlex.quote(_order_of(shown) or '')} | tools/explore {shlex.quote(script)} --order /dev/stdin"
    return f"A run with the verdict {shown.verdict}; to repeat it: {again}\n{_indented(shown.report)}"


def json_of(exploration: Exploration, script: str) -> str:
    import json  # importing it takes long, and few calls need it

    return json.dumps(as_json(exploration, script), indent=2) + "\n"


def as_json(exploration: Exploration, script: str) -> dict[str, object]:
    answer = exploration.answer
    return {
        "script": script,
        "answer": first_line(answer),
        "verdicts": list(answer.verdicts),
        "decided": answer.decided,
        "states": answer.states,
        "faults": exploration.faults(),
        "runs": [_shown_as_json(it, exploration.no_reports) for it in exploration.shown],
        "partings": [
            {
                "first": {"verdict": it.better.verdict, "order": _order_of(it.better)},
                "second": {"verdict": it.worse.verdict, "order": _order_of(it.worse)},
                "where": None if it.where is None else it.where.as_json(exploration.case.origins),
            }
            for it in exploration.partings()
        ],
    }


def _shown_as_json(shown: Shown, no_reports: str) -> dict[str, object]:
    components = []
    for name, lines in parts_of(shown.report) if shown.report else []:
        end, verdict = (line.split(" ", 1)[1] for line in lines[:2])
        left = [line.removeprefix("left ") for line in lines if _is_left(line)]
        components.append({"name": name, "end": end, "verdict": verdict, "left": left})
    return {
        "verdict": shown.verdict,
        "steps": " ".join(shown.order),
        "order": _order_of(shown),
        "report": shown.report or None,
        "missing": None if shown.report else shown.missing or shown.fault or no_reports,
        "components": components,
    }
