"""Reports of examples: the expected output of `tpr run`."""
from __future__ import annotations

from pathlib import Path

from tool_calls import example, example_files

NAMED = {
    "login": "login_is_answered.expected",
    "halt": "halt_holds_back_what_comes_later.expected",
    "stop": "everyone_is_told_to_stop.expected.1",
}
# The reports that are cut after each byte.
SMALL = (
    "login_is_answered.expected",
    "halt_holds_back_what_comes_later.expected",
    "message_is_looked_at_first.expected",
    "reset_of_all_ports.expected",
    "one_fails_and_the_others_go_on.expected",
    "everyone_is_told_to_stop.expected.1",
)


def all_of_them() -> list[Path]:
    found = [it for script in example_files.texts("ttcn") for it in example_files.answers(script)]
    return [it for it in found if it.read_bytes().startswith(b"component mtc\n")]


def small_ones() -> list[Path]:
    return [example(name) for name in SMALL]


def named(name: str) -> Path:
    return example(NAMED[name])
