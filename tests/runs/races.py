#!/usr/bin/env python3
"""Tests that the forced races of crates/tp_floor (src/races.rt) detect each fault planted in floor and notifier.

    tests/runs/races.py [NAME..]
    tests/runs/races.py --fit

All faults, or those named, are planted at once in one copy of the crate: each has its own modules `floor`, `notifier`
and `races`, in a module with the fault's name. One more, `none`, has no fault. The tests of the copy are compiled and
run, unproved (`rt try --test`): those of each fault must fail, and those of `none` must pass. All of them took six
minutes on a busy machine, so the gate doesn't run them: whoever changes one of the three modules must do so. With
`--fit` nothing is tried: a line `passed NAME` says that the fault can still be planted. The gate runs that.

A faulty loop of the floor loads the counts only once for all turns, never, or not a second time; it makes the exchange
for the counts that are there, without comparing them, or not at all; or it gives up a lost turn, at once or after ten.
The faults of what the notifier keeps and compares are similar. Clauses exclude the faults of the notifier, and a rest
or a rise that isn't counted. No clause says anything about the component that leaves, about which one learns that it is
the last, or about how often a call tries again.

For each fault it prints a line `told NAME; TEST: WHAT IT SAID`, or one that begins with FAILED. The last line is
`races: N faults, M failed`.
"""
from __future__ import annotations

import argparse
import os
import re
import shutil
import subprocess
import sys
import tempfile
from typing import NamedTuple

ROOT = os.path.dirname(os.path.dirname(os.path.dirname(os.path.realpath(__file__))))
CRATE = "tp_floor"
MODULES = ("floor", "notifier", "races")
SOURCE = f"{ROOT}/crates/{CRATE}/src"
NO_FAULT = "none"


class Unfit(Exception):
    """Why a fault can't be planted."""


class Fault(NamedTuple):
    """A fault: its name, its module, its function, and the texts of the function that are replaced, each with its
    replacement.

    In a replaced text, any white space stands for any other.
    """

    name: str
    module: str
    function: str
    edits: dict[str, str]


def faults_of_loop(function: str, cell: str, change: str, given_up: dict[str, str]) -> list[Fault]:
    """The faults of a loop in the floor that loads the counts, changes them and exchanges them.

    `cell` has the loop's names for the cell's owner and for the pass, `change` is the counts that it writes, and
    `given_up` has the answers that it may return when it gives up, each with a word for the fault's name.
    """
    owner, its_pass = cell.split()
    load = f"let seen = {owner}.look(rt, &mut {its_pass});"
    exchange = f"{owner}.exchange(rt, &mut {its_pass}, seen, {change})"
    turns = "for _ in rt.forever() {"
    name = function.split("::")[1].removesuffix("_by")
    found = {
        "loads_once": {turns: f"let first = {owner}.look(rt, &mut {its_pass}); {turns}", load: "let seen = first;"},
        "loads_nothing": {load: "let seen = Counts { living: 0, resting: 0 };"},
        "exchanges_for_the_old": {exchange: exchange.replace(f"{change})", "seen)")},
        "exchanges_nothing": {f"if {exchange}": "if true"},
        "exchanges_whatever_is_there": {
            f"if {exchange}": f"let _ = {owner}.counts.swap_as::<Together, R>(rt, &mut {its_pass}, {change}); if true"
        },
    }
    for word, answer in given_up.items():
        found[f"gives_up{word}"] = {
            f"if {exchange}": f"let done = {exchange}; if !done {{ return {answer}; }} if done"
        }
        found[f"loads_no_second_time{word}"] = {
            turns: f"let mut turns = 0u64; {turns} turns += 1; if turns > 1 {{ return {answer}; }}"
        }
        found[f"gives_up_after_ten{word}"] = {
            turns: f"let mut turns = 0u64; {turns} turns += 1; if turns > 10 {{ return {answer}; }}"
        }
    return [Fault(f"{name}_{what}", "floor", function, edits) for what, edits in found.items()]


FAULTS = [
    Fault(NO_FAULT, "floor", "Floor::leave", {}),
    *faults_of_loop("Floor::leave_by", "self pass", "left", {"": "false", "_as_last": "true"}),
    Fault("leave_is_told_by_the_first_load", "floor", "Floor::leave_by", {
        "for _ in rt.forever() {": "let mut first = self.look(rt, &mut pass); let told = first.leave();"
        " for _ in rt.forever() {",
        "return all_rest;": "let _ = all_rest; return told;",
    }),
    *faults_of_loop("FloorPlace::begin_rest", "self.floor self.pass", "rested", {"": "true", "_as_last": "false"}),
    Fault("rest_is_told_by_the_first_load", "floor", "FloorPlace::begin_rest", {
        "for _ in rt.forever() {": "if !self.floor.look(rt, &mut self.pass).begin_rest() { return false; }"
        " for _ in rt.forever() {",
        "if !rested.begin_rest() { return false; }": "rested.resting += 1;",
    }),
    *faults_of_loop("FloorPlace::rise", "self.floor self.pass", "risen", {"": ""}),
    Fault("resting_is_not_loaded", "floor", "Floor::resting", {"self.look(rt, &mut self.counts.pass()).resting": "0"}),
    Fault("announce_looks_at_no_rest", "notifier", "Notifier::announce", {"match self.awaits {": "match None::<u64> {"}),
    Fault("announce_looks_at_the_old_number", "notifier", "Notifier::announce", {"announced > taken": "self.announced > taken"}),
    Fault("announce_leaves_the_place_at_rest", "notifier", "Notifier::announce", {"self.place.rise(rt, hook);": ""}),
    Fault("announce_leaves_the_owner_at_rest", "notifier", "Notifier::announce", {"self.awaits = None;": ""}),
    Fault("announce_is_not_counted", "notifier", "Notifier::announce", {"self.announced = announced;": ""}),
    Fault("close_looks_at_no_rest", "notifier", "Notifier::close", {"self.awaits.is_some()": "false"}),
    Fault("close_leaves_the_place_at_rest", "notifier", "Notifier::close", {"self.place.rise(rt, hook);": ""}),
    Fault("close_leaves_the_owner_at_rest", "notifier", "Notifier::close", {"self.awaits = None;": ""}),
    Fault("close_leaves_it_open", "notifier", "Notifier::close", {"self.closed = true;": ""}),
    Fault("look_finds_no_push", "notifier", "Notifier::look", {"if self.announced > taken {": "if 0 > taken {"}),
    Fault("look_finds_no_closing", "notifier", "Notifier::look", {"if self.closed {": "if false {"}),
    Fault("rest_looks_at_no_rest", "notifier", "Notifier::begin_rest", {"self.awaits.is_none() &&": ""}),
    Fault("rest_leaves_the_place_awake", "notifier", "Notifier::begin_rest", {"!self.place.begin_rest(rt, hook)": "false"}),
    Fault("rest_leaves_the_owner_awake", "notifier", "Notifier::begin_rest", {"self.awaits = Some(taken);": ""}),
    Fault("rest_awaits_one_more", "notifier", "Notifier::begin_rest", {
        "self.awaits = Some(taken);": "self.awaits = Some(taken + 1);",
    }),
    Fault("rests_looks_at_no_rest", "notifier", "Notifier::rests", {"self.awaits.is_some()": "false"}),
    Fault("woken_finds_no_push", "notifier", "Notifier::woken", {"if self.announced > taken {": "if 0 > taken {"}),
]


def read(path: str) -> str:
    with open(path, encoding="utf-8") as file:
        return file.read()


def write(path: str, text: str) -> None:
    os.makedirs(os.path.dirname(path), exist_ok=True)
    with open(path, "w", encoding="utf-8") as file:
        file.write(text)


def with_fault(text: str, fault: Fault) -> str:
    """The text of a module with the fault in it."""
    type_name, method = fault.function.split("::")
    at = text.find(f"\nimpl {type_name} {{")
    function = re.compile(rf"    (pub(\(crate\))? )?fn {method}[<(].*?\n    }}\n", re.S).search(text, at)
    if at < 0 or not function:
        raise Unfit(f"there is no function {fault.function} in {fault.module}")
    body = function[0]
    for old, new in fault.edits.items():
        pattern = r"\s*".join(re.escape(word) for word in re.findall(r"\w+|[^\w\s]", old))
        if len(re.findall(pattern, body)) != 1:
            raise Unfit(f"`{old}` doesn't stand once in {fault.function}")
        body = re.sub(pattern, lambda _: new, body)
    return text[: function.start()] + body + text[function.end() :]


def plant(folder: str, fault: Fault) -> None:
    """Writes modules with the fault into the copy."""
    of_fault = f"{folder}/src/{fault.name}"
    files = [f"{module}.rt" for module in MODULES] + [f"races/{name}" for name in os.listdir(f"{SOURCE}/races")]
    for file in files:
        text = read(f"{SOURCE}/{file}")
        if file == f"{fault.module}.rt":
            text = with_fault(text, fault)
        write(f"{of_fault}/{file}", re.sub(rf"\bcrate::({'|'.join(MODULES)})::", rf"crate::{fault.name}::\1::", text))
    write(f"{of_fault}.rt", f"//! {fault.name}\n" + "".join(f"mod {module};\n" for module in MODULES))


def copy_with(folder: str, faults: list[Fault]) -> str:
    """Makes a copy of the crate with these faults, and of those below it. Returns its folder."""
    lines = {line.split()[0].rstrip(":"): line for line in read(f"{ROOT}/crates.txt").splitlines() if ":" in line}
    below = [word for word in lines[CRATE].split(":")[1].split() if word in lines]
    write(f"{folder}/crates.txt", "".join(f"{lines[it]}\n" for it in [*below, CRATE]))
    shutil.copy(f"{ROOT}/HANDLES", folder)
    for crate in below:
        shutil.copytree(f"{ROOT}/crates/{crate}", f"{folder}/crates/{crate}")
    copy = f"{folder}/crates/{CRATE}"
    shutil.copytree(f"{ROOT}/crates/{CRATE}/specs", f"{copy}/specs")
    shutil.copytree(f"{ROOT}/crates/{CRATE}/proofs", f"{copy}/proofs")
    write(f"{copy}/src/hook.rt", read(f"{SOURCE}/hook.rt"))
    modules = "".join(f"#[cfg(test)]\nmod {it.name};\n" for it in faults)
    write(f"{copy}/src/lib.rt", f"//! Faults.\n#![tactic(auto)]\n\n{modules}pub mod hook;\n")
    for fault in faults:
        plant(copy, fault)
    return copy


def failed_tests(said: str) -> dict[str, list[str]]:
    """For each fault that was tried, its failed tests, each with the first line of its message."""
    found: dict[str, list[str]] = {}
    lines = said.splitlines()
    for line, behind in zip(lines, [*lines[1:], ""]):
        if told := re.fullmatch(r"test (\w+)::races::(\w+) \.\.\. (ok|FAILED)", line):
            tests = found.setdefault(told[1], [])
            if told[3] == "FAILED":
                tests.append(f"{told[2]}: {behind.strip()}")
    return found


def all_fit() -> bool:
    """Prints for each fault whether it can be planted. Returns whether all can."""
    wrong = 0
    for fault in FAULTS:
        try:
            with_fault(read(f"{SOURCE}/{fault.module}.rt"), fault)
            print(f"passed {fault.name}")
        except Unfit as why:
            wrong += 1
            print(f"FAILED: the fault {fault.name} of tests/runs/races.py can't be planted: {why}")
    return wrong == 0


def asked(names: list[str]) -> list[Fault]:
    """The faults with these names, or all without one; and `none`, which has no fault."""
    known = {it.name: it for it in FAULTS}
    for name in names:
        if name not in known:
            sys.exit(f"races: there is no fault {name}")
    return [known[name] for name in [NO_FAULT, *names]] if names else FAULTS


def main() -> int:
    words = argparse.ArgumentParser(description="Whether the forced races tell each fault that is planted.")
    words.add_argument("names", metavar="NAME", nargs="*", help="of the faults; all without one")
    words.add_argument("--fit", action="store_true", help="look only whether each can still be planted")
    told_to = words.parse_args()
    if told_to.fit:
        return 0 if all_fit() else 1
    faults = asked(told_to.names)
    with tempfile.TemporaryDirectory(prefix="races-") as folder:
        copy = copy_with(folder, faults)
        ran = subprocess.run(
            ["rt", "try", "--test"],
            cwd=copy,
            check=False,
            stdin=subprocess.DEVNULL,
            capture_output=True,
            text=True,
            errors="replace",
        )
    tried = failed_tests(ran.stdout)
    if set(tried) != {it.name for it in faults}:
        print(f"FAILED: the copy can't be tried, status {ran.returncode}:\n{(ran.stdout + ran.stderr)[-4000:]}")
        return 1
    wrong = 0
    for name, told in tried.items():
        is_right = bool(told) == (name != NO_FAULT)
        wrong += not is_right
        outcome = f"told {name}" if told else f"passed {name}"
        print("; ".join([outcome if is_right else f"FAILED: {outcome}", *told]))
    print(f"races: {len(faults) - 1} faults, {wrong} failed")
    return 1 if wrong else 0


if __name__ == "__main__":
    sys.exit(main())
