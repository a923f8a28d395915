#!/usr/bin/env python3
"""Checks the blocks of wrong bodies without the prover.

    ./test list                              writes the blocks of `rt ci` into crates/CRATE/must-fail/, and adds what a
                                             gate has seen refused to tests/wrong_bodies/seen
    tests/gate/wrong_body_list.py compare    prints a line `passed CRATE/NAME` for each block that can be applied, that
                                             names a function, and whose words all exist, except that a block with a
                                             `!` has one that doesn't

`compare` prints a line `FAILED: ..` for each other block, and also in these cases: the blocks that each run of the gate
tries include none of some crate, not all of NAMED_OF_EACH_RUN, or too few in all; or must-fail/ or
tests/wrong_bodies/seen isn't as this script writes it. Its last line says how many blocks there are.
"""
from __future__ import annotations

import argparse
import os
import re
import shutil
import sys
from collections import Counter
from collections.abc import Iterator

sys.dont_write_bytecode = True

from wrong_body_edits import (
    OF_EACH_RUN, OF_RT, ROOT, SHELF, UNCOMPILED, Edit, Unfit, all_edits, below, crates, read, sources_of, words_of,
    write,
)
from wrong_body_seen import REFUSED, SEEN, lines_of, of_this_gate, take_over

LEAST_OF_EACH_RUN = 80  # so that a run can't lose them unnoticed
MOST_LINES_OF_RT = 500  # for two stars `rt ci` checks the whole crate once more, and for one the edited function
# Each of these breaks a rule of ports, of values or of connections, or the promise of a report: each run tries them.
NAMED_OF_EACH_RUN = frozenset(
    "tp_queue/delivers_behind_the_mark tp_queue/clear_removes_the_mark tp_queue/start_keeps_messages"
    " tp_queue/receive_skips_a_sender tp_queue/trigger_leaves_the_message tp_value/pattern_never_goes_back"
    " tp_value/verdict_improves tp_config/connects_two_ports_of_one tp_syntax/drops_a_statement"
    " tp_checks/drops_a_connection tp_port/replay_repeats_its_input tp_port/replay_leaves_out_behind_the_mark"
    " tp_inbox/refused_put_leaves_its_message tp_inbox/swaps_two_messages tp_inbox/invents_an_arrival"
    " tp_inbox/notes_sent_without_a_put tp_inbox/settle_compares tp_behaviour/marks_before_the_drain"
    " tp_behaviour/else_without_a_drain tp_behaviour/ends_at_first_receive tp_exec/empty_histories"
    " tp_exec/forgets_late_arrivals tp_exec/takes_one_message_twice tpr/accepts_every_text".split()
)
LINE_OF_SEEN = re.compile(r"\w+/[\w.-]+ \d{4}-\d\d-\d\d (?:[0-9a-f]{8}|none)\+? [\w:]+")


def faults_of(edit: Edit, functions: set[str], known: set[str]) -> Iterator[str]:
    """The faults of an edit, if its crate has these functions and sees these words."""
    if edit.head() not in functions:
        yield f"{edit.title()}: {edit.crate} has no function {edit.function}"
    try:
        edit.applied(read(f"{ROOT}/crates/{edit.crate}/{edit.file}"))
    except (OSError, Unfit) as why:
        yield f"{edit.title()} can't be applied: {why}"
    unknown = edit.unknown(known)
    if edit.stars == UNCOMPILED and not unknown:
        yield f"{edit.title()} would compile: a source of {edit.crate} or below has each of its words"
    elif edit.stars != UNCOMPILED:
        for it in unknown:
            yield f"{edit.title()}: no source of {edit.crate} or below has the word {it}, nor has OF_THE_KIT"


def wanted_of_rt(edits: list[Edit]) -> dict[str, str]:
    """The files of must-fail/ by their paths."""
    return {f"{ROOT}/crates/{it.crate}/must-fail/{it.name}.edit": it.of_rt() for it in edits if it.stars == OF_RT}


def files_of_rt() -> dict[str, str]:
    folders = [f"{ROOT}/crates/{it}/must-fail" for it in crates()]
    paths = [f"{it}/{name}" for it in folders if os.path.isdir(it) for name in os.listdir(it)]
    return {it: read(it) for it in sorted(paths)}


def list_them(edits: list[Edit]) -> None:
    for crate in crates():
        shutil.rmtree(f"{ROOT}/crates/{crate}/must-fail", ignore_errors=True)
    for path, text in wanted_of_rt(edits).items():
        write(path, text)
    take_over(edits)


def faults_of_all(edits: list[Edit]) -> Iterator[str]:
    """The faults of the edits as a whole."""
    titles = Counter(it.title() for it in edits)
    others = {*os.listdir(SHELF)} - {"seen", *(f"{it}.edits" for it in crates())}
    yield from (f"{it} is the name of {number} blocks" for it, number in titles.items() if number > 1)
    yield from (f"tests/wrong_bodies/{it} belongs to no crate" for it in sorted(others))
    starred = [it for it in edits if it.stars in (OF_RT, OF_EACH_RUN)]
    for crate in sorted({it.crate for it in edits if it.stars == OF_RT}):
        if sum(it.count("\n") for it in sources_of(crate)) > MOST_LINES_OF_RT:
            yield f"{crate} has more than {MOST_LINES_OF_RT} lines: a wrong body of it has one star at most"
    for crate in sorted({it.crate for it in edits} - {it.crate for it in starred}):
        yield f"no run of the gate would try a wrong body of {crate}: none has a star"
    for title in sorted(NAMED_OF_EACH_RUN - {it.title() for it in starred}):
        yield f"not each run of the gate would try {title}: it has no star"
    if len(starred) < LEAST_OF_EACH_RUN:
        yield f"each run of the gate tries {len(starred)} wrong bodies, and {LEAST_OF_EACH_RUN} are the least"
    if wanted_of_rt(edits) != files_of_rt():
        yield "must-fail/ isn't as ./test list writes it"
    lines = read(SEEN).splitlines()
    yield from (f"tests/wrong_bodies/seen: {it} is no line of it" for it in lines if not LINE_OF_SEEN.fullmatch(it))
    names = [it.partition(" ")[0] for it in lines]
    yield from (f"tests/wrong_bodies/seen: {it} is no block" for it in names if it not in titles)
    if sorted(set(names)) != names:
        yield "tests/wrong_bodies/seen isn't in order"


def count(edits: list[Edit]) -> str:
    """The line on how many blocks there are, and when they were seen refused."""
    seen = lines_of(SEEN) | lines_of(REFUSED)
    days = sorted(seen[it.title()][1] for it in edits if it.title() in seen)
    tried = f"each run tries {sum(bool(it.stars) for it in edits)}, and {len(of_this_gate(edits))} by turns"
    since = f"seen refused since {days[0] if days else 'no day'}, but for {len(edits) - len(days)}"
    more = f"; `./test list` takes over {len(lines_of(REFUSED))} of them, to be committed" * os.path.exists(REFUSED)
    return f"wrong bodies: {len(edits)}; {tried}; {since}{more}"


def compare(edits: list[Edit]) -> int:
    uses, wrong = crates(), [*faults_of_all(edits)]
    words = {it: set().union(*map(words_of, sources_of(it))) for it in uses}
    for crate in uses:
        functions = {it for text in sources_of(crate) for it in re.findall(r"\bfn (\w+)", text)}
        known = {*uses[crate]}.union(*(words[it] for it in (crate, *below(crate, uses))))
        for edit in (it for it in edits if it.crate == crate):
            faults = [*faults_of(edit, functions, known)]
            wrong += faults
            if not faults:
                print(f"passed {edit.title()}")
    print(*(f"FAILED: {it}" for it in wrong), count(edits), sep="\n")
    return 1 if wrong else 0


def main() -> int:
    words = argparse.ArgumentParser(description="The blocks of wrong bodies, without the prover.")
    words.add_argument("what", choices=("write", "compare"))
    asked = words.parse_args().what
    try:
        edits = all_edits()
    except Unfit as why:
        print(f"FAILED: {why}")
        return 1
    if asked == "compare":
        return compare(edits)
    list_them(edits)
    return 0


if __name__ == "__main__":
    sys.exit(main())
