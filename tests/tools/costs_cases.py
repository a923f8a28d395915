#!/usr/bin/env python3
"""Tests tools/costs.py on modules with given times, tests/gate/gate_times.py, and the messages of ./test about running
parts (tests/gate/side_by_side.sh).

    tests/tools/costs_cases.py
"""
from __future__ import annotations

import ast
import contextlib
import os
import pty
import re
import sys
from concurrent.futures import ThreadPoolExecutor
from io import FileIO
from pathlib import Path

sys.dont_write_bytecode = True

from tool_calls import (
    ROOT, Ended, Group, Word, case, file_of, must_be, onto_a_full_device, room, run, says_usage, try_groups,
)  # fmt: skip

COSTS, TIMES = ROOT / "tools" / "costs.py", ROOT / "tests" / "gate" / "gate_times.py"
USAGE = "usage: tools/costs.py CRATE_FOLDER [COUNT]\n"

# Each module, with the second at which it was written.
MODULES = (
    (0, "-proofs.room.Room.TheLaws"),
    (1, "-proofs.room.Room.get.Statement.decls"),
    (3, "-proofs.room.Room.get.Lts"),
    (13, "-proofs.room.put.Code.Mir"),
    (14, "-proofs.room.put.Proof"),
    (15, "-proofs.Lemmas"),
    (17, "-proofs.TheLinks.low-room-put"),
    (19, ".specs.contracts.room.put"),
    (20, "-proofs.room.put.Kinds-31-0-1-2.decls"),
)
ALL = """\
    20.0 s in all, 3 parts
    13.0 s  65.0 %  room.Room.get
     6.0 s  30.0 %  room.put
     1.0 s   5.0 %  Lemmas
"""
DEAREST = "".join(ALL.splitlines(keepends=True)[:2])

# Stands in for rt ci. The arguments and the folder of each process show to which part it belongs. Each process runs
# until the table has time of both kinds for it, however rarely a busy machine lets the table be updated.
CI = r"""#!/usr/bin/env bash
took() { # CRATE COLUMN
    awk -v crate="$1" -v column="$2" \
        '$1 == crate && $column > 0 && $(column + 1) > 0 { found = 1 } END { exit !found }' "$times" 2>/dev/null
}
export times=$PWD/times
export -f took
busy() { # FOLDER COLUMN WORD..
    cd -- "$1" && timeout 600 bash -c 'until took "$3" "$0"; do for ((n = 0; n < 100000; n += 1)); do :; done; done' \
        "$2" check --crate-name "${@:3}"
}
echo "rt: ci"
(busy low 2 low src/lib.rt)
echo "rt: low proved"
(busy low 4 low src/lib.rt --test) &
(busy rt-edit-1 6 low src/lib.rt)
wait
echo "rt: low: its tests are proved"
(busy high 2 high src/lib.rt)
exit 3
"""
SAID_BY_CI = "rt: ci\nrt: low proved\nrt: low: its tests are proved\n"
TOOK = ["low some some some some some some", "high some some - - - -", "all some some some"]

# As ./test runs it: file 3 is its standard error, and the output is copied to a file.
GATE = 'rm -f times output && "$1" -B "$2" times output ./ci 3>&2 2>&1 | tee output; exit "${PIPESTATUS[0]}"'
AT_WORK_IN_CI = r"test: [01] of [0-9]+ crates proved; at work: .*"
PROOF_OF_LOW = r"test: 0 of [0-9]+ crates proved; at work: proof of low \([0-9]+ s the last time\)"
PROOF_OF_HIGH = r"test: 1 of [0-9]+ crates proved; at work: proof of high \([0-9]+ s the last time\)"

# Two parts in parallel, as ./test runs them: `slow` ends last.
PARTS = r"""
source tests/gate/side_by_side.sh
is_tried() { return 0; }
listed_parts() { printf '%s\n' "quick 1" "slow 1"; }
nproc() { echo 2; }
passed=0 failed=0 runs_of_all=0 refused_of_all=0
last_times=$1
make_room_of_all
part quick sleep 0.2
part slow sleep 0.4
await_all_parts
"""
AT_WORK = [f"test: 0 of 2 done; at work: quick (41 s the last time){it}" for it in ("", ", slow")]


def costs() -> None:
    """The costs of functions, in a crate that was checked and in one that wasn't."""
    text = ast.get_docstring(ast.parse(COSTS.read_text(encoding="utf-8")), clean=False)
    unchecked = "costs.py: no check has left a module in none/out/incremental\n"
    with room() as folder:
        kept = folder / "made" / "out" / "incremental" / "kept"
        for made in (kept, folder / "none" / "out" / "incremental"):
            made.mkdir(parents=True)
        for at, name in MODULES:
            module = file_of(kept / f"Rattle-low{name}.oantt", "")
            os.utime(module, (1_000_000_000 + at,) * 2)
        for told, words, status, printed, said in (
            ("what each function cost", "made", 0, ALL, ""),
            ("the dearest alone", "made 1", 0, DEAREST, ""),
            ("a crate that wasn't checked", "none", 1, "", unchecked),
            ("the help of costs.py, by -h", "-h", 0, text, ""),
            ("the help of costs.py, by --help", "--help", 0, text, ""),
            ("no crate", "", 4, "", USAGE),
            ("no count", "made 0", 4, "", USAGE),
            ("three words", "made 1 1", 4, "", USAGE),
            ("an option that there isn't", "--count 1", 4, "", USAGE),
        ):
            with case(told):
                ended = run(COSTS, *words.split(), folder=folder)
                must_be([ended.status, ended.text, ended.told], [status, printed, said])
        with case("what each function cost, onto a full device"):
            onto_a_full_device(COSTS, "made", folder=folder).must_say("costs.py: the answer can't be written", 3)


def times() -> None:
    """The times of crates in a gate, which is run twice, and the messages meanwhile."""
    with room() as folder:
        for name in ("low", "high", "rt-edit-1"):
            (folder / name).mkdir()
        file_of(folder / "ci", CI).chmod(0o755)
        gate = ("bash", "-c", GATE, "gate", sys.executable, TIMES)
        with case("the gate's output and status, and nothing of what is at work if file 3 is no terminal"):
            run(*gate, folder=folder).must_print(SAID_BY_CI, 3)
        with case("what was seen of each crate"):
            rows = [row.split() for row in (folder / "times").read_text(encoding="utf-8").splitlines()[1:]]
            seen = [[it if it == "-" else "some" if float(it) > 0 else "none" for it in row[1:]] for row in rows]
            must_be([" ".join([row[0], *it]) for row, it in zip(rows, seen)], TOOK)
        with case("what is at work on a terminal, and how long it took the last time"):
            ended, told = said_to(*pty.openpty(), *gate, folder=folder)
            ended.must_end(3)
            lines = told.splitlines()
            must_be([line for line in lines if not re.fullmatch(AT_WORK_IN_CI, line)], [])
            must_be([bool(re.fullmatch(*it)) for it in ((PROOF_OF_LOW, lines[0]), (PROOF_OF_HIGH, lines[-1]))], [True] * 2)
            must_be([line for line, next_one in zip(lines, lines[1:]) if line == next_one], [])
    with case("no command"):
        run(sys.executable, "-B", TIMES, "times", "output").must_hold(2, says_usage("gate_times.py"))


def parts_at_work() -> None:
    """Parts that run in parallel, after a run in which one of them took 41 seconds."""
    with case("which parts are at work, and how long they took the last time"):
        must_be(said(*pty.openpty())[0].splitlines(), AT_WORK)
    with case("nothing is said of parts at work if standard error is no terminal"):
        must_be(said(*os.pipe())[0], "")
    with case("the times of parts that are kept for the next run"):
        kept = re.sub(r"^(quick|slow) (?!41$)[0-9]+$", r"\1 some", said(*os.pipe())[1], flags=re.M)
        must_be(sorted(kept.splitlines()), ["other 7", "quick some", "slow some"])


def said(ours: int, theirs: int) -> tuple[str, str]:
    """The messages on standard error, whose two ends are given, and the times that are kept."""
    with room() as folder:
        last = file_of(folder / "times", "other 7\nquick 41\n")
        _, told = said_to(ours, theirs, "bash", "-c", PARTS, "parts", last, folder=ROOT)
        return told, last.read_text(encoding="utf-8")


def said_to(ours: int, theirs: int, *words: Word, folder: Path) -> tuple[Ended, str]:
    """How a command ends, and its messages on standard error, whose two ends are given. They are read during the run,
    because a terminal buffers only 4,096 bytes."""
    with ThreadPoolExecutor(1) as pool, open(ours, "rb", buffering=0) as end:
        told = pool.submit(text_to, end)
        try:
            ended = run(*words, folder=folder, stderr=theirs)
        finally:
            os.close(theirs)
        return ended, told.result()


def text_to(end: FileIO) -> str:
    """The text that arrives at this end until the other one is closed."""
    printed = b""
    with contextlib.suppress(OSError):  # how Linux tells the end of a terminal
        while more := end.read(4096):
            printed += more
    return printed.decode()


if __name__ == "__main__":
    groups = ((costs, 10), (times, 4), (parts_at_work, 3))
    sys.exit(try_groups(Group(it, least, it.__name__) for it, least in groups))
