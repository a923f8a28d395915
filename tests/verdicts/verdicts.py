"""Compares what `tpr verdicts` prints for scripts with every order of their acts in the model of runs.

    verdicts.py each PROGRAM SCRIPT..
    verdicts.py random PROGRAM SEED NUMBER
    verdicts.py alike PROGRAM SEED NUMBER
    verdicts.py limit PROGRAM
    verdicts.py answers

If the model gets through every order, the verdicts must be exactly those of every order; otherwise none that it reached
may be missing. The status, the number of states and the order of the lines must be as the manual says. By each order
that is printed, the model must reach an end with its verdict. `random` tries random scripts with few components, and
`alike` random scripts in which some components are alike. `limit` tries scripts whose states are counted by hand, up to
the limit and beyond, scripts with too many templates times messages, and designs with a known largest number of states.
`answers` tests that impossible answers are refused.

For each script it prints `passed 1 STATES SCRIPT`, `passed 0 STATES SCRIPT` if the model didn't get through every
order, or lines that begin with `FAILED: `, with the script. STATES is the number of states that the program visited.
The last line names each script with more states in the model than it visits: what the model didn't reach isn't
compared.
"""
from __future__ import annotations

import argparse
import os
import random
import subprocess
import sys
import tempfile
from collections.abc import Iterable, Iterator, Sequence
from concurrent.futures import ProcessPoolExecutor
from functools import partial
from itertools import count, islice
from pathlib import Path
from typing import NamedTuple

sys.dont_write_bytecode = True
ROOT = Path(__file__).resolve().parents[2]
sys.path[:0] = [str(ROOT / it) for it in ("tools", "tests/orders")]

from alike import some_alike_script
from every_order import verdicts_of
from generator import some_script
from tpr_tools.explore.answers import MOST_STATES, Answer, read_answer
from tpr_tools.explore.following import end_by
from tpr_tools.model.bodies import TestCase
from tpr_tools.model.reading import read_script

SECONDS_OF_THE_PROGRAM = 1800  # the number of its states limits its time: this is for one that hangs
MOST_COMPONENTS = 5  # of a random script
MOST_STATES_OF_MODEL = 10_000
AT_ONCE = 10  # scripts that a process gets together


class Compared(NamedTuple):
    """A script: whether the model got through every order, how many states the program visited, and what is wrong."""

    path: Path
    whole: bool
    states: int
    wrong: str | None

    def line(self) -> str:
        if self.wrong is None:
            return f"passed {int(self.whole)} {self.states} {self.path}"
        return f"FAILED: {self.path}: {self.wrong}\n{self.path.read_text(encoding='latin-1')}"


def printed_of(program: str, path: Path) -> tuple[int, str]:
    """The status and the output, followed by standard error, which no answer has."""
    done = subprocess.run(
        [program, "verdicts", str(path)],
        stdin=subprocess.DEVNULL,
        stdout=subprocess.PIPE,
        stderr=subprocess.STDOUT,
        timeout=SECONDS_OF_THE_PROGRAM,
        check=False,
    )
    return done.returncode, done.stdout.decode("latin-1")


def wrong_order(case: TestCase, answer: Answer) -> str | None:
    """Describes the first order by which the model doesn't reach the verdict, or returns None."""
    ends = ((verdict, names, end_by(case, names)) for verdict, names in answer.orders)
    wrong = ((verdict, names, end) for verdict, names, end in ends if end != verdict)
    return next((f"by {' '.join(names)} it comes to {end}, not to {verdict}" for verdict, names, end in wrong), None)


def difference(said: set[str], decided: bool, found: set[str], whole: bool) -> str | None:
    """Describes how the sets of verdicts differ, or returns None."""
    missed = found - said if decided else set()
    made_up = said - found if whole else set()
    if not missed and not made_up:
        return None
    how = "by every order" if whole else "by some orders"
    return f"the program says {sorted(said)}, and the model comes to {sorted(found)} {how}"


def compared(program: str, path: Path) -> Compared:
    status, printed = printed_of(program, path)
    answer = read_answer(printed)
    if answer is None:
        return Compared(path, False, 0, f"this is no answer, with status {status}: {printed[:2000]}")
    wrong = answer.fault() or (f"the status is {status}" if status != answer.status() else None)
    case = TestCase(read_script(str(path)))
    found, whole = verdicts_of(case, MOST_STATES_OF_MODEL)
    if wrong is None and whole and not answer.decided:
        wrong = "it is undecided, and the model comes through all orders"
    wrong = wrong or difference(set(answer.verdicts), answer.decided, found, whole) or wrong_order(case, answer)
    return Compared(path, whole, answer.states, wrong)


def looked_at(program: str, path: Path) -> Compared:
    try:
        return compared(program, path)
    except Exception as error:  # a script that can't be read fails, and the others go on
        return Compared(path, False, 0, repr(error))


def tell_each(program: str, paths: Iterable[Path]) -> None:
    """Prints the result of each script. Scripts are tried while others are still being made."""
    left_open = []
    with ProcessPoolExecutor(len(os.sched_getaffinity(0))) as pool:
        for done in pool.map(partial(looked_at, program), paths, chunksize=AT_ONCE):
            print(done.line(), flush=True)
            if done.wrong is None and not done.whole:
                left_open.append(done.path.stem)
    if left_open:
        print(f"more than {MOST_STATES_OF_MODEL} states, so that nothing is said of those behind:", *left_open)


# Random scripts


def is_small(text: str) -> bool:
    return text.count(".create;") + 1 + text.count(" system C") <= MOST_COMPONENTS


def made_by_chance(what: str, seed: str, number: int, folder: str) -> Iterator[Path]:
    """Makes this many random scripts of few components."""
    make = some_alike_script if what == "alike" else some_script
    texts = ((at, make(random.Random(f"{seed} {at}"))) for at in count())
    for at, text in islice((it for it in texts if is_small(it[1])), number):
        made = Path(folder, f"{seed}_{at}.ttcn")
        made.write_text(text, encoding="latin-1")
        yield made


# The limit

# Two components look several times at a port to which the other one still sends: each look may come before or after
# each look of the other one. A component with N looks has N + 1 places. When one has sent, the looks of the other are
# taken at once, and so are the two sends after all looks: so there is one more state, the end, instead of the state
# before the sends. One component sets a verdict directly after its send, so that the two can't be exchanged.
LOOKS = ((5, 5), (7, 3), (2047, 2047), (2047, 2048))
LOOKING = """module Looking {{
    type port P message {{ inout integer; }}
    type component C {{ port P p; }}
    function first() runs on C {{ {} p.send(integer:1); setverdict(none); }}
    function second() runs on C {{ {} p.send(integer:3); }}
    testcase t() runs on C {{
        var C a := C.create; var C b := C.create; connect(a:p, b:p);
        a.start(first()); b.start(second()); all component.done;
    }}
}}
"""


def looks(turns: int) -> str:
    each = "alt { [] p.receive(integer:2) { } [else] { } }"
    return f"for (var integer i := 0; i < {turns}; i := i + 1) {{ {each} }}"


def limited(program: str, path: Path, first: int, second: int) -> str:
    """The result of the script with this many looks."""
    path.write_text(LOOKING.format(looks(first), looks(second)), encoding="latin-1")
    states = (first + 1) * (second + 1)
    status, printed = printed_of(program, path)
    answer = read_answer(printed)
    wanted = (("none",), states <= MOST_STATES, min(states, MOST_STATES))
    if answer is None or (answer.verdicts, answer.decided, answer.states) != wanted or status != answer.status():
        return f"FAILED: of {states} states the status is {status}, and it says {printed[:200]}"
    wrong = answer.fault() or wrong_order(TestCase(read_script(str(path))), answer)
    return f"FAILED: of {states} states: {wrong}" if wrong else f"passed of {states} states"


# Templates times messages: 4,096 turns may have one message and one template each, and then no other template. Equal
# ones count once, so that more turns may have the same.
MOST_PAIRS = 16_777_216
TURNING = """module Turning {{
    type port P message {{ inout integer; }}
    type component C {{ port P p, q; }}
    testcase t() runs on C {{
        connect(self:p, self:q);
        for (var integer i := 0; i < {0}; i := i + 1) {{ p.send(integer:{1}); q.receive(integer:{1}); }}
        p.send(integer:0); q.receive(integer:?); setverdict(pass);
    }}
}}
"""
PAIRS = (("i", 4096, 4096 * 4097), ("1", 4097, 2 * 2))


def paired(program: str, path: Path, value: str, turns: int, pairs: int) -> str:
    """The result of the script with this many turns, and this many pairs of a template and a message."""
    path.write_text(TURNING.format(turns, value), encoding="latin-1")
    status, printed = printed_of(program, path)
    answer = read_answer(printed)
    wanted = (("pass",), True, 0) if pairs <= MOST_PAIRS else ((), False, 3)
    if answer is None or (answer.verdicts, answer.decided, status) != wanted or (answer.states > 0) != answer.decided:
        return f"FAILED: of {pairs} pairs the status is {status}, and it says {printed[:200]}"
    return f"passed of {pairs} pairs"


# Each client asks with a number of its own, and waits for it. The clients are exchanged together with their numbers, so
# there is one state for each number of clients that have asked.
CLIENTS = (3, 8)
ASKING = """p.send(integer:{0});
        alt {{ [] p.receive(integer:{0}) {{ setverdict(pass); }} [] p.receive {{ setverdict(fail); }} }}"""
ASKED = """module Asked {{
    type port P message {{ inout integer; }}
    type component C {{ port P p; }}
    {bodies}
    function server() runs on C {{
        var C w; var integer v;
        for (var integer i := 0; i < {number}; i := i + 1) {{
            p.receive(integer:?) -> value v sender w; p.send(v) to w;
        }}
    }}
    testcase t() runs on C {{
        var C s := C.create; {created}
        {connected}
        s.start(server()); {started} all component.done;
    }}
}}
"""


def numbered(program: str, path: Path, number: int) -> str:
    """The result of the script with this many clients."""
    clients = range(number)
    script = ASKED.format(
        bodies=" ".join(f"function of_c{at}() runs on C {{ {ASKING.format(at)} }}" for at in clients),
        number=number,
        created=" ".join(f"var C c{at} := C.create;" for at in clients),
        connected=" ".join(f"connect(s:p, c{at}:p);" for at in clients),
        started=" ".join(f"c{at}.start(of_c{at}());" for at in clients),
    )
    path.write_text(script, encoding="latin-1")
    status, printed = printed_of(program, path)
    answer = read_answer(printed)
    if answer is None or (answer.verdicts, answer.decided, answer.states, status) != (("pass",), True, number, 0):
        return f"FAILED: of {number} clients the status is {status}, and it says {printed[:200]}"
    return f"passed of {number} clients"


# Designs whose states would be many more if each kept what nobody looks at again, each with its largest allowed number
# of states: eight clients with two questions each to a server whose variable holds the last client that asked; four
# senders to a port that is halted, and drained, by a receiver that once distinguished their messages; four workers of a
# pool whose last results arrive in an order that makes no difference; four subscribers that acknowledge three messages
# each, and would send something else after a wrong one; four senders whose messages a receiver may distinguish, but
# only in its first look; and clients with one to three questions each to a server that has a branch for each of them:
# the order of their questions makes no difference.
SERVED = """p.send(integer:1);
        alt { [] p.receive(integer:2) { setverdict(pass); } [] p.receive { setverdict(fail); } }"""
SERVING = "for (var integer i := 0; i < 16; i := i + 1) { p.receive(integer:1) -> sender w; p.send(integer:2) to w; }"
SENDING = "p.send(integer:1); p.send(integer:2); q.receive(integer:5); p.send(integer:3); setverdict(pass);"
DRAINING = """p.receive(integer:1); p.halt;
        for (var integer i := 0; i < 8; i := i + 1) { alt { [] p.receive { } [else] { } } }
        p.start; q.send(integer:5) to all component;
        for (var integer i := 0; i < 4; i := i + 1) { p.trigger(integer:3); } setverdict(pass);"""
POOLING = """var C w; p.send(integer:1) to all component;
        for (var integer i := 0; i < {0}; i := i + 1) {{ p.receive(integer:2) -> sender w; p.send(integer:1) to w; }}
        for (var integer i := 0; i < {1}; i := i + 1) {{ p.receive(integer:2); }}
        p.send(integer:9) to all component; setverdict(pass);"""
ACKNOWLEDGING = """alt {
            [] p.receive(integer:i) { q.send(integer:5); } [] p.receive { setverdict(fail); q.send(integer:6); }
        }"""
COLLECTING = """for (var integer i := 0; i < {0}; i := i + 1) {{
            alt {{ [] q.receive(integer:5) {{ }} [] q.receive {{ setverdict(fail); }} }}
        }} setverdict(pass);"""
RETURNING = "p.receive(integer:?) -> value n sender w; p.send(n) to w;"
DISTINGUISHING = f"""var integer n; var C w;
        alt {{
            [] p.check(receive(integer:0)) {{ {RETURNING} }}
            [] p.check(receive(integer:1)) {{ {RETURNING} }}
            [else] {{ setverdict(inconc); }}
        }}
        p.trigger(integer:9); p.halt;
        for (var integer i := 0; i < 4; i := i + 1) {{
            alt {{ [] p.receive(integer:?) -> value n sender w {{ p.send(n) to w; }} [else] {{ }} }}
        }}
        p.start; alt {{ [] p.receive(integer:9) {{ setverdict(pass); }} [else] {{ p.clear; }} }} all port.stop;"""
NO_SERVER = "setverdict(pass);"
DESIGN = """module Design {{
    type port P message {{ inout integer; }}
    type component C {{ port P p, q; }}
    {bodies}
    function server() runs on C {{ {server} }}
    testcase t() runs on C {{
        {created}
        {connected}
        {started}
        {body} all component.done;
    }}
}}
"""


def design(bodies: Sequence[str], server: str, ends: Sequence[str], body: str = "") -> str:
    """A script with a server `s` and a component for each of the bodies. Each of these ends, as `s:p` or `self:q`, is
    connected with the same port of each component."""
    names = [f"c{at}" for at in range(len(bodies))]
    return DESIGN.format(
        bodies=" ".join(f"function of_{name}() runs on C {{ {it} }}" for name, it in zip(names, bodies)),
        server=server,
        created=" ".join(f"var C {it} := C.create;" for it in ("s", *names)),
        connected=" ".join(f"connect({end}, {it}:{end[-1]});" for end in ends for it in names),
        started=" ".join(("s.start(server());", *(f"{it}.start(of_{it}());" for it in names))),
        body=body,
    )


def served(number: int) -> str:
    each = f"for (var integer i := 0; i < 2; i := i + 1) {{ {SERVED} }}"
    return design([each] * number, f"var C w; {SERVING}", ["s:p"])


def drained(number: int) -> str:
    return design([SENDING] * number, NO_SERVER, ["self:p", "self:q"], DRAINING)


def pooled(number: int, jobs: int) -> str:
    done = "[] p.receive(integer:9) { setverdict(pass); }"
    each = f"alt {{ {done} }}"
    for _ in range(jobs - number + 1):
        each = f"alt {{ [] p.receive(integer:1) {{ p.send(integer:2); {each} }} {done} }}"
    return design([each] * number, NO_SERVER, ["self:p"], POOLING.format(jobs - number, number))


def published(number: int) -> str:
    taking = "for (var integer i := 0; i < 3; i := i + 1)"
    sending = f"{taking} {{ p.send(i) to all component; }}"
    each = f"{taking} {{ {ACKNOWLEDGING} }}"
    return design([each] * number, sending, ["s:p", "self:q"], COLLECTING.format(3 * number))


def distinguished(number: int) -> str:
    bodies = [f"p.send(integer:{at}); p.send(integer:9);" for at in range(number)]
    return design(bodies, "", ["self:p"], DISTINGUISHING)


def asked(number: int) -> str:
    rounds = [1 + at % 3 for at in range(number)]
    asking = "for (var integer i := 0; i < {1}; i := i + 1) {{ p.send(integer:{0}); p.receive(integer:{0}); }}"
    branches = " ".join(
        f"[] p.receive(integer:{at}) -> sender w {{ p.send(integer:{at}) to w; }}" for at in range(number)
    )
    serving = f"for (var integer i := 0; i < {sum(rounds)}; i := i + 1) {{ alt {{ {branches} }} }} setverdict(pass);"
    return design([asking.format(*it) for it in enumerate(rounds)], f"var C w; {serving}", ["s:p"])


class Design(NamedTuple):
    """A script, the largest number of states that it may have, and its verdicts."""

    name: str
    script: str
    most: int
    verdicts: tuple[str, ...] = ("pass",)


FORGETTING = (
    Design("8 clients", served(8), 50),
    Design("4 senders to a halted port", drained(4), 150),
    Design("4 workers of a pool", pooled(4, 6), 11),
    Design("4 subscribers", published(4), 10),
    Design("4 senders of their own messages", distinguished(4), 530, ("none", "pass", "inconc", "error")),
    Design("12 clients of one to three questions", asked(12), 30),
)


def forgotten(program: str, path: Path, wanted: Design) -> str:
    """The result of a design."""
    path.write_text(wanted.script, encoding="latin-1")
    status, printed = printed_of(program, path)
    answer = read_answer(printed)
    said = (wanted.verdicts, True, 0 if len(wanted.verdicts) == 1 else 2)
    if answer is None or (answer.verdicts, answer.decided, status) != said or answer.states > wanted.most:
        return f"FAILED: of {wanted.name} the status is {status}, and it says {printed[:200]}"
    return f"passed of {wanted.name}"


# Impossible answers

REFUSED = (
    "",
    "always pass\n",
    "always pass\nstates 0\n",
    "always pass\nstates 4194305\n",
    "always pass\nstates 07\n",
    "always pass\nstates 7\npass: mtc\n",
    "always pass \nstates 7\n",
    "always good\nstates 7\n",
    "pass or fail\nstates 7\npass: mtc\n",
    "pass or fail\nstates 7\nfail: a\npass: mtc\n",
    "fail or pass\nstates 7\nfail: a\npass: mtc\n",
    "pass or pass\nstates 7\npass: a\npass: mtc\n",
    "undecided\nseen pass\nstates 7\n",
    "undecided\nstates 7\nundecided\n",
)
READ = (
    ("always none\nstates 1\n", Answer(("none",), True, 1, ())),
    (
        "pass or error\nstates 7\npass:\nerror: mtc a\n",
        Answer(("pass", "error"), True, 7, (("pass", ()), ("error", ("mtc", "a")))),
    ),
    ("undecided\nstates 0\n", Answer((), False, 0, ())),
    ("undecided\nseen fail\nstates 4194304\nfail: a\n", Answer(("fail",), False, 4_194_304, (("fail", ("a",)),))),
)
# The verdicts of the program, whether it is decided, the verdicts of the model, whether it got through every order; and
# whether the two fit.
FITTING = (
    ({"pass"}, True, {"pass"}, True, True),
    ({"pass"}, True, {"pass", "fail"}, True, False),
    ({"pass", "fail"}, True, {"pass"}, True, False),
    ({"pass", "fail"}, True, {"pass"}, False, True),
    ({"pass"}, True, {"fail"}, False, False),
    ({"pass"}, False, {"pass", "fail"}, True, True),
    ({"error"}, False, {"pass", "fail"}, True, False),
)


def judged_answers() -> None:
    taken = {text: (answer := read_answer(text)) is not None and answer.fault() is None for text in REFUSED}
    read = {text: read_answer(text) == wanted and wanted.fault() is None for text, wanted in READ}
    fits = {str(row[:4]): (difference(*row[:4]) is None) == row[4] for row in FITTING}
    for what, well in [*((text, not it) for text, it in taken.items()), *read.items(), *fits.items()]:
        print(f"{'passed' if well else 'FAILED: judged wrongly:'} {what!r}")


def arguments() -> argparse.Namespace:
    words = argparse.ArgumentParser(description="Whether `tpr verdicts` says what every order comes to.")
    kinds = words.add_subparsers(dest="what", required=True)
    kind = kinds.add_parser("each")
    kind.add_argument("program", metavar="PROGRAM")
    kind.add_argument("scripts", metavar="SCRIPT", nargs="+", type=Path)
    for what in ("random", "alike"):
        kind = kinds.add_parser(what)
        kind.add_argument("program", metavar="PROGRAM")
        kind.add_argument("seed", metavar="SEED")
        kind.add_argument("number", metavar="NUMBER", type=int)
    kind = kinds.add_parser("limit")
    kind.add_argument("program", metavar="PROGRAM")
    kinds.add_parser("answers")
    return words.parse_args()


def tell_made(asked: argparse.Namespace, folder: str) -> None:
    """Prints the results of the scripts that are written to the folder."""
    if asked.what == "limit":
        for first, second in LOOKS:
            print(limited(asked.program, Path(folder, "looking.ttcn"), first, second), flush=True)
        for value, turns, pairs in PAIRS:
            print(paired(asked.program, Path(folder, "turning.ttcn"), value, turns, pairs), flush=True)
        for number in CLIENTS:
            print(numbered(asked.program, Path(folder, "asked.ttcn"), number), flush=True)
        for each in FORGETTING:
            print(forgotten(asked.program, Path(folder, "design.ttcn"), each), flush=True)
        return
    tell_each(asked.program, made_by_chance(asked.what, asked.seed, asked.number, folder))


def main() -> None:
    asked = arguments()
    if asked.what == "answers":
        judged_answers()
    elif asked.what == "each":
        tell_each(asked.program, asked.scripts)
    else:
        with tempfile.TemporaryDirectory() as folder:
            tell_made(asked, folder)


if __name__ == "__main__":
    main()
