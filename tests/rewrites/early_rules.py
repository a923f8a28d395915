"""Tests how early tools/rewrite ends if it would exceed a bound, and how often it follows a script.

    tests/rewrites/early_rules.py

It prints a line `passed ..` or `FAILED: ..` for each case.
"""
from __future__ import annotations

import os
import sys
from typing import NoReturn
from unittest.mock import patch

sys.path.insert(0, os.path.dirname(os.path.realpath(__file__)))

from asking import FOLDER, PRELUDE, judged
from tpr_tools.rewrite import following
from tpr_tools.rewrite.choosing import Chooser
from tpr_tools.rewrite.rewriting import Rewritten, rewrite
from tpr_tools.rewrite.run import Options, Run
from tpr_tools.rewrite.tokens import Source, Token
from tpr_tools.rewrite.tree import TestCase

# Three components send numbers, and a fourth adds them up, so that it continues in a different way for each sum.
SUMS = PRELUDE + """function f(integer n) runs on C { for (var integer i := 0; i < 6; i := i + 1) { p.send(n * 10 + i); } }
testcase t() runs on C { var integer v, sum := 0; for (var integer i := 1; i < 4; i := i + 1) { var C c := C.create;
connect(self:p, c:p); c.start(f(i)); } for (var integer i := 0; i < 18; i := i + 1) { p.receive(integer:?) -> value v;
sum := sum * 2 + v; } if (sum > 0) { setverdict(pass); } all component.done; }
}
"""
FOR = "for (var integer i := 0; i < 18; i := i + 1) { p.receive(integer:?) -> value v;\nsum := sum * 2 + v; }"
# The same loop, but its head doesn't show the number of turns.
OTHERS = {
    "while": "while (n < 18) { p.receive(integer:?) -> value v; sum := sum * 2 + v; n := n + 1; }",
    "do": "do { p.receive(integer:?) -> value v; sum := sum * 2 + v; n := n + 1; } while (n < 18);",
    "break": "while (true) { p.receive(integer:?) -> value v; sum := sum * 2 + v; n := n + 1; if (n == 18) { break; } }",
    "repeat": "alt { [] p.receive(integer:?) -> value v { sum := sum * 2 + v; n := n + 1; if (n < 18) { repeat; } } }",
}
# A component sends to itself, and computes with the answer.
TO_ITSELF = PRELUDE + """testcase t() runs on C { var integer v := 0; connect(self:p, self:q); for (var integer i := 0; i < TURNS; i := i + 1) {
p.send(v); q.receive(integer:?) -> value v; v := (v + 1) mod 3; } }
}
"""
PLAIN = PRELUDE + """testcase t() runs on C { connect(self:p, self:q); for (var integer i := 0; i < 5000; i := i + 1) { p.send(i); q.receive(i); } }
}
"""


def main() -> None:
    """A script that would exceed a bound must be refused before the bound is reached, and no script may be followed
    more often than necessary."""
    found, stops, _ = counted(SUMS, Options(statements=8_000))
    reasons = [one.reason for one in found.refused]
    is_told = reasons == ["more than 8,000 statements would be written: --statements 61949 lets it write more"]
    judged("a loop that would write too much is refused", is_told, f"{reasons}")
    judged("it is refused before so much is written", stops[-1][0] < 8_000, f"{stops}")
    for word, loop in OTHERS.items():
        found, stops, _ = counted(SUMS.replace(FOR, loop).replace("sum := 0;", "sum := 0, n := 0;"), Options(statements=8_000))
        is_told = [one.reason.partition(":")[0] for one in found.refused] == ["more than 8,000 statements would be written"]
        judged(f"a `{word}` that would write too much is refused before it does", is_told and stops[-1][0] < 8_000, f"{stops}")
    found, stops, _ = counted(TO_ITSELF.replace("TURNS", "30000"), Options(seconds=1))
    judged("what takes too long is refused", "takes more than 1 seconds" in found.refused[0].reason, f"{found.refused}")
    judged("the seconds are those of all that is tried", stops[-1][1] - stops[0][1] < 3, f"{stops}")
    found, _, rounds = counted(TO_ITSELF.replace("TURNS", "60"), Options())
    judged("what a component sends to itself comes in the same round", not found.refused and rounds < 10, f"{rounds} rounds")
    with open(f"{FOLDER}/unseen/frames_go_back_to_the_lost_one.ttcn", encoding="utf-8") as opened:
        found, _, rounds = counted(opened.read(), Options())
    judged("what is refused for good isn't followed to its end", len(found.refused) == 1 and rounds == 3, f"{rounds} rounds")
    with open(f"{FOLDER}/unseen/update_is_lost_between_two_writers.ttcn", encoding="utf-8") as opened:
        climbing = opened.read()
    with patch.object(Chooser, "_waited", autospec=True, side_effect=Chooser._waited) as waited:
        with patch.object(Chooser, "_apart", autospec=True, side_effect=Chooser._apart) as turned:
            found, _, rounds = counted(climbing, Options(encodes=True))
    reasons = [one.reason for one in found.refused]
    is_told = ["goes on and on" in reason for reason in reasons] == [True]
    judged("values that are computed in a circle are refused early", is_told and rounds < 16, f"{reasons} {rounds} rounds")
    sorted_turns, looks = turned.call_count, sum(one.args[0].run.sorts for one in waited.call_args_list)
    judged("a turn is followed once, though what comes in it is told apart", looks == sorted_turns > 500, f"{looks} of {sorted_turns}")
    found, _, rounds = counted(PLAIN, Options())
    is_whole = found.text.count("p.send") == 5000 and rounds == 1
    judged("a loop on whose messages nothing hangs is followed to its end", is_whole, f"{found.refused} {rounds} rounds")


def counted(text: str, options: Options) -> tuple[Rewritten, list[tuple[int, int]], int]:
    """The result for a script; for each stop the number of statements written and of rounds until then; and the number
    of all rounds."""
    stops: list[tuple[int, int]] = []
    rounds: list[str] = []
    stop, follow = Run._stop, following._follow_once

    def noted(run: Run, at: Token, reason: str) -> NoReturn:
        stops.append((run.written, len(rounds)))
        stop(run, at, reason)

    def followed(run: Run, case: TestCase) -> following.Followed:
        rounds.append(case.name)
        return follow(run, case)

    with patch.object(Run, "_stop", noted), patch.object(following, "_follow_once", followed):
        return rewrite([Source("t.ttcn", text.encode())], options=options), stops, len(rounds)


if __name__ == "__main__":
    main()
