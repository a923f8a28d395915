"""Tests all predefined functions of the standard (ES 201 873-1, Annex C): each is computed, or refused with a reason.

    tests/rewrites/predefined_rules.py

Each line of tests/rewrites/predefined has a function, a true statement about it if it is computed at all, a use of it
that is refused, and the reason. It prints a line `passed ..` or `FAILED: ..` for each case.
"""
from __future__ import annotations

import os
import sys

sys.path.insert(0, os.path.dirname(os.path.realpath(__file__)))

from asking import FOLDER, PRELUDE, judged
from tpr_tools.rewrite.arithmetic import PREDEFINED
from tpr_tools.rewrite.rewriting import Rewritten, rewrite
from tpr_tools.rewrite.tokens import Source

# Annex C.1 to C.6, in its order.
FUNCTIONS = """int2char int2unichar int2bit int2enum int2hex int2oct int2str int2float float2int char2int char2oct unichar2int
unichar2oct bit2int bit2hex bit2oct bit2str hex2int hex2bit hex2oct hex2str oct2int oct2bit oct2hex oct2str oct2char oct2unichar
str2int str2hex str2oct str2float enum2int any2unistr lengthof sizeof ispresent ischosen isvalue isbound istemplatekind regexp
substr replace encvalue decvalue encvalue_unichar decvalue_unichar encvalue_o decvalue_o get_stringencoding remove_bom rnd
testcasename hostid""".split()
# The definitions for these uses.
DEFINITIONS = """type enumerated E { e_a, e_b(5), e_c(2) } type record R { integer a, integer b, integer c optional }
type union U { integer a, integer b } const L c_list := {1, 2, 3}; const R c_record := {1, 2, omit}; const U c_union := {a := 1};
template L mw_list := {1, *}; template integer mw_range := (1 .. 3); template charstring mw_pattern := pattern "?=([0-9]+);";
function f_of_number(integer n) return E { var E e; int2enum(n, e); return e; }
"""


def asked(condition: str) -> Rewritten:
    case = f"testcase t() runs on C {{ if ({condition}) {{ p.send(1); }} }}\n}}\n"
    return rewrite([Source("t.ttcn", (PRELUDE + DEFINITIONS + case).encode())])


def main() -> None:
    with open(f"{FOLDER}/predefined", encoding="utf-8") as opened:
        rows = [[cell.strip() for cell in line.split(" | ")] for line in opened]
    judged("a row for each function of Annex C", [row[0] for row in rows] == FUNCTIONS, f"{[row[0] for row in rows]}")
    others = PREDEFINED.keys() - set(FUNCTIONS) - {"char"}
    judged("no other function is computed", not others, f"{others}")
    for function, condition, wrong, reason in rows:
        if condition:
            found = asked(condition)
            judged(f"{function} is computed", "p.send(integer:1)" in found.text, f"{found.refused}")
        reasons = [one.reason for one in asked(wrong).refused]
        judged(f"{function} is refused with its reason", reasons == [reason], f"{reasons}")


if __name__ == "__main__":
    main()
