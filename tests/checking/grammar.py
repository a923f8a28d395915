"""Tests which texts the parser accepts, and where it refuses the others: the table grammar.texts, and open brackets.

In the table a line `in NAME` selects the context of the texts that follow. A text comes after its answer, `accepted` or
`CODE NAME LINE`: 10 and 15 if the parser refuses the text, and otherwise the answer of the later checks. `\\n` in a
text is a line end.
"""
from __future__ import annotations

from collections.abc import Iterator
from typing import NamedTuple

from asking import ROOT, Case, Group, Script

TEXTS = ROOT / "tests" / "checking" / "grammar.texts"
TYPES = (
    "type record R { integer a } type record T { integer a, U b } "
    "type record U { boolean c, charstring d } type record of R L;"
)
PORTS = "type port P message { inout integer, boolean, charstring, R, T, L; }"
COMPONENT = "type component C { port P p, q; }"
CASE = "testcase t() runs on C { }"
HEAD = f"module M {{\n{PORTS} {TYPES}\n{COMPONENT}"
BARE = f"module M {{\ntype port P message {{ inout integer; }}\n{COMPONENT}"
VARIABLES = f"{HEAD}\nfunction f(C a) runs on C {{ var integer v; var R r; var C w;\n"


class Around(NamedTuple):
    """The context of a text: what comes before it and after it."""

    before: str
    behind: str

    def script(self, text: str) -> bytes:
        return f"{self.before}{text}{self.behind}".replace("\\n", "\n").encode("latin-1")


AROUND = {
    "module": Around("", ""),
    "definitions": Around(f"{BARE} {CASE}\n", ""),
    "definitions_alone": Around(f"{BARE}\n", ""),
    "function": Around(f"{HEAD}\nfunction f(C a) runs on C {{\n", f"\n}} {CASE} }}"),
    "variables": Around(VARIABLES, f"\n}} {CASE} }}"),
    "argument": Around(VARIABLES, f") }} {CASE} }}"),
    "test_case": Around(
        f"{HEAD} function f(C x) runs on C {{ }} function g() runs on C {{ }}\ntestcase t() runs on C system C {{\n",
        "\n} }",
    ),
    "statement": Around(f"module M {{ {PORTS} {TYPES} {COMPONENT} function f() runs on C {{ ", f" }} {CASE} }}"),
}


def texts_of_the_table() -> Iterator[Case]:
    around = "module"
    for line in TEXTS.read_text(encoding="latin-1").split("\n"):
        first, _, rest = line.partition(" ")
        if not line or line.startswith("#"):
            continue
        if first == "in":
            around = rest
            continue
        words = line.split(" ", 3)
        answer, text = (first, rest) if first == "accepted" else (" ".join(words[:3]), words[3])
        yield Script(f"{around}: {text}", AROUND[around].script(text), answer)


def behind_brackets(brackets: int, statement: str) -> bytes:
    """The statement after this many open brackets, on line 2 of its module. It can send `v`."""
    before = "".join(f"for (var integer i{it} := 0; i{it} < 1; i{it} := i{it} + 1) {{" for it in range(brackets - 2))
    head = f"module M {{ {PORTS} {TYPES} {COMPONENT} testcase t() runs on C {{ var integer v; {before}\n"
    return Around(head, f"\n{'}' * (brackets - 2)} }} }}").script(statement)


# The largest number of open brackets before each statement, and the answer for that number.
MOST_BRACKETS = (
    (31, "accepted", "p.send(v)"),
    (31, "accepted", "p.receive(integer:1)"),
    (31, "accepted", "p.trigger(integer:1)"),
    (31, "accepted", "p.check(receive)"),
    (31, "accepted", "setverdict(pass)"),
    (31, "accepted", "for (var integer i := 0; i < 1; i := i + 1) { }"),
    (30, "accepted", "alt { [] p.receive }"),
    (30, "accepted", "alt { [else] { } }"),
    (30, "accepted", "alt { [] p.receive { } }"),
    (30, "accepted", "p.check(receive(integer:1))"),
    (30, "accepted", "p.send(L:{})"),
    (30, "13 WrongType 2", "p.send(R:{})"),
    (29, "accepted", "p.send(L:{{1}})"),
    (29, "13 WrongType 2", "p.send(R:{a := {1}})"),
    (30, "accepted", "p.receive(integer:(1))"),
    (30, "13 WrongType 2", "p.receive(R:(1))"),
    (30, "accepted", "p.receive(integer:(1 .. 2))"),
    (30, "accepted", "p.receive(integer:complement(1))"),
    (28, "accepted", "p.receive(R:{a := complement((1))})"),
    (27, "13 WrongType 2", "p.receive(R:{a := (complement({?}))})"),
)


def open_brackets() -> Iterator[Case]:
    """Each statement may follow its largest number of open brackets, but not one more."""

    def behind(brackets: int, statement: str, answer: str) -> Script:
        return Script(f"{statement} behind {brackets} brackets", behind_brackets(brackets, statement), answer)

    for most, answer, statement in MOST_BRACKETS:
        yield behind(most, statement, answer)
        yield behind(most + 1, statement, "15 Limit 2")
    yield behind(32, "p.stop", "accepted")
    yield behind(33, "p.stop", "15 Limit 1")


# The answer has the line of the bracket or number that exceeds the limit. It is 10 if no bracket or number may be
# there, or if an earlier token is wrong.
TOO_MANY = (
    (32, "15 Limit 2", r"p.send(\nv)"),
    (32, "15 Limit 2", r"p.check(\nreceive)"),
    (32, "15 Limit 2", r"for (\nvar integer i := 0; i < 1; i := i + 1) { }"),
    (31, "15 Limit 2", r"p.send(R:{\n})"),
    (31, "15 Limit 2", r"p.receive(R:(\n1))"),
    (31, "15 Limit 2", r"p.receive(R:{\n})"),
    (31, "15 Limit 2", r"p.receive(R:complement(\n1))"),
    (31, "15 Limit 2", r"alt { [\n] p.receive }"),
    (31, "15 Limit 2", r"alt { [\nelse] { } }"),
    (32, "15 Limit 2", r"alt {\n[else] { } }"),
    (32, "15 Limit 3", r"alt\n{ [else] { } }"),
    (32, "15 Limit 3", r"p.send\n(v)"),
    (32, "15 Limit 3", r"for\n(var integer i := 0; i < 1; i := i + 1) { }"),
    (31, "15 Limit 3", r"p.receive(R:\n{})"),
    (31, "15 Limit 3", r"p.send(integer:\n9223372036854775808)"),
    (32, "10 Syntax 3", r"p.stop\n("),
    (32, "10 Syntax 3", r"p.send\n{v}"),
    (32, "10 Syntax 3", r"p.check\n["),
    (32, "10 Syntax 3", r"setverdict\n{pass}"),
    (32, "10 Syntax 3", r"alt\n[else] { }"),
    (32, "10 Syntax 3", r"for\n{"),
    (32, "10 Syntax 3", r"\n{"),
    (32, "10 Syntax 3", r"\n["),
    (32, "10 Syntax 3", r"\n("),
    (32, "10 Syntax 2", r"p, send\n(v)"),
    (32, "10 Syntax 2", r"alt else\n{ }"),
    (32, "10 Syntax 2", r"for {\n("),
    (31, "10 Syntax 2", r"p.send(v v,\n{{1}})"),
    (31, "10 Syntax 2", r"p.send(integer v,\n9223372036854775808)"),
)


def brackets_too_many() -> Iterator[Case]:
    for brackets, answer, statement in TOO_MANY:
        yield Script(f"{statement} behind {brackets} brackets", behind_brackets(brackets, statement), answer)


def token_faults_first() -> Iterator[Case]:
    """A fault of the tokens takes precedence over one of the grammar, wherever it is."""
    faults = {it: "10 Syntax 6" for it in ('"', '"\x7f"', "@", "p > q", "/*/")}
    faults |= {it: "15 Limit 6" for it in ("9223372036854775809", "x" * 65)}
    for before in ("module M {", "module M } {", "module M { type record of"):
        for behind, answer in faults.items():
            yield Script(f"{before} .. {behind}", f"{before}\n\n\n\n\n{behind}\n//".encode(), answer)


def characters_of_patterns() -> Iterator[Case]:
    """Characters that a text after `pattern` may have, and others."""

    def pattern(character: str) -> bytes:
        text = f'function f() runs on C {{ p.receive(charstring:pattern\n"a{character}b"\n); }}'
        return f"{HEAD}\n{text} {CASE} }}".encode()

    for character in ("\\", "[", "]", "{", "}", "(", ")", "|", "#", "+", '""'):
        yield Script(f"a pattern with {character}", pattern(character), "10 Syntax 5")
    for character in (".", "^", "-", "?", "*", "'", "~", " ", "!", ","):
        yield Script(f"a pattern with {character}", pattern(character), "accepted")


def groups() -> list[Group]:
    """The groups of this table; tests/cases.list says how many texts grammar.texts has."""
    return [
        Group("grammar.texts", 1, texts_of_the_table),
        Group("open brackets", 42, open_brackets),
        Group("brackets that are too many", 29, brackets_too_many),
        Group("faults of tokens", 21, token_faults_first),
        Group("characters of patterns", 21, characters_of_patterns),
    ]
