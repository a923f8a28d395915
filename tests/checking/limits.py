"""The limits of scripts, each at its bound and one above it, and scripts that are cut short."""
from __future__ import annotations

from collections.abc import Iterator

from asking import ROOT, Case, Cut, Group, Replayed, Script, in_module, loop

MOST_BYTES = 1_048_576
MOST_COUNT = 9223372036854775807

# How many brackets each statement opens inside one another. Each kind of bracket is the innermost one once.
BRACKETS_OF = {
    "setverdict(pass);": 1,
    "p.send(integer:1);": 1,
    "p.receive(integer:1);": 1,
    "p.trigger(integer:1);": 1,
    "for (var integer j := 0; j < 1; j := j + 1) { }": 1,
    "r.send(T:{});": 2,
    "r.receive(T:{});": 2,
    "p.receive(integer:(1));": 2,
    "p.receive(integer:(1 .. 2));": 2,
    "p.receive(integer:complement(1));": 2,
    "p.check(receive(integer:1));": 2,
    "alt { [] p.receive }": 2,
    "alt { [] p.receive { } }": 2,
    "alt { [] p.receive; [else] { } }": 2,
    "alt { [] p.check(receive) }": 2,
    "alt { [] p.check(receive(integer:1)) }": 3,
}


def limit_of_text() -> Iterator[Case]:
    yield Script("a text of 1,048,576 spaces", b" " * MOST_BYTES, "10 Syntax 1")
    yield Script("a text of 1,048,577 spaces", b" " * (MOST_BYTES + 1), "15 Limit 0")
    module = in_module("testcase t() runs on C { }", "}").ljust(MOST_BYTES)
    yield Script("a module of 1,048,576 bytes", module, "accepted")
    yield Script("a module of 1,048,577 bytes", module + b" ", "15 Limit 0")


def limit_of_names() -> Iterator[Case]:
    module = in_module("testcase t() runs on C { }", "}")
    yield Script("a name of 64 letters", module.replace(b"M", b"M" * 64, 1), "accepted")
    yield Script("a name of 65 letters", module.replace(b"M", b"M" * 65, 1), "15 Limit 1")
    body = ("testcase t() runs on C {", "connect(self:p, self:q);", "p.send(integer:5);", "q.halt;", "alt {")
    branches = ("[] q.receive(integer:?) { setverdict(pass); }", "[else] { setverdict(fail); }")
    script = in_module(*body, *branches, "}", "}", "}")
    yield Script("64 letters, a body below", script.replace(b"M", b"M" * 64, 1), "accepted")
    yield Script("65 letters, a body below", script.replace(b"M", b"M" * 65, 1), "15 Limit 1")


def limit_of_names_in_queue_files() -> Iterator[Case]:
    name = b"abcdefghijklmnopqrst"
    left = b"queued\nleft 1\n" + name + b" 1\n"
    yield Replayed("a name of 20 letters in a queue file", b"arrive " + name + b" 1\n", left, 0)
    refused = b"refused 1 BadLine line 1\n"
    yield Replayed("a name of 21 letters in a queue file", b"arrive " + name + b"u 1\n", refused, 2)


def loops_round(loops: int, statement: str) -> bytes:
    """Nested loops around the statement, which is on line 9 of its script."""
    heads = (f"for (var integer i{it} := 0; i{it} < 1; i{it} := i{it} + 1) {{ " for it in range(loops))
    types = ("type record of T T;", "type port R message { inout T; }", "type component D { port P p; port R r; }")
    return in_module(*types, "testcase t() runs on D {", "".join(heads), statement, "}" * loops, "}", "}")


def limit_of_brackets() -> Iterator[Case]:
    """The brackets of the module and of the test case are open too, in addition to those of the statement."""
    for statement, brackets in BRACKETS_OF.items():
        script = loops_round(30 - brackets, statement)
        yield Script(f"32 brackets open in {statement}", script, "accepted")
        script = loops_round(31 - brackets, statement)
        yield Script(f"33 brackets open in {statement}", script, "15 Limit 9")
    for braces, answer in ((29, "accepted"), (30, "15 Limit 9")):
        script = loops_round(0, f"r.send(T:{'{' * braces}{'}' * braces});")
        yield Script(f"{braces} braces in a message", script, answer)
    for braces, answer in ((29, "accepted"), (30, "15 Limit 1")):
        yield Script(f"{braces} braces in a module of one line", on_one_line(braces), answer)


def on_one_line(braces: int) -> bytes:
    """A module on one line, which sends a value of nested lists."""
    return (
        "module M { type record of T T; type port P message { inout T; } type component C { port P p; } "
        f"testcase t() runs on C {{ p.send(T:{'{' * braces}{'}' * braces}); }} }}\n"
    ).encode()


def limit_of_numbers() -> Iterator[Case]:
    def sent(*numbers: int) -> bytes:
        return in_module("testcase t() runs on C {", *(f"p.send(integer:{it});" for it in numbers), "}", "}")

    yield Script("the greatest and the least integer", sent(MOST_COUNT, -MOST_COUNT - 1), "accepted")
    yield Script("one above the greatest", sent(MOST_COUNT + 1, -MOST_COUNT - 1), "15 Limit 5")
    yield Script("one below the least", sent(MOST_COUNT, -MOST_COUNT - 2), "15 Limit 6")


def limit_of_components() -> Iterator[Case]:
    def components(count: int, clause: str) -> bytes:
        """A test case whose head has the clause, with this many component variables, all started."""
        made = [f"var C c{it} := C.create;" for it in range(count)]
        begun = [f"c{it}.start(f());" for it in range(count)]
        head = ("function f() runs on C { }", f"testcase t() runs on C {clause}{{")
        return in_module(*head, *made, *begun, "all component.done;", "}", "}")

    yield Script("64 components", components(63, ""), "accepted")
    yield Script("65 components", components(64, ""), "15 Limit 69")
    yield Script("64 components, system among them", components(62, "system C "), "accepted")
    yield Script("65 components, system among them", components(63, "system C "), "15 Limit 68")


def limit_of_ports() -> Iterator[Case]:
    def with_ports(ports: str) -> bytes:
        return in_module(f"type component D {{ {ports} }}", "testcase t() runs on C { }", "}")

    ports = f"port P {', '.join(f'a{it}' for it in range(64))};"
    yield Script("64 ports", with_ports(ports), "accepted")
    yield Script("65 ports", with_ports(f"{ports} port P a64;"), "15 Limit 4")


def limit_of_statements() -> Iterator[Case]:
    def turns(count: int, statement: str = "setverdict(pass);") -> bytes:
        return in_module("testcase t() runs on C {", loop("i", count, statement), "}", "}")

    def started(count: int, starts: str, other: str = "") -> bytes:
        """A test case that executes `starts`. They start `f`, whose loop has `count` turns, or another function."""
        made = ("var C a := C.create;", "var C b := C.create;")
        head = (f"{other}function f() runs on C {{", loop("i", count, "setverdict(pass);"), "}")
        return in_module(*head, "testcase t() runs on C {", *made, starts, "all component.done;", "}", "}")

    yield Script("100,000 statements", turns(99999), "accepted")
    yield Script("100,001 statements", turns(100000), "15 Limit 4")
    many = turns(MOST_COUNT, loop("j", MOST_COUNT, "setverdict(pass);"))
    yield Script("more statements than 64 bits count", many, "15 Limit 4")
    twice = "a.start(f()); b.start(f());"
    yield Script("a function of 50,001 statements started twice", started(50000, twice), "15 Limit 7")
    yield Script("a function of 49,999 statements started twice", started(49998, twice), "accepted")
    others = started(100000, "a.start(g()); b.start(g());", "function g() runs on C { } ")
    yield Script("a large function that is not started", others, "accepted")


def row_of_a_system(line_4: str, line_5: str, line_6: str) -> bytes:
    """A test case with a test system interface, which `sut` plays; the arguments are its lines 4 to 6."""
    case = ("map(mtc:p, system:s);", "p.send(integer:1); p.receive(integer:2);")
    verdicts = "setverdict(pass); setverdict(fail); setverdict(pass);"
    return in_module(line_4, line_5, line_6, *case, verdicts, "}", "}")


def played_systems() -> Iterator[Case]:
    """The answer depends on line 5 of the script, or on a line next to it."""
    line_4, played = "type component S { port P s; }", "{ s.receive(integer:1); s.send(integer:2); }"
    line_5, line_6 = f"function sut() runs on S {played}", "testcase t() runs on C system S {"
    yield Script("a system that is played", row_of_a_system(line_4, line_5, line_6), "accepted")
    for name, changed in (
        ("sets a verdict", "function sut() runs on S { setverdict(pass); }"),
        ("has a parameter", "function sut(C x) runs on S { }"),
        ("runs on another type", "function sut() runs on C { }"),
    ):
        yield Script(f"a system that {name}", row_of_a_system(line_4, changed, line_6), "16 NotInSut 5")
    without = row_of_a_system(line_4, line_5, "testcase t() runs on C {")
    yield Script("a system that no test case has", without, "16 NotInSut 5")
    sends = "type port O message { out integer; } type component S { port O s; }"
    for name, statement, answer in (
        ("sends the wrong way", "s.send(integer:2);", "14 Direction 5"),
        ("receives the right way", "s.receive(integer:1);", "accepted"),
    ):
        changed = f"function sut() runs on S {{ {statement} }}"
        script = row_of_a_system(sends, changed, line_6)
        yield Script(f"a system that {name}", script, answer)


def cut_scripts() -> Iterator[Case]:
    for file in ("tests/golden/components/system_under_test_answers.ttcn", "tests/checking/every_line.ttcn"):
        text = (ROOT / file).read_bytes().rpartition(b"}")[0]
        if len(text) < 100:
            raise ValueError(f"{file} is too short to be cut")
        yield Cut(file, text)


def groups() -> list[Group]:
    return [
        Group("the limit of texts", 4, limit_of_text),
        Group("the limit of names", 4, limit_of_names),
        Group("the limit of names in queue files", 2, limit_of_names_in_queue_files),
        Group("the limit of brackets", 36, limit_of_brackets),
        Group("the limit of numbers", 3, limit_of_numbers),
        Group("the limit of components", 4, limit_of_components),
        Group("the limit of ports", 2, limit_of_ports),
        Group("the limit of statements", 6, limit_of_statements),
        Group("systems that are played", 7, played_systems),
        Group("scripts that are cut", 2, cut_scripts),
    ]
