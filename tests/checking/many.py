"""Scripts with more items of a kind than small tables hold, and a fault in the last one; faults in scripts that also
exceed a limit; and a long report."""
from __future__ import annotations

from collections.abc import Iterator
from itertools import product
from string import ascii_letters, ascii_uppercase, digits

from asking import Case, Group, Reported, Script, in_module, listed, on_lines

EMPTY_CASE = "testcase t() runs on C { }"
CREATED = "var C c@ := C.create;"


def with_70_fields(statement: str) -> bytes:
    """A record with 70 fields, and on line 6 a statement at a port for it."""
    types = f"type record R {{ {listed('integer f@', 70)} }} type port Q message {{ inout R; }}"
    return in_module(f"{types} type component D {{ port Q r; }}", "testcase t() runs on D {", statement, "}", "}")


def many_fields() -> Iterator[Case]:
    def sent(fields: str) -> bytes:
        return with_70_fields(f"r.send(R:{{{fields}}});")

    def named(times: int) -> str:
        return listed("f@ := 1", times)

    yield Script("70 values", sent(listed("@", 70)), "accepted")
    yield Script("69 values for 70 fields", sent(listed("@", 69)), "13 WrongType 6")
    yield Script("71 values for 70 fields", sent(listed("@", 71)), "13 WrongType 6")
    last_wrong = sent(f"{listed('@', 69)}, true")
    yield Script("70 values, the last of another type", last_wrong, "13 WrongType 6")
    yield Script("70 values, the last an unknown name", sent(f"{listed('@', 69)}, z"), "11 Unknown 6")
    yield Script("70 values by their names, the last first", sent(f"f69 := 1, {named(69)}"), "accepted")
    twice = sent(f"f68 := 1, {named(69)}")
    yield Script("70 values by their names, one twice and one missing", twice, "13 WrongType 6")
    again = sent(f"{named(70)}, f0 := 1")
    yield Script("70 values by their names, and the first again", again, "13 WrongType 6")
    no_field = sent(f"{named(69)}, f70 := 1")
    yield Script("70 values by their names, the last no field", no_field, "13 WrongType 6")
    for templates, answer in ((70, "accepted"), (69, "13 WrongType 6")):
        name = f"{templates} templates{'' if templates == 70 else ' for 70 fields'}"
        yield Script(name, with_70_fields(f"r.receive(R:{{{listed('?', templates)}}});"), answer)
    fields = f"type record R {{ {listed('integer f@', 70)},"
    again = in_module(fields, "integer f0 }", EMPTY_CASE, "}")
    yield Script("70 fields, and the first name again", again, "12 Duplicate 5")
    unknown = in_module(fields, "X f70 }", EMPTY_CASE, "}")
    yield Script("71 fields, the last of an unknown type", unknown, "11 Unknown 4")


def many_types() -> Iterator[Case]:
    records = on_lines("type record R@ { }", 200)
    of_later, later = on_lines("type record R@ { S@ a }", 200), "type record of integer S@;"

    def module(*lines: str) -> bytes:
        return in_module(*lines, EMPTY_CASE, "}")

    yield Script("200 records", module(records), "accepted")
    first, last = module(records, "type record R0 { }"), module(records, "type record R199 { }")
    yield Script("200 records, and the first name again", first, "12 Duplicate 204")
    yield Script("200 records, and the last name again", last, "12 Duplicate 204")
    all_later, one_less = module(of_later, on_lines(later, 200)), module(of_later, on_lines(later, 199))
    yield Script("200 records, each with a field of a type that comes later", all_later, "accepted")
    yield Script("200 records, the last with a field of an unknown type", one_less, "11 Unknown 203")
    ports = on_lines("type component D@ { port P r@; }", 70)
    runs = in_module(on_lines("type component D@ { }", 70), "testcase t() runs on D69 { }", "}")
    stops = in_module(ports, "testcase t() runs on D69 { r68.stop; }", "}")
    yield Script("70 component types, of which the last runs", runs, "accepted")
    yield Script("70 component types, and the port of another one", stops, "11 Unknown 74")


def many_functions() -> Iterator[Case]:
    stops = on_lines("function f@() runs on C { p.stop; }", 70)
    one = in_module(stops, "function g() runs on C { z.stop; }", EMPTY_CASE, "}")
    yield Script("70 functions, and one with a fault", one, "11 Unknown 74")
    each = in_module(on_lines("function f@() runs on C { z.stop; }", 70), EMPTY_CASE, "}")
    yield Script("70 functions, each with a fault", each, "11 Unknown 4")


def with_70_parameters(arguments: str) -> bytes:
    """A script whose function f has 70 parameters, and is started on line 7 with these arguments."""
    sends = "p.send(integer:1) to c68; " * 2
    return in_module(
        f"type component D {{ }} function f({listed('C c@', 69)}, D d) runs on C {{ {sends} }}",
        "testcase t() runs on C {",
        "var C a := C.create; var D e := D.create; var C b := C.create;",
        f"a.start(f({arguments})); e.start(g()); b.start(h());",
        "all component.done;",
        "}",
        "function g() runs on D { } function h() runs on C { }",
        "}",
    )


def many_parameters() -> Iterator[Case]:
    yield Script("70 arguments", with_70_parameters("mtc, " * 69 + "e"), "accepted")
    yield Script("69 arguments for 70 parameters", with_70_parameters("mtc, " * 68 + "e"), "13 WrongType 7")
    other_type = with_70_parameters("a, " * 69 + "b")
    yield Script("70 arguments, the last of another type", other_type, "13 WrongType 7")
    yield Script("70 arguments, the last unknown", with_70_parameters("self, " * 69 + "z"), "11 Unknown 7")
    again = in_module(f"function f({listed('C c@', 70)},", "C c0) runs on C { }", EMPTY_CASE, "}")
    yield Script("70 parameters, and the first name again", again, "12 Duplicate 5")
    port = in_module(f"function f({listed('C c@', 70)}, C q) runs on C {{ }}", EMPTY_CASE, "}")
    yield Script("71 parameters, the last named as a port", port, "12 Duplicate 4")


def kinds(name: str, direction: str, count: int) -> str:
    """A port type with this many message types."""
    return f"type port {name} message {{ {direction} {listed('Kind@', count)}; }}"


def many_message_types() -> Iterator[Case]:
    before = on_lines("type record Kind@ { }", 71)
    mapped = "testcase t() runs on D system {} {{ map(mtc:r, system:r); }}"
    one, two = "type component D { port Q r; }", "type component D { port Q r; port O s; }"
    connects = "testcase t() runs on D { connect(mtc:r, mtc:s); }"
    inout = f"{kinds('Q', 'inout', 70)} {one}"
    both = in_module(before, inout, "testcase t() runs on D { r.send(Kind69:{}); r.receive(Kind0:{}); }", "}")
    yield Script("70 message types", both, "accepted")
    other = in_module(before, inout, "testcase t() runs on D {", "r.send(Kind70:{}); }", "}")
    yield Script("70 message types, and another one is sent", other, "14 Direction 77")
    unknown = in_module(before, f"{kinds('Q', 'inout', 72)} {one}", "testcase t() runs on D { }", "}")
    yield Script("72 message types, the last unknown", unknown, "11 Unknown 75")
    sends = in_module(before, kinds("Q", "out", 70), one, mapped.format("D"), "}")
    yield Script("70 message types of a port that is mapped", sends, "accepted")
    ports = f"{kinds('Q', 'out', 70)} {kinds('O', 'out', 69)}"
    less = in_module(before, ports, f"{one} type component E {{ port O r; }}", mapped.format("E"), "}")
    name = "70 message types of a port that is mapped, one not sent by the system"
    yield Script(name, less, "24 MapDirections 77")
    name = "70 message types of ports that are connected"
    ports = f"{kinds('Q', 'in', 70)} {kinds('O', 'out', 70)}"
    yield Script(name, in_module(before, ports, two, connects, "}"), "accepted")
    ports = f"{kinds('Q', 'in', 69)} {kinds('O', 'out', 70)}"
    yield Script(f"{name}, one not received", in_module(before, ports, two, connects, "}"), "20 Directions 77")


def with_connections(line: str) -> bytes:
    """63 components, each connected with the same port of mtc, and then this line."""
    return in_module(
        "function f() runs on C { }",
        "testcase t() runs on C {",
        on_lines(CREATED, 63),
        on_lines("connect(mtc:p, c@:p);", 63),
        line,
        on_lines("c@.start(f());", 63),
        "all component.done;",
        "}",
        "}",
    )


def many_connections() -> Iterator[Case]:
    for more, line, answer in (
        ("", "connect(mtc:q, c62:q);", "accepted"),
        (", and the last again", "connect(c62:p, mtc:p);", "27 Already 132"),
        (", and the first again", "connect(c0:p, mtc:p);", "27 Already 132"),
        (", and another port of the last", "connect(mtc:p, c62:q);", "21 TwoPortsOfOne 132"),
        (", and another port of one in the middle", "connect(mtc:p, c31:q);", "21 TwoPortsOfOne 132"),
        (" and one of its own component", "connect(mtc:p, mtc:q);", "accepted"),
    ):
        yield Script(f"a port with 63 partners{more}", with_connections(line), answer)


def in_case(*lines: str) -> bytes:
    return in_module("testcase t() runs on C {", *lines, "}", "}")


def many_statements() -> Iterator[Case]:
    loops = "for (var integer i@ := 0; i@ < 1; i@ := i@ + 1) {"
    variables = on_lines("var integer v@;", 70)
    sends = "\n".join(["p.send(integer:1);"] * 1000)
    wrong = in_case(f"{sends}", "p.send(integer:true);")
    yield Script("1,000 statements, and one with a fault", wrong, "13 WrongType 1005")
    wrong = in_case("alt {", on_lines("[] p.receive(integer:@);", 70), "[] z.receive;", "}")
    yield Script("70 branches, and one with a fault", wrong, "11 Unknown 76")
    branches = on_lines("[] p.receive(integer:@) { p.send(integer:@); }", 70)
    yield Script("70 branches", in_case("alt {", branches, "[else] { }", "}"), "accepted")
    uses = in_case(variables, "p.receive(integer:?) -> value v69; p.send(v0);")
    yield Script("70 variables", uses, "accepted")
    again = in_case(variables, "var integer v0;")
    yield Script("70 variables, and the first name again", again, "12 Duplicate 75")
    inner = in_case(on_lines(loops, 29), "p.send(i28); p.send(i0);", "}" * 29)
    yield Script("29 loops in one another", inner, "accepted")
    same = in_case(on_lines(loops, 28), "for (var integer i0 := 0; i0 < 1; i0 := i0 + 1) { }", "}" * 28)
    yield Script("29 loops in one another, the innermost named as the outermost", same, "12 Duplicate 33")


def many_elements() -> Iterator[Case]:
    def with_elements(elements: str) -> bytes:
        """A script with this list on line 6."""
        types = "type record of integer L; type port Q message { inout L; } type component D { port Q r; }"
        return in_module(types, "testcase t() runs on D {", f"r.send(L:{{{elements}}});", "}", "}")

    yield Script("1,000 elements", with_elements(listed("@", 1000)), "accepted")
    wrong = with_elements(f"{listed('@', 1000)}, true")
    yield Script("1,000 elements, and one of another type", wrong, "13 WrongType 6")
    wrong = with_elements(f"{listed('@', 500)}, z, {listed('@', 500)}, true")
    yield Script("an unknown name among 1,000 elements", wrong, "11 Unknown 6")
    wrong = in_case(f"p.receive(integer:({listed('@', 1000)}, (5 .. 1)));")
    yield Script("1,000 templates, and one with a fault", wrong, "13 WrongType 5")


def long_names() -> Iterator[Case]:
    long = "n" * 63
    a, b, none = (f"type record {long}{last} {{ }}" for last in ("a", "b", ""))
    yield Script("names of 64 letters that differ in the last", in_module(f"{a} {b}", EMPTY_CASE, "}"), "accepted")
    yield Script("names of 63 and 64 letters", in_module(f"{a} {none}", EMPTY_CASE, "}"), "accepted")
    yield Script("the same name of 64 letters twice", in_module(a, a, EMPTY_CASE, "}"), "12 Duplicate 5")


# One component variable too many, on line 69. Faults of its name or its type, and two types that differ, take
# precedence over the limit. The limit takes precedence over the next statement.
LAST_COMPONENTS = (
    ("12 Duplicate 69", "var C c0 := C.create;"),
    ("12 Duplicate 69", "var X c62 := C.create;"),
    ("12 Duplicate 69", "var C q := C.create;"),
    ("11 Unknown 69", "var X c63 := X.create;"),
    ("11 Unknown 69", "var f c63 := f.create;"),
    ("13 WrongType 69", "var C c63 := D.create;"),
    ("15 Limit 69", "var C c63 := C.create;"),
    ("11 Unknown 70", "connect(mtc:p, c62:p);"),
)


def limit_of_components_last() -> Iterator[Case]:
    head = ("function f() runs on C { } type component D { }", "testcase t() runs on C {", on_lines(CREATED, 63))
    for answer, line in LAST_COMPONENTS:
        script = in_module(*head, line, "connect(z:p, z:p);", "all component.done;", "}", "}")
        yield Script(f"63 components, then {line}", script, answer)


def limit_of_ports_first() -> Iterator[Case]:
    """A component type with too many ports, on line 4. Names are checked before everything else, and then the
    definitions in the order of the text. Within a definition an unknown name takes precedence over the limit."""
    ports, record, sut = f"port P {listed('a@', 64)};", "type record R { X a }", "function sut() runs on C { }"
    too_many = f"type component D {{ {ports} port P a64; }}"
    setup = "testcase t() runs on D { connect(mtc:a0, mtc:a0); }"
    for name, lines, answer in (
        ("65 ports, the last of an unknown type", (f"type component D {{ {ports} port X a64; }}",), "11 Unknown 4"),
        ("65 ports of an unknown type", (f"type component D {{ port X {listed('a@', 65)}; }}",), "11 Unknown 4"),
        ("65 ports before an unknown type", (too_many, record), "15 Limit 4"),
        ("65 ports behind an unknown type", (record, too_many), "11 Unknown 4"),
        ("65 ports before a fault of sut", (too_many, sut), "15 Limit 4"),
        ("65 ports behind a fault of sut", (sut, too_many), "16 NotInSut 4"),
        ("65 ports, two of them of one name", (f"type component D {{ {ports}", "port P a0; }"), "12 Duplicate 5"),
    ):
        yield Script(name, in_module(*lines, EMPTY_CASE, "}"), answer)
    yield Script("65 ports before a fault of the setup", in_module(too_many, setup, "}"), "15 Limit 4")


def limit_of_text_first() -> Iterator[Case]:
    """If a text is too long, that is reported before any other fault in it."""
    byte = "a byte that begins no token, in a text that is"
    yield Script(f"{byte} too long", b"@".ljust(1048577), "15 Limit 0")
    yield Script(f"{byte} just short enough", b"@".ljust(1048576), "10 Syntax 1")
    name = (b"x" * 65).ljust(1048577)
    yield Script("a name that is too long, in a text that is too long", name, "15 Limit 0")


def long_report() -> Iterator[Case]:
    """7,000 messages to each of 61 components, all sent and all left: a long run and its report are complete."""
    script = in_module(
        "function f() runs on C { }",
        "testcase t() runs on C {",
        on_lines(CREATED, 61),
        on_lines("connect(self:p, c@:p);", 61),
        on_lines("c@.start(f());", 61),
        "for (var integer i := 0; i < 7000; i := i + 1) { p.send(integer:7) to all component; }",
        "all component.done;",
        "}",
        "}",
    )
    sent = (f"sent c{to}.p {turn} integer:7\n" for turn in range(7000) for to in range(61))
    left = "".join(f"left p mtc {turn} integer:7\n" for turn in range(7000))
    end = "end done\nverdict none\n"
    others = "".join(f"component c{it}\n{end}{left}" for it in range(61))
    report = f"component mtc\n{''.join(sent)}{end}{others}result none\n"
    yield Reported("a report of 427,000 messages", script, report.encode())


def most_types() -> Iterator[Case]:
    """As many types as fit into a text, and a message of the last one."""
    names = ["".join(it) for it in product(ascii_uppercase, *[f"{ascii_letters}{digits}_"] * 2)][:61_600]
    last = names[-1]
    script = in_module(
        "".join(f"type record {name}{{}}" for name in names),
        f"type port Q message {{ inout {last}; }} type component D {{ port Q a, b; }}",
        "testcase t() runs on D {",
        "connect(self:a, self:b);",
        f"a.send({last}:{{}}); b.receive({last}:?);",
        "}",
        "}",
    )
    told = f"sent mtc.b 0 {last}:{{}}\ntook b mtc 0 {last}:{{}}\n"
    report = f"component mtc\n{told}end done\nverdict none\nresult none\n"
    yield Reported("a message of the last of 61,600 types", script, report.encode())


def groups() -> list[Group]:
    return [
        Group("many fields", 13, many_fields),
        Group("many types", 7, many_types),
        Group("many functions", 2, many_functions),
        Group("many parameters", 6, many_parameters),
        Group("many message types", 7, many_message_types),
        Group("many connections", 6, many_connections),
        Group("many statements", 7, many_statements),
        Group("many elements", 4, many_elements),
        Group("long names", 3, long_names),
        Group("the limit of components, last", 8, limit_of_components_last),
        Group("the limit of ports, first", 8, limit_of_ports_first),
        Group("the limit of texts, first", 3, limit_of_text_first),
        Group("a long report", 1, long_report),
        Group("as many types as fit", 1, most_types),
    ]
