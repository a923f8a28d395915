"""Makes small random programs of the full language: a test case with one or two components that answer it."""
from __future__ import annotations

from collections import Counter
from random import Random
from typing import Callable

HEAD = """module Chance {
  type enumerated Colour { red, green };
  type union Answer { integer number, Colour colour };
  type record Order { integer n, charstring s };
  type record Note { integer n optional, Colour colour };
  type record of integer Numbers;
  type port P message { inout integer, charstring, Order, Numbers };
  type port E message { inout Answer, Note, integer };
  type component C { port P p, q; port P a[2]; port E e; var integer vc_count := 0; };
  const integer c_one := 1;
  const integer c_three := c_one + 2;
  modulepar boolean PX_ON := true;
  template integer m_low := (0 .. c_one);
  template integer mw_not(integer p_n) := complement(p_n);
  template Order m_order(integer p_n, charstring p_s := "a") := { n := p_n, s := p_s };
  template Order mw_order(template integer p_n) := { p_n, ? };
  template Order mw_b(template integer p_n) modifies mw_order := { s := "b" };
"""


class Maker:
    """Makes the statements of a body. `known` are integers that are known without a run. At a port it rarely waits for
    more messages than `comes` says; `sent` counts the sends on every path."""

    def __init__(self, chance: Random, encodes: bool, ports: tuple[str, ...], comes: dict[str, int]):
        self.chance = chance
        self.encodes = encodes
        self.ports = ports
        self.comes = comes
        self.sent: Counter[str] = Counter()
        # Whether `p` leads to both components, so that a send must name the receiver.
        self.is_shared = False
        # Whether it computes with received messages.
        self.computes = False
        self.known = ["c_one", "c_three"]
        self.names = 0

    def pick(self, *items: str) -> str:
        return self.chance.choice(items)

    def is_so(self, share: float) -> bool:
        return self.chance.random() < share

    def name(self, prefix: str) -> str:
        self.names += 1
        return f"{prefix}_{self.names}"

    # Expressions

    def integer(self) -> str:
        known = self.chance.choice(self.known)
        return self.pick("0", "1", "2", "3", known, known, f"{known} - 1", f"({known} + 1) mod 3")

    def truth(self) -> str:
        return self.pick("PX_ON", "not PX_ON", f"{self.integer()} < 2", f"{self.integer()} == {self.integer()}")

    def message(self) -> str:
        return self.pick(
            self.integer(), self.integer(), '"a"', '"b"', f"m_order({self.integer()})",
            f'm_order({self.integer()}, "b")',
            f"Order:{{ {self.integer()}, {self.pick(chr(34) + 'a' + chr(34), chr(34) + 'b' + chr(34))} }}",
            f"Numbers:{{ {self.integer()}, {self.integer()} }}",
        )

    def template(self) -> str:
        return self.pick(
            "integer:?", "integer:?", "charstring:?", "Order:?", "Order:?", "m_low", f"mw_not({self.integer()})",
            f"mw_order({self.pick('?', '(0 .. 1)', self.integer())})", f"mw_b({self.pick('?', 'complement(1)')})",
            f"integer:({self.integer()}, {self.integer()})", '"a"', self.integer(), 'charstring:pattern "?"',
            f"Numbers:{{ *, {self.integer()} }}", f"modifies mw_b(?) := {{ n := {self.integer()} }}",
        )

    def encoded_message(self) -> str:
        return self.pick(
            f"Answer:{{ number := {self.integer()} }}", f"Answer:{{ colour := {self.colour()} }}",
            f"Note:{{ omit, {self.colour()} }}", f"Note:{{ n := {self.integer()}, colour := {self.colour()} }}",
        )

    def encoded_template(self) -> str:
        return self.pick(
            "Answer:?", "Note:?", f"Answer:{{ number := {self.pick('?', self.integer(), '(0 .. 1)')} }}",
            f"Answer:{{ colour := {self.pick('?', self.colour(), f'complement({self.colour()})')} }}",
            f"Note:{{ {self.optional()}, {self.pick('?', self.colour())} }}",
            f"Note:{{ complement({self.integer()}), ? }}", f"Answer:complement({{ number := {self.integer()} }})",
        )

    def optional(self) -> str:
        return self.pick("*", "?", "omit", self.integer(), f"{self.integer()} ifpresent")

    def colour(self) -> str:
        return self.pick("red", "green")

    def port(self) -> str:
        """A port for a send."""
        return self.pick(*self.ports)

    def coming(self) -> str:
        """A port at which a message may have arrived by now; empty if all messages are already waited for."""
        open_ones = [port for port, count in self.comes.items() if count > 0]
        if not open_ones:
            return self.port() if self.is_so(0.05) else ""
        port = self.chance.choice(open_ones)
        self.comes[port] -= 1
        return port

    def wide(self) -> str:
        """A template that matches most messages."""
        return self.pick("", "", f"({self.template()})")

    # Statements

    def verdict(self) -> str:
        return f"setverdict({self.pick('pass', 'pass', 'pass', 'inconc', 'fail')}{self.pick('', ', 1')});"

    def send(self) -> str:
        if self.encodes and self.is_so(0.4):
            return f"e.send({self.encoded_message()});"
        port = self.port()
        return f"{port}.send({self.message()}){self.receiver(port)};"

    def receiver(self, port: str) -> str:
        if not self.is_shared or port != "p":
            return ""
        return self.pick(" to v_0", " to v_1", " to (v_0, v_1)", " to (v_1, v_0)", " to all component")

    def sender(self, port: str) -> str:
        if not self.is_shared or port != "p":
            return ""
        return self.pick("", "", " from v_0", " from v_1", " from (v_0, v_1)", " from any component")

    def sends(self) -> list[str]:
        """A send on every path."""
        found = self.send()
        self.sent[found.partition(".send")[0]] += 1
        return [found]

    def receives(self) -> list[str]:
        port = self.coming()
        if not port:
            return self.sends()
        if port == "e":
            return [f"e.receive({self.pick('Answer:?', 'Note:?', self.encoded_template())});"]
        if self.is_shared and self.is_so(0.4):
            return self._answered(port)
        sender = self.sender(port)
        named = [f"{port}.receive{self.wide()}{sender};", f"{port}.receive{sender};"]
        return [self.pick(*named, f"any port.receive{self.wide()};")]

    def _answered(self, port: str) -> list[str]:
        """An answer is sent to the sender of the message."""
        name = self.name("v_sender")
        asked = [f"if ({name} == v_0) {{ {self.verdict()} }} else {{ {self.verdict()} }}"] if self.is_so(0.4) else []
        answer = [f"{port}.send({self.message()}) to {name};"] if self.is_so(0.7) else []
        return [f"var C {name};", f"{port}.receive{self.wide()} -> sender {name};", *answer, *asked]

    def statements(self, depth: int, most: int) -> list[str]:
        found: list[str] = []
        for _ in range(self.chance.randint(1, most)):
            found += self.chance.choice(self._kinds(depth))()
        return found

    def _kinds(self, depth: int) -> list[Callable[[], list[str]]]:
        if depth <= 0:
            return [lambda: [self.send()], lambda: [self.verdict()], lambda: [self.verdict()], self._called]
        flat = [self.sends, self.sends, self.receives, self._called, self._variable, self._counted]
        nested = [self._loop, self._condition, self._selected, self._while]
        asking = [self._alternatives, self._told_apart, self._repeated, self._checked, self._interleaved]
        encoded = [self._told_apart] * 6 if self.encodes else []
        if self.computes:
            return [*flat, *nested, self._computed, self._alternatives, *[self._computed] * 8]
        return [*flat, *nested, *asking, *asking, self._alternatives, *encoded]

    def _called(self) -> list[str]:
        sends = [f"f_send({self.integer()});", f'f_send(p_n := {self.integer()}, p_s := "b");']
        return [self.pick(*sends, "f_counts();", "log(vc_count);")]

    def _loop(self) -> list[str]:
        name = self.name("i")
        self.known.append(name)
        inner = self.statements(0, 2)
        self.known.remove(name)
        leaves = [f"if ({name} == 1) {{ {self.pick('break', 'continue')}; }}"] if self.is_so(0.3) else []
        return [f"for (var integer {name} := 0; {name} < 2; {name} := {name} + 1) {{", *leaves, *inner, "}"]

    def _while(self) -> list[str]:
        name = self.name("w")
        step = f"{name} := {name} + 1;"
        body = self.statements(0, 1)
        if self.is_so(0.5):
            return [f"var integer {name} := 0;", f"while ({name} < 2) {{", step, *body, "}"]
        return [f"var integer {name} := {self.pick('0', '5')};", "do {", *body, step, f"}} while ({name} < 2);"]

    def _condition(self) -> list[str]:
        other = ["else {", *self.statements(0, 1), "}"] if self.is_so(0.6) else []
        return [f"if ({self.truth()}) {{", *self.statements(0, 2), "}", *other]

    def _selected(self) -> list[str]:
        first, second = self.statements(0, 1), self.statements(0, 1)
        return [f"select ({self.integer()}) {{ case (0, 2) {{", *first, "} case else {", *second, "} }"]

    def _variable(self) -> list[str]:
        name = self.name("x")
        value = self.pick(self.integer(), f"f_value({self.integer()})", f"lengthof(\"{self.pick('', 'ab')}\")")
        found = [f"var integer {name} := {value};", f"{name} := {name} * 2 - {self.integer()};"]
        self.known.append(name)
        found += self.statements(0, 2)
        self.known.remove(name)
        return found

    def _told_apart(self) -> list[str]:
        """The received message decides how the body continues."""
        name, port = self.name("x"), self.coming()
        if not port:
            return self.sends()
        if port == "e":
            return self._encoded_apart(name)
        of, asked = self.chance.choice([
            ("integer", f"{name} {self.pick('<', '>', '==', '!=', '<=')} {self.integer()}"),
            ("Order", f"{name}.n {self.pick('<', '>=', '==')} {self.integer()}"),
            ("Order", f"{name}.s == \"a\" {self.pick('and', 'or')} {name}.n == {self.integer()}"),
            ("charstring", f"{name} == \"a\""), ("integer", f"match({name}, {self.pick('m_low', 'mw_not(1)')})"),
        ])
        to, how = self.port(), self.pick("receive", "receive", "trigger")
        behind = [f"{to}.send({name}){self.receiver(to)};"] if self.is_so(0.4) else self.statements(0, 1)
        return [
            f"var {of} {name};", "alt {", f"[] {port}.{how}({of}:?) -> value {name} {{", f"if ({asked}) {{",
            *self.statements(0, 1), "} else {", *behind, "}", "}", f"[] {port}.receive {{ }}", "}",
        ]

    def _computed(self) -> list[str]:
        """Computes with the received message."""
        name, port = self.name("x"), self.coming()
        if not port or port == "e":
            return self.sends()
        of, number, changed = self.chance.choice([
            ("integer", name, f"{name} := {name} * 2 - 1;"), ("Order", f"{name}.n", f"{name}.n := {name}.n + 1;"),
            ("Order", f"lengthof({name}.s)", f'{name}.s := {name}.s & "b";'),
            ("Order", f"f_value({name}.n)", f"{name} := {{ {name}.n - 1, \"b\" }};"),
        ])
        again = [changed] if self.is_so(0.5) else []
        behind = [f"vc_count := vc_count + {number};"] if self.is_so(0.3) else []
        self.known += [number] * 4
        inner = [self.send(), *self.statements(1, 2)] if self.is_so(0.7) else self.statements(1, 2)
        del self.known[-4:]
        how = self.pick("receive", "receive", "receive", "trigger")
        head = f"[] {port}.{how}({of}:?) -> value {name} {{"
        if self.is_so(0.3):
            return [f"var {of} {name};", head.removeprefix("[] ").removesuffix(" {") + ";", *again, *inner, *behind]
        return [f"var {of} {name};", "alt {", head, *again, *inner, *behind, "}", f"[] {port}.receive {{ }}", "}"]

    def _encoded_apart(self, name: str) -> list[str]:
        if self.is_so(0.6):
            return self._union_apart(name)
        of, asked = self.chance.choice([
            ("Note", f"ispresent({name}.n)"), ("Note", f"{name}.colour == red"),
            ("Note", f"{name}.n == {self.integer()}"),
            ("Note", f"ispresent({name}.n) and {name}.n > {self.integer()}"), ("Answer", f"ischosen({name}.colour)"),
            ("Answer", f"ischosen({name}.number) and {name}.number < {self.integer()}"),
        ])
        template = self.pick("?", "{ *, ? }" if of == "Note" else "?")
        return [
            f"var {of} {name};", "alt {", f"[] e.receive({of}:{template}) -> value {name} {{", f"if ({asked}) {{",
            *self.statements(0, 1), "} else {", *self.statements(0, 1), "}", "}", "[] e.receive { }", "}",
        ]

    def _union_apart(self, name: str) -> list[str]:
        """Each alternative continues in its own way, and its contents are used there."""
        number = [f"if ({name}.number < {self.integer()}) {{", *self.statements(0, 1), "} else {", self.verdict(), "}"]
        colour = [f"if ({name}.colour == red) {{", *self.statements(0, 1), "}"]
        of_number, of_colour = ["case (number) {", *number, "}"], ["case (colour) {", *colour, "}"]
        other = ["case else {", *self.statements(0, 1), "}"]
        both = ["case (number, colour) {", *self.statements(0, 1), "}"]
        cases = self.chance.choice([
            of_number + of_colour, of_colour + of_number, of_number + other, of_colour + other, of_colour, both,
        ])
        by_cases = [f"select union ({name}) {{", *cases, "}"]
        by_asking = [f"if (ischosen({name}.colour)) {{", *colour, "} else {", *number, "}"]
        template = self.pick("?", "?", "({ number := (0 .. 1) }, { colour := ? })", "{ number := ? }")
        how = self.pick("receive", "receive", "trigger")
        return [
            f"var Answer {name};", "alt {", f"[] e.{how}(Answer:{template}) -> value {name} {{",
            *(by_cases if self.is_so(0.7) else by_asking), "}", "[] e.receive { }", "}",
        ]

    def _alternatives(self) -> list[str]:
        port = self.coming() or self.port()
        found = ["alt {"]
        for _ in range(self.chance.randint(1, 2)):
            guard = f"[{self.pick('', '', '', 'PX_ON', self.truth())}]"
            found += [f"{guard} {self._event(port)} {{", *self.statements(0, 1), "}"]
        all_of_port = f"[] {port}.receive{self.sender(port)} {{ {self.verdict()} }}"
        others = [f"[] any port.receive {{ {self.send()} }}", f"[else] {{ {self.send()} }}"]
        return [*found, self.pick(all_of_port, all_of_port, *others), "}"]

    def _event(self, port: str) -> str:
        if port == "e":
            return f"e.receive({self.encoded_template()})"
        return self.pick(
            f"{port}.receive({self.template()}){self.sender(port)}", f"any port.receive({self.template()})", "as_low()",
            f"as_of({self.integer()})", f"{port}.trigger({self.template()})",
            f"{port}.check(receive({self.template()}))",
            f"{self.port()}.receive({self.template()})",
        )

    def _interleaved(self) -> list[str]:
        first, second = self.coming(), self.coming()
        if not first or not second or "e" in (first, second):
            return self.sends()
        return [
            f"interleave {{ [] {first}.receive{self.wide()} {{ {self.verdict()} }}",
            f"[] {second}.receive{self.wide()} {{ {self.send()} }} }}",
        ]

    def _counted(self) -> list[str]:
        return ["vc_count := vc_count + 1;", f"if (vc_count > {self.pick('0', '1')}) {{ {self.send()} }}"]

    def _repeated(self) -> list[str]:
        port = self.coming()
        if not port or port == "e":
            return self.sends()
        before = self.pick("", self.verdict(), "vc_count := vc_count + 1;", self.send())
        last = self.pick(f"[] {port}.receive {{ {self.verdict()} }}", "[else] { }")
        return [f"alt {{ [] {port}.receive({self.template()}) {{ {before} repeat; }} {last} }}"]

    def _checked(self) -> list[str]:
        port = self.coming()
        if not port or port == "e":
            return self.sends()
        return [f"{port}.check{self.pick('(receive)', '')};", f"{port}.receive{self.wide()};"]


FUNCTIONS = """  function f_value(integer p_n) return integer { return p_n + c_one; }
  function f_send(integer p_n, charstring p_s := "a") runs on C {
    if (p_n > 1) { p.send(p_n); } else { p.send(m_order(p_n, p_s)); }
  }
  function f_counts() runs on C { vc_count := vc_count + c_one; }
"""


def program_of(seed: int, encodes: bool, computes: bool = False) -> str:
    """The program with this number."""
    chance = Random(seed)
    of_case = Maker(chance, encodes, ("p",), {})
    of_case.computes = computes
    count = chance.randint(1, 2)
    of_case.is_shared = count == 2 and chance.random() < 0.4
    if count == 2:
        of_case.ports = ("p", "p" if of_case.is_shared else "a[0]")
    lines = _altsteps(of_case)
    starts: list[str] = []
    coming: dict[str, int] = {}
    for number in range(count):
        port = of_case.ports[number] if number < len(of_case.ports) else "p"
        comes = {"p": chance.randint(0, 3), "e": chance.randint(0, 2) * encodes}
        made = Maker(chance, encodes and number == 0, ("p",), comes)
        came = dict(made.comes)
        made.computes = computes
        if number == 1:
            del made.comes["e"]
        made.known.append("p_n")
        body = made.statements(1, 3)
        activated = [f"activate({name}());" for name in ("as_all", "as_low")]
        first = made.pick(*[""] * 9, activated[0], " ".join(activated), " ".join(reversed(activated)))
        lines += [f"function f_{number}(integer p_n) runs on C {{", first, *body, "}"]
        starts.append(f"v_{number}.start(f_{number}({made.integer().replace('p_n', '1')}));")
        to = f" to v_{number}" if of_case.is_shared else ""
        starts += [f"{port}.send({of_case.message()}){to};" for _ in range(came["p"])]
        starts += [f"e.send({of_case.encoded_message()});" for _ in range(came["e"] if number == 0 else 0)]
        coming[port] = coming.get(port, 0) + made.sent["p"]
        coming["e"] = coming.get("e", 0) + made.sent["e"]
    of_case.comes = coming
    lines += _case(of_case, count, starts)
    return HEAD + FUNCTIONS + "\n".join(f"  {line}" for line in lines if line) + "\n}\n"


def _altsteps(make: Maker) -> list[str]:
    again = make.pick("", "", "repeat;")
    return [
        f"altstep as_low() runs on C {{ [] p.receive(m_low) {{ {make.verdict()} }}",
        f"[PX_ON] a[0].receive(integer:3) {{ {make.verdict()} }} }}",
        "altstep as_of(integer p_n) runs on C { var integer v_n := p_n;",
        f"[] any port.receive(mw_order(v_n)) {{ {make.verdict()} }} }}",
        f"altstep as_all() runs on C {{ [] p.receive {{ {make.verdict()} {again} }} }}",
    ]


def _case(make: Maker, count: int, starts: list[str]) -> list[str]:
    """The test case. The first component is at `p` and `e`, the second at the first port of the array `a`."""
    lines = ["testcase t() runs on C {"]
    for number in range(count):
        lines.append(f"var C v_{number} := C.create;")
        lines.append(f"connect(self:{make.ports[number]}, v_{number}:p);")
    lines += ["connect(self:e, v_0:e);"] + (["connect(v_0:a[0], v_1:a[0]);"] if count == 2 else [])
    has_default = make.is_so(0.2)
    if has_default:
        lines.append("var default v_default := activate(as_all());")
    if make.is_so(0.2):
        lines.append(make.send())
    lines += starts + make.statements(1, 4)
    if has_default:
        lines.append("deactivate(v_default);")
    if make.is_so(0.3):
        lines.append("if (getverdict == pass) { " + make.verdict() + " }")
    done = [f"v_{number}.done;" for number in range(count)]
    lines.append(make.pick("all component.done;", "all component.done;", *done))
    lines.append(f"if ({make.truth()}) {{ {make.verdict()} }}" if make.is_so(0.4) else "setverdict(pass);")
    return [*lines, "}"]
