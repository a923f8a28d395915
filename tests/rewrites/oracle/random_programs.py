"""Makes random programs: a test case and one or two servers that compute with the messages that they receive.

The same seed gives the same program. Every third one has enumerated types and optional fields, and is carried over with
`--encode`. Every seventh one may stop and halt ports. A few of them wait forever, divide by zero, or send to a
component that has ended.
"""
from __future__ import annotations

from random import Random
from typing import NamedTuple

TYPES = """  type record of integer Numbers;
  type record Ask { integer id, integer amount, charstring text }
  type record Reply { integer id, integer result }
"""
ENCODED_TYPES = """  type enumerated Kind { GET, PUT, DROP };
  type record of integer Numbers;
  type record Ask { integer id, integer amount optional, Kind kind }
  type record Reply { integer id, integer result optional }
"""
SHARED = """  type port P message { inout integer, charstring, Ask, Reply, Numbers }
  type component C { port P p, q; var integer vc_n := %d; }
  const integer c_k := %d;
  template integer mw_from(integer p_low) := (p_low .. infinity);
  template Reply mw_reply(template integer p_id) := { id := p_id, result := ? }
  template Reply mw_exact(template integer p_id, integer p_result := c_k) modifies mw_reply := { result := p_result }
  function f_mix(integer p_a, integer p_b) return integer {
    if (p_a > p_b) { return p_a - p_b; }
    return p_a + %s;
  }
  function f_count(inout integer p_n, in integer p_by) { p_n := p_n + p_by; }
  function f_sum(Numbers p_list) return integer {
    var integer v_sum := 0;
    for (var integer i := 0; i < lengthof(p_list); i := i + 1) { v_sum := v_sum + p_list[i]; }
    return v_sum;
  }
  altstep as_strange(integer p_least) runs on C {
    var integer v_strange;
    [] p.receive(charstring:"strange") { setverdict(fail); }
    [p_least < 2] p.receive(mw_from(100)) -> value v_strange {
      vc_n := vc_n + v_strange - 100;
      repeat;
    }
  }
"""
TOPOLOGIES = ("one", "two_ports", "shared", "chain", "triangle")


class Form(NamedTuple):
    """The types of a server's questions and answers."""

    asked: str
    answered: str


class Maker:
    def __init__(self, seed: int):
        self.chance = Random(seed)
        self.encodes = seed % 3 == 0
        self.stops = seed % 7 == 0
        self.lines: list[str] = []
        self.depth = 1
        self.names = 0

    # Text

    def line(self, text: str) -> None:
        self.lines.append("  " * self.depth + text)

    def open(self, text: str) -> None:
        self.line(text + " {")
        self.depth += 1

    def close(self, text: str = "}") -> None:
        self.depth -= 1
        self.line(text)

    def fresh(self, stem: str) -> str:
        self.names += 1
        return f"v_{stem}{self.names}"

    def often(self, probability: float) -> bool:
        return self.chance.random() < probability

    # Expressions over the integers that are known in a place

    def number(self, known: list[str], depth: int = 2) -> str:
        if depth == 0 or self.often(0.35):
            return self.chance.choice([*known, *known, str(self.chance.randint(0, 5)), "c_k"])
        left, right = self.number(known, depth - 1), self.number(known, depth - 1)
        divisor = str(self.chance.randint(2, 5)) if self.often(0.97) else f"({self.chance.choice(known)} mod 3)"
        return self.chance.choice([
            f"{left} + 1", f"({left} + {right})", f"({left} - {right})", f"({left} * {right}) mod 7", f"f_mix({left}, {right})",
            f"{left} / {divisor}", f"({left} rem {divisor})", f"lengthof(int2str({left}))", f"str2int(int2str({left}) & \"1\") mod 9",
        ])

    def condition(self, known: list[str]) -> str:
        left, right = self.number(known, 1), self.number(known, 1)
        simple = f"{left} {self.chance.choice(['==', '!=', '<', '>', '<=', '>='])} {right}"
        if self.often(0.2):
            return f"{simple} {self.chance.choice(['and', 'or'])} {self.number(known, 0)} < {self.chance.randint(1, 6)}"
        return f"not ({simple})" if self.often(0.1) else simple

    def template_of_number(self, known: list[str]) -> str:
        least = self.chance.randint(-2, 4)
        return self.chance.choice([
            "?", "?", f"({least} .. {least + self.chance.randint(0, 8)})", f"mw_from({least})", f"complement({least})",
            f"({least}, {least + 2}, {least + 5})", self.number(known, 1),
        ])

    # Statements that don't communicate

    def calculate(self, known: list[str], own: list[str]) -> None:
        """Changes the body's own variables."""
        changed = self.chance.choice(own)
        match self.chance.randint(0, 5):
            case 0:
                self.line(f"{changed} := {self.number(known)};")
            case 1:
                self.open(f"if ({self.condition(known)})")
                self.line(f"{changed} := {self.number(known, 1)};")
                if self.often(0.5):
                    self.close("} else {")
                    self.depth += 1
                    self.line(f"{changed} := {changed} + 1;")
                self.close()
            case 2:
                index = self.fresh("i")
                self.open(f"for (var integer {index} := 0; {index} < {self.chance.randint(1, 3)}; {index} := {index} + 1)")
                self.line(f"{changed} := {changed} + {self.number([*known, index], 1)};")
                if self.often(0.3):
                    self.line(f"if ({changed} > {self.chance.randint(3, 20)}) {{ break; }}")
                self.close()
            case 3:
                self.open(f"select ({self.number(known, 1)})")
                self.line(f"case (0, {self.chance.randint(1, 4)}) {{ {changed} := {self.number(known, 1)}; }}")
                self.line(f"case else {{ {changed} := {changed} - 1; }}")
                self.close()
            case 4:
                self.line(f"f_count({changed}, {self.number(known, 1)});")
            case _:
                turns = self.fresh("t")
                self.line(f"var integer {turns} := {self.number(known, 1)};")
                self.open(f"while ({turns} > 0 and {turns} < 4)")
                self.line(f"{changed} := {changed} + {turns};")
                self.line(f"{turns} := {turns} - 1;")
                self.close()

    def judge(self, known: list[str]) -> None:
        """Sets a verdict, rarely a bad one: the verdict at the end shows more about the computed values."""
        bad = self.chance.choice(["inconc", "fail"])
        self.line(f"if ({self.condition(known)} and {self.condition(known)}) {{ setverdict({bad}); }} else {{ setverdict(pass); }}")

    def judge_all(self, known: list[str]) -> None:
        """The verdict follows from a sum of all known values."""
        total = " + ".join(f"{self.chance.randint(1, 7)} * {one}" for one in known)
        verdicts = self.chance.sample(["pass", "inconc", "fail", "none"], 4)
        self.open(f"select (({total}) mod 4)")
        for at, verdict in enumerate(verdicts[:3]):
            self.line(f"case ({at}) {{ setverdict({verdict}); }}")
        self.line(f"case else {{ setverdict({verdicts[3]}); }}")
        self.close()

    # Messages

    def message(self, form: str, known: list[str]) -> str:
        if form == "integer":
            return self.number(known)
        if form == "Numbers":
            return f"Numbers:{{ {', '.join(self.number(known, 1) for _ in range(self.chance.randint(0, 3)))} }}"
        if form == "Reply":
            result = "omit" if self.encodes and self.often(0.2) else self.number(known)
            return f"Reply:{{ {self.number(known, 1)}, {result} }}"
        amount = "omit" if self.encodes and self.often(0.3) else self.number(known)
        last = self.chance.choice(["GET", "PUT", "DROP"] if self.encodes else ['"get"', '"put"', '"drop"'])
        return f"Ask:{{ {self.number(known, 1)}, {amount}, {last} }}"

    def template(self, form: str, known: list[str]) -> str:
        """A template, rarely one that may not match."""
        if self.often(0.75):
            return f"{form}:?"
        one = self.template_of_number(known)
        if form == "Reply":
            return self.chance.choice([f"mw_reply({one})", "mw_reply(?)", f"Reply:{{ ?, {one} }}"])
        if form == "Ask":
            return f"Ask:{{ {one}, *, ? }}" if self.encodes else f"Ask:{{ {one}, ?, ? }}"
        return (one if one.startswith("mw_") else f"integer:{one}") if form == "integer" else f"Numbers:{{ *, {one} }}"

    def parts(self, form: str, name: str) -> list[str]:
        """Integers in a received message that are certainly there."""
        if form == "integer":
            return [name]
        if form == "Numbers":
            return [f"lengthof({name})", f"f_sum({name})"]
        if form == "Reply":
            return [f"{name}.id"] if self.encodes else [f"{name}.id", f"{name}.result"]
        return [f"{name}.id", f"enum2int({name}.kind)"] if self.encodes else [f"{name}.id", f"{name}.amount", f"lengthof({name}.text)"]

    def unfold(self, form: str, name: str, known: list[str], own: str) -> None:
        """Uses parts that may be absent."""
        if not self.encodes or form not in ("Ask", "Reply"):
            return
        optional = f"{name}.{'amount' if form == 'Ask' else 'result'}"
        self.line(f"if (ispresent({optional})) {{ {own} := {own} + {self.number([*known, optional, optional], 1)}; }}")
        if form == "Ask" and self.often(0.5):
            self.line(f"if ({name}.kind == {self.chance.choice(['GET', 'PUT'])}) {{ {own} := {own} + 1; }}")

    # Behaviours

    def server(self, name: str, form: Form, rounds: int, way: str, behind: bool) -> None:
        """`way` is how it ends: after `rounds` questions, or by "stop". `behind`: it asks another server at `q`."""
        self.open(f"function {name}(integer p_first) runs on C")
        asked, whom = self.fresh("asked"), self.fresh("whom")
        self.line(f"var {form.asked} {asked};")
        self.line(f"var C {whom};")
        count = self.fresh("count")
        self.line(f"var integer {count} := p_first;")
        if behind:
            self.line(f"var integer {asked}b := 0;")
        if self.often(0.25):
            self.line(f"activate(as_strange({self.chance.randint(0, 3)}));")
        receive = f"p.receive({form.asked}:?) -> value {asked} sender {whom}"
        if way == "stop":
            self.open("alt")
            self.open(f"[] {receive}")
            self.answer(form, asked, whom, count, behind)
            self.line("repeat;")
            self.close()
            self.line('[] p.receive(charstring:"stop") { }' if self.often(0.6) else '[] p.receive { }')
            self.close()
        else:
            index = self.fresh("i")
            if way == "while":
                self.line(f"var integer {index} := 0;")
                self.open(f"while ({index} < {rounds})")
            else:
                self.open(f"for (var integer {index} := 0; {index} < {rounds}; {index} := {index} + 1)")
            if self.often(0.3):
                self.open("alt")
                self.open(f"[] p.receive({self.template(form.asked, [count])}) -> value {asked} sender {whom}")
                self.answer(form, asked, whom, count, behind)
                self.close()
                self.open(f"[] {receive}")
                self.line(f"p.send({self.message(form.answered, [count])}) to {whom};")
                self.close()
                self.close()
            else:
                self.line(f"{receive};")
                self.answer(form, asked, whom, count, behind)
            if way == "while":
                self.line(f"{index} := {index} + 1;")
            self.close()
        if self.often(0.15):
            self.judge([count])
        self.close()

    def answer(self, form: Form, asked: str, whom: str, count: str, behind: bool) -> None:
        known = [*self.parts(form.asked, asked), count, "vc_n"]
        self.unfold(form.asked, asked, known, count)
        if self.often(0.6):
            self.calculate(known, [count, "vc_n"])
        if behind:
            self.line(f"q.send({self.number(known)});")
            self.line(f"q.receive(integer:?) -> value {asked}b;")
            known.append(f"{asked}b")
        if self.often(0.4):
            self.open(f"if ({self.condition(known)})")
            self.line(f"p.send({self.message(form.answered, known)}) to {whom};")
            self.close("} else {")
            self.depth += 1
            self.line(f"p.send({self.message(form.answered, known)}) to {whom};")
            self.close()
        else:
            self.line(f"p.send({self.message(form.answered, known)}) to {whom};")
        if self.often(0.5):
            self.line(f"{count} := {count} + {self.number(known, 1)};")
        if self.often(0.03):
            self.line(f"p.send({self.message(form.answered, known)}) to {whom};")

    def client(self, topology: str, forms: dict[str, Form], rounds: int, way: str) -> None:
        """The test case's part after the starts. Its questions depend on the answers."""
        self.line("var integer v_seen := 0;")
        for at, form in enumerate(forms.values()):
            self.line(f"var {form.answered} v_answer{at};")
        lines = [("p", f"v_s{at}" if topology == "shared" else "", at) for at in range(len(forms))]
        if topology in ("two_ports", "triangle"):
            lines = [(port, "", at) for at, port in enumerate(("p", "q")[: len(forms)])]
        known = ["v_seen"]
        for turn in range(rounds):
            together = self.often(0.5) or topology == "shared"
            for port, to, at in lines:
                form = list(forms.values())[at]
                self.line(f"{port}.send({self.message(form.asked, known)}){' to ' + to if to else ''};")
                if not together:
                    known = self.wait(port, to, at, form, known)
            if together:
                known = self.wait_for_all(lines, list(forms.values()), known)
            if self.often(0.4):
                self.calculate(known, ["v_seen", "vc_n"])
            if self.often(0.2):
                self.judge(known)
            if self.often(0.8):
                self.line(f"v_seen := (v_seen * 3 + {' + '.join(known)}) mod {self.chance.choice([101, 1009])};")
        if way == "stop":
            for port, to, _ in lines:
                self.line(f'{port}.send("stop"){" to " + to if to else ""};')

    def wait(self, port: str, to: str, at: int, form: Form, known: list[str]) -> list[str]:
        origin = f" from {to}" if to and self.often(0.5) else ""
        wanted = self.template(form.answered, known)
        value = f" -> value v_answer{at}"
        if self.often(0.12):
            self.race(port)
        if wanted.endswith(":?"):
            self.line(f"{port}.{'receive' if self.often(0.9) else 'trigger'}({wanted}){origin}{value};")
        else:
            if self.often(0.2):
                self.line(f"{port}.check(receive({form.answered}:?){value});")
            self.open("alt")
            self.line(f"[] {port}.receive({wanted}){value} {{ v_seen := v_seen + 1; }}")
            self.line(f"[] {port}.receive({form.answered}:?){value} {{ setverdict({self.chance.choice(['inconc', 'fail', 'pass'])}); }}")
            self.close()
        now = [*self.parts(form.answered, f"v_answer{at}"), *known[:2]]
        self.unfold(form.answered, f"v_answer{at}", now, "v_seen")
        return [*now, "v_seen"]

    def race(self, port: str) -> None:
        """An answer may have arrived by now, or not."""
        if self.often(0.7):
            self.open("alt")
            self.line(f"[] {port}.check(receive) {{ v_seen := v_seen + {self.chance.randint(1, 3)}; }}")
            self.line(f"[else] {{ v_seen := v_seen + {self.chance.randint(1, 3)}; }}")
            self.close()
        else:
            self.line(f"{port}.{self.chance.choice(['clear', 'start'])};")
        if self.stops:
            self.line(f"{port}.{self.chance.choice(['halt', 'stop', 'halt'])};")
            if self.often(0.7):
                self.line(f"{port}.start;")

    def wait_for_all(self, lines: list[tuple[str, str, int]], forms: list[Form], known: list[str]) -> list[str]:
        if len(lines) == 1 or self.often(0.35):
            for port, to, at in lines:
                known = self.wait(port, to, at, forms[at], known)
            return known
        is_interleave = self.often(0.5)
        shuffled = lines if self.often(0.5) else lines[::-1]
        if is_interleave:
            self.open("interleave")
        else:
            index = self.fresh("i")
            self.open(f"for (var integer {index} := 0; {index} < {len(lines)}; {index} := {index} + 1)")
            self.open("alt")
        for port, to, at in shuffled:
            origin = f" from {to}" if to else ""
            factor = self.chance.randint(1, 3)
            self.line(f"[] {port}.receive({forms[at].answered}:?){origin} -> value v_answer{at} {{ v_seen := v_seen * {factor} + {at + 1}; }}")
        if not is_interleave:
            self.close()
        self.close()
        # Only after an `interleave` it is certain which of them arrived
        certain = lines if is_interleave else []
        return ["v_seen", *(part for _, _, at in certain for part in self.parts(forms[at].answered, f"v_answer{at}"))]

    def program(self) -> str:
        topology = self.chance.choice(TOPOLOGIES)
        rounds = self.chance.randint(1, 3)
        way = self.chance.choice(["for", "for", "while", "stop"])
        kinds = ["integer", "Ask", "Ask", "Numbers"], ["integer", "Reply", "Reply", "Numbers"]
        forms = {"f_one": Form(self.chance.choice(kinds[0]), self.chance.choice(kinds[1]))}
        if topology in ("two_ports", "shared", "triangle"):
            forms["f_two"] = Form(self.chance.choice(kinds[0]), self.chance.choice(kinds[1]))
        self.lines = [f"module Random {{\n{ENCODED_TYPES if self.encodes else TYPES}"
                      + SHARED % (self.chance.randint(0, 2), self.chance.randint(1, 4), self.chance.choice(["c_k", "p_b", "1"]))]
        for name, form in forms.items():
            self.server(name, form, rounds, way, topology == "chain")
        if topology == "chain":
            self.server("f_last", Form("integer", "integer"), rounds, "for", False)
        self.test_case(topology, forms, rounds, way)
        return "\n".join(self.lines) + "\n}\n"

    def test_case(self, topology: str, forms: dict[str, Form], rounds: int, way: str) -> None:
        self.open("testcase TC_random() runs on C")
        starts = list(forms) + (["f_last"] if topology == "chain" else [])
        for at in range(len(starts)):
            self.line(f"var C v_s{at} := C.create;")
        self.line("connect(self:p, v_s0:p);")
        if len(starts) > 1:
            ends = {"chain": "v_s0:q", "shared": "self:p"}.get(topology, "self:q")
            self.line(f"connect({ends}, v_s1:p);")
        for at, name in enumerate(starts):
            self.line(f"v_s{at}.start({name}({self.chance.randint(0, 4)}));")
        self.client(topology, forms, rounds, way)
        if self.often(0.3):
            for at in range(len(starts)):
                self.line(f"v_s{at}.done;")
        else:
            self.line("all component.done;")
        self.judge_all(["v_seen", "vc_n"])
        self.close()
