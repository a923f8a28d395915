"""Makes more random programs: delayed answers, streams, functions that ask, tokens that go round."""
from __future__ import annotations

import re

from random_programs import ENCODED_TYPES, SHARED, TYPES, Maker

_ASKING = """  function f_ask(integer p_n) runs on C return integer {
    var integer v_got;
    p.send(p_n);
    alt {
      [] p.receive(integer:?) -> value v_got { return v_got; }
      [] p.receive { setverdict(fail); }
    }
    return 0;
  }
  function f_ask_on(inout integer p_n, out integer p_old) runs on C return boolean {
    p_old := p_n;
    p_n := f_ask(p_n) + 1;
    return p_n > p_old;
  }
  function f_power(integer p_n, integer p_up) return integer {
    if (p_up <= 0) { return 1; }
    return (p_n * f_power(p_n, p_up - 1)) mod 23;
  }
"""


class Themes(Maker):
    def program(self) -> str:
        types = ENCODED_TYPES if self.encodes else TYPES
        words = self.chance.randint(0, 2), self.chance.randint(1, 4), self.chance.choice(["c_k", "p_b", "1"])
        self.lines = [f"module Random {{\n{types}{SHARED % words}{_ASKING}"]
        self.themes()
        return "\n".join(self.lines) + "\n}\n"

    def themes(self) -> None:
        self.chance.choice([self.batch, self.stream, self.calls, self.ring, self.echo])()

    def begin(self, starts: list[str], connections: list[str]) -> None:
        self.open("testcase TC_random() runs on C")
        for at in range(len(starts)):
            self.line(f"var C v_s{at} := C.create;")
        for connection in connections:
            self.line(f"connect({connection});")
        for at, start in enumerate(starts):
            self.line(f"v_s{at}.start({start});")
        self.line(f"var integer v_seen := {self.chance.randint(0, 2)}, v_last := 0;")
        self.line("var Numbers v_all := {};")

    def finish(self, known: list[str]) -> None:
        self.line("all component.done;")
        self.judge_all([*known, "vc_n", "f_sum(v_all)", "lengthof(v_all)"])
        self.close()

    def keep(self, value: str) -> None:
        self.line(f"v_all[lengthof(v_all)] := {value};")

    def batch(self) -> None:
        """One or two servers collect all questions, and answer them later, in another order."""
        servers, asked = self.chance.choice([1, 1, 2]), self.chance.randint(2, 3)
        self.open("function f_collect(integer p_first) runs on C")
        self.line("var Numbers v_kept := {};")
        self.line("var integer v_it, v_count := p_first;")
        self.open(f"while (lengthof(v_kept) < {asked})")
        self.line("p.receive(integer:?) -> value v_it;")
        if self.often(0.3):
            self.line(f"if (v_it == {self.chance.randint(0, 3)}) {{ v_count := v_count + 1; }}")
        self.line(f"v_kept[lengthof(v_kept)] := {self.number(['v_it', 'v_count'], 1)};")
        self.close()
        backwards = f"for (var integer i := {asked - 1}; i >= 0; i := i - 1)"
        self.open(backwards if self.often(0.6) else f"for (var integer i := 0; i < {asked}; i := i + 1)")
        if self.often(0.3):
            self.line(f"if (v_kept[i] > {self.chance.randint(2, 5)}) {{ v_kept[i] := v_kept[i] - v_kept[0]; }}")
        self.line(f"p.send({self.number(['v_kept[i]', 'i', 'v_count'], 1)});")
        self.line("v_count := v_count + v_kept[i];")
        self.close()
        self.close()
        self.begin([f"f_collect({at + 1})" for at in range(servers)], [f"self:p, v_s{at}:p" for at in range(servers)])
        for turn in range(asked):
            for at in range(servers):
                self.line(f"p.send({self.number(['v_seen', str(turn)], 1)}) to v_s{at};")
        self.line("var C v_who;")
        self.open(f"for (var integer i := 0; i < {asked * servers}; i := i + 1)")
        self.line("p.receive(integer:?) -> value v_last sender v_who;")
        self.keep("v_last")
        if servers == 2:
            self.line("if (v_who == v_s0) { v_seen := v_seen + 1; } else { v_seen := v_seen * 2; }")
        if self.often(0.5):
            self.line(f"if (v_last > {self.chance.randint(1, 6)}) {{ v_seen := v_seen + 10; continue; }}")
        self.line("v_seen := v_seen + i;")
        self.close()
        self.finish(["v_seen", "v_last"])

    def stream(self) -> None:
        """A server sends as many items as it was asked for, then the end."""
        self.open("function f_source(integer p_step) runs on C")
        self.line("var integer v_left, v_turn := 0;")
        self.line("p.receive(integer:?) -> value v_left;")
        self.open("while (v_left > 0)")
        self.line(f"p.send({self.number(['v_left', 'v_turn', 'p_step'], 1)});")
        self.line("v_left := v_left - p_step;")
        self.line("v_turn := v_turn + 1;")
        self.line("if (v_turn == 4) { break; }")
        self.close()
        self.line('p.send("end of " & int2str(v_turn));')
        self.close()
        self.begin([f"f_source({self.chance.randint(1, 2)})"], ["self:p, v_s0:p"])
        self.line("var charstring v_end;")
        if self.often(0.5):
            self.line("activate(as_strange(1));")
        self.line(f"p.send({self.chance.randint(0, 5)} + v_seen);")
        self.open("alt")
        least = self.chance.randint(0, 4)
        self.open(f"[v_last < {self.chance.randint(1, 9)}] p.receive(integer:({least} .. {least + 4})) -> value v_last")
        self.keep("v_last")
        self.line("repeat;")
        self.close()
        self.open("[] p.receive(integer:?) -> value v_last")
        self.line("v_seen := v_seen + 3;")
        if self.often(0.2):
            self.line("if (v_seen > 7) { setverdict(inconc); }")
        self.line("repeat;")
        self.close()
        self.line(f'[] p.receive(charstring:pattern "end of {self.chance.choice("?123*")}") -> value v_end {{ v_seen := v_seen * 2; }}')
        self.line("[] p.receive(charstring:?) -> value v_end { v_seen := v_seen - 1; }")
        self.close()
        self.line('if (substr(v_end, 0, 6) == "end of") { v_seen := v_seen + str2int(substr(v_end, 7, 1)); }')
        self.finish(["v_seen", "v_last"])

    def calls(self) -> None:
        """Functions that ask a server are used in conditions, so that an answer decides whether to ask again."""
        self.open("function f_oracle(integer p_first) runs on C")
        self.line("var integer v_it, v_count := p_first;")
        self.open("alt")
        self.open("[] p.receive(integer:?) -> value v_it")
        if self.often(0.6):
            self.calculate(["v_it", "v_count"], ["v_count"])
        self.line(f"p.send({self.number(['v_it', 'v_count', 'f_power(v_it, 2)'])});")
        self.line("repeat;")
        self.close()
        self.line('[] p.receive("stop") { }')
        self.close()
        self.close()
        self.begin([f"f_oracle({self.chance.randint(0, 3)})"], ["self:p, v_s0:p"])
        known = ["v_seen", "v_last"]
        for _ in range(self.chance.randint(1, 3)):
            first, second = f"f_ask({self.number(known, 1)})", f"f_ask({self.number(known, 1)})"
            bound = self.chance.randint(0, 5)
            match self.chance.randint(0, 4):
                case 0:
                    self.line(f"if ({first} > {bound} {self.chance.choice(['and', 'or'])} {second} < 4) {{ v_seen := v_seen + 2; }}")
                case 1:
                    self.keep(f"{first} - {second}")
                case 2:
                    self.line(f"if (f_ask_on(v_seen, v_last)) {{ v_seen := v_seen + {bound}; }}")
                case 3:
                    self.line(f"v_seen := f_mix({first}, {bound}) + v_seen;")
                case _:
                    self.line(f"while (v_seen < {bound} and {first} != {bound}) {{ v_seen := v_seen + 1; }}")
        self.line('p.send("stop");')
        self.finish(known)

    def ring(self) -> None:
        """A token goes round three components, as often as it says, and is changed on the way."""
        hops = self.chance.randint(2, 6)
        result = "v_token.result" if self.encodes else self.number(["v_token.result", "v_token.id", "v_turns"], 1)
        self.open("function f_station(integer p_add) runs on C")
        self.line("var Reply v_token;")
        self.line("var integer v_turns := p_add;")
        self.line("var boolean v_on := true;")
        self.open("while (v_on)")
        self.line("p.receive(Reply:?) -> value v_token;")
        self.line("v_turns := v_turns + 1;")
        self.line(f"v_on := v_token.id < {hops};")
        if self.often(0.4):
            self.line(f"if (v_token.id mod 2 == 0 and v_on) {{ v_token.result := {self.number(['v_turns', 'v_token.id'], 1)}; }}")
        self.line(f"if (v_on) {{ q.send(Reply:{{ v_token.id + 1, {result} }}); }} else {{ q.send(v_token); }}")
        self.close()
        if self.often(0.3):
            self.line(f"if (v_turns == {self.chance.randint(1, 5)}) {{ setverdict(inconc); }} else {{ setverdict(pass); }}")
        self.close()
        self.begin(["f_station(0)", "f_station(1)"], ["self:q, v_s0:p", "v_s0:q, v_s1:p", "v_s1:q, self:p"])
        self.line("var Reply v_token := { 0, 0 };")
        self.line("var integer v_turns := 0;")
        self.open(f"while (v_token.id < {hops})")
        self.line("q.send(v_token);")
        self.line("p.receive(Reply:?) -> value v_token;")
        self.line("v_turns := v_turns + 1;")
        self.close()
        if self.often(0.7):
            # Otherwise a station may wait forever
            self.line("alt { [v_token.id > 100] p.receive { } [else] { q.send(v_token); } }")
        self.finish(["v_seen", "v_turns", "v_token.id"])

    def echo(self) -> None:
        """A part of the message is changed, and the message is sent back."""
        form = self.chance.choice(["Ask", "Numbers"])
        self.open("function f_change(integer p_add) runs on C")
        self.line(f"var {form} v_it;")
        self.open(f"for (var integer i := 0; i < {(rounds := self.chance.randint(1, 2))}; i := i + 1)")
        self.line(f"p.receive({form}:?) -> value v_it;")
        if form == "Ask":
            self.line(f"v_it.id := {self.number(['v_it.id', 'p_add', 'i'], 1)};")
            if not self.encodes:
                self.line(f'v_it.text := v_it.text & int2str(v_it.amount) & "{self.chance.choice(["", "!"])}";')
            else:
                self.line("if (ispresent(v_it.amount) and v_it.kind != PUT) { v_it.amount := omit; } else { v_it.amount := v_it.id; }")
        else:
            self.line(f"v_it[lengthof(v_it)] := {self.number(['lengthof(v_it)', 'p_add'], 1)};")
            self.line(f"if (lengthof(v_it) > 2) {{ v_it[1] := {self.number(['v_it[0]', 'v_it[2]'], 1)}; }}")
        self.line("p.send(v_it);")
        self.close()
        self.close()
        self.begin([f"f_change({self.chance.randint(0, 3)})"], ["self:p, v_s0:p"])
        self.line(f"var {form} v_it;")
        known = ["v_seen"]
        for _ in range(rounds):
            again = len(known) > 1 and self.often(0.5)
            self.line(f"p.send({'v_it' if again else self.message(form, known)});")
            self.open("alt")
            self.line(f"[] p.receive({self.template(form, known)}) -> value v_it {{ v_seen := v_seen + 1; }}")
            self.line(f"[] p.receive({form}:?) -> value v_it {{ v_seen := v_seen + 2; }}")
            self.close()
            known = ["v_seen", *self.parts(form, "v_it")]
            self.unfold(form, "v_it", known, "v_seen")
        self.finish(known)


def program_of(seed: int) -> str:
    text = (Themes if seed % 2 else Maker)(seed).program()
    return with_jumps(text) if seed % 5 < 2 else text


def with_jumps(text: str) -> str:
    """Each `while` that nothing leaves or shortens becomes an `if` whose last statement jumps back to it."""
    lines = text.split("\n")
    for at in range(len(lines) - 1, -1, -1):
        loop = re.fullmatch(r"( *)while (\(.*\)) \{", lines[at])
        if loop is None:
            continue
        end = lines.index(f"{loop[1]}}}", at)
        if not re.search(r"\b(break|continue);", "\n".join(lines[at:end])):
            lines[end] = f"{loop[1]}goto l_{at}; }}"
            lines[at] = f"{loop[1]}label l_{at}; if {loop[2]} {{"
    return "\n".join(lines)
