"""Makes random programs with timers that guard waits, cause a repeated question, or are waited for alone."""
from __future__ import annotations

from random_themes import Themes

_TIMERS = """  altstep as_guard(integer p_by) runs on C {
    [] t_guard.timeout { vc_n := vc_n + p_by; setverdict(inconc); }
    [] p.receive("late") { vc_n := vc_n + 5; repeat; }
  }
"""


class Timed(Themes):
    def program(self) -> str:
        text = super().program().replace("port P p, q;", "port P p, q; timer t_guard := 5.0, t_retry := 0.5;", 1)
        head, function, rest = text.partition("  function f_server(")
        return head + _TIMERS + function + rest

    def themes(self) -> None:
        self.open("function f_server(integer p_first) runs on C")
        self.line("var integer v_it, v_count := p_first;")
        self.open("alt")
        if self.often(0.5):
            self.line(f"[v_count < {self.chance.randint(1, 3)}] p.receive(integer:?) {{ v_count := v_count + 1; repeat; }}")
        self.open("[] p.receive(integer:?) -> value v_it")
        self.line(f"v_count := v_count + {self.chance.randint(0, 2)};")
        self.line(f"p.send({self.number(['v_it', 'v_count'], 1)});")
        self.line("repeat;")
        self.close()
        self.line('[] p.receive("stop") { }')
        self.close()
        self.close()
        self.begin([f"f_server({self.chance.randint(0, 2)})"], ["self:p, v_s0:p"])
        self.line("var integer v_turn := 1;")
        for _ in range(self.chance.randint(1, 2)):
            self.chance.choice([self.guarded, self.again, self.by_default, self.pause, self.late])()
        if self.often(0.5):
            self.line("t_guard.stop;")
        self.line('p.send("stop");')
        self.finish(["v_seen", "v_last", "v_turn"])

    def guarded(self) -> None:
        self.line("t_guard.start;")
        self.line(f"p.send({self.number(['v_seen', 'v_last'], 1)});")
        self.open("alt")
        self.line("[] p.receive(integer:?) -> value v_last { t_guard.stop; v_seen := v_seen + v_last; }")
        self.line(f"[] t_guard.timeout {{ v_seen := v_seen + {self.chance.randint(1, 4)}; }}")
        self.close()

    def again(self) -> None:
        self.line("v_turn := 1;")
        self.line("p.send(v_turn);")
        self.line("t_retry.start;")
        self.open("alt")
        self.line("[] p.receive(integer:?) -> value v_last { t_retry.stop; v_seen := v_seen + v_last; }")
        most = self.chance.randint(2, 3)
        self.open(f"[v_turn < {most}] t_retry.timeout")
        self.line("v_turn := v_turn + 1;")
        self.line(f"p.send({self.number(['v_turn', 'v_seen'], 1)});")
        self.line("t_retry.start(0.5);")
        self.line("repeat;")
        self.close()
        self.line(f"[v_turn >= {most}] t_retry.timeout {{ setverdict(inconc); }}")
        self.close()

    def by_default(self) -> None:
        default = self.fresh("default")
        self.line(f"var default {default} := activate(as_guard({self.chance.randint(1, 3)}));")
        self.line("t_guard.start;")
        self.line(f"p.send({self.number(['v_seen', 'v_last'], 1)});")
        self.line("p.receive(integer:?) -> value v_last;")
        if self.often(0.6):
            self.line("t_guard.stop;")
        self.line(f"deactivate({default});")

    def pause(self) -> None:
        self.line("t_retry.start;")
        if self.often(0.4):
            self.line("p.send(v_seen);")
        self.line("t_retry.timeout;")
        self.line("v_seen := v_seen + 1;")

    def late(self) -> None:
        self.line("t_guard.start;")
        self.open("alt")
        self.line("[] t_guard.timeout { v_seen := v_seen + 2; }")
        self.line("[else] { v_seen := v_seen + 1; }")
        self.close()


def timed_program_of(seed: int) -> str:
    return Timed(seed).program()
