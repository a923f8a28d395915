"""The works for `bench/verdicts/run`."""
from __future__ import annotations

from collections.abc import Sequence
from typing import NamedTuple

from statements import Alt, End, For, Operate, Program, Send, SetVerdict, Statement, Take, Variables, text_of

HEADER = "module Work { type port P message { inout integer; } type component C { port P p, q; }"
PASS, INCONC, FAIL = (SetVerdict(verdict) for verdict in ("pass", "inconc", "fail"))
TO_ALL = "all component"


class Work(NamedTuple):
    """The bodies of `mtc`, component 0, and of the components that it starts, and the connected ports."""

    mtc: Sequence[Statement]
    others: Sequence[Sequence[Statement]]
    links: list[tuple[End, End]]

    def script(self) -> str:
        """A script with a component for each body; `mtc` runs its own body."""
        lines = [HEADER]
        lines += [f"function f{at}() runs on C {{ {text_of(it)} }}" for at, it in enumerate(self.others)]
        lines.append("testcase t() runs on C {")
        lines += [f"var C c{at} := C.create;" for at in range(len(self.others))]
        names = ["self", *(f"c{at}" for at in range(len(self.others)))]
        lines += [f"connect({', '.join(f'{names[number]}:{port}' for number, port in pair)});" for pair in self.links]
        lines += [f"c{at}.start(f{at}());" for at in range(len(self.others))]
        return "\n".join([*lines, text_of(self.mtc), "all component.done; } }"])

    def program(self) -> str:
        """The same for plain.rs, which can't read scripts."""
        program = Program(self.links)
        for number, statements in enumerate([self.mtc, *self.others]):
            program.add_component(number, statements)
        return program.text()


def to_mtc(number: int) -> list[tuple[End, End]]:
    return [((0, "p"), (at, "p")) for at in range(1, number + 1)]


def senders(number: int, same: bool) -> Work:
    """Each component sends `mtc` one message, the same or its own number; `mtc` has a branch for each value."""
    takes = For(number, [Alt([Take(1), Take()])])
    return Work([takes, PASS], [[Send(1 if same else at)] for at in range(number)], to_mtc(number))


def pairs(number: int, turns: int) -> Work:
    """Pairs that play ping-pong."""
    ask: list[Statement] = [For(turns, [Send(1), Take(2)]), PASS]
    answer: list[Statement] = [For(turns, [Take(1), Send(2)])]
    return Work([], [ask, answer] * number, [((2 * at + 1, "p"), (2 * at + 2, "p")) for at in range(number)])


def star(number: int) -> Work:
    """`mtc` asks all workers and collects their answers."""
    body: list[Statement] = [Send(1, TO_ALL), For(number, [Take(2)]), PASS]
    return Work(body, [[Take(1), Send(2)]] * number, to_mtc(number))


def two_phase_commit(number: int, against: int) -> Work:
    """Each component votes yes (1) or no (2). If nobody votes no, all get a commit (3), and otherwise an abort (4)."""
    votes = [1] * (number - against) + [2] * against
    others: list[list[Statement]] = [[Take(0), Send(it), Alt([Take(3, [PASS]), Take(4, [INCONC])])] for it in votes]
    count: list[Statement] = [Send(3, TO_ALL)]
    for left in range(number):
        count = [Alt([Take(1, count), Take(2, [For(left, [Take()]), Send(4, TO_ALL)])])]
    return Work([Send(0, TO_ALL), *count], others, to_mtc(number))


def collector(number: int, messages: int) -> Work:
    """Each component sends `messages` messages, and `mtc` receives all."""
    takes = For(number, [For(messages, [Take()], "j")])
    return Work([takes, PASS], [[For(messages, [Send(1)])] for _ in range(number)], to_mtc(number))


def token_round(number: int, rounds: int) -> Work:
    """A token is passed `rounds` times round the components, including `mtc`."""
    links = [((at, "p"), ((at + 1) % number, "q")) for at in range(number)]
    passes = [For(rounds, [Take(1, port="q"), Send(1)])]
    return Work([For(rounds, [Send(1), Take(port="q")]), PASS], [passes] * (number - 1), links)


def fixed_order(number: int) -> Work:
    """Each component sends its number, and `mtc` waits for them in one order: the verdict is `pass` or `error`."""
    return Work([For(number, [Take("i")]), PASS], [[Send(at)] for at in range(number)], to_mtc(number))


def answered_by_name(number: int) -> Work:
    """Each component sends one message, and `mtc` answers its sender."""
    answers = For(number, [Take(into="w"), Send(2, "w")])
    return Work([Variables("w"), answers, PASS], [[Send(1), Take(2)]] * number, to_mtc(number))


def halted(number: int) -> Work:
    """Each component sends two numbers, and `mtc` waits for them between operations on its port."""
    asks = [[Send(at), Send(9)] for at in range(number)]
    echo: list[Statement] = [Take(into="nw"), Send("n", "w")]
    body: list[Statement] = [
        Variables("nw"),
        Alt([Take(0, echo, kind="check"), Take(1, echo, kind="check")], [INCONC]),
        Take(9, kind="trigger"),
        Operate("halt"),
        For(number, [Alt([Take(into="nw", block=[Send("n", "w")])], [])]),
        Operate("start"),
        Alt([Take(9, [PASS])], [Operate("clear")]),
        Operate("stop", "all port"),
    ]
    return Work(body, asks, to_mtc(number))


def questions(number: int, turns: int, same: bool) -> Work:
    """Each component asks `mtc` `turns` times, with the same number or its own, and `mtc` returns the number."""
    asked = [1 if same else at for at in range(number)]
    asks = [[For(turns, [Send(it), Alt([Take(it, [PASS]), Take(block=[FAIL])])])] for it in asked]
    return Work([Variables("nw"), For(turns * number, [Take(into="nw"), Send("n", "w")])], asks, to_mtc(number))


def a_branch_for_each(number: int) -> Work:
    """Each component asks `mtc` one to three times with its own number, for which `mtc` has a branch of its own."""
    rounds = [1 + at % 3 for at in range(number)]
    asks = [[For(turns, [Send(at), Take(at)])] for at, turns in enumerate(rounds)]
    takes = Alt([Take(at, [Send(at, "w")], "w") for at in range(number)])
    return Work([Variables("w"), For(sum(rounds), [takes]), PASS], asks, to_mtc(number))


def barriers(number: int, rounds: int) -> Work:
    """All components meet twice in each round: `mtc` tells all when the last has arrived, and receives nothing else."""
    come = [For(number, [Alt([Take(it), Take(block=[FAIL])])], "j") for it in (1, 3)]
    body: list[Statement] = [For(rounds, [come[0], Send(2, TO_ALL), come[1], Send(4, TO_ALL)]), PASS]
    return Work(body, [[For(rounds, [Send(1), Take(2), Send(3), Take(4)]), PASS]] * number, to_mtc(number))


def races(number: int) -> Work:
    """Receivers with two senders each: the first message decides."""
    takes = Alt([Take(1, [PASS]), Take(2, [INCONC])])
    links = [((at, "p"), (at + more, "p")) for at in range(1, 3 * number, 3) for more in (1, 2)]
    return Work([], [[takes], [Send(1)], [Send(2)]] * number, links)


def philosophers(number: int) -> Work:
    """Each philosopher asks (1) for the left fork and then for the right one, gets it (2), and gives both back (3)."""
    eats: list[Statement] = [Send(1), Take(2), Send(1, port="q"), Take(2, port="q"), Send(3), Send(3, port="q"), PASS]

    def given(port: str) -> list[Statement]:
        return [Send(2, port=port), Take(3, port=port)]

    def both(first: str, second: str) -> Take:
        return Take(1, [*given(first), Take(1, port=second), *given(second)], port=first)

    fork = Alt([both("p", "q"), both("q", "p")])
    left = [((at + 1, "p"), (number + at + 1, "p")) for at in range(number)]
    right = [((at + 1, "q"), (number + (at + 1) % number + 1, "q")) for at in range(number)]
    return Work([], [eats] * number + [[fork]] * number, left + right)


def two_groups(number: int) -> Work:
    """Two servers with `number` clients each, which they answer by name. The groups are independent of each other."""
    server: list[Statement] = [Variables("w"), For(number, [Take(into="w"), Send(2, "w")])]
    client: list[Statement] = [Send(1), Take(2)]
    links = [((first, "p"), (first + at, "p")) for first in (1, number + 2) for at in range(1, number + 1)]
    return Work([], [server, *[client] * number] * 2, links)


def heartbeats(number: int, beats: int) -> Work:
    """Each component sends heartbeats, and then an end. `mtc` drops the heartbeats, and counts the ends."""
    done = Alt([Take(9, [FAIL]), Take(1, kind="trigger")])
    return Work([For(number, [done]), PASS], [[For(beats, [Send(0)]), Send(1), PASS]] * number, to_mtc(number))


def alone(turns: int) -> Work:
    """`mtc` sends itself `turns` messages, and receives each before it sends the next: there is only one order."""
    return Work([For(turns, [Send(1), Take(port="q")]), PASS], [], [((0, "p"), (0, "q"))])


NOTHING = Work([PASS], [], [])
WORKS = {
    "16 senders of one message": senders(16, True),
    "30 senders of different messages": senders(30, False),
    "8 pairs, 5 ping-pongs each": pairs(8, 5),
    "a star of 16": star(16),
    "8 senders of 100 messages": collector(8, 100),
    "a token 10 times round 62 components": token_round(62, 10),
    "60 senders, taken in one order": fixed_order(60),
    "60 senders, answered by name": answered_by_name(60),
    "two groups of 30, answered by name": two_groups(30),
    "60 senders of two questions": questions(60, 2, True),
    "60 senders of three questions": questions(60, 3, True),
    "8 senders of two questions, each with its own number": questions(8, 2, False),
    "20 senders of one question, each with its own number": questions(20, 1, False),
    "60 clients of one to three questions, a branch for each": a_branch_for_each(60),
    "60 components at three barriers": barriers(60, 3),
    "60 senders of one heartbeat": heartbeats(60, 1),
    "60 senders of two heartbeats": heartbeats(60, 2),
    "a two-phase commit of 14, of whom two vote no": two_phase_commit(14, 2),
    "20 races of two senders each, apart": races(20),
    "ten philosophers, who may block each other": philosophers(10),
    "6 senders, a halted port": halted(6),
}
