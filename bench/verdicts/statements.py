"""Statements of works, each in two forms: as the text of a script, and as instructions for plain.rs (program.rs)."""
from __future__ import annotations

from collections.abc import Sequence
from typing import NamedTuple, Protocol

PORTS = ("p", "q")
TYPES = {"n": "integer", "w": "C"}
End = tuple[int, str]
"""A component's number and its port."""


class Program:
    """The instructions of all components, while they are built."""

    def __init__(self, links: list[tuple[End, End]]) -> None:
        self.links = links
        self.messages: dict[int, int] = {}
        self.rows: dict[int | str, int] = {}
        self.components: list[str] = []

    def message(self, value: int) -> int:
        return self.messages.setdefault(value, len(self.messages))

    def row(self, wanted: int | str) -> int:
        return self.rows.setdefault(wanted, len(self.rows))

    def add_component(self, number: int, statements: Sequence[Statement]) -> None:
        body = Body(self, number, "".join(it.names for it in statements if isinstance(it, Variables)))
        start = body.put_block(statements, {}, 0)
        name = f"c{number - 1}" if number else "mtc"
        self.components += [f"component {name} {start} {len(body.variables)} {len(PORTS)}", *body.lines]

    def text(self) -> str:
        rows = [" ".join(str(int(wanted in ("?", one))) for one in self.messages) for wanted in self.rows]
        return "".join(f"{line}\n" for line in [*(f"wanted {row}" for row in rows), *self.components])


class Body:
    """The instructions of one component, built from the last to the first, as `tpr` numbers them."""

    def __init__(self, program: Program, number: int, variables: str) -> None:
        self.program, self.number, self.variables = program, number, variables
        self.lines = ["end"]
        self.count = 1

    def add(self, *lines: str) -> int:
        """Adds an instruction, and returns its number."""
        self.lines += lines
        self.count += 1
        return self.count - 1

    def put_block(self, block: Sequence[Statement], turns: dict[str, int], behind: int) -> int:
        for statement in reversed(block):
            behind = statement.put(self, turns, behind)
        return behind

    def variable(self, name: str) -> str:
        return f"v{self.variables.index(name)}"

    def routes_from(self, port: str) -> list[str]:
        own = (self.number, port)
        ends = [other for pair in self.program.links for one, other in (pair, pair[::-1]) if one == own]
        return [f"{number}.{PORTS.index(at)}" for number, at in ends]


class Statement(Protocol):
    def text(self) -> str:
        """The statement in a script."""

    def put(self, body: Body, turns: dict[str, int], behind: int) -> int:
        """Adds the instructions of the statement, for these values of the loop variables, and returns the first."""


def text_of(block: Sequence[Statement]) -> str:
    return " ".join(statement.text() for statement in block)


class Variables(NamedTuple):
    """The variables of a body: n (a number), w (a component), or both. Loop variables don't belong to them."""

    names: str

    def text(self) -> str:
        return " ".join(f"var {TYPES[name]} {name};" for name in self.names)

    def put(self, body: Body, turns: dict[str, int], behind: int) -> int:
        return behind


class Send(NamedTuple):
    """A send of a number, or of the value of a loop variable or n."""

    message: int | str
    to: str = ""
    port: str = "p"

    def text(self) -> str:
        message = "n" if self.message == "n" else f"integer:{self.message}"
        return f"{self.port}.send({message}){self.to and f' to {self.to}'};"

    def put(self, body: Body, turns: dict[str, int], behind: int) -> int:
        if self.message == "n":
            sent = body.variable("n")
        else:
            sent = str(body.program.message(turns[self.message] if isinstance(self.message, str) else self.message))
        routes = body.routes_from(self.port)
        send = f"send {PORTS.index(self.port)} {sent}"
        if self.to == "all component" and routes:
            for route in reversed(routes):
                behind = body.add(f"{send} {behind} {route}")
            return behind
        if self.to == "w":
            return body.add(" ".join([send, str(behind), body.variable("w"), *routes]))
        return body.add(f"{send} {behind} {routes[0]}" if len(routes) == 1 else f"{send} {behind}")


class Take(NamedTuple):
    """A receiving operation: for a number, for the value of a loop variable, or for any message, `?`. The message is
    stored in n, its sender in w."""

    wanted: int | str = "?"
    block: Sequence[Statement] = ()
    into: str = ""
    port: str = "p"
    kind: str = "receive"

    def operation(self) -> str:
        wanted = "" if self.wanted == "?" and "n" not in self.into else f"(integer:{self.wanted})"
        words = {"n": " -> value n", "w": " -> sender w", "nw": " -> value n sender w"}
        received = f"{wanted}{words.get(self.into, '')}"
        return f"{self.port}.check(receive{received})" if self.kind == "check" else f"{self.port}.{self.kind}{received}"

    def text(self) -> str:
        return f"{self.operation()};"

    def alternative(self, body: Body, turns: dict[str, int], behind: int) -> str:
        place = body.put_block(self.block, turns, behind)
        row = body.program.row(turns.get(str(self.wanted), self.wanted))
        into = [body.variable(name) if name in self.into else "-" for name in TYPES]
        return f"{self.kind} {PORTS.index(self.port)} {row} - {' '.join(into)} {place}"

    def put(self, body: Body, turns: dict[str, int], behind: int) -> int:
        return body.add("alt -", self.alternative(body, turns, behind))


class Alt(NamedTuple):
    branches: Sequence[Take]
    otherwise: Sequence[Statement] | None = None

    def text(self) -> str:
        branches = [f"[] {it.operation()} {{ {text_of(it.block)} }}" for it in self.branches]
        if self.otherwise is not None:
            branches.append(f"[else] {{ {text_of(self.otherwise)} }}")
        return f"alt {{ {' '.join(branches)} }}"

    def put(self, body: Body, turns: dict[str, int], behind: int) -> int:
        alternatives = [it.alternative(body, turns, behind) for it in self.branches]
        otherwise = "-" if self.otherwise is None else str(body.put_block(self.otherwise, turns, behind))
        return body.add(f"alt {otherwise}", *alternatives)


class For(NamedTuple):
    turns: int
    block: Sequence[Statement]
    name: str = "i"

    def text(self) -> str:
        name = self.name
        return f"for (var integer {name} := 0; {name} < {self.turns}; {name} := {name} + 1) {{ {text_of(self.block)} }}"

    def put(self, body: Body, turns: dict[str, int], behind: int) -> int:
        for value in reversed(range(self.turns)):
            behind = body.put_block(self.block, {**turns, self.name: value}, behind)
        return behind


class Operate(NamedTuple):
    """An operation on a port, or on `all port`."""

    operation: str
    port: str = "p"

    def text(self) -> str:
        return f"{self.port}.{self.operation};"

    def put(self, body: Body, turns: dict[str, int], behind: int) -> int:
        port = "all" if self.port == "all port" else PORTS.index(self.port)
        return body.add(f"control {port} {self.operation} {behind}")


class SetVerdict(NamedTuple):
    verdict: str

    def text(self) -> str:
        return f"setverdict({self.verdict});"

    def put(self, body: Body, turns: dict[str, int], behind: int) -> int:
        return body.add(f"setverdict {self.verdict} {behind}")
