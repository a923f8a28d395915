"""Makes random scripts that `tpr check` accepts: components with ports p and q, connections between them, in some
scripts a system under test, and bodies of sends, looks, waits and port operations.
"""
import random
from collections.abc import Callable
from dataclasses import dataclass, field, replace

HEADER = """module Soak {
    type record of integer L;
    type record R { integer i, charstring t }
    type port P message { inout integer, boolean, charstring, L, R; }
    type component C { port P p, q; }
"""
MESSAGES = ("boolean:true", 'charstring:"ab"', "L:{}", "L:{1, 2}", 'R:{1, "a"}', 'R:{t := "bc", i := 2}')
NUMBERS = ("integer:?", "integer:0", "integer:(1 .. 3)", "integer:complement (2)", "integer:(0, 2)")
TEMPLATES = (
    "boolean:true",
    'charstring:pattern "a*"',
    "L:{*, 2}",
    "L:?",
    'R:{?, pattern "?"}',
    'R:{t := complement ("a"), i := (1 .. 2)}',
)
OPERATIONS = ("start", "start", "halt", "halt", "halt", "clear", "stop")
IDLE = "for (var integer last := 0; last < 0; last := last + 1) { }"
# How often a script has many components, and how many it creates then: with `mtc` they are 62 at most. Most of these
# wait at one port at a time, and can't observe when a message arrived: otherwise no order could be found.
OFTEN_MANY, LEAST_MANY, MOST_MANY, PATIENT = 0.1, 4, 61, 0.95


@dataclass(frozen=True)
class Place:
    """The place of a statement: its component, whether there are variables n and w, and the number of loops and of
    blocks around it."""

    who: str
    variables: bool
    loops: int = 0
    blocks: int = 0


@dataclass
class Maker:
    """Makes a script. `waiting` is how often a receiving operation has no `[else]`, `turns` the largest number of turns
    of a loop. The `patient` components operate on no port, and their receiving operations wait, each at one port."""

    chance: random.Random
    waiting: float
    turns: int
    names: list[str]
    patient: set[str] = field(default_factory=set)
    arguments: dict[str, str] = field(default_factory=dict)
    routes: dict[tuple[str, str], list[str]] = field(default_factory=dict)
    pairs: list[str] = field(default_factory=list)

    def often(self, share: float) -> bool:
        return self.chance.random() < share

    # The configuration

    def connect(self) -> None:
        """Connects some pairs of ports that may be connected, and maps ports of the system to remaining ones."""
        ends = [(name, port) for name in self.names if name != "system" for port in "pq"]
        joined: set[tuple[str, str, str]] = set()
        for _ in range(self.chance.randint(len(self.names) - 1, 2 * len(self.names))):
            one, other = self.chance.sample(ends, 2)
            if (*one, other[0]) not in joined and (*other, one[0]) not in joined:
                joined |= {(*one, other[0]), (*other, one[0])}
                self.join("connect", one, other)
        free = [end for end in ends if end not in self.routes]
        self.chance.shuffle(free)
        if "system" in self.names:
            for port, end in zip("pq", free):
                self.join("map", end, ("system", port))

    def join(self, how: str, one: tuple[str, str], other: tuple[str, str]) -> None:
        self.pairs.append(f"{how}({one[0]}:{one[1]}, {other[0]}:{other[1]});")
        self.routes.setdefault(one, []).append(other[0])
        self.routes.setdefault(other, []).append(one[0])

    # Bodies

    def body(self, who: str) -> list[str]:
        """The statements of a component. The last one has no effect."""
        place = Place(who, self.often(0.4))
        lines = ["var integer n; var C w;"] if place.variables else []
        for _ in range(self.chance.randint(1, 6)):
            lines += self.statement(place)
        return [*lines, IDLE if who == "system" else "setverdict(none);"]

    def statement(self, place: Place) -> list[str]:
        kinds: dict[Callable[[Place], list[str]], int] = {self.send: 40, self.choice: 35}
        kinds[self.loop] = 8 if place.loops < 2 else 0
        if place.who != "system":
            kinds |= {self.control: 15, self.verdict: 4}
        if place.who in self.patient:
            kinds |= {self.send: 60, self.control: 0, self.choice: 20}
        (kind,) = self.chance.choices(list(kinds), list(kinds.values()))
        return kind(place)

    def send(self, place: Place) -> list[str]:
        ports = [port for port in "pq" if (place.who, port) in self.routes]
        port = self.chance.choice(ports if ports and self.often(0.97) else ["p", "q"])
        message = f"integer:{self.chance.randint(0, 4)}" if self.often(0.8) else self.chance.choice(MESSAGES)
        if place.variables and self.often(0.15):
            message = "n"
        elif place.loops and self.often(0.5):
            message = self.chance.choice(("integer:", "")) + f"i{place.loops}"
        return [f"{port}.send({message}){self.receiver(place, port)};"]

    def receiver(self, place: Place, port: str) -> str:
        """The text after a send: a receiver if one is needed, and at random another one."""
        routes = self.routes.get((place.who, port), [])
        if self.often(0.02):
            return f" to {self.chance.choice(self.speakable(place.who))}"
        if place.variables and self.often(0.1):
            return " to w"
        if self.often(0.15):
            return " to all component"
        named = [name for name in routes if name != "system"]
        if not named or len(routes) == 1 and self.often(0.7):
            return ""
        receiver = self.chance.choice(named)
        if receiver == self.arguments.get(place.who, "").replace("self", "mtc") and self.often(0.5):
            return " to x"
        return f" to {'self' if receiver == place.who else receiver}"

    def speakable(self, who: str) -> list[str]:
        """The components that a body can name, including x if it is a parameter."""
        others = [name for name in self.names if name not in ("system", who)]
        return ["self", *others, *(["x"] if who in self.arguments else [])]

    def control(self, _: Place) -> list[str]:
        port = self.chance.choice(("p", "p", "q", "q", "all port"))
        return [f"{port}.{self.chance.choice(OPERATIONS)};"]

    def verdict(self, _: Place) -> list[str]:
        return [f"setverdict({self.chance.choice(('none', 'pass', 'inconc', 'fail'))});"]

    def loop(self, place: Place) -> list[str]:
        inside = replace(place, loops=place.loops + 1, blocks=place.blocks + 1)
        name, turns = f"i{inside.loops}", self.chance.randint(0, self.turns)
        block = [line for _ in range(self.chance.randint(1, 2)) for line in self.statement(inside)]
        return [f"for (var integer {name} := 0; {name} < {turns}; {name} := {name} + 1) {{", *block, "}"]

    def choice(self, place: Place) -> list[str]:
        """An `alt`, or a receiving operation by itself."""
        patient = place.who in self.patient
        waits = patient or self.often(self.waiting)
        if waits and self.often(0.6):
            return [self.guard(place) + ";"]
        lines, port = ["alt {"], self.chance.choice("pq") if patient else ""
        for _ in range(self.chance.randint(1, 3)):
            lines += [f"[] {self.guard(place, port)} {{", *self.block(place), "}"]
        if not waits:
            lines += ["[else] {", *self.block(place), "}"]
        return [*lines, "}"]

    def block(self, place: Place) -> list[str]:
        if place.blocks > 1 or self.often(0.7):
            return []
        return self.statement(replace(place, blocks=place.blocks + 1))

    def guard(self, place: Place, port: str = "") -> str:
        """A receiving operation, at this port if one is given."""
        template = ""
        if self.often(0.6):
            template = self.chance.choice(NUMBERS if self.often(0.7) else TEMPLATES)
        if place.loops and self.often(0.2):
            template = f"integer:i{place.loops}"
        source = f" from {self.chance.choice(self.speakable(place.who))}" if self.often(0.25) else ""
        redirect = ""
        if place.variables and self.often(0.5):
            value = " value n" if template.startswith("integer") and self.often(0.7) else ""
            redirect = " ->" + (value or " sender w") + (" sender w" if value and self.often(0.7) else "")
        received = (f"({template})" if template else "") + source + redirect
        (how,) = self.chance.choices(("receive", "trigger", "check"), (6, 3, 2))
        port = port or self.chance.choice("pq")
        return f"{port}.check(receive{received})" if how == "check" else f"{port}.{how}{received}"


def indented(lines: list[str]) -> str:
    """The lines of a block of a definition, each indented by the brackets before it."""
    text, depth = "", 2
    for line in lines:
        text += "    " * (depth - line.startswith("}")) + line + "\n"
        depth += line.count("{") - line.count("}")
    return text


def some_names(chance: random.Random) -> list[str]:
    """The components that are created: few, and in some scripts many."""
    if chance.random() < OFTEN_MANY:
        return [f"c{number}" for number in range(1, 1 + chance.randint(LEAST_MANY, MOST_MANY))]
    return list("abc"[: chance.randint(1, 3)])


def some_script(chance: random.Random) -> str:
    """A random script. The same state of `chance` makes the same script."""
    made = some_names(chance)
    system = ["system"] if chance.random() < 0.2 else []
    maker = Maker(chance, chance.choice((0, 0.1, 0.4)), chance.choice((2, 3, 8)), ["mtc", *made, *system])
    if len(made) >= LEAST_MANY:
        maker.patient = {name for name in maker.names if chance.random() < PATIENT}
    maker.arguments = {name: chance.choice(["mtc", "self", *made]) for name in made if chance.random() < 0.5}
    maker.connect()
    functions = "".join(function_of(maker, name) for name in [*made, *system])
    setup = [
        *(f"var C {name} := C.create;" for name in made),
        *maker.pairs,
        *(f"{name}.start(of_{name}({maker.arguments.get(name, '')}));" for name in made),
    ]
    body = indented([*setup, *maker.body("mtc"), "all component.done;"])
    clause = " system C" if system else ""
    return f"{HEADER}{functions}\n    testcase t() runs on C{clause} {{\n{body}    }}\n}}\n"


def function_of(maker: Maker, name: str) -> str:
    """The function that a component runs."""
    parameter = "C x" if name in maker.arguments else ""
    function = "sut" if name == "system" else f"of_{name}"
    return f"\n    function {function}({parameter}) runs on C {{\n{indented(maker.body(name))}    }}\n"
