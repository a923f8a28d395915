"""Scripts with many components, and the form of each report: what docs/PROFILE.md ("A run") lets it say.

In the report of each script everything is known except the order in which a port's messages arrived. So the form of a
report is its lines, in which a `?` stands for an open word. tests/runs/many_components/judging.py decides which words
may be there.
"""
from collections.abc import Callable
from dataclasses import dataclass, field

# The numbers of components, including `mtc`. docs/SPEED.md measures up to 62, and 64 is the limit.
COUNTS = (8, 20, 40, 62)
MOST = 64
VERDICTS = ("none", "pass", "inconc", "fail", "error")


@dataclass(frozen=True)
class Part:
    """The part of a report on one component: its history, its end, its verdict, and what is left at its ports."""

    history: list[str]
    end: str = "done"
    verdict: str = "pass"
    left: list[str] = field(default_factory=list)


@dataclass(frozen=True)
class Shape:
    """A script, and the lines of its report."""

    name: str
    script: str
    lines: tuple[str, ...]


def names_of(count: int) -> list[str]:
    return ["mtc", *(f"c{number}" for number in range(1, count))]


def loop(turns: int, *statements: str, variable: str = "turn") -> str:
    head = f"for (var integer {variable} := 0; {variable} < {turns}; {variable} := {variable} + 1)"
    return f"{head} {{ {' '.join(statements)} }}"


def block_of(statements: list[str], depth: int) -> str:
    return "".join(f"{'    ' * depth}{statement}\n" for statement in statements)


@dataclass
class Script:
    """Builds a script. `functions` has the statements of each function, `roles` the function that each component runs,
    and `body` the statements of `mtc`."""

    names: list[str]
    functions: dict[str, list[str]]
    roles: dict[str, str]
    body: list[str]
    pairs: list[str] = field(default_factory=list)
    more: str = ""
    clause: str = ""

    def connect(self, one: str, other: str) -> None:
        self.pairs.append(f"connect({one}, {other});")

    def text(self) -> str:
        created = [name for name in self.names if name not in ("mtc", "system")]
        setup = [f"var C {name} := C.create;" for name in created]
        starts = [f"{name}.start({self.roles[name]}());" for name in created]
        functions = "".join(
            f"    function {name}() runs on {'S' if name == 'sut' else 'C'} {{\n{block_of(body, 2)}    }}\n"
            for name, body in self.functions.items()
        )
        body = block_of([*setup, *self.pairs, *starts, *self.body, "all component.done;"], 2)
        return (
            "module Many {\n    type port P message { inout integer; }\n    type component C { port P p, q; }\n"
            f"{self.more}{functions}    testcase t() runs on C{self.clause} {{\n{body}    }}\n}}\n"
        )


def shape_of(name: str, script: Script, parts: list[Part]) -> Shape:
    """The lines of all parts, and the overall verdict (24.1; `error` if a behaviour waits for good)."""
    lines = []
    for component, part in zip(script.names, parts, strict=True):
        lines += [f"component {component}", *part.history, f"end {part.end}", f"verdict {part.verdict}", *part.left]
    waits = any(part.end == "waiting" for part in parts)
    result = "error" if waits else max((part.verdict for part in parts), key=VERDICTS.index)
    return Shape(f"{name}_of_{len(script.names)}", script.text(), (*lines, f"result {result}"))


def passed_round(script: Script, turns: int) -> list[list[str]]:
    """Connects all components to a ring, and returns the history of each if a token goes round this many times."""
    histories = []
    for place, name in enumerate(script.names):
        following, before = script.names[(place + 1) % len(script.names)], script.names[place - 1]
        script.connect(f"{name}:p", f"{following}:q")
        history: list[str] = []
        for turn in range(turns):
            sent, took = f"sent {following}.q {turn} integer:{turn}", f"took q {before} {turn} integer:{turn}"
            history += [sent, took] if place == 0 else [took, sent]
        histories.append(history)
    return histories


def ring(count: int, turns: int = 100) -> Shape:
    """A token goes round this many times. Nothing is open."""
    names = names_of(count)
    functions = {"passes": [loop(turns, "q.receive(integer:turn);", "p.send(integer:turn);"), "setverdict(pass);"]}
    body = [loop(turns, "p.send(integer:turn);", "q.receive(integer:turn);"), "setverdict(pass);"]
    script = Script(names, functions, dict.fromkeys(names, "passes"), body)
    parts = [Part([*history, "set pass"]) for history in passed_round(script, turns)]
    return shape_of("ring", script, parts)


def star(count: int, turns: int = 10) -> Shape:
    """`mtc` asks all components, this many times, and all answer. The order of their answers is open."""
    names = names_of(count)
    functions = {"answers": [loop(turns, "p.receive(integer:turn);", "p.send(integer:turn);"), "setverdict(pass);"]}
    taking = loop(count - 1, "p.receive(integer:turn);", variable="answer")
    body = [loop(turns, "p.send(integer:turn) to all component;", taking), "setverdict(pass);"]
    script = Script(names, functions, dict.fromkeys(names, "answers"), body)
    asking, answering = [], []
    for name in names[1:]:
        script.connect("mtc:p", f"{name}:p")
    for turn in range(turns):
        asking += [f"sent {name}.p {turn} integer:{turn}" for name in names[1:]]
        asking += [f"took p ? {turn} integer:{turn}"] * (count - 1)
        answering += [f"took p mtc {turn} integer:{turn}", f"sent mtc.p {turn} integer:{turn}"]
    ray = Part([*answering, "set pass"])
    return shape_of("star", script, [Part([*asking, "set pass"]), *[ray] * (count - 1)])


def all_to_all(count: int, turns: int = 2) -> Shape:
    """Each component sends this many times to all others, and takes what they sent."""
    names = names_of(count)
    talk = [
        loop(turns, "p.send(integer:turn) to all component;"),
        loop(turns * (count - 1), "p.receive;"),
        "setverdict(pass);",
    ]
    script = Script(names, {"talks": talk}, dict.fromkeys(names, "talks"), talk)
    for place, name in enumerate(names):
        for other in names[place + 1 :]:
            script.connect(f"{name}:p", f"{other}:p")
    parts = []
    for name in names:
        others = [other for other in names if other != name]
        sent = [f"sent {other}.p {turn} integer:{turn}" for turn in range(turns) for other in others]
        parts.append(Part([*sent, *["took p ? ? ?"] * (turns * (count - 1)), "set pass"]))
    return shape_of("all_to_all", script, parts)


def tree(count: int) -> Shape:
    """A tree that ends leaf by leaf: each component waits for those below it, at port q, and then sends upwards."""
    names = names_of(count)
    below = {name: names[2 * place + 1 : 2 * place + 3] for place, name in enumerate(names)}
    functions = {
        f"has_{number}": ["q.receive(integer:0);"] * number + ["p.send(integer:0);", "setverdict(pass);"]
        for number in range(3)
    }
    roles = {name: f"has_{len(below[name])}" for name in names}
    body = ["q.receive(integer:0);"] * len(below["mtc"]) + ["setverdict(pass);"]
    script = Script(names, functions, roles, body)
    parts = []
    for place, name in enumerate(names):
        history = ["took q ? 0 integer:0"] * len(below[name])
        if place > 0:
            above = names[(place - 1) // 2]
            script.connect(f"{above}:q", f"{name}:p")
            history.append(f"sent {above}.q 0 integer:0")
        parts.append(Part([*history, "set pass"]))
    return shape_of("tree", script, parts)


def relay(count: int) -> Shape:
    """The components of one half end one after the other, each after a message from the previous one, while the others
    wait for `mtc`, which wakes them at the end. Nothing is open."""
    names = names_of(count)
    sleepers, runners = names[1 : count // 2], names[count // 2 :]
    functions = {
        "begins": ["setverdict(inconc);", "q.send(integer:1);"],
        "hands_on": ["p.receive(integer:1);", "setverdict(inconc);", "q.send(integer:1);"],
        "sleeps": ["p.receive(integer:2);", "setverdict(pass);"],
    }
    roles = dict.fromkeys(sleepers, "sleeps") | dict.fromkeys(runners, "hands_on") | {runners[0]: "begins"}
    body = ["q.receive(integer:1);", "p.send(integer:2) to all component;", "setverdict(pass);"]
    script = Script(names, functions, roles, body)
    script.connect(f"{runners[-1]}:q", "mtc:q")
    woken = [f"sent {name}.p 0 integer:2" for name in sleepers]
    parts = [Part([f"took q {runners[-1]} 0 integer:1", *woken, "set pass"])]
    for name in sleepers:
        script.connect("mtc:p", f"{name}:p")
        parts.append(Part(["took p mtc 0 integer:2", "set pass"]))
    for place, name in enumerate(runners):
        took, end = [], "mtc.q"
        if place > 0:
            script.connect(f"{runners[place - 1]}:q", f"{name}:p")
            took = [f"took p {runners[place - 1]} 0 integer:1"]
        if place + 1 < len(runners):
            end = f"{runners[place + 1]}.p"
        parts.append(Part([*took, "set inconc", f"sent {end} 0 integer:1"], verdict="inconc"))
    return shape_of("relay", script, parts)


def all_wait(count: int, turns: int = 5) -> Shape:
    """A token goes round this many times. Then each component waits for one more, except for one that ends. Nothing is
    open: a component that waits for good ends as waiting, and that makes the result `error`."""
    names = names_of(count)
    passing = loop(turns, "q.receive(integer:turn);", "p.send(integer:turn);")
    functions = {"waits": [passing, "q.receive;"], "ends": [passing, "setverdict(pass);"]}
    body = [loop(turns, "p.send(integer:turn);", "q.receive(integer:turn);"), "q.receive;"]
    ender = names[count // 2]
    script = Script(names, functions, dict.fromkeys(names, "waits") | {ender: "ends"}, body)
    parts = [
        Part([*history, "set pass"]) if name == ender else Part(history, "waiting", "none")
        for name, history in zip(names, passed_round(script, turns))
    ]
    return shape_of("all_wait", script, parts)


def one_ends_last(count: int, turns: int = 3000) -> Shape:
    """All components wait from the start for one that is busy for a while and ends without a send. So it is usually the
    last that isn't at rest, and its end must reveal that the others wait for good."""
    names = names_of(count)
    ender = names[count // 2]
    functions = {"waits": ["p.receive;"], "ends": [loop(turns, "setverdict(pass);")]}
    script = Script(names, functions, dict.fromkeys(names, "waits") | {ender: "ends"}, ["p.receive;"])
    parts = []
    for name in names:
        if name == ender:
            parts.append(Part(["set pass"] * turns))
            continue
        script.connect(f"{ender}:p", f"{name}:p")
        parts.append(Part([], "waiting", "none"))
    return shape_of("one_ends_last", script, parts)


def half_waits(count: int) -> Shape:
    """`mtc` lets one half end, all at once, and the others wait for good. Nothing is open: each component that ends
    must be counted, because otherwise the end of the run isn't found."""
    names = names_of(count)
    waiting, ending = names[1 : count // 2], names[count // 2 :]
    functions = {"waits": ["p.receive;"], "ends": ["p.receive(integer:1);", "setverdict(pass);"]}
    body = ["p.send(integer:1) to all component;", "setverdict(pass);"]
    script = Script(names, functions, dict.fromkeys(waiting, "waits") | dict.fromkeys(ending, "ends"), body)
    parts = [Part([*(f"sent {name}.p 0 integer:1" for name in ending), "set pass"])]
    parts += [Part([], "waiting", "none")] * len(waiting)
    for name in ending:
        script.connect("mtc:p", f"{name}:p")
        parts.append(Part(["took p mtc 0 integer:1", "set pass"]))
    return shape_of("half_waits", script, parts)


def half_ended(count: int) -> Shape:
    """One half only sends to `mtc`, and ends before the others begin: messages to these components are left."""
    names = names_of(count)
    early, late = names[1 : count // 2], names[count // 2 :]
    functions = {
        "ends": ["p.send(integer:0);"],
        "begins": ["p.receive(integer:1);", "q.send(integer:2);", "p.send(integer:3);", "setverdict(pass);"],
    }
    body = [
        loop(len(early), "p.receive(integer:0);"),
        "p.send(integer:1) to all component;",
        loop(len(late), "p.receive(integer:3);"),
        "setverdict(pass);",
    ]
    script = Script(names, functions, dict.fromkeys(early, "ends") | dict.fromkeys(late, "begins"), body)
    for name in names[1:]:
        script.connect("mtc:p", f"{name}:p")
    met = {name: early[place % len(early)] for place, name in enumerate(late)}
    for name, other in met.items():
        script.connect(f"{name}:q", f"{other}:q")
    begun = [f"sent {name}.p 0 integer:1" for name in names[1:]]
    told, answered = ["took p ? 0 integer:0"] * len(early), ["took p ? 0 integer:3"] * len(late)
    parts = [Part([*told, *begun, *answered, "set pass"])]
    for name in early:
        left = ["left p mtc 0 integer:1", *["left q ? 0 integer:2"] * list(met.values()).count(name)]
        parts.append(Part(["sent mtc.p 0 integer:0"], verdict="none", left=left))
    for name in late:
        sent = [f"sent {met[name]}.q 0 integer:2", "sent mtc.p 0 integer:3"]
        parts.append(Part(["took p mtc 0 integer:1", *sent, "set pass"]))
    return shape_of("half_ended", script, parts)


def all_to_one(count: int, turns: int = 20) -> Shape:
    """All others send this many messages each to `mtc`, which takes half of them: the others are left."""
    names = names_of(count)
    functions = {"tells": [loop(turns, "p.send(integer:turn) to all component;"), "setverdict(pass);"]}
    half = turns * (count - 1) // 2
    body = [loop(half, "p.receive;"), "setverdict(pass);"]
    script = Script(names, functions, dict.fromkeys(names, "tells"), body)
    for name in names[1:]:
        script.connect("mtc:p", f"{name}:p")
    left = ["left p ? ? ?"] * (turns * (count - 1) - half)
    teller = Part([*(f"sent mtc.p {turn} integer:{turn}" for turn in range(turns)), "set pass"])
    taker = Part([*["took p ? ? ?"] * half, "set pass"], left=left)
    return shape_of("all_to_one", script, [taker, *[teller] * (count - 1)])


def system(count: int, turns: int = 5) -> Shape:
    """Everything that a test case may have: each created component asks the system this many times, at a port of its
    own, and the system answers; then each sends to `mtc`. The order of these last messages is open."""
    names = [*names_of(count - 1), "system"]
    created = names[1:-1]
    functions = {
        "asks": [loop(turns, "p.send(integer:turn);", "p.receive(integer:turn);"), "q.send(integer:9);"],
        "sut": [loop(turns, *(f"{name}.receive(integer:turn); {name}.send(integer:turn);" for name in created))],
    }
    body = [loop(len(created), "q.receive(integer:9);"), "setverdict(pass);"]
    script = Script(names, functions, dict.fromkeys(created, "asks"), body, clause=" system S")
    script.more = f"    type component S {{ port P {', '.join(created)}; }}\n"
    for name in created:
        script.connect("mtc:q", f"{name}:q")
        script.pairs.append(f"map({name}:p, system:{name});")
    parts = [Part([*["took q ? 0 integer:9"] * len(created), "set pass"])]
    answering = []
    for name in created:
        asked = []
        for turn in range(turns):
            asked += [f"sent system.{name} {turn} integer:{turn}", f"took p system {turn} integer:{turn}"]
        parts.append(Part([*asked, "sent mtc.q 0 integer:9"], verdict="none"))
    for turn in range(turns):
        for name in created:
            answering += [f"took {name} {name} {turn} integer:{turn}", f"sent {name}.p {turn} integer:{turn}"]
    parts.append(Part(answering, verdict="none"))
    return shape_of("system", script, parts)


MAKERS: tuple[Callable[[int], Shape], ...] = (
    *(ring, star, all_to_all, tree, relay),
    *(all_wait, one_ends_last, half_waits, half_ended, all_to_one),
)


# The numbers of components in which all but `mtc` send it a thousand messages each, and it takes some meanwhile.
THOUSANDS = (2, 4, 9)


def all_shapes() -> list[Shape]:
    thousands = [all_to_one(count, 1000) for count in THOUSANDS]
    return [*(make(count) for make in MAKERS for count in COUNTS), system(MOST), *thousands]
