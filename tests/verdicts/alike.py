"""Makes random scripts in which some components are alike: clients with one body, and a server that may answer by
sender, with a number or with the one that it took. So components can be exchanged, or only almost: one has another
body, `mtc` names some of them, or each sends a number of its own, which its receivers may distinguish, or waits for a
number that the others may want too. In some scripts there are two servers, each with clients of its own. The two groups
are independent, unless `mtc` sends to all clients of both. In others `mtc` takes the questions of clients one by one.
"""
from __future__ import annotations

import random
import re

VERDICTS = ("pass", "inconc", "fail")
SCRIPT = """module Alike {{
    type port P message {{ inout integer; }}
    type component C {{ port P p, q; }}
    {bodies}
    function server() runs on C {{ var C w; var integer v; {server} }}
    testcase t() runs on C {{
        var C s := C.create; {created}
        {connected}
        s.start(server()); {started}
        var C w; {main}
        all component.done;
    }}
}}
"""
ANSWERS = """for (var integer i := 0; i < {clients}; i := i + 1) {{
        p.receive(integer:?) -> sender w; p.send(integer:{last}) to w; }}"""
ECHOES = """for (var integer i := 0; i < {clients}; i := i + 1) {{
        p.receive(integer:?) -> value v sender w; p.send(v) to w; }}"""


def taken(chance: random.Random, port: str, behind: str = "") -> str:
    """A receiving operation for any number or for one."""
    operation = chance.choice(("receive", "receive", "receive", "trigger"))
    wanted = chance.choice(("1", "1", "1", "2", "?", "?", "3"))
    return f"{port}.{operation}(integer:{wanted}){behind}"


def chosen(chance: random.Random, port: str) -> str:
    """An `alt` that distinguishes numbers."""
    first, second = chance.choice(VERDICTS), chance.choice(VERDICTS)
    last = chance.choice(("", "", f"[] {port}.receive {{ setverdict({second}); }}", "[else] { }"))
    return f"alt {{ [] {port}.receive(integer:{chance.choice('1123')}) {{ setverdict({first}); }} {last} }}"


def own_act(chance: random.Random) -> str:
    """A statement of a client."""
    port = chance.choice("ppq")
    kind = chance.randrange(8)
    if kind < 3:
        return f"{port}.send(integer:{chance.choice('112')});"
    if kind < 5:
        return taken(chance, port, ";")
    if kind < 6:
        return chosen(chance, port)
    acts = (f"{port}.halt;", f"{port}.stop;", f"{port}.clear;", f"setverdict({chance.choice(VERDICTS)});")
    return chance.choice(acts)


def central_act(chance: random.Random, port: str, names: list[str]) -> str:
    """A statement of a component that is connected with all clients, and may name them if it knows them."""
    number = chance.choice("112")
    kind = chance.randrange(9)
    if kind < 3:
        return taken(chance, port, f" -> sender w; {port}.send(integer:{number}) to w;")
    if kind < 5:
        return taken(chance, port, ";")
    if kind < 6:
        return chosen(chance, port)
    if kind < 7 and names:
        act = chance.choice((f"send(integer:{number}) to", "receive from"))
        return f"{port}.{act} {chance.choice(names)};"
    if kind < 8:
        return f"{port}.send(integer:{number}) to all component;"
    return chance.choice((f"setverdict({chance.choice(VERDICTS)});", f"{port}.halt;", f"{port}.start;"))


def sending(number: str, body: str) -> str:
    """The body, in which each send has this number."""
    return re.sub(r"send\(integer:\d\)", f"send(integer:{number})", body)


def numbered(number: int, body: str) -> str:
    """The body with this number in place of each 1."""
    return body.replace("integer:1", f"integer:{number}")


def own_bodies(chance: random.Random, clients: list[str], asks: str) -> list[str]:
    """The bodies of the clients: all the same, except for one of them, or for the numbers that they send or want."""
    client = " ".join([asks, *(own_act(chance) for _ in range(chance.randint(1, 3)))])
    other = " ".join([asks, *(own_act(chance) for _ in range(chance.randint(1, 3)))])
    kind = chance.random()
    if kind < 0.2:
        odd = chance.choice(clients)
        return [other if it == odd else client for it in clients]
    if kind < 0.4:
        return [sending(chance.choice("123"), client) for _ in clients]
    if kind < 0.5:
        return [numbered(chance.choice((3, 4)), client) for _ in clients]
    if kind < 0.8:
        return [numbered(number, client) for number, _ in enumerate(clients, 3)]
    return [client for _ in clients]


ALL_STARTED = """module Started {{
    type port P message {{ inout integer; }}
    type component C {{ port P p, q; }}
    {bodies}
    testcase t() runs on C {{
        {created}
        {connected}
        {started}
        {main}
        all component.done;
    }}
}}
"""


def of_one_group(chance: random.Random, name: str, clients: list[str], told: bool) -> dict[str, str]:
    """The bodies of a server and its clients."""
    asks = chance.choice(("p.send(integer:1);", "p.send(integer:1);", "q.receive; p.send(integer:1);" if told else ""))
    client = " ".join([asks, *(own_act(chance) for _ in range(chance.randint(0, 2)))])
    answers = ANSWERS.format(clients=len(clients), last=chance.choice("12"))
    server = " ".join(["var C w;", answers, *(central_act(chance, "p", []) for _ in range(chance.randint(0, 1)))])
    return {name: server, **{it: client for it in clients}}


def some_groups_script(chance: random.Random) -> str:
    """A script with two groups, which `mtc` may tell to begin."""
    told = chance.random() < 0.4
    groups = {"a": ["a0", "a1"][: chance.randint(1, 2)], "b": ["b0"]}
    bodies: dict[str, str] = {}
    for name, clients in groups.items():
        bodies |= of_one_group(chance, name, clients, told)
    links = [f"connect({name}:p, {it}:p);" for name, clients in groups.items() for it in clients]
    links += [f"connect(self:q, {it}:q);" for clients in groups.values() for it in clients if told]
    return ALL_STARTED.format(
        bodies=" ".join(f"function of_{it}() runs on C {{ {body} }}" for it, body in bodies.items()),
        created=" ".join(f"var C {it} := C.create;" for it in bodies),
        connected=" ".join(links),
        started=" ".join(f"{it}.start(of_{it}());" for it in bodies),
        main="q.send(integer:1) to all component;" if told else "",
    )


SERVICE = """var C w; var integer v;
        for (var integer i := 0; i < {turns}; i := i + 1) {{ alt {{ {branches} }} }}
        {last}"""


def some_question(chance: random.Random) -> str:
    """A question of a client, and how it waits for the answer, if it does."""
    number = chance.choice("112")
    waits = ("p.receive;", "p.receive;", "p.receive;", "", f"p.receive(integer:{number});", chosen(chance, "p"))
    wait = chance.choice(waits)
    return f"p.send(integer:{number}); {wait}"


def some_branch(chance: random.Random, wanted: str, of: str = "") -> str:
    """A branch of the server: which questions it takes, of one client or of all, and what it does then."""
    verdict = chance.choice(("", "", "", f"setverdict({chance.choice(VERDICTS)});"))
    if of:
        answer = f"p.send(integer:{chance.choice('12')}) to {of};"
        return f"[] p.receive(integer:{wanted}) from {of} {{ {verdict} {answer} }}"
    kept, answer = chance.choice((
        ("", ""),
        ("sender w", f"p.send(integer:{chance.choice('12')}) to w;"),
        ("sender w", f"p.send(integer:{chance.choice('12')}) to w;"),
        ("value v sender w", "p.send(v) to w;"),
    ))  # fmt: skip
    return f"[] p.receive(integer:{wanted}) {kept and '-> ' + kept} {{ {verdict} {answer} }}"


def some_service_script(chance: random.Random) -> str:
    """A script in which `mtc` takes the questions of clients one by one, mostly as many as they ask."""
    clients = [f"c{at}" for at in range(chance.choice((2, 2, 3)))]
    asked = [" ".join(some_question(chance) for _ in range(chance.choice((1, 1, 2)))) for _ in clients]
    senders = [chance.choice(("", *clients)) for _ in range(chance.randint(0, 2))]
    branches = [some_branch(chance, chance.choice("12"), it) for it in senders]
    branches.append(some_branch(chance, chance.choice("???1")))
    turns = sum(it.count("p.send") for it in asked) + chance.choice((-1, 0, 0, 0, 1))
    last = chance.choice(("", "setverdict(pass);", "p.receive;", "p.clear;", "p.send(v) to all component;"))
    return ALL_STARTED.format(
        bodies=" ".join(f"function of_{it}() runs on C {{ {body} }}" for it, body in zip(clients, asked)),
        created=" ".join(f"var C {it} := C.create;" for it in clients),
        connected=" ".join(f"connect(self:p, {it}:p);" for it in clients),
        started=" ".join(f"{it}.start(of_{it}());" for it in clients),
        main=SERVICE.format(turns=turns, branches=" ".join(branches), last=last),
    )


def some_alike_script(chance: random.Random) -> str:
    kind = chance.random()
    if kind < 0.2:
        return some_groups_script(chance)
    if kind < 0.45:
        return some_service_script(chance)
    clients = [f"c{at}" for at in range(chance.choice((2, 2, 3)))]
    known = clients if chance.random() < 0.3 else []
    asks = "p.send(integer:1); q.send(integer:1);" if chance.random() < 0.8 else ""
    answers = chance.choice((ANSWERS, ECHOES)).format(clients=len(clients), last=chance.choice("12")) if asks else ""
    bodies = own_bodies(chance, clients, asks)
    return SCRIPT.format(
        bodies=" ".join(f"function of_{it}() runs on C {{ {body} }}" for it, body in zip(clients, bodies)),
        server=" ".join([answers, *(central_act(chance, "p", []) for _ in range(chance.randint(0, 2)))]),
        created=" ".join(f"var C {it} := C.create;" for it in clients),
        connected=" ".join(f"connect(s:p, {it}:p); connect(self:q, {it}:q);" for it in clients),
        started=" ".join(f"{it}.start(of_{it}());" for it in clients),
        main=" ".join(central_act(chance, "q", known) for _ in range(chance.randint(0, 2))),
    )
