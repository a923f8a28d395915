"""Random test data: small lawful traces, in which messages take their time; small graphs, ports and routes."""
import random
from dataclasses import dataclass, field

from form import Line
from lawful import Route

NAMES = ("a", "b", "c")
PORTS = ("p", "q")
OPERATIONS = (b"cleared", b"started", b"stopped", b"halted")
MOST_LINES, MOST_ACTS = 9, 30


@dataclass
class Port:
    """A port of one component: the messages that arrived and weren't taken, and how many are ahead of the mark."""

    queue: list[str] = field(default_factory=list)
    ahead: int | None = None
    is_stopped: bool = False


@dataclass
class Play:
    """Builds a trace: the lines of each component, its ports, and the messages under way on each route."""

    lines: dict[str, list[str]] = field(default_factory=lambda: {name: [] for name in NAMES})
    ports: dict[tuple[str, str], Port] = field(default_factory=lambda: {(n, p): Port() for n in NAMES for p in PORTS})
    under_way: dict[tuple[str, str, str], list[str]] = field(default_factory=dict)
    sent: dict[tuple[str, str, str], int] = field(default_factory=dict)
    ordered: int = 0

    def send(self, sender: str, receiver: str, port: str) -> None:
        route = sender, receiver, port
        number = self.sent.get(route, 0)
        self.sent[route] = number + 1
        self.add(sender, f"sent {receiver}.{port} {number} m{number}")
        self.under_way.setdefault(route, []).append(f"{port} {sender} {number} m{number}")

    def add(self, name: str, line: str) -> None:
        """Adds a line that has a place in the order of a run."""
        self.lines[name].append(line)
        self.ordered += 1

    def arrive(self, route: tuple[str, str, str]) -> None:
        message = self.under_way[route].pop(0)
        self.ports[route[1], route[2]].queue.append(message)
        self.lines[route[1]].append(f"came {message}")

    def arrive_some(self, chance: random.Random) -> None:
        routes = [route for route, messages in self.under_way.items() if messages]
        if routes:
            self.arrive(chance.choice(routes))

    def look(self, name: str, port_name: str, chance: random.Random) -> None:
        """Adds a line that looks at a port."""
        port = self.ports[name, port_name]
        reached = 0 if port.is_stopped else len(port.queue) if port.ahead is None else port.ahead
        if reached > 0 and chance.random() < 0.7:
            word = chance.choice(("took", "found", "dropped"))
            self.add(name, f"{word} {port.queue[0]}")
            if word != "found":
                del port.queue[0]
                port.ahead = port.ahead and port.ahead - 1
            return
        word = chance.choice(("else", "else", "cleared", "started", "stopped", "halted"))
        self.add(name, "else" if word == "else" else f"{word} {port_name}")
        if word in ("cleared", "started"):
            port.queue, port.ahead = [], None if port.ahead is None or word == "started" else 0
        if word == "halted" and port.ahead is None and not port.is_stopped:
            port.ahead = len(port.queue)
        if word in ("started", "stopped"):
            port.is_stopped = word == "stopped"
            port.ahead = None

    def text(self, chance: random.Random) -> bytes:
        """The trace. The logs of some components stop before their queues are reported."""
        parts = []
        for name in chance.sample(NAMES, len(NAMES)):
            left = [f"left {message}" for port in PORTS for message in self.ports[name, port].queue]
            end = [] if chance.random() < 0.4 else ["end done", *left]
            parts += [f"component {name}", *self.lines[name], *end]
        return "".join(f"{line}\n" for line in parts).encode("ascii")


def small_trace(chance: random.Random) -> bytes:
    """A lawful trace with so few lines that all their orders can be tried."""
    play, slow = Play(), chance.random() ** 0.4
    for _ in range(MOST_ACTS):
        if play.ordered >= MOST_LINES - len(NAMES):
            break
        name, port = chance.choice(NAMES), chance.choice(PORTS)
        act = chance.random()
        if act < 0.4:
            play.send(name, chance.choice(NAMES), port)
        elif act < 0.75:
            play.look(name, port, chance)
        elif act < 0.8:
            play.add(name, "set pass")
        if chance.random() > slow:
            play.arrive_some(chance)
    while any(play.under_way.values()):
        play.arrive_some(chance)
    return play.text(chance)


def small_graph(chance: random.Random) -> dict[int, list[int]]:
    """Some numbers, each with the numbers that come after it."""
    numbers = range(1, chance.randrange(2, 10))
    return {number: [it for it in numbers if chance.random() < 0.15] for number in numbers}


def small_history(chance: random.Random) -> list[Line]:
    """The lines of one port, in which mostly the oldest message that isn't gone is taken."""
    lines: list[Line] = []
    waiting: list[int] = []
    for place in range(1, chance.randrange(2, 14)):
        word = chance.choice((b"came", b"came", b"came", b"took", b"took", b"found", b"dropped", *OPERATIONS))
        number = len(lines) if word == b"came" else chance.choice(waiting[:1] * 5 + [*waiting, 0])
        if word == b"came":
            waiting.append(number)
        elif word in (b"took", b"dropped") and number in waiting:
            waiting.remove(number)
        elif word in (b"cleared", b"started"):
            waiting = []
        is_message = word not in OPERATIONS
        lines.append(Line(place, word, b"p", b"s", number, b"m") if is_message else Line(place, word, b"p"))
    return lines


def small_route(chance: random.Random) -> Route:
    """A route on which the arrivals differ from the sendings by up to two faults."""
    sent = [(number, chance.choice((b"x", b"y"))) for number in range(chance.randrange(5))]
    both = sent[:], sent[:]
    for _ in range(chance.randrange(3)):
        lines = chance.choice(both)
        place = chance.randrange(len(lines) + 1)
        choices: tuple[list[tuple[int, bytes]], ...] = [], [(chance.randrange(5), b"x")]
        lines[place : place + chance.randrange(2)] = chance.choice(choices)
    ends = (b"sent", b"p", b"b"), (b"came", b"p", b"a")
    first, second = ([Line(n + 1, *end, *it) for n, it in enumerate(lines)] for end, lines in zip(ends, both))
    return Route(first, second)
