"""The components of a test case with their ports, and what is connected and mapped.

Components stand in columns: `mtc` in the first, and in each further column the components that are connected to one in
the column before it. The remaining components follow in the same way, beginning with the first component of each net.
So each line runs between two columns, or at the right of one, and none through a component.
"""
from __future__ import annotations

from dataclasses import dataclass, field
from typing import Optional

from ..script.case import Case, End
from ..script.setup import MTC, SYSTEM
from ..script.tree import Pair
from ..words import and_, counted
from .geometry import SMALL, Text, escaped, pixels, width_of
from .svg import picture

_TOP, _MARGIN = 64, 30
_GAP, _BETWEEN = 150, 26  # two columns, two components of one
_HEAD, _ROW = 44, 22
_FOOT = 34
_FAR = 600  # between two ports of one column
_TITLE_LETTER = 11.2


@dataclass
class Shown:
    """A component, its ports with their types, and its place."""

    name: str
    type: str
    ports: dict[str, str]
    column: int = 0
    x: float = 0.0
    y: float = 0.0

    def width(self) -> float:
        texts = [self.name, self.type, *map(_port_text, self.ports.items())]
        return max(width_of(text) for text in texts) + 36

    def height(self) -> float:
        return _HEAD + _ROW * len(self.ports) + 6

    def port_y(self, port: str) -> float:
        return self.y + _HEAD + _ROW * list(self.ports).index(port) + 8


@dataclass(frozen=True)
class Joined:
    """Two ports that are connected, or mapped."""

    first: End
    second: End
    is_mapped: bool


@dataclass
class Connections:
    """All that is drawn."""

    case: Case
    shown: dict[str, Shown] = field(default_factory=dict)
    joined: list[Joined] = field(default_factory=list)

    def __post_init__(self) -> None:
        types = self.case.types
        for player in self.case.players:
            declared = self.case.names.ports_of(types[player.name])
            ports = {port: self.case.word(declared[port].type) for port in player.ports}
            self.shown[player.name] = Shown(player.name, types[player.name], ports)
        for pair in self.case.names.case.setups:
            if isinstance(pair, Pair):
                self.joined.append(self.pair(pair))
        self.place()

    def pair(self, pair: Pair) -> Joined:
        ends = [(self.case.word(end.component), self.case.word(end.port)) for end in (pair.first, pair.second)]
        first, second = ((MTC if name == "self" else name, port) for name, port in ends)
        return Joined(first, second, self.case.word(pair.start) == "map")

    # Places

    def place(self) -> None:
        columns = self.columns()
        heights = [sum(it.height() for it in column) + _BETWEEN * (len(column) - 1) for column in columns]
        x = float(_MARGIN)
        for column, height in zip(columns, heights):
            y, width = _TOP + (max(heights) - height) / 2, max(it.width() for it in column)
            for it in column:
                it.x, it.y = x + (width - it.width()) / 2, y
                y += it.height() + _BETWEEN
            x += width + _GAP

    def columns(self) -> list[list[Shown]]:
        waiting = dict(self.shown)
        columns = self.columns_from([MTC], waiting)
        columns += self.columns_from(self.first_ones(waiting), waiting)
        for number, column in enumerate(columns):
            for it in column:
                it.column = number
        return columns

    def columns_from(self, names: list[str], waiting: dict[str, Shown]) -> list[list[Shown]]:
        """The columns of these components and of all that they are connected to, directly or through others. Each
        column has the order of the components in the column before that its components are connected to."""
        columns = []
        while names:
            column = [waiting.pop(name) for name in names]
            columns.append(column)
            near = {it.name: self.rank(it, column) for it in waiting.values()}
            following = [name for name, rank in near.items() if rank is not None]
            names = sorted(following, key=lambda name: near[name] or 0)
        return columns

    def first_ones(self, waiting: dict[str, Shown]) -> list[str]:
        """The first component of each net."""
        first, known = [], set[str]()
        for name in waiting:
            if name not in known:
                first.append(name)
                known |= self.net_of(name)
        return first

    def net_of(self, name: str) -> set[str]:
        """All components that this one is connected to, directly or through others, and itself."""
        net, found = {name}, [name]
        while found:
            new = self.partners_of(found.pop()) - net
            net |= new
            found += new
        return net

    def rank(self, it: Shown, column: list[Shown]) -> Optional[float]:
        """The mean place of its partners in the column."""
        partners = self.partners_of(it.name)
        places = [place for place, other in enumerate(column) if other.name in partners]
        return sum(places) / len(places) if places else None

    def partners_of(self, name: str) -> set[str]:
        ends = [(it.first[0], it.second[0]) for it in self.joined]
        return {other for one, other in [*ends, *((it, one) for one, it in ends)] if one == name}

    # The drawing

    def file(self) -> str:
        title = f"{self.case.word(self.case.names.case.name)}: components and connections"
        width = max(it.x + it.width() for it in self.shown.values()) + _MARGIN + self.bulge()
        texts = [width_of(title, _TITLE_LETTER), *(width_of(it, SMALL) for it in self.meanings())]
        width = max(width, max(texts) + 2 * _MARGIN)
        foot = max(it.y + it.height() for it in self.shown.values()) + _FOOT
        body = [Text(_MARGIN - 6, 38, title, "head").drawn(), *map(self.line, self.joined)]
        body += [part for it in self.shown.values() for part in self.component(it)]
        return picture(width, foot + self.legend_height(), title, self.description(), body + self.legend(foot))

    def bulge(self) -> float:
        """The room for the lines between components of the last column."""
        last = max(it.column for it in self.shown.values())
        inside = [it for it in self.joined if all(self.shown[end[0]].column == last for end in (it.first, it.second))]
        return _GAP / 2 if inside else 0

    def line(self, joined: Joined) -> str:
        one, other = sorted((joined.first, joined.second), key=lambda end: self.shown[end[0]].column)
        from_left, to_right = self.shown[one[0]], self.shown[other[0]]
        x, y, to_y = from_left.x + from_left.width(), from_left.port_y(one[1]), to_right.port_y(other[1])
        to_x, bend = to_right.x, _GAP / 2
        way_in = to_x - bend
        if from_left.column == to_right.column:
            # Bends a line around another, so that they can be told apart.
            bend *= min(0.3 + abs(to_y - y) / _FAR, 1)
            to_x = to_right.x + to_right.width()
            way_in = to_x + bend
        points = ((x + bend, y), (way_in, to_y), (to_x, to_y))
        bends = " ".join(f"{pixels(one)} {pixels(two)}" for one, two in points)
        way = f"M{pixels(x)} {pixels(y)}C{bends}"
        kind = "mapped" if joined.is_mapped else "connected"
        return f'<path class="{_CLASS[kind]}" d="{way}"><title>{escaped(self.told(joined))}</title></path>'

    def told(self, joined: Joined) -> str:
        word = "map" if joined.is_mapped else "connect"
        return f"{word}({', '.join(':'.join(end) for end in (joined.first, joined.second))})"

    def component(self, it: Shown) -> list[str]:
        x, middle, width = it.x, it.x + it.width() / 2, it.width()
        dotted = "" if it.name != SYSTEM else ' stroke-dasharray="5 4"'
        parts = [
            f'<g aria-label="{escaped(it.name)}"><title>{escaped(f"{it.name} : {it.type}")}</title>',
            f'<rect class="box" x="{pixels(x)}" y="{pixels(it.y)}" width="{pixels(width)}" '
            f'height="{pixels(it.height())}" rx="6"{dotted}/>',
            Text(middle, it.y + 18, it.name, "name middle").drawn(),
            Text(middle, it.y + 34, it.type, "small middle").drawn(),
        ]
        for port in it.ports.items():
            parts += self.port(it, *port)
        return [*parts, "</g>"]

    def port(self, it: Shown, port: str, type_name: str) -> list[str]:
        y, end = it.port_y(port), (it.name, port)
        text = _port_text((port, type_name))
        parts = [Text(it.x + it.width() / 2, y + 4, text, "middle" if self.is_used(end) else "small middle").drawn()]
        for joined in self.joined:
            if end in (joined.first, joined.second):
                x = it.x if self.is_entered(joined, end) else it.x + it.width()
                parts.append(f'<circle cx="{pixels(x)}" cy="{pixels(y)}" r="4" fill="#0a3069"/>')
        return list(dict.fromkeys(parts))

    def is_used(self, end: End) -> bool:
        return any(end in (it.first, it.second) for it in self.joined)

    def is_entered(self, joined: Joined, end: End) -> bool:
        """Whether the line reaches the component from the left."""
        columns = [self.shown[it[0]].column for it in (joined.first, joined.second)]
        return self.shown[end[0]].column > min(columns)

    def legend(self, top: float) -> list[str]:
        """Explains dashed lines and pale ports, if there are any."""
        lines = [Text(_MARGIN, top + 18 * at, text, "small").drawn() for at, text in enumerate(self.meanings())]
        return ['<g aria-label="what the signs mean">', *lines, "</g>"] if lines else []

    def legend_height(self) -> float:
        return 18 * len(self.meanings())

    def meanings(self) -> list[str]:
        told = ["dashed line: mapped to the system"] if any(it.is_mapped for it in self.joined) else []
        ends = [(it.name, port) for it in self.shown.values() for port in it.ports]
        unused = [".".join(end) for end in ends if not self.is_used(end)]
        if not unused:
            return told
        some = unused if len(unused) <= 3 else [*unused[:3], f"{len(unused) - 3} more"]
        return [*told, f"{counted(len(unused), 'port')} without a connection: {and_(some)}"]

    def description(self) -> str:
        named = [f"{it.name} of type {it.type}" for it in self.shown.values()]
        return "\n".join([f"Components: {and_(named)}.", *map(self.told, self.joined), *self.meanings()])


_CLASS = {"connected": "took", "mapped": "found"}


def _port_text(port: tuple[str, str]) -> str:
    return f"{port[0]} : {port[1]}"


def connections_of(case: Case) -> str:
    """The whole SVG file."""
    return Connections(case).file()
