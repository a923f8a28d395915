"""What can come to each port of a closed test case: the messages that are sent there, place by place on each route.

A test case is closed if only its own behaviours send: it has no `system`, or `sut` plays it. Then the messages that
flow are a least fixed point. It starts with constants that are sent without a wait. Each round follows all behaviours
as far as the known messages let them, and adds what they send at once. A receive knows how many messages its component
took on a route before, so it considers only those that can be next.
"""
from __future__ import annotations

from dataclasses import dataclass, field
from typing import Callable, Iterable, Optional

from .fitting import type_at
from .paths import Route, Span
from .types import Type
from .values import Chosen, Coming, Elements, Fields, Form, Mark

ENDLESS = 1 << 30


@dataclass
class Flows:
    """For each route, what each message can be, by its number on the route."""

    routes: dict[Route, list[dict[Coming, None]]] = field(default_factory=dict)
    # The places that got new messages in this round.
    grown: set[tuple[Route, int]] = field(default_factory=set)

    def add(self, route: Route, span: Span, coming: Iterable[Coming]) -> None:
        places = self.routes.setdefault(route, [])
        for one in coming:
            for number in range(span[0], span[1] + 1):
                while len(places) <= number:
                    places.append({})
                if one not in places[number]:
                    places[number][one] = None
                    self.grown.add((route, number))

    def within(self, route: Route, span: Span) -> list[Coming]:
        places = self.routes.get(route, [])[span[0] : span[1] + 1]
        return list(dict.fromkeys(one for place in places for one in place))

    def first(self, route: Route, span: Span, is_wanted: Callable[[Coming], bool]) -> Span:
        """The places that the first wanted message can have, for a receiver that discards all before it."""
        places = self.routes.get(route, [])
        low = next((number for number in range(span[0], len(places)) if any(map(is_wanted, places[number]))), len(places))
        for number in range(min(span[1], len(places)), len(places)):
            if all(map(is_wanted, places[number])):
                return low, max(low, number)
        return low, max(low, len(places) - 1)


def part_at(form: Form, type: Optional[Type], steps: tuple[int, ...]) -> Form:
    """The part of a value at these steps. `omit` for an alternative that isn't chosen, and inside an omitted field."""
    for place, step in enumerate(steps):
        if isinstance(form, Chosen):
            of = type_at(type, steps[:place])
            is_it = of is not None and of.root.fields[step].name == form.name
            form = form.value if is_it else Mark.OMIT
        elif isinstance(form, (Fields, Elements)):
            form = form.items[step] if step < len(form.items) else Mark.OMIT
        else:
            return Mark.OMIT
    return form
