"""Computes all verdicts that a script can have, over every order of its acts in the model of runs
(tools/tpr_tools/model/). No order is left out.

The next act of a component depends only on its own state, and the effect of a message on a receiver only on the
receiver's state. So the model is called once for each state of a component. These states are numbered. A state of all
components is one integer, which has the number of each component at its own bits.
"""
from __future__ import annotations

from collections.abc import Hashable
from typing import NamedTuple, Optional

from tpr_tools.model.bodies import TestCase
from tpr_tools.model.run import Act, Component, Message, Run

BITS = 24  # of the number of a component's state


class Apart(Run):
    """A run that delivers nothing, so that an act changes one component alone."""

    def __init__(self, case: TestCase):
        super().__init__(case)
        self.sent: list[tuple[int, str, Message]] = []

    def deliver(self, component: int, port: str, message: Message) -> None:
        self.sent.append((component, port, message))


class States:
    """The states of one component, by their numbers at its bits."""

    def __init__(self, who: int, begin: Component):
        self.who = who
        self.one = 1 << BITS * who
        self.mask = self.one * ((1 << BITS) - 1)
        self.numbers: dict[Hashable, int] = {}
        self.numbered: dict[int, Component] = {}
        self.begin = self.number_of(begin)

    def number_of(self, component: Component) -> int:
        number = self.numbers.setdefault(all_that_counts(component), self.one * len(self.numbers))
        return number if number in self.numbered else self.new(number, component)

    def new(self, number: int, component: Component) -> int:
        """Keeps a new state. The component's history is no part of it."""
        component.lines, component.numbers, component.looked = [], {}, ()
        self.numbered[number] = component
        return number


class Sent(dict[int, int]):
    """The change of the state of all when a message arrives, for each number of the receiver's state."""

    __slots__ = ("states", "mask", "port", "message")

    def __init__(self, states: States, port: str, message: Message):
        self.states, self.mask = states, states.mask
        self.port, self.message = port, message

    def __missing__(self, number: int) -> int:
        receiver = self.states.numbered[number].copy()
        receiver.ports[self.port].queue.append(self.message)
        self[number] = self.states.number_of(receiver) - number
        return self[number]


class Acted(NamedTuple):
    """The change of the state of all by an act, and the message that it sends."""

    change: int
    sent: Optional[Sent]


class Acts(dict[int, Optional[Acted]]):
    """The effect of the next act, for each number of a component's state; None if the component waits or has ended."""

    __slots__ = ("every", "states")

    def __init__(self, every: EveryOrder, states: States):
        self.every, self.states = every, states

    def __missing__(self, number: int) -> Optional[Acted]:
        run, who = self.every.run, self.states.who
        run.components[who] = me = self.states.numbered[number].copy()
        self[number] = None
        if run.statement(who) is not None and run.act(who) is not Act.WAITS:
            sent = self.every.sent_by(*run.sent.pop()) if run.sent else None
            self[number] = Acted(self.states.number_of(me) - number, sent)
        return self[number]


class EveryOrder:
    """The search through every order."""

    def __init__(self, case: TestCase):
        self.run = Apart(case)
        self.states = [States(who, it) for who, it in enumerate(self.run.components)]
        self.acts = [(it.mask, Acts(self, it)) for it in self.states]
        self.sent: dict[Hashable, Sent] = {}

    def sent_by(self, receiver: int, port: str, message: Message) -> Sent:
        key = receiver, port, message.type, message.value, message.sender
        return self.sent.setdefault(key, Sent(self.states[receiver], port, message))

    def following(self, state: int) -> list[int]:
        """The states after one more act."""
        found = []
        for mask, acts in self.acts:
            acted = acts[state & mask]
            if acted is not None:
                behind, sent = state + acted[0], acted[1]
                found.append(behind if sent is None else behind + sent[behind & sent.mask])
        return found

    def result(self, state: int) -> str:
        """The overall verdict, if no component can go on."""
        self.run.components = [it.numbered[state & it.mask] for it in self.states]
        return self.run.result()

    def verdicts(self, most_states: int) -> tuple[set[str], bool]:
        """The verdicts of all ends that were reached, and whether there are no others."""
        begin = sum(it.begin for it in self.states)
        seen, open_ones, found = {begin}, [begin], set()
        while open_ones and len(seen) <= most_states:
            one = open_ones.pop()
            following = self.following(one)
            if not following:
                found.add(self.result(one))
            for state in following:
                if state not in seen:
                    seen.add(state)
                    open_ones.append(state)
        return found, not open_ones


def verdicts_of(case: TestCase, most_states: int) -> tuple[set[str], bool]:
    """The verdicts of all ends that were reached, and whether there are no others."""
    return EveryOrder(case).verdicts(most_states)


def all_that_counts(component: Component) -> Hashable:
    """Everything in a component on which its future depends. Numbers on routes and histories are left out."""
    ports = tuple(
        (it.status, it.ahead, tuple((message.type, message.value, message.sender) for message in it.queue))
        for it in component.ports.values()
    )
    failed = component.failed is not None
    held = tuple(component.loops.items()), tuple(component.variables.items())
    return component.place, component.sent, failed, component.verdict, held, ports
