"""The conditions that an order of all entries must satisfy, and the progress of the search: see order.py.

An entry waits

- if it got a message, for the message's send;
- if it is the `halted` after which messages were delivered, for the send of the last of them;
- if it empties a port, for the messages that no other entry can discard;
- if it sends a message that was delivered or left, for the emptying before it and for the message that arrived before
  it at that port;
- if it sends a message that was discarded, for the messages that the port delivered and kept in this era, because the
  discarded one arrived after them.

An `else` waits for nothing, because a report doesn't say at which ports it looked. A `halted` doesn't wait for messages
that are left, because the report doesn't say on which side of the mark they are.
"""
from __future__ import annotations

from typing import Iterator, Optional

from .deliveries import Deliveries, Message, Place, Port
from .report import NotAReport, Operation, Received, Sent

# The ranks, in the order in which they are done: something with a message that was sent, then what a component does by
# itself, then a send that a component waits for, then any other send. What remains is a choice.
GOT, BY_ITSELF, AWAITED, SENT, BY_CHOICE = range(5)


class _Queue:
    """The progress of a port."""

    __slots__ = (
        *("eras", "owner", "discarded", "due", "due_messages", "unsent"),
        *("era", "sent", "for_era", "for_room"),
    )

    def __init__(self, port: Port, owner: int):
        self.eras = port.eras
        self.owner = owner
        self.discarded = port.discarded
        self.due = [0] * len(port.eras)  # how many messages must be sent before the emptying that begins this era
        self.due_messages: dict[int, list[Message]] = {}
        for message in port.discarded:
            self.due[message.latest] += 1
            self.due_messages.setdefault(message.latest, []).append(message)
        self.unsent = len(port.discarded)
        self.era = 0
        self.sent = 0  # how many of the messages delivered or left in this era have arrived
        self.for_era: dict[int, list[int]] = {}  # the components that wait for an era to begin
        self.for_room: list[int] = []  # and those that wait to send a message that the port discards

    def has_room(self) -> bool:
        """Whether a message that arrives now is discarded by the next emptying."""
        return self.sent == len(self.eras[self.era].queue)


class Search:
    """The entries that are done, and what each component's next entry waits for."""

    def __init__(self, deliveries: Deliveries):
        self.deliveries = deliveries
        self.histories = [component.entries for component in deliveries.report.components]
        names = {name: place for place, name in enumerate(deliveries.report.names())}
        self.queues = {key: _Queue(port, key[0]) for key, port in deliveries.ports.items()}
        none = _Queue(Port(), 0)
        self.queue_of = [self.queues.get((names[it.route.receiver], it.route.port), none) for it in deliveries.messages]
        self.next = [0] * len(self.histories)
        self.left = sum(len(history) for history in self.histories)
        self.order: list[Place] = []
        self.moment = [-1] * len(deliveries.messages)  # when each message was sent
        self.emptied_by = [0] * len(deliveries.messages)  # the era that began when each was discarded
        self.last = 0
        self.look_at_all()

    def look_at_all(self) -> None:
        self.ready = [0] * 5  # by rank, a bit for each component
        self.rank = [-1] * len(self.histories)
        self.waiting: dict[int, list[int]] = {}  # the components that wait for a message
        self.waits_for = [-1] * len(self.histories)  # the component that has to do something first
        self.blocked = 0  # a bit for each component that waits for one
        for queue in self.queues.values():
            queue.for_era.clear()
            queue.for_room.clear()
        for component in range(len(self.histories)):
            self.look(component)

    def is_done(self) -> bool:
        return self.left == 0

    def places(self) -> tuple[int, ...]:
        return tuple(self.next)

    def go_on(self) -> int:
        """Does everything that prevents nothing else. Returns the components among which to choose, if any."""
        ready = self.ready
        while True:
            if ready[GOT]:
                component = self.near(ready[GOT])
            elif ready[BY_ITSELF]:
                component = self.near(ready[BY_ITSELF])
            elif ready[AWAITED]:
                component = self.near(ready[AWAITED])
            elif ready[SENT]:
                component = self.asked_for(ready[SENT])
            else:
                return ready[BY_CHOICE]
            self.carry_out(component)
            ready = self.ready

    def near(self, components: int) -> int:
        """The component that did something last, if it is among these; otherwise the first."""
        if components >> self.last & 1:
            return self.last
        return (components & -components).bit_length() - 1

    def asked_for(self, components: int) -> int:
        """A component that others wait for, directly or indirectly."""
        component = self.near(self.blocked or components)
        for _ in self.histories:
            if component < 0:
                break
            if components >> component & 1:
                return component
            component = self.waits_for[component]
        return self.near(components)

    def best_of(self, components: int) -> int:
        """The component whose port still has the fewest unsent messages to discard."""
        return min(
            (place for place in range(len(self.histories)) if components >> place & 1),
            key=lambda place: self.own_queue(place).unsent,
        )

    def own_queue(self, component: int) -> _Queue:
        entry = self.histories[component][self.next[component]]
        assert isinstance(entry, (Sent, Received, Operation))
        return self.queues[component, entry.port]

    def message_at(self, component: int, place: int) -> Message:
        """The message that the entry sends or gets."""
        message = self.deliveries.at[component][place]
        assert message is not None
        return message

    # What a component's next entry waits for

    def look(self, component: int) -> None:
        bit, place = 1 << component, self.next[component]
        if self.rank[component] >= 0:
            self.ready[self.rank[component]] &= ~bit
        rank = -1
        self.waits_for[component] = -1
        self.blocked &= ~bit
        if place < len(self.histories[component]):
            entry = self.histories[component][place]
            kind = type(entry)
            if kind is Sent:
                rank = self.rank_of_sending(component, place)
            elif kind is Received:
                message = self.message_at(component, place)
                rank = GOT if self.is_there(message, component) else -1
            elif isinstance(entry, Operation):
                rank = self.rank_of_operation(component, place, entry)
            else:
                rank = BY_ITSELF
        self.rank[component] = rank
        if rank >= 0:
            self.ready[rank] |= bit

    def is_there(self, message: Message, component: int) -> bool:
        """Whether the message was sent; if not, the component waits for it."""
        if self.moment[message.index] >= 0:
            return True
        sender = message.sent.component
        self.waiting.setdefault(message.index, []).append(component)
        self.wait(component, sender)
        if self.rank[sender] == SENT and self.next[sender] == message.sent.entry:
            self.ready[SENT] &= ~(1 << sender)
            self.ready[AWAITED] |= 1 << sender
            self.rank[sender] = AWAITED
        return False

    def rank_of_sending(self, component: int, place: int) -> int:
        message = self.message_at(component, place)
        queue = self.queue_of[message.index]
        if message.era is not None:
            if queue.era < message.era:
                queue.for_era.setdefault(message.era, []).append(component)
                return self.wait(component, queue.owner)
            if queue.sent < message.turn:
                before = queue.eras[message.era].queue[message.turn - 1]
                if not self.is_there(before, component):
                    return -1
        elif not queue.has_room():
            queue.for_room.append(component)
            return self.wait(component, self.next_of(queue).sent.component)
        return AWAITED if message.index in self.waiting else SENT

    def next_of(self, queue: _Queue) -> Message:
        """The next message that the port delivers or keeps."""
        return queue.eras[queue.era].queue[queue.sent]

    def wait(self, component: int, other: int) -> int:
        self.waits_for[component] = other
        self.blocked |= 1 << component
        return -1

    def rank_of_operation(self, component: int, place: int, entry: Operation) -> int:
        if not entry.empties():
            behind = self.deliveries.behind_mark.get(Place(component, place))
            return BY_ITSELF if behind is None or self.is_there(behind, component) else -1
        queue = self.queues[component, entry.port]
        if queue.due[queue.era + 1] > 0:
            return self.wait(component, self.due_of(queue).sent.component)
        return BY_CHOICE if queue.unsent > 0 and queue.eras[queue.era + 1].queue else BY_ITSELF

    def due_of(self, queue: _Queue) -> Message:
        """The first unsent message that must be sent before the next emptying."""
        return next(it for it in queue.due_messages[queue.era + 1] if self.moment[it.index] < 0)

    # What an entry does

    def carry_out(self, component: int) -> None:
        place = self.next[component]
        entry = self.histories[component][place]
        self.next[component] = place + 1
        self.left -= 1
        self.last = component
        kind = type(entry)
        if kind is Sent:
            self.send(self.message_at(component, place))
        elif isinstance(entry, Operation) and entry.empties():
            queue = self.queues[component, entry.port]
            queue.era, queue.sent = queue.era + 1, 0
            self.wake(queue.for_era.pop(queue.era, []))
            self.give_room(queue)
        self.order.append(Place(component, place))
        self.look(component)

    def send(self, message: Message) -> None:
        queue = self.queue_of[message.index]
        self.moment[message.index] = len(self.order)
        if message.era is not None:
            queue.sent += 1
            self.give_room(queue)
        else:
            self.emptied_by[message.index] = queue.era + 1
            queue.unsent -= 1
            queue.due[message.latest] -= 1
            if queue.unsent == 0 or queue.due[message.latest] == 0:
                self.look(queue.owner)
        self.wake(self.waiting.pop(message.index, []))

    def give_room(self, queue: _Queue) -> None:
        if queue.for_room and queue.has_room():
            waiting, queue.for_room = queue.for_room, []
            self.wake(waiting)

    def wake(self, components: list[int]) -> None:
        for component in components:
            self.look(component)

    def go_back(self, done: int) -> None:
        """Undoes all entries after the first `done`."""
        if len(self.order) == done:
            return
        while len(self.order) > done:
            component, place = self.order.pop()
            self.next[component] = place
            self.left += 1
            entry = self.histories[component][place]
            if isinstance(entry, Sent):
                self.unsend(self.message_at(component, place))
            elif isinstance(entry, Operation) and entry.empties():
                queue = self.queues[component, entry.port]
                queue.era -= 1
                queue.sent = len(queue.eras[queue.era].queue)
        self.last = self.order[-1].component if self.order else 0
        self.look_at_all()

    def unsend(self, message: Message) -> None:
        queue = self.queue_of[message.index]
        self.moment[message.index] = -1
        if message.era is not None:
            queue.sent -= 1
        elif message.latest > 0:
            queue.unsent += 1
            queue.due[message.latest] += 1

    def discardings(self) -> Iterator[tuple[Message, Place]]:
        """The messages whose discarding emptying wasn't known, with the emptying in this order."""
        for queue in self.queues.values():
            for message in queue.discarded:
                began = queue.eras[self.emptied_by[message.index]].began
                assert began is not None
                yield message, began

    # Why there is none

    def circle(self) -> NotAReport:
        """Why no entry can be next: each waits for one that comes after another waiting one."""
        component = next(c for c, history in enumerate(self.histories) if self.next[c] < len(history))
        waiting: list[Place] = []
        while True:
            place = Place(component, self.next[component])
            if place in waiting:
                break
            waiting.append(place)
            component = self.need(place)[0].component
        around = waiting[waiting.index(place) :]
        told = "; ".join(self.told_need(place) for place in around)
        line = min(self.deliveries.entry(place).line.number for place in around)
        return NotAReport(line, f"no run has these entries in any order: {told}")

    def told_need(self, place: Place) -> str:
        needed, why = self.need(place)
        told = self.deliveries.told_line
        return f"{told(place)} needs {told(needed)} before it, {why}"

    def need(self, place: Place) -> tuple[Place, str]:
        """An entry that must come before this one, and why."""
        entry = self.deliveries.entry(place)
        message = self.deliveries.message(place)
        if isinstance(entry, Received):
            assert message is not None
            return message.sent, "which sends it"
        if isinstance(entry, Operation):
            return self.need_of_operation(place, entry)
        assert message is not None
        return self.need_of_sending(message)

    def need_of_operation(self, place: Place, entry: Operation) -> tuple[Place, str]:
        if not entry.empties():
            behind = self.deliveries.behind_mark[place]
            return behind.sent, f"since {entry.port} delivers that message after this halt"
        queue = self.queues[place.component, entry.port]
        return self.due_of(queue).sent, "since that message is neither got nor left, and nothing after it discards it"

    def need_of_sending(self, message: Message) -> tuple[Place, str]:
        queue = self.queue_of[message.index]
        port = message.route.port
        if message.era is None:
            return self.next_of(queue).sent, f"since {port} has that message first, and discards this one"
        if queue.era < message.era:
            began: Optional[Place] = queue.eras[queue.era + 1].began
            assert began is not None
            return began, "which would discard this message"
        before = queue.eras[message.era].queue[message.turn - 1]
        return before.sent, f"since {port} has that message first"
