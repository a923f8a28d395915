"""The past of an entry: what its component did before it, and, for each message that was got until then, its send and
the past of the send. All this has happened before the entry, whatever the order of the run was."""
from __future__ import annotations

from ..report.deliveries import Deliveries, Place


class Past:
    """For each entry, the last entry of one component that is in its past."""

    def __init__(self, deliveries: Deliveries, component: int):
        self.deliveries = deliveries
        self.component = component
        self.last: list[list[int]] = [[] for _ in deliveries.at]
        self.waiting: dict[int, list[int]] = {}  # components that wait for the send of a message
        ready = list(range(len(self.last)))
        while ready:
            ready += self._go_on(ready.pop())
        # Entries that wait for each other in a cycle can't be in a report of tpr. Nothing is known of their past.
        for last, messages in zip(self.last, deliveries.at):
            last += [-1] * (len(messages) - len(last))

    def has(self, place: Place, entry: int) -> bool:
        """Whether the entry of the component is in the past of the place, or at this place."""
        return entry <= self.last[place.component][place.entry]

    def _go_on(self, component: int) -> list[int]:
        """Goes on as far as possible. Returns the components that waited for that."""
        last, messages = self.last[component], self.deliveries.at[component]
        woken: list[int] = []
        while len(last) < len(messages):
            here, message = len(last), messages[len(last)]
            known = here if component == self.component else last[-1] if last else -1
            if message is not None and message.sent != (component, here):
                behind = self.last[message.sent.component]
                if message.sent.entry >= len(behind):
                    self.waiting.setdefault(message.index, []).append(component)
                    return woken
                known = max(known, behind[message.sent.entry])
            elif message is not None:
                woken += self.waiting.pop(message.index, [])
            last.append(known)
        return woken
