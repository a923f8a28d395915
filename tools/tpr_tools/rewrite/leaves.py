"""The branches of an `alt` as they are written, and which of them can be left out because no message can reach them.

The written script checks what is known about the messages: an unexpected message ends in an `error`, because either all
branches wait forever behind it at its port, or a branch fails.
"""
from __future__ import annotations

from typing import Optional

from .closed import Awaited
from .emitted import Got, Message, Who
from .guards import Guard
from .tree import Receiving
from .types import Type
from .values import Coming, Facts, Form, Options

MOST_EXACT = 8
_WAITING = (Receiving.RECEIVE, Receiving.CHECK)


class Leaf:
    """A branch as it is written: a guard, and the facts about its message."""

    def __init__(self, guard: Guard, facts: Facts, message: Optional[Message], sender: Optional[Who]):
        self.guard = guard
        self.facts = facts
        self.message = message
        self.sender = sender
        self.how = guard.how
        # Its messages are discarded, and the `alt` is repeated.
        self.is_discarding = False
        # It is never chosen, because of the messages that came before.
        self.is_never = False
        self.got: Optional[Got] = None
        # The messages that can come to it, if they are known. If there are none, it is never chosen either, and a run
        # that chooses it is an error.
        self.coming: Optional[list[Coming]] = None
        self.awaited: Optional[Awaited] = None
        # The message that is written instead of a template that accepts more than can come.
        self.exact: Optional[Message] = None
        # Whether all branches wait at one port, so that they wait forever behind a message that none of them accepts.
        self.is_of_one_port = False
        self.has_several_peers = False

    @property
    def is_barred(self) -> bool:
        return self.coming is not None and not self.coming

    @property
    def only_sender(self) -> Optional[int]:
        """The sender of the message, if the port has others, and a message from another one would be an error."""
        if not self.is_of_one_port or not self.coming or self.guard.sender is not None:
            return None
        found = {one.sender.component for one in self.coming}
        return found.pop() if len(found) == 1 and self.has_several_peers else None


def without_barred(leaves: list[Leaf]) -> list[Leaf]:
    """If all branches wait at one port: leaves out those that no message can reach. Their messages must not be taken by
    a later branch, so a later one accepts only the messages that can come to it."""
    port = leaves[0].guard.port
    for leaf in leaves:
        if leaf.how not in _WAITING or leaf.guard.port != port or leaf.is_discarding:
            return leaves
    for leaf in leaves:
        leaf.is_of_one_port = True
    found: list[Leaf] = []
    barred: list[Leaf] = []
    for leaf in leaves:
        if leaf.is_barred:
            barred.append(leaf)
            continue
        if barred and not _is_made_exact(leaf):
            found += barred
        barred = [] if leaf.exact is None else barred
        found.append(leaf)
    return found or leaves


def _is_made_exact(leaf: Leaf) -> bool:
    """Whether it can be written as the list of values that can come to it."""
    if leaf.coming is None:
        return False
    forms = list(dict.fromkeys(one.form for one in leaf.coming))
    types = {one.type for one in leaf.coming}
    if len(types) != 1 or len(forms) > MOST_EXACT:
        return False
    type = types.pop()
    assert isinstance(type, Type)
    form: Form = forms[0] if len(forms) == 1 else Options(tuple(forms))
    leaf.exact = Message(leaf.message.type if leaf.message else type, form)
    return True
