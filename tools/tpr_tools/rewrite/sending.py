"""The messages that a component sends, counted by its port, the receiving port, and the message."""
from __future__ import annotations

from collections import Counter
from typing import Optional

from .emitted import Sent
from .following import Followed
from .paths import End, peers
from .types import Type
from .values import Form, Received, Symbol, matches

# A message, or a template that is waited for: its type and its form. None stands for any message.
What = Optional[tuple[Type, Form]]
Sends = Counter[tuple[str, End, What]]


def sum_of(sent: Sends, port: str, end: End, what: What) -> int:
    """How many of the messages match `what`, or may match."""
    if what is None:
        return sent[port, end, None]
    return sum(count for (one, to, message), count in sent.items() if (one, to) == (port, end) and _may_match(message, what))


def _may_match(message: What, what: tuple[Type, Form]) -> bool:
    if message is None or message[0] is not what[0]:
        return False
    form = message[1]
    if not isinstance(form, Received):
        return matches(form, what[1])
    return not form.symbol.coming or any(matches(one.form, what[1]) for one in form.symbol.coming)


def count_sent(sent: Sends, followed: Followed, sender: int, statement: Sent) -> None:
    message = (statement.message.type.root, statement.message.form)
    for end in receivers(followed, sender, statement):
        sent[statement.port, end, None] += 1
        sent[statement.port, end, message] += 1


def receivers(followed: Followed, sender: int, statement: Sent) -> list[End]:
    """The ports that a message may be sent to."""
    ends = list(dict.fromkeys(peers(followed.joins, End(sender, statement.port))))
    if statement.to is None or isinstance(statement.to, Symbol):
        return ends
    return [end for end in ends if end.component == statement.to]
