"""Computes what a port's history says, word by word as docs/MODEL.md defines it ("What a history says"): the oracle for
the ports of lawful.py, which keep a queue and a mark instead.

A history is the list of the port's lines, the oldest first.
"""
from form import TAKING, Line

Envelope = tuple[bytes, int, bytes]


def accepted(history: list[Line]) -> list[Envelope]:
    """The envelopes that arrived, in order."""
    return [line.envelope() for line in history if line.word == b"came"]


def behind_last(history: list[Line], *words: bytes) -> int:
    """The place after the last line with one of these words, or 0 if there is none."""
    return max((place + 1 for place, line in enumerate(history) if line.word in words), default=0)


def gone(history: list[Line]) -> int:
    """How many of the accepted messages are no longer queued."""
    emptied = behind_last(history, b"cleared", b"started")
    taken = [line for line in history[emptied:] if line.word in (b"took", b"dropped")]
    return len(accepted(history[:emptied])) + len(taken)


def queued(history: list[Line]) -> list[Envelope]:
    return accepted(history)[gone(history) :]


def status_of(history: list[Line]) -> str:
    """The status of the port, which depends only on the lines since the last `started`."""
    words = [line.word for line in history[behind_last(history, b"started") :]]
    return "stopped" if b"stopped" in words else "halted" if b"halted" in words else "started"


def mark(history: list[Line]) -> int:
    """How many had arrived at the first `halted` since the last `started`, or at the last `cleared` after that."""
    started = behind_last(history, b"started")
    halted = next(place for place in range(started, len(history)) if history[place].word == b"halted")
    return len(accepted(history[: max(halted, behind_last(history, b"cleared"))]))


def limit(history: list[Line]) -> int:
    """How many of the accepted messages may have been received by now."""
    if status_of(history) == "stopped":
        return gone(history)
    return mark(history) if status_of(history) == "halted" else len(accepted(history))


def top(history: list[Line]) -> Envelope | None:
    place = gone(history)
    return accepted(history)[place] if place < limit(history) else None


def first_unlawful(history: list[Line]) -> int | None:
    """The place of the first line that takes, finds or drops another message than the top one."""
    places = (place for place, line in enumerate(history) if line.word in TAKING)
    return next((place for place in places if top(history[:place]) != history[place].envelope()), None)
