"""Why the result of a report isn't `pass`: which verdict, which send, which wait."""
from __future__ import annotations

from typing import Callable

from ..origins import lines_told
from ..refusals import Refusal
from ..report.deliveries import Place
from ..report.report import Received
from ..script.tree import Receive, Send, SetVerdict, operations_in, statements_in
from ..words import and_
from .standing import Standing
from .walk import Chosen, Stop, StopKind, Turns, Walk
from .ways import Ways, first_of_verdict

_MOST_COMPONENTS = 5

Head = Callable[[Ways, int], str]
Details = Callable[[Ways, int], list[str]]


def reasons_of(ways: Ways) -> str:
    """Some sentences, one on each line; nothing if the result is `pass`."""
    result = ways.report.result
    if result == "pass":
        return ""
    if result == "none":
        told = _of_none(ways)
    elif result == "error":
        told = _of_error(ways)
    else:
        told = _of_verdict(ways, result)
    return f"The result is {result}: " + "".join(f"{line}\n" for line in told)


def _told(ways: Ways, places: list[int], head: Head, details: Details) -> list[str]:
    """A sentence about the components at these places, and details about the first of them."""
    heads = [head(ways, place) for place in places[:_MOST_COMPONENTS]]
    others = [ways.report.components[place].name for place in places[_MOST_COMPONENTS:]]
    if others:
        heads.append(f"so did {len(others)} more: {', '.join(others)}")
    lines = ["; ".join(heads) + "."]
    for place in places[:_MOST_COMPONENTS]:
        lines += details(ways, place)
    return lines


# none


def _of_none(ways: Ways) -> list[str]:
    if any(first_of_verdict(component, "none") is not None for component in ways.report.components):
        return ["no verdict but `none` was set."]
    lines = set()
    for body in ways.case.bodies():
        for statement in statements_in(body.statements):
            if isinstance(statement, SetVerdict):
                lines.add(ways.case.line(statement.start))
    if not lines:
        return ["the script has no `setverdict`."]
    there = "there is one at" if len(lines) == 1 else "there are some at"
    return [f"no component reached a `setverdict`; {there} {lines_told(lines)}."]


# inconc and fail


def _of_verdict(ways: Ways, verdict: str) -> list[str]:
    components = ways.report.components
    places = [place for place, component in enumerate(components) if component.verdict == verdict]
    return _told(ways, places, _set_at, _set_by)


def _set_at(ways: Ways, number: int) -> str:
    return f"{ways.report.components[number].name} set it at line {ways.line_of_verdict(number)}"


def _set_by(ways: Ways, number: int) -> list[str]:
    """The branch with the `setverdict` that determined the local verdict."""
    walk = ways.walks[number]
    entry = first_of_verdict(walk.component, walk.component.verdict)
    assert entry is not None
    origin = walk.origins[entry]
    head = f"{walk.component.name}, line {ways.line(Place(number, entry))}{turns_told(origin.turns)}: "
    chosen = origin.within
    if chosen is None:
        return [f"{head}it isn't in a branch; {_before(ways, walk, entry)}."]
    line = ways.case.line(chosen.start())
    if chosen.branch is None:
        alt = ways.case.line(chosen.alt.start)
        why = f"chosen because no other branch of the `alt` of line {alt} was open when it was looked at"
        return [f"{head}it is in the `[else]` of line {line}, {why}.", *_later(ways, walk, chosen)]
    received = walk.component.entries[chosen.entry]
    assert isinstance(received, Received)
    return [f"{head}it is in the branch of line {line}, chosen by {_message(ways, walk, received)}."]


def _later(ways: Ways, walk: Walk, chosen: Chosen) -> list[str]:
    """For each branch, what it waits for, and what was got at its port after the `[else]` or is left there."""
    standing = Standing(ways, walk, walk.origins[chosen.entry].turns)
    told = []
    for branch in chosen.alt.branches:
        if later := standing.later(branch.receive, chosen.entry):
            line = ways.case.line(branch.receive.start)
            told.append(f"Line {line} expects {standing.wanted(branch.receive)}; {later}.")
    return told


def _message(ways: Ways, walk: Walk, entry: Received) -> str:
    """What the component got, and where that was sent."""
    sent = ways.line(ways.sending_of(entry, walk.component.name).sent)
    return f"`{entry.line.text}`, which {entry.sender} sent at line {sent}"


def _before(ways: Ways, walk: Walk, entry: int) -> str:
    """The message that the component got last."""
    got = [it for it in walk.component.entries[:entry] if isinstance(it, Received)]
    if not got:
        return "the component had received no message before"
    return f"the last message before it is {_message(ways, walk, got[-1])}"


def turns_told(turns: Turns) -> str:
    return f" ({', '.join(f'{name} = {value}' for name, value in turns)})" if turns else ""


# error


def _of_error(ways: Ways) -> list[str]:
    """Failed sends come first, because others may wait due to them."""
    stops = [(place, walk.stop) for place, walk in enumerate(ways.walks) if walk.stop]
    failed = [place for place, stop in stops if stop.kind is StopKind.FAILED]
    waits = [place for place, stop in stops if stop.kind is StopKind.WAITS]
    return _told(ways, failed + waits, _stopped_at, _stopped_by)


def _stopped_at(ways: Ways, number: int) -> str:
    walk = ways.walks[number]
    assert walk.stop is not None
    line, fault = ways.case.line(walk.stop.start), walk.component.end.fault
    if fault is None:
        return f"{walk.component.name} waits forever at line {line}"
    return f"{walk.component.name} ended at line {line} because a send failed, {fault.told()}"


def _stopped_by(ways: Ways, number: int) -> list[str]:
    walk = ways.walks[number]
    stop = walk.stop
    assert stop is not None
    name, turns = walk.component.name, turns_told(stop.turns)
    if stop.send is not None:
        assert walk.component.end.fault is not None
        cause = _CAUSES[walk.component.end.fault](ways, walk, stop, stop.send)
        return [f"{name}, line {ways.case.line(stop.start)}{turns}: {cause}."]
    standing = Standing(ways, walk, stop.turns, stop.receives)
    lines = [f"{name}, line {ways.case.line(it.start)}{turns}" for it in stop.receives]
    waits = [f"waits for {standing.wanted(it)}; {standing.told(it)}." for it in stop.receives]
    return [f"{line}: {wait}" for line, wait in zip(lines, waits)]


def _not_sending(ways: Ways, walk: Walk, stop: Stop, send: Send) -> str:
    name = ways.case.word(send.port)
    port = walk.ports[name]
    assert port.since is not None
    since = ways.case.line(walk.origins[port.since].start)
    return f"the port {name} was {port.status} at line {since}, and it sends only after it is started again"


def _no_route(ways: Ways, walk: Walk, stop: Stop, send: Send) -> str:
    name = ways.case.word(send.port)
    others = _partners(ways, walk, send)
    if not others:
        return f"the port {name} of {walk.component.name} is neither connected nor mapped"
    assert send.to is not None
    word = ways.case.word(send.to)
    receiver = stop.variables[word] if word in stop.variables else walk.player.references[word]
    held = f", which `{word}` means" if word != receiver else ""
    return f"the port {name} isn't connected with {receiver}{held}, but with {and_(others)}"


def _needs_to(ways: Ways, walk: Walk, stop: Stop, send: Send) -> str:
    others = and_(_partners(ways, walk, send))
    return f"the port {ways.case.word(send.port)} leads to {others}, and the send names no receiver by `to`"


def _unset(ways: Ways, walk: Walk, stop: Stop, send: Send) -> str:
    """The variable that is sent, or the one after `to`, and where it could have been set."""
    word = ways.case.word
    names = [word(place) for place in (send.variable, send.to) if place is not None]
    name = next(it for it in names if it in stop.variables and stop.variables[it] is None)
    lines = set()
    for receive in operations_in(walk.player.statements()):
        sets = (receive.value_to, receive.sender_to) if isinstance(receive, Receive) else ()
        if name in [word(it) for it in sets if it is not None]:
            lines.add(ways.case.line(receive.start))
    if not lines:
        return f"`{name}` has no value, and nothing in this body sets it"
    verb = "sets" if len(lines) == 1 else "set"
    return f"`{name}` has no value: {lines_told(lines)} {verb} it, but had received nothing before"


def _partners(ways: Ways, walk: Walk, send: Send) -> list[str]:
    ends = ways.case.partners.get((walk.component.name, ways.case.word(send.port)), [])
    return [component for component, _ in ends]


_CAUSES = {
    Refusal.NOT_SENDING: _not_sending,
    Refusal.UNSET_VARIABLE: _unset,
    Refusal.NO_ROUTE: _no_route,
    Refusal.NEEDS_TO: _needs_to,
}
