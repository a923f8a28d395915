"""Parts of an accepted script that have no effect, as far as the script alone shows it.

Each warning is certain: it names something that no run can carry out, or a message that stays in a queue in each run
that reaches it. So there is no warning of a message that depends on a variable, or of a queue that something empties.
"""
from __future__ import annotations

import functools
from typing import Iterator, NamedTuple, Optional, Union

from ..report.messages import Plain
from ..script.case import Case, Player
from ..script.checks import check_script
from ..script.forms import Test
from ..script.setup import SYSTEM
from ..script.tokens import Text
from ..script.tree import Control, Message, Receive, Send, operations_in
from ..words import and_

Operation = Union[Send, Receive]
# The most receiving operations of a component that are examined, so that a large script is explained in seconds too.
_MOST_LOOKED = 100_000


class Finding(NamedTuple):
    """A place, and the warning; and another place with its label, if there is one to show."""

    place: int
    sentence: str
    others: tuple[tuple[int, str], ...] = ()


class _Template(NamedTuple):
    """What a receiving operation accepts: from which component, of which type, and by which test of the value. None
    means no restriction, for example if a template depends on a loop variable."""

    sender: Optional[str]
    type: Optional[str]
    test: Optional[Test]

    def may_take(self, type_name: str, value: Plain, sender: str) -> bool:
        if self.sender not in (None, sender) or self.type not in (None, type_name):
            return False
        return self.test is None or self.test(value, {})


def warnings_of(text: Text) -> list[Finding]:
    """The warnings in the order of the text, each place and sentence once. Raises GrammarFault or RuleFault. The tokens
    are known to have no fault."""
    case = Case(text, check_script(text))
    players = {player.name: _Player(case, player) for player in case.players}
    found = [it for player in players.values() for it in player.warnings(players)]
    return sorted(dict.fromkeys(found), key=lambda it: it.place)


class _Player:
    """A component, and what it does."""

    def __init__(self, case: Case, player: Player):
        self.case, self.player = case, player
        self.operations = operations_in(player.statements())
        self.variables = {case.word(it) for it in player.variables()}
        self.looked = 0  # how many receiving operations were examined for a message
        self.read: dict[str, list[_Template]] = {}  # by their ports, as far as they were examined
        self.receiving: dict[str, list[Receive]] = {}
        for it in self.operations:
            if isinstance(it, Receive):
                self.receiving.setdefault(case.word(it.port), []).append(it)

    def warnings(self, players: dict[str, _Player]) -> Iterator[Finding]:
        leads_nowhere: set[str] = set()
        for operation in self.operations:
            if isinstance(operation, Control):
                continue
            port = self.case.word(operation.port)
            if not self.partners(port):
                if port not in leads_nowhere:
                    yield self.not_connected(operation, port)
                leads_nowhere.add(port)
            elif isinstance(operation, Send):
                yield from self.of_send(operation, port, players)
            elif port not in leads_nowhere and self.hears_nobody(port, players):
                yield self.not_played(operation, port)
                leads_nowhere.add(port)

    def partners(self, port: str) -> list[tuple[str, str]]:
        return self.case.partners.get((self.player.name, port), [])

    def not_connected(self, operation: Operation, port: str) -> Finding:
        comes = "a send through it fails" if isinstance(operation, Send) else "no message ever arrives there"
        sentence = f"the port `{port}` of `{self.player.name}` is never connected or mapped, so {comes}"
        return Finding(operation.port, sentence)

    def hears_nobody(self, port: str, players: dict[str, _Player]) -> bool:
        """Whether only the system can send there, and no function plays the system."""
        partners = {component for component, _ in self.partners(port)}
        return partners == {SYSTEM} and players[SYSTEM].player.body is None

    def not_played(self, operation: Operation, port: str) -> Finding:
        mapped = f"the port `{port}` of `{self.player.name}` is mapped to `{SYSTEM}`, which no function `sut` plays"
        return Finding(operation.port, f"{mapped}, so no message ever arrives there")

    def of_send(self, send: Send, port: str, players: dict[str, _Player]) -> Iterator[Finding]:
        """The warnings about the receivers of a send: the port doesn't lead to the component, or one of the receivers
        never accepts the message."""
        partners = self.partners(port)
        if send.to is not None and self.case.word(send.to) != "all":
            word = self.case.word(send.to)
            if word in self.variables:
                return
            to = self.player.references[word]
            if to not in [component for component, _ in partners]:
                leads = and_(f"`{component}`" for component, _ in partners)
                sentence = f"the port `{port}` of `{self.player.name}` isn't connected with `{to}`, so this send fails"
                yield Finding(send.to, f"{sentence}: it leads to {leads}")
                return
            partners = [it for it in partners if it[0] == to]
        elif send.to is None and len(partners) > 1:
            return
        if send.message is not None and not self.case.forms.has_loop_variable(send.message.value):
            for component, there in partners:
                yield from players[component].never_takes(send.message, there, self.player.name)

    def never_takes(self, message: Message, port: str, sender: str) -> Iterator[Finding]:
        # The system without `sut` isn't part of the script: it accepts anything.
        if self.player.name == SYSTEM and self.player.body is None or self.empties(port):
            return
        tried = self.receiving.get(port, [])
        self.looked += len(tried)
        type_name = self.case.word(message.type)
        value = self.case.forms.filled(message.value, type_name, {})
        if self.looked > _MOST_LOOKED and tried:
            return
        if any(template.may_take(type_name, value, sender) for template in self.templates(port)):
            return
        told, name = self.case.forms.text_of(message, {}), self.player.name
        why = f"no template there matches `{told}`" if tried else "it has no receiving operation there"
        sentence = f"`{name}` never takes this message at its port `{port}`: {why}"
        yield Finding(message.type, sentence, tuple((it.port, "it receives here") for it in tried[:1]))

    @functools.lru_cache(maxsize=None)
    def empties(self, port: str) -> bool:
        """Whether a message may be meant to stay at the port, or to be discarded: `trigger` drops messages, `clear` and
        `start` discard all, and a port that is stopped or halted keeps them."""
        if any(self.case.word(it.how) == "trigger" for it in self.receiving.get(port, [])):
            return True
        controls = [it for it in self.operations if isinstance(it, Control)]
        return any(it.port is None or self.case.word(it.port) == port for it in controls)

    def templates(self, port: str) -> Iterator[_Template]:
        """The templates of a port in their order. Each is read once, and only if the ones before it didn't suffice."""
        read = self.read.setdefault(port, [])
        yield from read
        for operation in self.receiving.get(port, [])[len(read) :]:
            read.append(self.template(operation))
            yield read[-1]

    def template(self, operation: Receive) -> _Template:
        sender = None if operation.sender is None else self.player.references[self.case.word(operation.sender)]
        if operation.message is None:
            return _Template(sender, None, None)
        type_name, value = self.case.word(operation.message.type), operation.message.value
        is_known = not self.case.forms.has_loop_variable(value)
        return _Template(sender, type_name, self.case.forms.test_of(value, type_name) if is_known else None)
