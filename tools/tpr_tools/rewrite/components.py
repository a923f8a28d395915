"""Follows operations on components and ports: sends, port operations, set-up, starts (ES 201 873-1, 21 and 22)."""
from __future__ import annotations

from typing import Optional

from . import tree
from .choosing import Chooser
from .emitted import Operated, Sent, StillRuns, Ticked, Told, Verdict
from .flowing import Flows
from .paths import ActiveDefault, Created, End, Exit, Joined, Path, Scope, Started, peers
from .refusing import Refusal, refuse, refuse_open
from .run import Run
from .tokens import Token
from .tree import Any, Expression, Finding, Joining, PortAct
from .types import Kind, Type
from .values import (
    Coming, ComponentValue, DefaultValue, Form, Mark, PortValue, Received, Reference, Symbol, TimerValue,
)

SYSTEM = -1
MOST_COMPONENTS = 64
# The words of `checkstate`, and whether each means a mapping, a connection or either.
_JOINED = {"Mapped": (True,), "Connected": (False,), "Linked": (True, False)}


class Behaviour(Chooser):
    """Follows all statements of a behaviour. `waits_for` collects the components whose end it asks for by a message."""

    can_set_up = False

    def __init__(self, run: Run, own: int, type: Type, at: Token):
        super().__init__(run, own, type, at)
        self.waits_for: dict[int, Token] = {}
        self.system: Optional[str] = None
        # What it knows about the other components if it can't set them up.
        self.known_started: frozenset[int] = frozenset()
        self.known_joins: tuple[Joined, ...] = ()

    def peers_of(self, port: str, path: Path) -> list[End]:
        joins = path.state.joins if self.can_set_up else self.known_joins
        return peers(joins, End(self.own, port))

    def has_state(self, node: tree.Call, port: Expression, path: Path, scope: Optional[Scope]) -> bool:
        """The value of `p.checkstate("Mapped")` for an own port (22.5.5). The connections of the port are known;
        operations such as `stop` aren't kept."""
        word = self.evaluate(node.arguments[0].value, path, scope) if len(node.arguments) == 1 else None
        value = self.evaluate(port, path, scope)
        if not isinstance(value, PortValue) or not isinstance(word, str) or word not in _JOINED:
            refuse(node.at, "`checkstate` asks for something that is known only in a run")
        end = End(self.own, value.name)
        joins = path.state.joins if self.can_set_up else self.known_joins
        of_port = [join for join in joins if end in (join.one, join.other)]
        is_late = any(self.own in join.running for join in of_port)
        if is_late or len(of_port) > 1 and value.name in path.state.left:
            refuse(node.at, "`checkstate` asks for something that is known only in a run")
        return value.name not in path.state.left and any(join.is_map in _JOINED[word] for join in of_port)

    # Sending

    def send(self, statement: tree.Send, path: Path, scope: Scope) -> list[Path]:
        port = self.port_of(statement.port, path, scope)
        message = self.message(statement.message, port, path, scope)
        self._use(port, statement.at, path)
        sent = [Sent(statement.at, port, message, self.who(node, path, scope), False) for node in statement.to]
        for one in sent or [Sent(statement.at, port, message, None, statement.to_all)]:
            self.emit(path, one)
            if self.flows is not None:
                self._note_sent(one, self.flows, path)
        return [path]

    def _note_sent(self, sent: Sent, flows: Flows, path: Path) -> None:
        """Notes the message as one that can come, at each place that it may have on its routes."""
        own = End(self.own, sent.port)
        ends = list(dict.fromkeys(self.peers_of(sent.port, path)))
        if isinstance(sent.to, Symbol):
            known = {one.sender.component for one in sent.to.coming}
            ends = [end for end in ends if end.component in known]
        elif sent.to is not None:
            ends = [end for end in ends if end.component == sent.to]
        is_sure = sent.to_all or len(ends) == 1 or isinstance(sent.to, int)
        form, type = sent.message.form, sent.message.type.root
        forms = [one.form for one in form.symbol.coming] if isinstance(form, Received) else [form]
        for end in ends:
            low, high = path.state.sent.get((own, end), (0, 0))
            flows.add((own, end), (low, high), [Coming(own, type, one) for one in forms])
            path.state.sent[own, end] = (low + 1 if is_sure else low, high + 1)

    def _use(self, port: str, at: Token, path: Path) -> None:
        if port in path.state.left:
            refuse(at, f"`{port}` was disconnected or unmapped before this")
        path.state.used |= {port}

    # Operations on ports, components and timers

    def operate(self, statement: tree.Operate, path: Path, scope: Scope) -> list[Path]:
        if statement.target is None and statement.is_of_timers:
            self.stop_all_timers(statement.at, path, scope)
            return [path]
        if statement.target is None:
            self._emit_operated(statement, list(self.ports), True, path)
            return [path]
        if statement.act is PortAct.STOP and isinstance(statement.target, tree.Special):
            return self._stop(statement, path)
        value = self._operated(statement, path, scope)
        if isinstance(value, PortValue):
            if statement.arguments:
                refuse(statement.at, "an operation on a port has no arguments")
            self._emit_operated(statement, [value.name], False, path)
            return [path]
        if isinstance(value, TimerValue):
            self.operate_timer(statement, path, scope)
            return [path]
        if not isinstance(value, ComponentValue):
            refuse(statement.at, "which component is meant isn't known here")
        if statement.act is PortAct.START:
            return self.start(statement, value.number, path, scope)
        if value.number == self.own:
            return self._stop(statement, path)
        refuse(statement.at, f"`{statement.act.value}` of another component ends it from outside")

    def _emit_operated(self, statement: tree.Operate, ports: list[str], is_all: bool, path: Path) -> None:
        self.emit(path, Operated(statement.at, ports, statement.act.value, is_all))
        if statement.act in (PortAct.CLEAR, PortAct.START):
            self.note_discarded(ports, path)

    def _operated(self, statement: tree.Operate, path: Path, scope: Scope) -> Form:
        assert statement.target is not None
        value = self.evaluate(statement.target, path, scope)
        if value is Mark.LOST:
            raise Refusal(statement.at, "")
        return value

    def _stop(self, statement: tree.Operate, path: Path) -> list[Path]:
        """Follows a behaviour that stops itself, which is its end."""
        assert statement.target is not None
        value = self.evaluate(statement.target, path, None)
        if value != ComponentValue(self.own):
            refuse(statement.at, "this ends another component from outside")
        path.exit = Exit.END
        return [path]

    def asked_of(self, node: tree.Asked, path: Path, scope: Optional[Scope]) -> Form:
        value = self.evaluate(node.target, path, scope) if node.target is not None else None
        if value is Mark.LOST:
            raise Refusal(node.at, "")
        if isinstance(value, TimerValue) or node.of.endswith(" timer"):
            return self.asked_of_timer(node, path, scope)
        if node.of == "any component" and node.word == "running":
            return self._is_running([number for number, _ in path.state.started], node, path)
        if isinstance(value, ComponentValue) and value.number > 0 and self.can_set_up:
            started = [number for number, _ in path.state.started if number == value.number]
            if node.word == "running":
                return self._is_running(started, node, path)
            if node.word == "alive":
                return not started or self._may_be_alive(value.number, path) or self._is_running(started, node, path)
        refuse(node.at, f"`{node.word}` asks for something that is known only in a run")

    def _is_running(self, started: list[int], node: tree.Asked, path: Path) -> bool:
        """Whether one of the started components runs: not if all of them have surely ended. Otherwise one must surely
        run, so that the other case is never reached; that is checked after everything is followed. If the question is
        asked at each look at branches, they may end while these wait."""
        left = frozenset(started) - path.state.done - path.state.awaited
        if self.can_set_up and not left:
            return False
        if not self.can_set_up or self.is_looking or node.at in self.run.unsure:
            refuse_open(node.at, f"`{node.word}` asks for something that is known only in a run")
        self.emit(path, StillRuns(node.at, left))
        return True

    # Defaults

    def activate(self, node: tree.Activate, path: Path, scope: Optional[Scope]) -> Form:
        if self.is_looking:
            refuse(node.at, "a default is activated at each look at the branches")
        altstep, arguments = self.altstep_of(node.call, node.at)
        bound = self.bind(altstep.parameters, arguments, node.at, path, scope)
        for name, slot in bound:
            is_timer = slot.type is not None and slot.type.kind is Kind.TIMER
            if isinstance(slot.value, Reference) and (slot.value.scope != self.root.number or not is_timer):
                refuse(node.at, f"the parameter `{name}` of a default is a variable, which may be gone by then")
        self.look_at_runs_on(altstep.runs_on, node.at)
        path.state.activated += 1
        number = path.state.activated
        path.state.defaults += (ActiveDefault(number, altstep, tuple(bound), node.at),)
        return DefaultValue(number)

    # Components

    def create(self, node: tree.Create, path: Path, scope: Optional[Scope]) -> Form:
        self._look_at_set_up(node.at, path)
        if self.is_looking:
            refuse(node.at, "a component is created at each look at the branches")
        if not isinstance(node.type, tree.Name):
            refuse(node.at, "the type of the component isn't known here")
        type = self.types.named(node.type.word, node.type.at)
        if type.kind is not Kind.COMPONENT:
            refuse(node.at, f"`{node.type.word}` is no component type")
        state = path.state
        if len(state.components) + 2 > MOST_COMPONENTS:
            refuse(node.at, f"there are more than {MOST_COMPONENTS} components")
        state.components += (Created(type, self.hint or "component", node.at, node.is_alive),)
        return ComponentValue(len(state.components))

    def _look_at_set_up(self, at: Token, path: Path) -> None:
        if not self.can_set_up:
            refuse(at, "components are created, connected and started only by the test case's own body")
        if path.fork is not None:
            refuse_open(at, "whether this is done depends on a message; here it is done before all messages")

    def join(self, statement: tree.Join, path: Path, scope: Scope) -> list[Path]:
        if statement.how in (Joining.DISCONNECT, Joining.UNMAP):
            return self._part_ways(statement, path, scope)
        self._look_at_set_up(statement.at, path)
        if statement.has_parameters:
            refuse(statement.at, "a mapping with parameters isn't carried over")
        if len(statement.places) != 2:
            refuse(statement.at, "two ports are joined")
        one, other = (self._end(place, path, scope) for place in statement.places)
        running = frozenset(number for number, _ in path.state.started)
        for end in (one, other):
            if end.component == self.own and end.port in path.state.used:
                refuse(statement.at, f"`{end.port}` was used before it was joined")
        joined = Joined(statement.how is Joining.MAP, one, other, statement.at, running)
        if not any({old.one, old.other} == {one, other} for old in path.state.joins):
            path.state.joins += (joined,)
        return [path]

    def _end(self, place: tree.Place, path: Path, scope: Scope) -> End:
        if place.component is None or place.port is None:
            refuse(place.at, "`all port` isn't carried over here")
        if isinstance(place.component, tree.Special) and place.component.sign is tree.Sign.SYSTEM:
            return End(SYSTEM, self._port_of_system(place.port, path, scope))
        value = self.evaluate(place.component, path, scope)
        if value is Mark.LOST:
            raise Refusal(place.at, "")
        if not isinstance(value, ComponentValue):
            refuse(place.at, "which component is meant isn't known here")
        return End(value.number, self._port_name(place.port, path, scope))

    def _port_of_system(self, node: Expression, path: Path, scope: Scope) -> str:
        if self.system is None:
            refuse(node.at, "the test case has no `system`")
        return self._port_name(node, path, scope)

    def _port_name(self, node: Expression, path: Path, scope: Scope) -> str:
        if isinstance(node, tree.Name):
            key = self.find(node.word, scope, path)
            if key is not None and key[0] != self.root.number:
                return self.port_of(node, path, scope)
            return node.word
        if isinstance(node, tree.IndexOf):
            index = self.evaluate(node.index, path, scope)
            if isinstance(index, int) and not isinstance(index, bool):
                return f"{self._port_name(node.value, path, scope)}_{index}"
        refuse(node.at, "which port is meant isn't known here")

    def _part_ways(self, statement: tree.Join, path: Path, scope: Scope) -> list[Path]:
        """Follows `disconnect` or `unmap`. Ports that aren't used any more may be disconnected, because that has no
        visible effect."""
        if len(statement.places) != 2 or statement.has_parameters:
            refuse(statement.at, "which ports are meant isn't known here")
        ends = [self._end(place, path, scope) for place in statement.places]
        for end in ends:
            if end.component == self.own:
                path.state.left |= {end.port}
            elif end.component not in path.state.done | path.state.awaited | {SYSTEM}:
                refuse(statement.at, "the component at the other end may still send there")
        return [path]

    def start(self, statement: tree.Operate, number: int, path: Path, scope: Scope) -> list[Path]:
        self._look_at_set_up(statement.at, path)
        if len(statement.arguments) != 1 or not isinstance(statement.arguments[0], tree.Call):
            refuse(statement.at, "a component is started with the call of a function")
        call = statement.arguments[0]
        word = tree.word_called(call)
        body = self.program.functions.get(word) or self.program.altsteps.get(word)
        if body is None or (isinstance(body, tree.Function) and body.body is None):
            refuse(call.at, f"`{word}` is no function of the script")
        if number == 0 or any(known == number for known, _ in path.state.started):
            refuse(statement.at, "this component has a behaviour already")
        bound = self.bind(body.parameters, call.arguments, call.at, path, scope)
        for name, slot in bound:
            self.settled(slot.value, call.at, f"the argument for `{name}` isn't known before the run")
            if isinstance(slot.value, Reference):
                refuse(call.at, f"the argument for `{name}` isn't known before the run")
        is_told = bool(path.state.awaited) or any(not isinstance(one, (StillRuns, Verdict, Ticked)) for one in path.code)
        if is_told:
            self.emit(path, Told(statement.at, number))
        path.state.started += ((number, Started(body, tuple(bound), statement.at, is_told)),)
        return [path]

    # Waiting for the ends of components

    def find_end(self, statement: tree.Find, path: Path, scope: Scope) -> list[Path]:
        if statement.is_timer or path.state.defaults or statement.has_more:
            return self.receive(statement, path, scope)
        for number in self.asked_done(statement, path, scope):
            if number not in path.state.done:
                self.ask_done(number, statement.at, path)
                path.state.awaited |= {number}
        return [path]

    def asked_done(self, event: tree.Find, path: Path, scope: Scope) -> list[int]:
        started = {number for number, _ in path.state.started} | self.known_started
        if event.target is Any.ALL:
            if self.own != 0:
                refuse(event.at, "`all component` is asked by the test case alone")
            if event.how is Finding.KILLED and any(self._may_be_alive(number, path) for number in started):
                refuse(event.at, "a component that is `alive` isn't killed by its behaviour's end")
            return sorted(started)
        if event.target is Any.ANY:
            refuse(event.at, "`any component.done` isn't carried over")
        assert not isinstance(event.target, Any)
        value = self.evaluate(event.target, path, scope)
        if value is Mark.LOST:
            raise Refusal(event.at, "")
        if not isinstance(value, ComponentValue) or value.number in (0, self.own):
            refuse(event.at, "which component is meant isn't known here")
        if value.number not in started:
            refuse(event.at, "this component hasn't been started here")
        if event.how is Finding.KILLED and self._may_be_alive(value.number, path):
            refuse(event.at, "a component that is `alive` isn't killed by its behaviour's end")
        return [value.number]

    def _may_be_alive(self, number: int, path: Path) -> bool:
        components = path.state.components
        return number > len(components) or components[number - 1].is_alive

    def ask_done(self, number: int, at: Token, path: Path) -> None:
        self.waits_for.setdefault(number, at)

    def follow_operation(self, statement: tree.Statement, path: Path, scope: Scope) -> list[Path]:
        if isinstance(statement, tree.Alt):
            return self.choose(statement, path, scope)
        if isinstance(statement, tree.Send):
            return self.send(statement, path, scope)
        if isinstance(statement, tree.Receive):
            return self.receive(statement, path, scope)
        if isinstance(statement, tree.Operate):
            return self.operate(statement, path, scope)
        if isinstance(statement, tree.Join):
            return self.join(statement, path, scope)
        assert isinstance(statement, tree.Find)
        return self.find_end(statement, path, scope)
