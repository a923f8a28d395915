"""Writes the script of the profile: its types, components and behaviours, and the original place of each statement."""
from __future__ import annotations

import os
import re
from dataclasses import dataclass, field
from typing import Optional

from .clocks import ClockWriter, count_starts, without_unasked
from .components import MOST_COMPONENTS
from .emitted import (
    Came, Code, Emitted, EndTold, Failed, Got, GotDone, GotEnd, Message, Operated, Sent, Ticked, Ticking, Told, Unstarted,
    Verdict, Way, Ways, Went, Who,
)
from .encoding import Encoder
from .following import Followed, Part, statements_of, tells_of
from .layout import Names, form_text, type_text
from .paths import End, Joined, peers
from .refusing import refuse, refuse_open
from .run import PortOf, Run, members_of
from .tokens import Token
from .types import Type
from .values import Received, Symbol
from .writing_types import TypeWriter

MOST_BRACKETS = 32
# Brackets, and texts and comments, in which brackets don't count.
_BRACKETS = re.compile(r'"(?:[^"]|"")*"|//.*|[{}()\[\]]')
MOST_BYTES = 1_048_576


@dataclass(frozen=True)
class Origin:
    """A line of the written script, and its original place."""

    line: int
    at: Token


@dataclass
class Lines:
    """The lines, and the original places of those that have one."""

    texts: list[str] = field(default_factory=list)
    origins: list[Origin] = field(default_factory=list)
    # The port of each timer, and the operations that receive the answer of its component, in the order of the text.
    timers: dict[str, str] = field(default_factory=dict)
    ticks: list[Ticked] = field(default_factory=list)
    has_files: bool = False

    def add(self, text: str, at: Optional[Token] = None) -> None:
        if at is not None:
            self.origins.append(Origin(len(self.texts) + 1, at))
            text = f"{text:<60} // {self._place(at)}"
        self.texts.append(text)

    def first_too_deep(self) -> Optional[Token]:
        """The original place of the first line in which too many brackets are open at once."""
        is_open = 0
        for number, text in enumerate(self.texts, 1):
            for sign in _BRACKETS.findall(text):
                is_open += 1 if sign in ("{", "(", "[") else -1 if sign in ("}", ")", "]") else 0
                if is_open > MOST_BRACKETS:
                    return next(one.at for one in reversed(self.origins) if one.line <= number)
        return None

    def _place(self, at: Token) -> str:
        name = "".join(letter if letter.isprintable() else "?" for letter in os.path.basename(at.file))
        return f"{name}:{at.line}" if self.has_files else str(at.line)


@dataclass
class Shape:
    """A component as it is written: its name, the name of its type, and its additional ports."""

    part: Part
    name: str
    type_name: str = ""
    loops: dict[str, str] = field(default_factory=dict)
    controls: dict[int, str] = field(default_factory=dict)
    timers: dict[str, str] = field(default_factory=dict)
    # A port without a connection: a send from it fails.
    nowhere: str = ""
    # Two ports that are connected with each other, for the numbers of sorted paths.
    numbers: tuple[str, ...] = ()

    def control_ports(self) -> list[str]:
        """The ports for the control messages of this tool."""
        return [*self.controls.values(), *self.timers.values(), *filter(None, [self.nowhere])]

    def extra_ports(self) -> list[str]:
        return [*self.control_ports(), *self.numbers]


class Writer:
    def __init__(self, run: Run, followed: Followed, files: list[str]):
        self.run = run
        self.followed = followed
        self.names = Names()
        self.lines = Lines(has_files=len(files) > 1)
        self.files = files
        self.shapes: dict[int, Shape] = {}
        self.encoder = Encoder(run.program.types, self.names.free, run.options.encodes)
        self.types = TypeWriter(run.program.types, self.encoder, run.tell, followed.case.at)
        self.clocks = ClockWriter(self.names, self.lines.add)
        self.control_type = ""
        self.number_type = ""
        self.system_name = ""
        self.started: list[tuple[str, str, Token]] = []

    def write(self) -> Lines:
        self._name_all()
        for part in self.followed.parts:
            self._add_loops(part)
            self._add_controls(part)
            self._add_timers(part)
            if any(isinstance(one, Failed) for one in statements_of(part.code)):
                self.shapes[part.number].nowhere = self.names.free("nowhere_control")
            if any(isinstance(one, Went) for one in statements_of(part.code)):
                names = (self.names.free("way_control_out"), self.names.free("way_control_in"))
                self.shapes[part.number].numbers = names
        case = self.followed.case
        self._head()
        self.lines.add(f"module {self.module_name} {{")
        self._definitions()
        if self.run.refused:
            # A type that isn't written has no values.
            return self.lines
        for number, shape in self.shapes.items():
            if number != 0:
                self._function(shape)
        self.clocks.write_functions()
        self._case(self.shapes[0])
        self.lines.add("}")
        self._look_at_limits(case.at)
        return self.lines

    def _head(self) -> None:
        files = ", ".join(os.path.basename(file) for file in self.files)
        files = "".join(letter if letter.isprintable() else "?" for letter in files)
        self.lines.add(f"// Written by tools/rewrite from {files}: each statement is followed by the line that it comes from.")

    def _look_at_limits(self, at: Token) -> None:
        deep = self.lines.first_too_deep()
        if deep is not None:
            refuse_open(deep, f"what follows from the branches would have more than {MOST_BRACKETS} brackets open")
        if sum(len(text) + 1 for text in self.lines.texts) > MOST_BYTES:
            refuse(at, f"the script that was written has more than {MOST_BYTES:,} bytes")

    # Names

    def _name_all(self) -> None:
        """Types and ports keep their names; components and variables get unique ones."""
        program, followed = self.run.program, self.followed
        self.names.keep(program.types.definitions)
        self.case_name = followed.case.name[:60]
        self.names.keep([self.case_name])
        for part in followed.parts:
            self.names.keep(part.behaviour.ports)
        if followed.system is not None:
            self.names.keep(port for port in self._system_ports())
        self.module_name = program.modules[0].name[:60]
        for module in program.modules:
            if any(definition is followed.case for definition in module.definitions):
                self.module_name = module.name[:60]
        for part in followed.parts:
            name = {0: "mtc", -1: "system"}.get(part.number) or self.names.free(part.hint)
            self.shapes[part.number] = Shape(part, name)

    def _system_ports(self) -> dict[str, PortOf]:
        assert self.followed.system is not None
        size_of = self.followed.parts[0].behaviour.size_of
        at = self.followed.case.at
        return members_of(self.run.program.types, self.followed.system, at, size_of).ports

    # Ports that a component gets besides

    def _add_loops(self, part: Part) -> None:
        shape = self.shapes[part.number]
        for join in self.followed.joins:
            if join.one == join.other and join.one.component == part.number:
                port = join.one.port
                if len(peers(self.followed.joins, join.one)) > 1:
                    refuse(join.at, f"`{port}` is connected with itself and with another port")
                shape.loops[port] = self.names.free(f"{port}_loop")

    def _add_controls(self, part: Part) -> None:
        """Adds a port for each component that it tells to begin, or whose end it waits for, and one on the other
        side."""
        shape = self.shapes[part.number]
        for number in sorted(tells_of(part.code)):
            other = self.shapes[number]
            if number not in shape.controls:
                shape.controls[number] = self.names.free(f"{other.name}_control")
                other.controls[part.number] = self.names.free(f"{shape.name}_control_{other.name}")

    def _add_timers(self, part: Part) -> None:
        """Adds a port for the component of each timer whose timeout something waits for."""
        shape = self.shapes[part.number]
        without_unasked(part.code)
        for timer, starts in count_starts(part.code).items():
            if part.number < 0:
                refuse(part.at, "a timer of `sut` has no component of its own: --timers=never leaves its timeouts out")
            shape.timers[timer] = self.clocks.new_port(shape.name, timer, starts)
        self.lines.timers.update({port: timer for timer, port in shape.timers.items()})
        count = len(self.shapes) + len(self.clocks.clocks) + (self.followed.system is not None and -1 not in self.shapes)
        if count > MOST_COMPONENTS:
            refuse(part.at, f"with a component for each timer there would be more than {MOST_COMPONENTS} components")

    # Definitions

    def _definitions(self) -> None:
        shapes = list(self.shapes.values())
        ports = {port.type.root: port.type for shape in shapes for port in shape.part.behaviour.ports.values()}
        system = self._system_ports() if self.followed.system is not None else {}
        ports.update({port.type.root: port.type for port in system.values()})
        self.types.write(list(ports.values()), self._messages(), self.lines.add)
        if any(shape.control_ports() for shape in shapes):
            self.control_type = self.names.free("Control")
            self.lines.add(f"  type port {self.control_type} message {{ inout boolean; }}")
        if any(shape.numbers for shape in shapes):
            self.number_type = self.names.free("WayNumber")
            self.lines.add(f"  type port {self.number_type} message {{ inout integer; }}")
        self.clocks.write_type(self.control_type)
        self._component_types(shapes, system)

    def _messages(self) -> list[Type]:
        found: dict[Type, None] = {}
        for part in self.followed.parts:
            for statement in statements_of(part.code):
                message = statement.message if isinstance(statement, (Sent, Got)) else None
                if message is not None:
                    found[self.encoder.type_of(message.type)] = None
        return list(found)

    def _component_types(self, shapes: list[Shape], system: dict[str, PortOf]) -> None:
        written: dict[tuple[Type, tuple[str, ...]], str] = {}
        for shape in shapes:
            extra = [*shape.loops.values(), *shape.extra_ports()]
            key = (shape.part.type.root, tuple(extra))
            if key not in written:
                wanted = shape.part.type.root.name
                written[key] = self.names.free(f"{wanted}_{shape.name}") if extra else wanted
                self._component_type(written[key], shape)
            shape.type_name = written[key]
        if self.followed.system is not None:
            key = (self.followed.system.root, ())
            self.system_name = written.get(key, self.followed.system.root.name)
            if key not in written:
                self.lines.add(f"  type component {self.system_name} {{{_members(_listed(system))}}}")

    def _component_type(self, name: str, shape: Shape) -> None:
        behaviour = shape.part.behaviour
        members = _listed(behaviour.ports)
        members += [(loop, behaviour.ports[port].type.root.name) for port, loop in shape.loops.items()]
        members += [(control, self.control_type) for control in shape.control_ports()]
        members += [(port, self.number_type) for port in shape.numbers]
        if len(members) > 64:
            refuse(shape.part.at, "a component would have more than 64 ports")
        self.lines.add(f"  type component {name} {{{_members(members)}}}")

    # Behaviours

    def _function(self, shape: Shape) -> None:
        part = shape.part
        is_system = part.number < 0
        started = part.started
        wanted = started.body.name if started else f"idle_{shape.name}"
        name = "sut" if is_system else self.names.free(wanted)
        at = started.at if started else part.at
        self.lines.add(f"  function {name}() runs on {shape.type_name} {{", started.body.at if started else at)
        code = Block(self, shape)
        code.variables(part.code)
        if started and started.is_told:
            self.lines.add(f"    {shape.controls[0]}.receive(boolean:true);", started.at)
        code.statements(part.code, 2)
        for number in self._told_of_end(shape):
            self.lines.add(f"    {shape.controls[number]}.send(boolean:true);", at)
        self.lines.add("  }")
        if not is_system:
            self.started.append((shape.name, name, at))

    def _told_of_end(self, shape: Shape) -> list[int]:
        """The components that wait for the end of this component's behaviour."""
        number = shape.part.number
        found = []
        for other in self.followed.parts:
            waited = {one.component for one in statements_of(other.code) if isinstance(one, GotDone)}
            if number in waited:
                found.append(other.number)
        return found

    def _case(self, shape: Shape) -> None:
        case = self.followed.case
        system = f" system {self.system_name}" if self.followed.system is not None else ""
        self.lines.add(f"  testcase {self.case_name}() runs on {shape.type_name}{system} {{", case.at)
        for other in self.shapes.values():
            if other.part.number > 0:
                text = f"    var {other.type_name} {other.name} := {other.type_name}.create;"
                self.lines.add(text, other.part.at)
        self.clocks.write_creates()
        for join in self.followed.joins:
            self._join(join)
        self._join_controls()
        self.clocks.write_connects()
        for component, function, at in self.started:
            self.lines.add(f"    {component}.start({function}());", at)
        self.clocks.write_starts()
        block = Block(self, shape)
        block.variables(shape.part.code)
        block.statements(shape.part.code, 2)
        if len(self.shapes) > 1 or self.clocks.clocks:
            self.lines.add("    all component.done;", case.at)
        self.lines.add("  }")

    def _join(self, join: Joined) -> None:
        one = self._place(join.one)
        other = self._place(join.other)
        if join.one == join.other:
            shape = self.shapes[join.one.component]
            other = f"{shape.name}:{shape.loops[join.one.port]}"
        self.lines.add(f"    {'map' if join.is_map else 'connect'}({one}, {other});", join.at)

    def _place(self, end: End) -> str:
        return f"{'system' if end.component < 0 else self.shapes[end.component].name}:{end.port}"

    def _join_controls(self) -> None:
        for shape in self.shapes.values():
            for number, control in shape.controls.items():
                other = self.shapes[number]
                if shape.part.number < number:
                    back = other.controls[shape.part.number]
                    self.lines.add(f"    connect({shape.name}:{control}, {other.name}:{back});")
            if shape.numbers:
                one, other_end = (f"{shape.name}:{port}" for port in shape.numbers)
                self.lines.add(f"    connect({one}, {other_end});")


def _listed(ports: dict[str, PortOf]) -> list[tuple[str, str]]:
    return [(name, port.type.root.name) for name, port in ports.items()]


def _members(members: list[tuple[str, str]]) -> str:
    return " " + " ".join(f"port {type} {name};" for name, type in members) + " " if members else " "


class Block:
    """The statements of one behaviour."""

    def __init__(self, writer: Writer, shape: Shape):
        self.writer = writer
        self.shape = shape
        self.lines = writer.lines

    def variables(self, code: Code) -> None:
        """Declares a variable for each message that is used later, and for each such sender."""
        for statement in statements_of(code):
            if not isinstance(statement, Got):
                continue
            for symbol in (statement.value, statement.sent_by):
                if symbol is not None and symbol.is_used:
                    self._variable(symbol, statement.at)

    def _variable(self, symbol: Symbol, at: Token) -> None:
        symbol.name = self.writer.names.free(symbol.hint or "v_message")
        if symbol.is_sender:
            type = self.writer.shapes[0].type_name
        else:
            assert isinstance(symbol.type, Type)
            type = type_text(self.writer.encoder.type_of(symbol.type))
        self.lines.add(f"    var {type} {symbol.name};", at)

    def statements(self, code: Code, depth: int) -> None:
        for statement in code:
            self._statement(statement, depth)

    def _statement(self, statement: Emitted, depth: int) -> None:
        if isinstance(statement, Ways):
            self._ways(statement, depth)
            return
        is_late = isinstance(statement, Sent) and statement.at in self.writer.run.queued
        for text in self._texts(statement):
            behind = " // to what may have ended: queued" if is_late else ""
            self.lines.add(f"{'  ' * depth}{text};{behind}", statement.at)

    def _texts(self, statement: Emitted) -> list[str]:
        if isinstance(statement, Sent):
            return [self._sent(statement)]
        if isinstance(statement, (Got, GotDone)):
            return [self._got(statement)]
        if isinstance(statement, (Ticked, Unstarted)):
            return self._timer(statement)
        if isinstance(statement, (Told, EndTold)):
            word = "true" if isinstance(statement, Told) else "false"
            return [f"{self.shape.controls[statement.component]}.send(boolean:{word})"]
        if isinstance(statement, Operated):
            return self._operated(statement)
        if isinstance(statement, Failed):
            return [f"{self.shape.nowhere}.send(boolean:false)"]
        if isinstance(statement, Went):
            return [f"{self.shape.numbers[0]}.send(integer:{statement.number})"]
        return [f"setverdict({statement.word})"] if isinstance(statement, Verdict) else []

    def _ways(self, statement: Ways, depth: int) -> None:
        space = "  " * depth
        self.lines.add(f"{space}alt {{", statement.at)
        for way in statement.branches:
            self._way(way, depth + 1)
        self.lines.add(f"{space}}}")

    def _way(self, way: Way, depth: int) -> None:
        space = "  " * depth
        head = "[else]" if way.operation is None else f"[] {self._waited(way.operation)}"
        if not way.code:
            self.lines.add(f"{space}{head} {{ }}", way.at)
            return
        self.lines.add(f"{space}{head} {{", way.at)
        self.statements(way.code, depth + 1)
        self.lines.add(f"{space}}}")

    def _waited(self, operation: Got | GotDone | GotEnd | Ticked | Came) -> str:
        if isinstance(operation, Came):
            return f"{self.shape.numbers[1]}.receive(integer:{operation.number})"
        if isinstance(operation, GotEnd):
            return f"{self.shape.controls[0]}.receive(boolean:false)"
        return self._timer(operation)[0] if isinstance(operation, Ticked) else self._got(operation)

    def _timer(self, statement: Ticked | Unstarted) -> list[str]:
        """A start is written as a send, and the timeout or the `stop` receives its answer."""
        port = self.shape.timers[statement.timer]
        if isinstance(statement, Unstarted):
            return [f"{port}.send(boolean:false)"] * statement.count
        if statement.act is Ticking.START:
            return [f"{port}.send(boolean:true)"]
        self.lines.ticks.append(statement)
        return [f"{port}.receive(boolean:true)"]

    def _sent(self, statement: Sent) -> str:
        port = self.shape.loops.get(statement.port, statement.port)
        to = " to all component" if statement.to_all else ""
        if statement.to is not None:
            to = f" to {self._who(statement.to)}"
        return f"{port}.send({self._message(statement.message, statement.at)}){to}"

    def _message(self, message: Message, at: Token) -> str:
        if isinstance(message.form, Received):
            return message.form.symbol.name
        encoder = self.writer.encoder
        form = encoder.form_of(message.form, message.type, at)
        return f"{type_text(encoder.type_of(message.type))}:{form_text(form)}"

    def _who(self, who: Who) -> str:
        return self.writer.shapes[who].name if isinstance(who, int) else who.name

    def _got(self, operation: Got | GotDone) -> str:
        if isinstance(operation, GotDone):
            return f"{self.shape.controls[operation.component]}.receive(boolean:true)"
        wanted = f"({self._message(operation.message, operation.at)})" if operation.message else ""
        sender = f" from {self._who(operation.sender)}" if operation.sender is not None else ""
        text = f"{wanted}{sender}{self._redirect(operation)}"
        if operation.how == "check":
            return f"{operation.port}.check(receive{text})"
        return f"{operation.port}.{operation.how}{text}"

    def _redirect(self, operation: Got) -> str:
        words = []
        if operation.value is not None and operation.value.is_used:
            words.append(f"value {operation.value.name}")
        if operation.sent_by is not None and operation.sent_by.is_used:
            words.append(f"sender {operation.sent_by.name}")
        return " -> " + " ".join(words) if words else ""

    def _operated(self, statement: Operated) -> list[str]:
        if statement.is_all and not self.shape.extra_ports():
            return [f"all port.{statement.act}"]
        found = []
        for port in statement.ports:
            found.append(f"{port}.{statement.act}")
            if port in self.shape.loops:
                found.append(f"{self.shape.loops[port]}.{statement.act}")
        return found
