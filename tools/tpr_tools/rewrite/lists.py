"""Follows lists of statements along all paths, and goes back if a received message must be distinguished."""
from __future__ import annotations

from dataclasses import replace
from typing import Optional

from . import tree
from .emitted import Emitted, Got, GotDone, Verdict, Ways
from .evaluating import Evaluator
from .hoisting import Communicates, Hoister, expressions_of, key_of, names_beside
from .interleaving import Interleaving
from .labels import Labels, has_labels
from .paths import Checkpoint, Exit, Fork, Key, Path, Scope, Slot, Split, checkpoint, joined
from .refusing import Refusal
from .run import PortOf, Run, members_of
from .sorting import Asked, Sorted, sorted_ways
from .tokens import Token
from .tree import Expression, Statement, blocks_of
from .types import Type
from .values import Form, Mark, PortValue, Reference

Plan = Optional[tuple[tuple[int, ...], Form, "Plan", "Plan"]]


class ListFollower(Evaluator, Hoister, Interleaving):
    """Follows one behaviour. `ports` are those of its component; `plans` has, for each receive, the branches into which
    it is split."""

    def __init__(self, run: Run, own: int, type: Type, at: Token):
        super().__init__(run.program, own)
        self.run = run
        # Sorted paths agree in the messages that they took, so a message that isn't asked for any more keeps none of
        # them apart.
        self.spoken_in = run.program.asked_in if run.sorts else run.program.names_in
        self.flows, self.most_values = run.flows, run.options.values
        self.parameters = run.parameters
        self.type = type
        self.members = members_of(self.types, type, at, self.size_of)
        self.ports: dict[str, PortOf] = self.members.ports
        self.counted = 0
        self.sorted_ways = 0
        self.plans: dict[int, Plan] = {}
        self.frames: list[tuple[list[Statement], int] | frozenset[str]] = []
        self.results: list[Optional[Type]] = []
        self.hint = ""
        self.root = self.new_scope(None)
        self.has_verdict = run.program.has_word("getverdict")
        # A default may use its names wherever the script waits.
        altsteps = run.program.altsteps if run.program.has_word("activate") else []
        self.frames.append(frozenset().union(run.program.names_of_timers(), *map(run.program.reached_by, altsteps)))
        self._suffixes: dict[int, list[frozenset[str]]] = {}
        self.timers: dict[str, Token] = {}
        self._slices = {}

    def begin(self, path: Path) -> None:
        """Declares the component's ports and variables, as they are when its behaviour begins."""
        variables, root = path.state.variables, self.root.number
        for port in self.ports.values():
            variables[root, port.name] = Slot(port.type, PortValue(port.name))
        for name, ports in self.members.arrays.items():
            variables[root, name] = Slot(None, ports)
        for member in self.members.others:
            self.declare(member, path, self.root)

    def size_of(self, node: Expression) -> Form:
        return self.evaluate(node, self.nowhere(), None)

    # Lists of statements

    def statements(self, listed: list[Statement], path: Path, scope: Scope) -> list[Path]:
        """All paths after the list. If a message must be distinguished, goes back to where it was received."""
        points: list[Checkpoint] = []
        paths, index, above = [path], 0, path.fork
        open_now = (len(self.frames), len(self.results), self.depth)
        labels = Labels(listed)
        while index < len(listed):
            labels.land(index, paths)
            points.append(checkpoint(index, self.counted, self.run.written, paths))
            try:
                paths = self._one(listed, index, paths, scope, above)
            except Split as split:
                index, paths = self._back(points, split)
                labels.forget()
                self._close(open_now)
                continue
            if self.counted == points[-1].counted:
                points.pop()
            index = labels.next(index, paths)
        return paths

    def _back(self, points: list[Checkpoint], split: Split) -> tuple[int, list[Path]]:
        """The place before the statement that received the message, with a branch more planned for it."""
        while points and points[-1].counted > split.symbol.number:
            points.pop()
        if not points:
            raise split
        self.run.step(split.at)
        point = points.pop()
        self.plan([split])
        self.counted, self.run.written = point.counted, point.statements
        return point.index, point.restored()

    def plan(self, splits: list[Split]) -> None:
        """Adds planned branches for one message. Plans for later messages depended on its branches, and are dropped."""
        number = splits[0].symbol.number
        while self.plans and next(reversed(self.plans)) > number:
            self.plans.popitem()
        for split in splits:
            self.plans[number] = _extended(self.plans.get(number), list(split.symbol.facts.items()), split)

    def _close(self, open_then: tuple[int, int, int]) -> None:
        """Forgets the lists, calls and expressions that were left when going back."""
        self.is_looking = False
        frames, results, self.depth = open_then
        del self.frames[frames:], self.results[results:]

    def _one(
        self, listed: list[Statement], index: int, paths: list[Path], scope: Scope, above: Optional[Fork]
    ) -> list[Path]:
        found: list[Path] = []
        depth = len(self.frames)
        # A `goto` may lead back to earlier statements.
        self.frames.append((listed, 0 if has_labels(listed) else index))
        for path in paths:
            if path.exit is Exit.ON:
                found += self._guarded(listed[index], path, scope)
            else:
                found.append(path)
        del self.frames[depth:]
        if len(found) > 1 or found[0].fork is not None:
            self.frames.append((listed, 0 if has_labels(listed) else index + 1))
            found = joined(found, self.live(), self.has_verdict, self.leave_behind, self.run.sorts)
            found = [way.path for way in self.sorted([Sorted(one, True) for one in found], above, listed[index].at)]
            del self.frames[depth:]
        return found

    def sorted(self, ways: list[Sorted], above: Optional[Fork], at: Token) -> list[Sorted]:
        """The paths that come from the path with this fork, sorted if the run sorts."""
        if not self.run.sorts:
            return ways
        asked = Asked(self.live(), self.has_verdict, self.leave_behind, self._next_number, self.run.write)
        return sorted_ways(ways, above, at, asked)

    def _next_number(self) -> int:
        self.sorted_ways += 1
        return self.sorted_ways

    def _guarded(self, statement: Statement, path: Path, scope: Scope) -> list[Path]:
        """Follows a statement. A refusal is reported, and the rest is followed as if the statement weren't there."""
        open_now = (len(self.frames), len(self.results), self.depth)
        state, written = path.state.copy(), len(path.code)
        try:
            self.run.step(statement.at)
            return self.follow(statement, path, scope)
        except Communicates as met:
            self._close(open_now)
            return self._before(met, statement, Path(path.code, state, path.fork), written, scope)
        except Refusal as refusal:
            self.run.tell(refusal)
            self._close(open_now)
            self._lose(statement, path, scope)
            self._look_within(statement, path, scope)
            return [path]

    def _look_within(self, statement: Statement, path: Path, scope: Scope) -> None:
        """Looks for further refusals inside a statement that is refused as a whole; nothing of it is written."""
        open_now = (len(self.frames), len(self.results), self.depth)
        for block in blocks_of(statement):
            inner, scope_within = Path([], path.state.copy(), None), self.new_scope(scope)
            self.frames.append(self.program.names_in(statement))
            if isinstance(statement, tree.For):
                self._lose(statement.first, inner, scope_within)
            try:
                self.statements(block.statements, inner, scope_within)
            except (Refusal, Split):
                # This results from the earlier refusal.
                pass
            self._close(open_now)

    def _before(
        self, met: Communicates, statement: Statement, path: Path, written: int, scope: Scope
    ) -> list[Path]:
        """Follows a statement after a call in it that must be followed first."""
        listed = expressions_of(statement)
        depth = len(self.frames)
        try:
            if listed is None or len(path.code) != written:
                raise Refusal(met.at, met.reason)
            found = self.hoisted(met, listed, path, scope, lambda one: self._guarded(statement, one, scope), lambda one: one)
        except Refusal as refusal:
            self.run.tell(refusal)
            self._lose(statement, path, scope)
            found = [path]
        del self.frames[depth:]
        for one in found:
            one.state.variables.pop(key_of(met.call), None)
        return found

    def with_frame(self, names: frozenset[str]) -> None:
        self.frames.append(names)

    def is_apart(self, call: tree.Call, listed: list[Expression], path: Path) -> bool:
        """Whether nothing beside the call uses what the call may change."""
        beside = {name for node in listed for name in names_beside(node, call)}
        known = {name for _, name in path.state.variables}
        changed = set(self.program.reached_by(tree.word_called(call))) & known
        changed |= {name for item in call.arguments for name in names_beside(item.value, call)}
        return not beside & changed

    def _lose(self, statement: Statement, path: Path, scope: Scope) -> None:
        if isinstance(statement, tree.Declaration):
            for variable in statement.variables:
                path.state.variables[scope.number, variable.name] = Slot(None, Mark.LOST)
        for word in self.program.names_in(statement):
            key = self.find(word, scope, path)
            if key is not None and not isinstance(path.state.variables[key].value, (PortValue, Reference)):
                path.state.variables[key] = replace(path.state.variables[key], value=Mark.LOST)

    def leave_behind(self, path: Path, kept: set[Key]) -> None:
        """Called before a path joins others, with the variables that are kept."""
        raise NotImplementedError

    def live(self) -> frozenset[str]:
        """The names that may still be used after this point."""
        parts = []
        for frame in self.frames:
            parts.append(frame if isinstance(frame, frozenset) else self._suffix(*frame))
        return frozenset().union(*parts)

    def _suffix(self, listed: list[Statement], index: int) -> frozenset[str]:
        known = self._suffixes.get(id(listed))
        if known is None:
            known = [frozenset[str]()]
            for statement in reversed(listed):
                known.append(known[-1] | self.spoken_in(statement))
            known.reverse()
            self._suffixes[id(listed)] = known
        return known[index]

    def emit(self, path: Path, statement: Emitted) -> None:
        """Writes a statement, after everything that the behaviour must wait for before it continues."""
        if not isinstance(statement, Verdict):
            self.flush(path, statement.at)
        self.run.write(statement.at)
        self.run.has_waited = self.run.has_waited or isinstance(statement, (Got, Ways))
        self.run.has_forked = self.run.has_forked or isinstance(statement, Ways)
        path.code.append(statement)

    def flush(self, path: Path, at: Token) -> None:
        for number in sorted(path.state.awaited):
            self.run.write(at)
            path.code.append(GotDone(at, number))
        path.state.done |= path.state.awaited
        path.state.awaited = frozenset()

    # What follows a statement

    def follow(self, statement: Statement, path: Path, scope: Scope) -> list[Path]:
        raise NotImplementedError

    def declare(self, statement: tree.Declaration, path: Path, scope: Scope) -> list[Path]:
        raise NotImplementedError


def _asked_first(split: Split, template: Form, no: Plan) -> Plan:
    """A plan that asks for this template, and continues with the other plan if it isn't matched."""
    return (split.steps, template, None, no)


def _extended(plan: Plan, facts: list[tuple[tuple[tuple[int, ...], Form], bool]], split: Split) -> Plan:
    """The plan, extended at the end of the branch with these facts by everything that is now asked."""
    if plan is None:
        for template in reversed(split.templates):
            plan = _asked_first(split, template, plan)
        return plan
    steps, template, yes, no = plan
    is_yes = facts[0][1]
    if is_yes:
        return (steps, template, _extended(yes, facts[1:], split), no)
    return (steps, template, yes, _extended(no, facts[1:], split))
