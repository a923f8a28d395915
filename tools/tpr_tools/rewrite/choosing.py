"""Follows an `alt`, an `interleave` or a receiving operation into each of its branches (ES 201 873-1, 20 and 22)."""
from __future__ import annotations

from typing import Optional

from . import tree
from .closed import Awaited, Wanting
from .lists import Plan
from .leaves import Leaf, without_barred
from .narrowing import narrow
from .emitted import Code, Failed, Got, GotDone, GotEnd, Message, Ticked, Ticking, Way, Ways, Who
from .evaluating import SENDER
from .fitting import open_alternatives, type_at
from .guards import Expander, Guard, is_repeat_alone, may_repeat
from .interleaving import Opened
from .labels import lost_label
from .paths import Exit, Fork, Path, Scope, Split, checkpoint
from .refusing import refuse, refuse_open
from .sorting import Sorted
from .tokens import Token
from .tree import Receiving
from .types import Kind, Type
from .values import (
    Chosen, Coming, ComponentValue, Elements, Excluded, Facts, Fields, Form, Mark, Options, Received, Symbol, Wild,
    is_value, narrowed,
)

MOST_TURNS = 30
# The limit if the messages that can come are known.
MOST_KNOWN_TURNS = 5_000
# Each `alt` in a branch of another one opens two more brackets, and a script of the profile may have 32 open.
MOST_DEPTH = 14


class Chooser(Expander):
    def choose(self, statement: tree.Alt, path: Path, scope: Scope) -> list[Path]:
        return self._turn(statement, self.opened_by(statement, scope), path, scope, 0)

    def receive(self, statement: tree.Receive | tree.Find, path: Path, scope: Scope) -> list[Path]:
        """Follows a receiving operation outside an `alt`, which is an `alt` with a single branch (20.2, 22.2.2)."""
        branch = tree.Branch(statement.at, None, False, statement, None)
        return self.choose(tree.Alt(statement.at, [branch], False, statement.span), path, scope)

    def _turn(
        self, statement: tree.Alt, branches: list[Opened], path: Path, scope: Scope, count: int
    ) -> list[Path]:
        """The paths after an `alt`, turn by turn if paths are sorted; `count` says how often it was repeated."""
        if not self.run.sorts:
            return self._waited(statement, branches, path, scope, count)
        above, finished, again = path.fork, list[Path](), [path]
        while again:
            written = self.run.written
            again = [found for one in again for found in self._turned_again(statement, branches, one, scope, count, finished)]
            self.frames.append(self.spoken_in(statement))
            ways = [*(Sorted(one, False) for one in finished), *(Sorted(one, True) for one in again)]
            ways = self.sorted(ways, above, statement.at)
            self.frames.pop()
            finished, again = ([way.path for way in ways if way.goes_on is so] for so in (False, True))
            self.look_ahead(
                statement.at, self.run.written - written, again,
                lambda one: self._turned_again(statement, branches, one, scope, 1, []),
            )
            count += 1
        return finished

    def _turned_again(
        self, statement: tree.Alt, branches: list[Opened], path: Path, scope: Scope, count: int, finished: list[Path]
    ) -> list[Path]:
        """The paths of one turn that repeat the `alt`."""
        turned = self._apart(statement, branches, path, scope, count)
        finished += [one for one in turned if one.exit is not Exit.REPEAT]
        again = [one for one in turned if one.exit is Exit.REPEAT]
        for one in again:
            one.exit = Exit.ON
        return again

    def _apart(
        self, statement: tree.Alt, branches: list[Opened], path: Path, scope: Scope, count: int
    ) -> list[Path]:
        """Follows one turn on one path, and follows it again if a message of this turn must be distinguished."""
        begun, open_now = self.counted, (len(self.frames), len(self.results), self.depth)
        point = checkpoint(0, begun, self.run.written, [path])
        while True:
            try:
                return self._waited(statement, branches, path, scope, count)
            except Split as split:
                path = self._back([point], split)[1][0]
                self._close(open_now)

    def _waited(
        self, statement: tree.Alt, branches: list[Opened], path: Path, scope: Scope, count: int
    ) -> list[Path]:
        """Follows an `alt` once, with its repetitions if paths aren't sorted."""
        most = MOST_TURNS if self.flows is None else MOST_KNOWN_TURNS
        if count > most:
            refuse_open(statement.at, f"this is repeated more than {most} times")
        expansion = self.expand(branches, path)
        for guard in expansion.guards:
            guard.number = self.counted
            self.counted += 1
        leaves = self._told_apart(expansion.guards, path, count)
        self._add_end(statement, leaves)
        self.frames.append(self.spoken_in(statement))
        found: list[Path] = []
        for leaf, one in self._written(statement, leaves, path):
            found += self._follow_leaf(statement, branches, leaf, one, scope, count)
        if not found:
            # No message can reach any branch: the `alt` waits forever.
            path.exit = Exit.STUCK
            found = [path]
        self.frames.pop()
        for inner in expansion.scopes:
            found = self.left(inner, found)
        return found

    def _add_end(self, statement: tree.Alt, leaves: list[Leaf]) -> None:
        """Adds a branch for the end of the test case, which ends a component that still waits, if that matters."""
        if self.own in self.run.ending and leaves and not leaves[-1].guard.is_always:
            leaves.append(Leaf(Guard(statement.at, None, [], is_end=True), {}, None, None))

    def _written(
        self, statement: tree.Alt, leaves: list[Leaf], path: Path
    ) -> list[tuple[Leaf, Path]]:
        """Writes the branches, and returns the path in each of them."""
        if not leaves or all(leaf.is_discarding or leaf.guard.is_end for leaf in leaves):
            refuse(statement.at, "no branch of this ever ends it")
        if leaves[0].guard.is_always:
            return [(leaves[0], path)]
        leaves = without_barred(self._triggered(leaves))
        if len(leaves) == 1:
            if leaves[0].is_barred and self.ends_idle(statement, path):
                return []
            self.emit(path, self._operation(leaves[0], path))
            return [(leaves[0], path)]
        going_on = [leaf for leaf in leaves if not leaf.is_discarding and not leaf.is_barred]
        if not going_on and self.ends_idle(statement, path):
            return []
        depth = path.fork.depth + 1 if path.fork else 1
        if depth > MOST_DEPTH:
            refuse_open(statement.at, "what follows from the branches would be nested too deep")
        ways = Ways(statement.at, [])
        self.emit(path, ways)
        # If the messages that can come are known, and only one branch continues, its path continues after the `alt`.
        is_only = len(going_on) == 1 and self.flows is not None
        fork = path.fork if is_only else Fork(path.code, path.fork, len(going_on), depth)
        found: list[tuple[Leaf, Path]] = []
        for leaf in leaves:
            code: Code = []
            operation = None if leaf.guard.is_always else self._operation(leaf, path)
            ways.branches.append(Way(leaf.guard.at, operation, code))
            if leaf.is_barred:
                code.append(Failed(leaf.guard.at))
            elif not leaf.is_discarding:
                found.append((leaf, Path(path.code if is_only else code, path.state.copy(), fork)))
        return found

    def ends_idle(self, statement: tree.Alt, path: Path) -> bool:
        """Called if no message can come any more: whether the behaviour ends there."""
        return False

    def _triggered(self, leaves: list[Leaf]) -> list[Leaf]:
        """`[] p.receive(x) {..} [] p.receive { repeat; }` becomes `p.trigger(x)`."""
        if len(leaves) != 2 or not leaves[1].is_discarding or leaves[0].is_never:
            return leaves
        first = leaves[0]
        if first.how is not Receiving.RECEIVE or first.guard.port != leaves[1].guard.port:
            return leaves
        first.how = Receiving.TRIGGER
        return [first]

    def _operation(self, leaf: Leaf, path: Path) -> Got | GotDone | GotEnd | Ticked:
        guard = leaf.guard
        if guard.component is not None:
            return GotDone(guard.at, guard.component)
        if guard.timer is not None:
            return Ticked(guard.at, guard.timer[1].name, Ticking.EXPIRE)
        if guard.is_end:
            return GotEnd(guard.at)
        assert leaf.how is not None
        path.state.used |= {guard.port}
        if guard.port in path.state.left:
            refuse(guard.at, f"`{guard.port}` was disconnected or unmapped before this")
        got = Got(guard.at, leaf.how.value, guard.port, leaf.exact or leaf.message, leaf.sender)
        leaf.got = got
        return got

    # Leaves

    def _told_apart(self, guards: list[Guard], path: Path, count: int) -> list[Leaf]:
        """The leaves. If paths are sorted, messages are split before anything after them is followed."""
        while True:
            leaves = self._leaves(guards, path, count)
            splits = [split for leaf in leaves if self.run.sorts for split in self._splits_of(leaf)]
            if not splits:
                return leaves
            self.run.step(splits[0].at)
            self.plan([split for split in splits if split.symbol.number == splits[0].symbol.number])

    def _splits_of(self, leaf: Leaf) -> list[Split]:
        """Splits by the senders, so that the number of messages from each is certain; then by the values that are
        kept."""
        message, redirect = leaf.message, leaf.guard.redirect
        senders = list(dict.fromkeys(one.sender.component for one in leaf.coming or ()))
        if len(senders) > 1 and -1 not in senders and leaf.how is not Receiving.CHECK:
            return [Split(_symbol_of(leaf, None), SENDER, [ComponentValue(one) for one in senders[:-1]], leaf.guard.at)]
        try:
            if leaf.coming and message and not is_value(message.form) and redirect and (redirect.value or redirect.parts):
                self._split_at_once(Received(_symbol_of(leaf, message)), redirect.at)
        except Split as split:
            return [split]
        return []

    def _leaves(self, guards: list[Guard], path: Path, count: int) -> list[Leaf]:
        found: list[Leaf] = []
        for number, guard in enumerate(guards):
            if guard.how is None:
                found.append(Leaf(guard, {}, None, None))
                continue
            if self._is_discarding(guard, guards[:number]):
                found.append(self._discarding(guard))
                continue
            planned = self._planned(guard, self.plans.get(guard.number), {}, guard.message, guard.sender)
            for leaf in planned[:-1]:
                # A `trigger` would discard messages that only later branches accept.
                leaf.how = Receiving.RECEIVE if leaf.how is Receiving.TRIGGER else leaf.how
            found += planned
        if self.flows is not None:
            self._bar(found, guards, path)
            return found
        return self._counted(found, path) if count else found

    def _bar(self, leaves: list[Leaf], guards: list[Guard], path: Path) -> None:
        """Sets the messages that can reach each branch: those that can be next at its port, that it accepts, and that
        no earlier branch takes."""
        # A `trigger` also discards for the branches before it.
        discarded = {leaf.guard.port for leaf in leaves if leaf.is_discarding or leaf.guard.how is Receiving.TRIGGER}
        for leaf in leaves:
            guard = leaf.guard
            if guard.how is None or leaf.is_discarding:
                continue
            before: list[Wanting] = [one for one in guards[: guards.index(guard)] if one.port == guard.port and one.how]
            is_dropping = guard.how is Receiving.TRIGGER or guard.port in discarded
            leaf.awaited = Awaited(guard, leaf.facts, before, is_dropping)
            leaf.coming = self.coming_to(leaf.awaited, path)
            leaf.has_several_peers = len({end.component for end in self.peers_of(guard.port, path)}) > 1

    def _planned(
        self, guard: Guard, plan: Plan, facts: Facts, message: Optional[Message], sender: Optional[Who]
    ) -> list[Leaf]:
        if plan is None:
            return [Leaf(guard, facts, message, sender)]
        steps, asked, yes, no = plan
        narrow_message, narrow_sender = message, sender
        if steps == SENDER:
            assert isinstance(asked, ComponentValue)
            narrow_sender = asked.number
        else:
            assert message is not None
            form = narrow(message.form, message.type, steps, asked, guard.at)
            narrow_message = Message(message.type, form)
        held = {**facts, (steps, asked): True}
        missed = {**facts, (steps, asked): False}
        first = [] if narrow_message and narrow_message.form == Options(()) else self._planned(
            guard, yes, held, narrow_message, narrow_sender
        )
        if first and steps != SENDER and message is not None and _has_no_more(message, steps, missed):
            return first
        return first + self._planned(guard, no, missed, message, sender)

    def _is_discarding(self, guard: Guard, before: list[Guard]) -> bool:
        """Whether the branch takes all messages that reach it, and then only repeats the `alt`."""
        if guard.how is not Receiving.RECEIVE or guard.sender is not None or guard.redirect is not None:
            return False
        if not is_repeat_alone(guard.bodies):
            return False
        for type in self.received_types(guard.port):
            if not any(_takes_all(other, guard.port, type) for other in [*before, guard]):
                return False
        return True

    def _discarding(self, guard: Guard) -> Leaf:
        type = self.received_types(guard.port)[0]
        leaf = Leaf(guard, {}, Message(type, Excluded((Wild.ANY,))), None)
        leaf.how = Receiving.TRIGGER
        leaf.is_discarding = True
        return leaf

    def _counted(self, leaves: list[Leaf], path: Path) -> list[Leaf]:
        """For a repeated `alt`: a branch that repeats it is closed once all messages that can come have been taken."""
        taken = dict(path.state.taken)
        going_on: list[Leaf] = []
        for leaf in leaves:
            guard = leaf.guard
            is_repeating = any(may_repeat(body.block) for body in guard.bodies)
            if guard.how is not None and is_repeating and not leaf.is_discarding:
                key = (self.own, guard.port)
                self.run.counted.add(key)
                leaf.is_never = taken.get(guard.port, 0) >= self.run.most.get(key, 0)
            if not leaf.is_never:
                going_on.append(leaf)
        return going_on if any(not leaf.is_discarding for leaf in going_on) else leaves

    # After the operation

    def _follow_leaf(
        self, statement: tree.Alt, branches: list[Opened], leaf: Leaf, path: Path, scope: Scope, count: int
    ) -> list[Path]:
        guard = leaf.guard
        if leaf.is_never or leaf.is_barred:
            path.exit = Exit.STUCK
            return [path]
        if guard.is_end:
            path.exit = Exit.END
            return [path]
        if guard.component is not None:
            path.state.done |= {guard.component}
        elif guard.timer is not None:
            self.set_timer(*guard.timer, False, path, guard.at)
        elif guard.how is not None:
            if leaf.coming is not None and leaf.awaited is not None:
                self.note_got(leaf.awaited, leaf.coming, path)
            self._redirect(leaf, path, scope)
            if guard.how is not Receiving.CHECK:
                taken = dict(path.state.taken)
                taken[guard.port] = taken.get(guard.port, 0) + 1
                path.state.taken = tuple(sorted(taken.items()))
        found: list[Path] = []
        for one in self._bodies(leaf, path):
            found += self._behind(statement, branches, leaf, one, scope, count)
        return found

    def _bodies(self, leaf: Leaf, path: Path) -> list[Path]:
        paths = [path]
        for body in leaf.guard.bodies:
            found: list[Path] = []
            for one in paths:
                found += self.block(body.block, one, body.scope) if one.exit is Exit.ON else [one]
            if body.is_of_altstep and any(one.exit is Exit.RETURN for one in found):
                refuse(body.block.at, "`return` in an altstep isn't carried over")
            if body.is_of_altstep and lost_label(found) is not None:
                refuse(body.block.at, "a `goto` in an altstep jumps within its own block alone")
            paths = found
        return paths

    def _behind(
        self, statement: tree.Alt, branches: list[Opened], leaf: Leaf, path: Path, scope: Scope, count: int
    ) -> list[Path]:
        if path.exit is Exit.REPEAT:
            if self.run.sorts:
                return [path]
            path.exit = Exit.ON
            return self._turn(statement, branches, path, scope, count + 1)
        if path.exit is Exit.BREAK:
            path.exit = Exit.ON
            return [path]
        if not statement.is_interleave or path.exit is not Exit.ON or leaf.guard.source is None:
            return [path]
        found: list[Path] = []
        for one, rests in self.gone_on(branches[leaf.guard.source].behind, path):
            is_left = one.exit is Exit.BREAK
            one.exit = Exit.ON if is_left else one.exit
            found += self._turn(statement, self.opened(rests), one, scope, 0) if rests and not is_left else [one]
        return found

    def _redirect(self, leaf: Leaf, path: Path, scope: Scope) -> None:
        redirect, guard = leaf.guard.redirect, leaf.guard
        if redirect is None:
            return
        where = guard.redirect_scope or scope
        if redirect.index is not None:
            if guard.index is None:
                refuse(redirect.at, "this redirect isn't carried over")
            key, steps = self.target(redirect.index, path, where)
            self.store(key, steps, guard.index, path, redirect.at)
        if redirect.value is not None or redirect.parts:
            self._redirect_value(leaf, redirect, path, where)
        if redirect.sender is not None:
            self._redirect_sender(leaf, redirect.sender, path, where)

    def _redirect_value(
        self, leaf: Leaf, redirect: tree.Redirect, path: Path, scope: Scope
    ) -> None:
        message = leaf.message
        if message is None:
            refuse(redirect.at, "a value without a type is redirected")
        value: Form = message.form
        if not is_value(value) and leaf.got is not None:
            leaf.got.value = symbol = _symbol_of(leaf, message)
            value = Received(symbol)
        if redirect.value is not None:
            self._store_message(redirect.value, value, message.type, path, scope)
        for target, part in redirect.parts:
            steps, type = self._steps(part, message.type)
            self._store_message(target, self.part(value, steps), type, path, scope)

    def _split_at_once(self, received: Received, at: Token) -> None:
        """If paths are sorted, splits the message into a branch for each value: paths with the same value agree, but
        those with the same template don't."""
        if self.run.sorts and 0 < len({one.form for one in received.symbol.coming}) <= self.most_values:
            self.split(received, at)

    def _steps(self, part: tree.Expression, type: Type) -> tuple[tuple[int, ...], Type]:
        """The steps to a part of the received value, given by a field name or a chain of names, and its type."""
        if isinstance(part, tree.FieldOf):
            steps, type = self._steps(part.value, type)
        else:
            steps = ()
        if not isinstance(part, (tree.Name, tree.FieldOf)) or type.kind is not Kind.RECORD:
            refuse(part.at, "this part of a message isn't redirected here")
        number = type.field_number(part.word)
        if number is None:
            refuse(part.at, f"there is no field `{part.word}`")
        if type.root.fields[number].is_optional:
            refuse_open(part.at, f"whether `{part.word}` was received is open here")
        return (*steps, number), type.root.fields[number].type

    def _store_message(
        self, target: tree.Expression, value: Form, type: Type, path: Path, scope: Scope
    ) -> None:
        declared = self.type_of(target, path, scope)
        if declared is None or declared.root is not type.root:
            refuse(target.at, f"this variable hasn't the type `{type.name}` of the message")
        key, steps = self.target(target, path, scope)
        if isinstance(value, Received) and not value.symbol.hint:
            value.symbol.hint = key[1]
        self.store(key, steps, value, path, target.at)

    def _redirect_sender(self, leaf: Leaf, target: tree.Expression, path: Path, scope: Scope) -> None:
        key, steps = self.target(target, path, scope)
        value: Form = Mark.UNSET
        if isinstance(leaf.sender, int):
            value = ComponentValue(leaf.sender)
        elif leaf.only_sender is not None and leaf.got is not None:
            leaf.got.sender = leaf.only_sender
            value = ComponentValue(leaf.only_sender)
        elif leaf.got is not None:
            symbol = _symbol_of(leaf, None)
            symbol.is_sender, symbol.hint = True, key[1]
            numbers = [end.component for end in self.peers_of(leaf.guard.port, path)]
            symbol.peers = tuple(dict.fromkeys(numbers))
            self._split_at_once(Received(symbol, SENDER), target.at)
            leaf.got.sent_by = symbol
            value = Received(symbol, SENDER)
        self.store(key, steps, value, path, target.at)


def _symbol_of(leaf: Leaf, message: Optional[Message]) -> Symbol:
    symbol = Symbol(leaf.guard.number, message.type.root if message else None, message.form if message else Wild.ANY, "")
    symbol.facts, symbol.coming = leaf.facts, tuple(leaf.coming or ())
    return symbol


def _takes_all(guard: Guard, port: str, type: Type) -> bool:
    if guard.how not in (Receiving.RECEIVE, Receiving.TRIGGER) or guard.port != port or guard.sender is not None:
        return False
    message = guard.message
    return message is None or (message.type.root is type.root and message.form is Wild.ANY)


def _has_no_more(message: Message, steps: tuple[int, ...], facts: Facts) -> bool:
    """Whether each alternative of the union at these steps has a branch before."""
    type = type_at(message.type, steps)
    return type is not None and type.kind is Kind.UNION and not open_alternatives(facts, steps, type)
