"""The branches of an `interleave`: each continues to its own next wait, and the script waits for all these at once (ES
201 873-1, 20.4).

Only a `break` leaves a branch, no loop and no function in it waits, and no `alt` in it has an `[else]` or an altstep.
"""
from __future__ import annotations

from dataclasses import dataclass
from typing import NamedTuple, Optional

from . import tree
from .paths import Exit, Path, Scope
from .program import Program
from .refusing import refuse
from .tree import Statement, blocks_of

_PLAIN = (tree.SetVerdict, tree.Dropped, tree.Send, tree.Assignment, tree.Operate, tree.CallStatement, tree.Declaration)
_WAITING = (tree.Receive, tree.Find)


@dataclass(frozen=True)
class Rest:
    """The remaining part of a branch: the lists of statements that it is in, with the place in each, the innermost
    last; and the branches of an inner `interleave` that it has reached."""

    lists: tuple[tuple[list[Statement], int, Scope], ...]
    inner: tuple[Rest, ...] = ()

    def behind(self, block: Optional[tree.Block], scope: Scope) -> Rest:
        """The remaining part after the current statement, or from the beginning of a block in it."""
        listed, at, own = self.lists[-1]
        inside = ((block.statements, 0, scope),) if block is not None else ()
        return Rest((*self.lists[:-1], (listed, at + 1, own), *inside))


class Opened(NamedTuple):
    """A branch that is waited for, in its scope. A branch of an `interleave` has no block, but the remaining parts of
    all branches."""

    branch: tree.Branch
    scope: Scope
    behind: tuple[Rest, ...] = ()


class Interleaving:
    """The methods of a behaviour's follower that are needed here; this class is a part of it."""

    program: Program
    _slices: dict[tuple[int, int, int], list[Statement]]

    def new_scope(self, above: Optional[Scope]) -> Scope:
        raise NotImplementedError

    def statements(self, listed: list[Statement], path: Path, scope: Scope) -> list[Path]:
        raise NotImplementedError

    def left(self, scope: Scope, paths: list[Path]) -> list[Path]:
        raise NotImplementedError

    def chosen_block(self, statement: Statement, path: Path, scope: Scope) -> Optional[tree.Block]:
        raise NotImplementedError

    def opened_by(self, statement: tree.Alt, scope: Scope) -> list[Opened]:
        if not statement.is_interleave:
            return [Opened(branch, scope) for branch in statement.branches]
        for branch in statement.branches:
            if branch.is_else or branch.guard is not None or not isinstance(branch.event, _WAITING):
                refuse(branch.at, "a branch of an `interleave` has a receiving operation alone here")
        for one in (one for block in blocks_of(statement) for one in block.statements):
            self._look_at(one, (tree.Leaving.BREAK,))
            if any(self.program.waits(name) for name in self.program.names_in(one) if self._is_called(name)):
                refuse(one.at, "in a branch of an `interleave` no function is called here that waits")
        return self.opened(self._rests_of(statement, scope))

    def _rests_of(self, statement: tree.Alt, scope: Scope) -> tuple[Rest, ...]:
        alone = [tree.Alt(one.at, [one], False, statement.span) for one in statement.branches]
        return tuple(Rest((([one], 0, self.new_scope(scope)),)) for one in alone)

    def opened(self, rests: tuple[Rest, ...]) -> list[Opened]:
        """The operations that are waited for, and how the script continues after each."""
        found: list[Opened] = []
        for place, rest in enumerate(rests):
            before, after = rests[:place], rests[place + 1 :]
            for branch, scope, taken in self._waits_of(rest):
                found.append(Opened(branch, scope, (*before, taken, *after)))
        return found

    def _waits_of(self, rest: Rest) -> list[tuple[tree.Branch, Scope, Rest]]:
        if rest.inner:
            return [(one.branch, one.scope, Rest(rest.lists, one.behind)) for one in self.opened(rest.inner)]
        listed, at, scope = rest.lists[-1]
        statement = listed[at]
        if isinstance(statement, _WAITING):
            return [(tree.Branch(statement.at, None, False, statement, None), scope, rest.behind(None, scope))]
        assert isinstance(statement, tree.Alt)
        return [
            (tree.Branch(one.at, one.guard, False, one.event, None), scope, rest.behind(one.block, self.new_scope(scope)))
            for one in statement.branches
        ]

    def gone_on(self, rests: tuple[Rest, ...], path: Path) -> list[tuple[Path, tuple[Rest, ...]]]:
        """For each path, all branches that haven't ended, at their next waits."""
        ways: list[tuple[Path, tuple[Rest, ...]]] = [(path, ())]
        for rest in rests:
            ways = [(found, (*before, *more)) for one, before in ways for found, more in self._go_on(rest, one)]
        return ways

    def _go_on(self, rest: Rest, path: Path) -> list[tuple[Path, tuple[Rest, ...]]]:
        if path.exit is not Exit.ON or not rest.lists:
            return [(path, ())]
        if rest.inner:
            return [way for one, inner in self.gone_on(rest.inner, path) for way in self._go_within(rest, inner, one)]
        listed, at, scope = rest.lists[-1]
        end = next((place for place in range(at, len(listed)) if _waits_in(listed[place])), len(listed))
        if end > at:
            # Each part of a list is kept, so that no other gets its number.
            part = self._slices.setdefault((id(listed), at, end), listed[at:end])
            behind = Rest((*rest.lists[:-1], (listed, end, scope)))
            return [way for one in self.statements(part, path, scope) for way in self._go_on(behind, one)]
        if at == len(listed):
            return self._go_on(Rest(rest.lists[:-1]), self.left(scope, [path])[0])
        statement = listed[at]
        if isinstance(statement, tree.Alt) and statement.is_interleave:
            return [(path, (Rest(rest.lists, self._rests_of(statement, scope)),))]
        if isinstance(statement, (*_WAITING, tree.Alt)):
            return [(path, (rest,))]
        return self._go_on(rest.behind(self.chosen_block(statement, path, scope), self.new_scope(scope)), path)

    def _go_within(self, rest: Rest, inner: tuple[Rest, ...], path: Path) -> list[tuple[Path, tuple[Rest, ...]]]:
        if not inner:
            return self._go_on(rest.behind(None, rest.lists[-1][2]), path)
        return [(path, (Rest(rest.lists, inner),))]

    def _look_at(self, statement: Statement, leaving: tuple[tree.Leaving, ...]) -> None:
        """Checks a statement of a branch; `leaving` has the words that may leave it: a `break` leaves the `interleave`,
        or a loop in it."""
        is_interleave = isinstance(statement, tree.Alt) and statement.is_interleave
        is_loop = isinstance(statement, (tree.For, tree.While))
        is_left = isinstance(statement, tree.Leave) and statement.how in leaving
        is_plain = isinstance(statement, _PLAIN) and not _ends_itself(statement) or is_left
        if is_loop and _waits_in(statement) or not is_plain and not is_loop and not isinstance(statement, _WITH_BLOCKS):
            refuse(statement.at, "in a branch of an `interleave` no loop waits, and nothing leaves it")
        for branch in statement.branches if isinstance(statement, tree.Alt) else []:
            has_guard = is_interleave and branch.guard is not None
            if has_guard or not isinstance(branch.event, _WAITING):
                refuse(branch.at, "in a branch of an `interleave` an `alt` has receiving operations alone here")
        for inner in (one for block in blocks_of(statement) for one in block.statements):
            self._look_at(inner, _OF_LOOP if is_loop else () if isinstance(statement, tree.Alt) else leaving)

    def _is_called(self, name: str) -> bool:
        return name in self.program.functions or name in self.program.altsteps


_OF_LOOP = (tree.Leaving.BREAK, tree.Leaving.CONTINUE)
_WITH_BLOCKS = (*_WAITING, tree.Alt, tree.If, tree.Select, tree.Block)


def _waits_in(statement: Statement) -> bool:
    return isinstance(statement, (*_WAITING, tree.Alt)) or any(
        _waits_in(one) for block in blocks_of(statement) for one in block.statements
    )


def _ends_itself(statement: Statement) -> bool:
    return isinstance(statement, tree.Operate) and isinstance(statement.target, tree.Special)
