"""Follows loops turn by turn, and estimates what a loop or `repeat` will still write (ES 201 873-1, 19.4 to 19.6)."""
from __future__ import annotations

from typing import Callable, Optional

from . import tree
from .hoisting import Communicates, key_of
from .lists import ListFollower
from .paths import Exit, Path, Scope, Split, State, joined
from .refusing import Refusal, refuse_open
from .sorting import MOST_OF_TREE, Sorted
from .tokens import Token
from .tree import Expression, Statement

# The paths that continue after one turn.
Turn = Callable[[Path], list[Path]]


class Looper(ListFollower):
    def block(self, block: tree.Block, path: Path, scope: Scope) -> list[Path]:
        raise NotImplementedError

    def follow_for(self, statement: tree.For, path: Path, scope: Scope) -> list[Path]:
        inner = self.new_scope(scope)
        paths = self.follow(statement.first, path, inner)
        turns = self._turns(statement, statement.condition, statement.block, statement.step, paths, inner, False)
        return self.left(inner, turns)

    def follow_while(self, statement: tree.While, path: Path, scope: Scope) -> list[Path]:
        block, is_done = statement.block, statement.is_first_done
        return self._turns(statement, statement.condition, block, None, [path], scope, is_done)

    def _turns(
        self, loop: Statement, condition: Expression, block: tree.Block, step: Optional[Statement],
        paths: list[Path], scope: Scope, is_first_done: bool,
    ) -> list[Path]:
        """Follows the turns of a loop, on each path as long as its condition holds."""
        self.frames.append(self.spoken_in(loop))
        finished: list[Path] = []
        is_asked = not is_first_done
        before: Optional[State] = None
        above = paths[0].fork if len(paths) == 1 else None
        may_sort = len(paths) == 1
        while paths:
            written = self.run.written
            if len(paths) == 1 and paths[0].exit is Exit.ON:
                self._look_at_end(loop, condition, before, paths[0], scope)
                before = paths[0].state.copy()
            turned: list[Path] = []
            for path in paths:
                self.run.step(loop.at)
                turned += self._turned(condition if is_asked else None, block, path, scope, finished)
            is_asked = True
            # All paths are joined once for each turn, because there may be many.
            going_on = self._stepped(turned, step, scope, finished)
            paths = joined(going_on, self.live(), self.has_verdict, self.leave_behind, self.run.sorts)
            if may_sort:
                ways = [*(Sorted(one, False) for one in finished), *(Sorted(one, True) for one in paths)]
                ways = self.sorted(ways, above, loop.at)
                finished, paths = ([way.path for way in ways if way.goes_on is so] for so in (False, True))
            self.look_ahead(
                loop.at, self.run.written - written, paths,
                lambda one: self._stepped(self._turned(condition, block, one, scope, []), step, scope, []),
            )
        self.frames.pop()
        return finished

    def _look_at_end(
        self, loop: Statement, condition: Expression, before: Optional[State], path: Path, scope: Scope
    ) -> None:
        if before is not None and before == path.state:
            # The state of a component may change later.
            self.is_looking = self.program.has_word("running") or self.program.has_word("alive")
            self.evaluate(condition, path, scope) if self.is_looking else None
            self.is_looking = False
            refuse_open(loop.at, "this loop never ends: a turn of it leaves all as it was")

    def _turned(
        self, condition: Optional[Expression], block: tree.Block, path: Path, scope: Scope, finished: list[Path]
    ) -> list[Path]:
        """The paths after a turn, if the condition holds."""
        found: list[Path] = []
        for one, goes_on in self._asked_of(condition, path, scope) if condition is not None else [(path, True)]:
            if one.exit is Exit.ON and goes_on:
                found += self.block(block, one, scope)
            else:
                finished.append(one)
        return found

    def _asked_of(self, condition: Expression, path: Path, scope: Scope) -> list[tuple[Path, bool]]:
        """For each path, whether the condition of a loop holds; calls in it are followed before."""
        depth = len(self.frames)
        state = path.state.copy()
        try:
            return [(path, self.truth(self.evaluate(condition, path, scope), condition.at))]
        except Communicates as met:
            again = Path(path.code, state, path.fork)
            found = self.hoisted(
                met, [condition], again, scope, lambda one: self._asked_of(condition, one, scope), lambda one: (one, False)
            )
            del self.frames[depth:]
            for one, _ in found:
                one.state.variables.pop(key_of(met.call), None)
            return found

    def _stepped(
        self, turned: list[Path], step: Optional[Statement], scope: Scope, finished: list[Path]
    ) -> list[Path]:
        """The paths that continue after a turn and the loop's step; the others have finished the loop."""
        going_on: list[Path] = []
        for one in turned:
            if one.exit in (Exit.ON, Exit.CONTINUE):
                one.exit = Exit.ON
                going_on += self.follow(step, one, scope) if step else [one]
            else:
                one.exit = Exit.ON if one.exit is Exit.BREAK else one.exit
                finished.append(one)
        return going_on

    # How much more is written

    def look_ahead(self, at: Token, written: int, paths: list[Path], turn: Turn) -> None:
        """Ends early if many paths are going to write too much, if each further turn writes as much as the last."""
        run = self.run
        if len(paths) > 1 and written and run.written > max(MOST_OF_TREE, run.looked_ahead * 5 // 4):
            run.looked_ahead = run.written
            left = min(self._turns_left(turn, paths[place], place) for place in (0, -1))
            run.look_ahead(at, left * written, 2 * written > run.written)

    def _turns_left(self, turn: Turn, path: Path, place: int) -> int:
        """How many turns one path continues for, if it is followed alone, with at most half the steps that all took
        before. Nothing of this is written or counted."""
        run, open_now = self.run, (len(self.frames), len(self.results), self.depth)
        begun = self.counted, self.sorted_ways, run.written, run.steps
        most, run.written, run.steps = run.steps // 2, 0, 0
        count, ways = 0, [Path([], path.state.copy(), None)]
        try:
            while ways and run.steps < most:
                ways = turn(ways[place])
                count += bool(ways)
        except (Refusal, Split):
            # It can't be followed alone.
            self._close(open_now)
        self.counted, self.sorted_ways, run.written, run.steps = begun
        while self.plans and next(reversed(self.plans)) >= self.counted:
            self.plans.popitem()
        return count
