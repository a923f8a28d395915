"""Paths that jump to a label (ES 201 873-1, 19.7 and 19.8): they continue at the label, in the list that they left or
in one around it. A cycle is unrolled, and one that changes nothing is refused.
"""
from __future__ import annotations

from typing import Optional

from . import tree
from .paths import Exit, Path, State
from .refusing import refuse_open
from .tree import Statement


def has_labels(listed: list[Statement]) -> bool:
    return any(isinstance(one, tree.Label) for one in listed)


def lost_label(paths: list[Path]) -> Optional[str]:
    """The label of a path that jumps out of a function, an altstep or a test case, which isn't allowed; the path
    continues here."""
    lost: Optional[str] = None
    for path in paths:
        if path.exit is Exit.JUMP:
            path.exit, lost = Exit.ON, lost or path.label
    return lost


class Labels:
    """The labels of a list of statements, and the state of the last single path that jumped back to one."""

    def __init__(self, listed: list[Statement]):
        self.listed = listed
        self.places = {one.name: place for place, one in enumerate(listed) if isinstance(one, tree.Label)}
        self.before: Optional[State] = None

    def land(self, index: int, paths: list[Path]) -> None:
        """Lets the paths that jump to the label at this place continue here."""
        here = self.listed[index]
        if isinstance(here, tree.Label):
            for path in paths:
                if path.exit is Exit.JUMP and path.label == here.name:
                    path.exit = Exit.ON

    def next(self, index: int, paths: list[Path]) -> int:
        """The next place to follow: at the end of the list, the first label that paths jump back to."""
        if index + 1 < len(self.listed) or not self.places:
            return index + 1
        back = [self.places[path.label] for path in paths if path.exit is Exit.JUMP and path.label in self.places]
        if back:
            self._look_at_circle(min(back), paths)
        for path in paths:
            if path.exit is (Exit.ON if back else Exit.BEHIND):
                path.exit = Exit.BEHIND if back else Exit.ON
        return min(back) if back else index + 1

    def forget(self) -> None:
        """Called when the list is followed again."""
        self.before = None

    def _look_at_circle(self, place: int, paths: list[Path]) -> None:
        if len(paths) == 1:
            if self.before is not None and self.before == paths[0].state:
                refuse_open(self.listed[place].at, "this loop never ends: a turn of it leaves all as it was")
            self.before = paths[0].state.copy()
