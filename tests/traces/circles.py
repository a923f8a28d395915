"""Finds the lines on circles of "this line comes before that one"."""
from collections.abc import Iterator


def firsts_of_circles(behind: dict[int, list[int]]) -> Iterator[int]:
    """The first line of each circle, in their order: one can return to this line by going to what must come after,
    without passing a line that is earlier in the text. The first of them is the first line that is on any circle.

    If all lines without predecessors are removed, again and again, and then those without successors, the remaining
    lines are those on circles and those between two circles.
    """
    left = without_firsts(without_firsts(set(behind), behind), turned(behind))
    return (line for line in sorted(left) if comes_back(line, behind, {it for it in left if it > line}))


def turned(behind: dict[int, list[int]]) -> dict[int, list[int]]:
    """The same graph with its edges reversed."""
    before: dict[int, list[int]] = {line: [] for line in behind}
    for line, others in behind.items():
        for other in others:
            before[other].append(line)
    return before


def without_firsts(lines: set[int], behind: dict[int, list[int]]) -> set[int]:
    """The lines that remain if those without predecessors are removed, again and again."""
    left = set(lines)
    waits = {line: 0 for line in left}
    for line in left:
        for other in behind[line]:
            if other in left:
                waits[other] += 1
    free = [line for line in left if waits[line] == 0]
    while free:
        line = free.pop()
        left.discard(line)
        for other in behind[line]:
            if other in left:
                waits[other] -= 1
                if waits[other] == 0:
                    free.append(other)
    return left


def comes_back(line: int, behind: dict[int, list[int]], among: set[int]) -> bool:
    """Whether a path through `among` leads from the line back to it."""
    seen: set[int] = set()
    ahead = [line]
    while ahead:
        for other in behind[ahead.pop()]:
            if other == line:
                return True
            if other in among and other not in seen:
                seen.add(other)
                ahead.append(other)
    return False
