"""The parts of scripts of the full language that tools/rewrite can't carry over."""
from __future__ import annotations

from ..command import on_large_stack
from .instead import instead_of
from .rewriting import rewrite
from .tokens import Refused, Source


def refused_of(sources: list[Source]) -> list[Refused]:
    """Each place with its reason. It needs a large stack."""
    try:
        return rewrite(sources).refused
    except RecursionError:
        return [Refused(sources[0].file, 1, 1, "the text is nested too deep")]


def stays_of(file: str, data: bytes) -> list[str]:
    """The output of `explain --all` for a script: each place with its reason, and what to do instead."""
    found = on_large_stack(lambda: refused_of([Source(file, data)]))
    return [f"{one.text()}\n  instead: {instead_of(one.reason)}\n" for one in found]
