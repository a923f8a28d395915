"""Reads a script whole, and finds its faults in the order of docs/REFUSALS.md."""
from __future__ import annotations

from dataclasses import dataclass
from typing import Optional

from .bodies import check_bodies
from .faults import Faults, RuleFault
from .grammar import read_module
from .names import Names
from .setup import Setup
from .tokens import Text


@dataclass(frozen=True)
class Checked:
    """The definitions of a script, and the setup of its test case."""

    names: Names
    setup: Setup


def check_script(text: Text, faults: Optional[Faults] = None) -> Checked:
    """The checked script. Raises GrammarFault or RuleFault. The tokens are known to have no fault."""
    names = Names(text, read_module(text), faults or Faults())
    names.check()
    setup = Setup(names)
    setup.check()
    check_bodies(names, setup)
    return Checked(names, setup)


def faults_of(text: Text) -> list[RuleFault]:
    """The first fault, and the others that don't result from one. Raises GrammarFault."""
    faults = Faults(are_kept=True)
    try:
        check_script(text, faults)
    except RuleFault as last:
        faults.keep(last)
    return faults.kept
