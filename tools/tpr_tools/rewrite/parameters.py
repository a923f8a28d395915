"""The values of module parameters that the command line gives."""
from __future__ import annotations

from .cursor import ReadFault
from .program import Program
from .reading_modules import ModuleReader
from .tokens import Refused, Source, refused_at
from .tree import Expression


def expressions_of(
    given: dict[str, str], program: Program
) -> tuple[dict[str, Expression], list[Refused]]:
    """Each value as an expression, and the faults in them."""
    values: dict[str, Expression] = {}
    wrong: list[Refused] = []
    for name, text in given.items():
        source = Source("--param", text.encode())
        reader = ModuleReader(source)
        constant = program.constants.get(name)
        is_of_case = any(parameter.name == name for case in program.cases.values() for parameter in case.parameters)
        if not is_of_case and (constant is None or not constant.is_parameter):
            wrong.append(refused_at(source.tokens[0], f"there is no module parameter `{name}`"))
            continue
        try:
            values[name] = reader.expression()
            if reader.token.text:
                reader.fail("nothing more is expected here")
        except ReadFault as fault:
            reader.tell(fault)
        wrong += reader.faults
    return values, wrong
