"""Inserts the facts that a branch asks of a message into its template."""
from __future__ import annotations

from typing import Optional

from .fitting import opened
from .refusing import refuse_open
from .tokens import Token
from .types import Kind, Type
from .values import Chosen, Elements, Fields, Form, Options, Wild, narrowed


def narrow(form: Form, type: Type, steps: tuple[int, ...], asked: Form, at: Token) -> Form:
    """The template, with `asked` in it at the end of these steps."""
    found = narrowed_at(form, type, steps, asked)
    if found is None:
        refuse_open(at, "what is asked of this message later isn't a template that can be written")
    return found


def narrowed_at(form: Form, type: Optional[Type], steps: tuple[int, ...], asked: Form) -> Optional[Form]:
    if not steps:
        return narrowed(form, asked)
    if type is None:
        return None
    if isinstance(form, Chosen):
        return _narrowed_choice(form, type, steps, asked)
    if form is Wild.ANY and type.kind is Kind.RECORD:
        form = opened(type)
    items: Optional[list[Form]] = list(form.items) if isinstance(form, (Fields, Elements)) else None
    if items is None or steps[0] >= len(items):
        return None
    inner = type.root.fields[steps[0]].type if type.kind is Kind.RECORD else type.root.element
    found = narrowed_at(items[steps[0]], inner, steps[1:], asked)
    if found is None:
        return None
    if found == Options(()):
        return found
    items[steps[0]] = found
    return Fields(tuple(items)) if type.kind is Kind.RECORD else Elements(tuple(items))


def _narrowed_choice(form: Chosen, type: Type, steps: tuple[int, ...], asked: Form) -> Optional[Form]:
    field = type.root.fields[steps[0]]
    found = narrowed_at(form.value, field.type, steps[1:], asked) if field.name == form.name else None
    return found if found is None or found == Options(()) else Chosen(form.name, found)
