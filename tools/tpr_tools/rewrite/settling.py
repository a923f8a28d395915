"""A received value that later statements compute with: its message gets a branch for each value that can come."""
from __future__ import annotations

from typing import NoReturn, Optional

from .flowing import Flows, part_at
from .narrowing import narrowed_at
from .paths import Split
from .refusing import Refusal, refuse, refuse_open
from .templates import Shaper
from .tokens import Token
from .types import Type
from .values import Chosen, Coming, ComponentValue, Elements, Excluded, Fields, Form, IfPresent, Options, Received

SENDER = (-1,)
COMPUTED = "this is computed from what was received"


class Settler(Shaper):
    # The messages that can come, if they are computed, and the most values by which a receive is split.
    flows: Optional[Flows] = None
    most_values = 0

    def settled(self, form: Form, at: Token, otherwise: str = COMPUTED) -> Form:
        """The form, if it contains no part of a received message; otherwise the message is split."""
        received = received_in(form)
        if received is not None:
            self.split(received, at, otherwise)
        return form

    def split(self, received: Received, at: Token, otherwise: str = COMPUTED) -> NoReturn:
        """Splits the message into branches for all values that it can have."""
        symbol, steps = received.symbol, received.steps
        if self.flows is None:
            refuse_open(at, otherwise)
        values = list(dict.fromkeys(_value_of(one, steps) for one in symbol.coming))
        if not values:
            # No message that can come is left: this place isn't reached.
            raise Refusal(at, "")
        if len(values) > self.most_values:
            count = len(values)
            refuse(at, f"{otherwise}, and {count} values can come there: --values {count} splits it by them")
        type = symbol.type if isinstance(symbol.type, Type) else None
        asked = [one for one in values if steps == SENDER or narrowed_at(symbol.template, type, steps, one) is not None]
        raise Split(symbol, steps, asked, at) if asked else Split(symbol, (), [symbol.coming[0].form], at)


def _value_of(one: Coming, steps: tuple[int, ...]) -> Form:
    if steps == SENDER:
        return ComponentValue(one.sender.component)
    return part_at(one.form, one.type if isinstance(one.type, Type) else None, steps)


def received_in(form: Form) -> Optional[Received]:
    """The first part of a received message in the form."""
    if isinstance(form, Received):
        return form
    inner: tuple[Form, ...] = ()
    if isinstance(form, (Fields, Elements, Options, Excluded)):
        inner = form.items
    elif isinstance(form, (Chosen, IfPresent)):
        inner = (form.value if isinstance(form, Chosen) else form.form,)
    return next((found for found in map(received_in, inner) if found is not None), None)
