"""Operators and predefined functions on values that are known (ES 201 873-1, 7.1, 16.1.2 and Annex C)."""
from __future__ import annotations

from typing import Callable, Optional

from .predefined import BITWISE, CONVERSIONS, ENCODING, MOVING, all_ones_of, bitwise, moved
from .refusing import refuse
from .tokens import Token
from .values import Digits, Elements, Fields, Form, Mark, same

_NUMBERS = ("+", "-", "*", "/", "mod", "rem")
ORDERED = ("<", ">", "<=", ">=")


def computed(sign: str, left: Form, right: Form, at: Token) -> Form:
    """The result of an operator on two values."""
    if sign in ("==", "!="):
        return same(left, right) == (sign == "==")
    if sign in ("and", "or", "xor") and isinstance(left, bool) and isinstance(right, bool):
        return {"and": left and right, "or": left or right, "xor": left is not right}[sign]
    if sign == "&" and isinstance(left, str) and isinstance(right, str):
        return left + right
    if sign == "&" and isinstance(left, Digits) and isinstance(right, Digits) and left.letter == right.letter:
        return Digits(left.digits + right.digits, left.letter)
    if sign == "&" and isinstance(left, Elements) and isinstance(right, Elements):
        return Elements(left.items + right.items)
    if _is_number(left) and _is_number(right):
        assert isinstance(left, int) and isinstance(right, int)
        if sign in _NUMBERS:
            return _number(sign, left, right, at)
        if sign in ORDERED:
            return {"<": left < right, ">": left > right, "<=": left <= right, ">=": left >= right}[sign]
    if isinstance(left, float) and isinstance(right, float):
        return _of_floats(sign, left, right, at)
    found = bitwise(sign, left, right) if sign in BITWISE else moved(sign, left, right) if sign in MOVING else None
    return found if found is not None else refuse(at, f"`{sign}` isn't computed of these")


def _is_number(form: Form) -> bool:
    return isinstance(form, int) and not isinstance(form, bool)


def _number(sign: str, left: int, right: int, at: Token) -> int:
    if sign == "+":
        return left + right
    if sign == "-":
        return left - right
    if sign == "*":
        return left * right
    if right == 0:
        refuse(at, "this divides by 0")
    quotient = abs(left) // abs(right)
    quotient = quotient if (left < 0) == (right < 0) else -quotient
    if sign == "/":
        return quotient
    return left - right * quotient if sign == "rem" else left % abs(right)


def _of_floats(sign: str, left: float, right: float, at: Token) -> Form:
    if sign in ORDERED:
        return {"<": left < right, ">": left > right, "<=": left <= right, ">=": left >= right}[sign]
    if sign in ("+", "-", "*"):
        return {"+": left + right, "-": left - right, "*": left * right}[sign]
    if sign == "/" and right != 0:
        return left / right
    refuse(at, f"`{sign}` isn't computed of these floats")


def inverted(sign: str, value: Form, at: Token) -> Form:
    """The result of `not`, `-` or `+` on a value."""
    if sign == "not" and isinstance(value, bool):
        return not value
    if sign in ("-", "+") and isinstance(value, (int, float)) and not isinstance(value, bool):
        return -value if sign == "-" else value
    found = bitwise("xor4b", value, all_ones_of(value)) if sign == "not4b" else None
    return found if found is not None else refuse(at, f"`{sign}` isn't computed of this")


def length_of(value: Form) -> Optional[int]:
    """The length of a string or a list; for octets half the number of digits."""
    if isinstance(value, str):
        return len(value)
    if isinstance(value, Digits):
        return len(value.digits) // 2 if value.letter == "O" else len(value.digits)
    return len(value.items) if isinstance(value, Elements) and Mark.UNSET not in value.items else None


def _length(values: list[Form]) -> Optional[Form]:
    return length_of(values[0])


def _text_of_number(values: list[Form]) -> Optional[Form]:
    return str(values[0]) if _is_number(values[0]) else None


def _number_of_text(values: list[Form]) -> Optional[Form]:
    text = values[0]
    is_number = isinstance(text, str) and text.removeprefix("-").isdecimal() and text.isascii()
    return int(text) if isinstance(text, str) and is_number and len(text) < 20 else None


def _size(values: list[Form]) -> Optional[Form]:
    """The size of a value; for a record the number of fields that aren't left out."""
    value = values[0]
    return len(value.items) - value.items.count(Mark.OMIT) if isinstance(value, Fields) else length_of(value)


# Each has an example in tests/rewrites/. Functions that aren't listed aren't evaluated.
PREDEFINED: dict[str, tuple[int, Callable[[list[Form]], Optional[Form]]]] = {
    "lengthof": (1, _length),
    "sizeof": (1, _size),
    "int2str": (1, _text_of_number),
    "str2int": (1, _number_of_text),
    **CONVERSIONS,
}
CODECS = ("encvalue", "decvalue", "encvalue_unichar", "decvalue_unichar", "encvalue_o", "decvalue_o")


def predefined(word: str, values: list[Form], at: Token) -> Form:
    count, function = PREDEFINED[word]
    has_more = word in ENCODING and len(values) == count + 1
    found = function(values) if len(values) == count or has_more else None
    if found is None:
        refuse(at, f"`{word}` isn't computed of this")
    return found


