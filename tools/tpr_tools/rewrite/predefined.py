"""Predefined functions that convert values of one kind to another (ES 201 873-1, 16.1.2 and Annex C.1 to C.4)."""
from __future__ import annotations

import re
from typing import Callable, Optional

from .patterns import NotRead, group_of, read_pattern
from .types import UNIVERSAL
from .values import Digits, Elements, Form

Computed = Callable[[list[Form]], Optional[Form]]
_BITS = {"B": 1, "H": 4, "O": 4}
_PLACES = {"bit": "B", "hex": "H", "oct": "O"}


def _is_number(form: Form) -> bool:
    return isinstance(form, int) and not isinstance(form, bool)


def _bits_of(form: Form) -> Optional[str]:
    """The value as bits."""
    if not isinstance(form, Digits):
        return None
    if form.letter == "B":
        return form.digits
    return "".join(f"{int(digit, 16):04b}" for digit in form.digits)


def _of_bits(bits: str, letter: str) -> Form:
    """The value with these bits, filled with zeros on the left."""
    if letter == "B":
        return Digits(bits, "B")
    whole = 8 if letter == "O" else 4
    bits = bits.rjust(-(-len(bits) // whole) * whole, "0")
    return Digits("".join(f"{int(bits[at : at + 4], 2):X}" for at in range(0, len(bits), 4)), letter)


def _to_digits(letter: str) -> Computed:
    def compute(values: list[Form]) -> Optional[Form]:
        bits = _bits_of(values[0])
        return None if bits is None else _of_bits(bits, letter)

    return compute


def _to_integer(values: list[Form]) -> Optional[Form]:
    bits = _bits_of(values[0])
    return None if bits is None else int(bits or "0", 2)


def _to_text(values: list[Form]) -> Optional[Form]:
    return values[0].digits if isinstance(values[0], Digits) else None


def _from_integer(letter: str) -> Computed:
    def compute(values: list[Form]) -> Optional[Form]:
        number, length = values
        if not _is_number(number) or not _is_number(length):
            return None
        assert isinstance(number, int) and isinstance(length, int)
        bits = length * (8 if letter == "O" else _BITS[letter])
        if number < 0 or length < 0 or bits > 4096 or number >= 1 << bits:
            return None
        return _of_bits(f"{number:0{bits}b}" if bits else "", letter)

    return compute


def _from_text(letter: str) -> Computed:
    def compute(values: list[Form]) -> Optional[Form]:
        text = values[0]
        allowed = "01" if letter == "B" else "0123456789abcdefABCDEF"
        if not isinstance(text, str) or set(text) - set(allowed):
            return None
        if letter == "O" and len(text) % 2:
            text = f"0{text}"
        return Digits(text.upper(), letter)

    return compute


def _char_to_integer(values: list[Form]) -> Optional[Form]:
    text = values[0]
    return ord(text) if isinstance(text, str) and len(text) == 1 else None


def _integer_to_char(values: list[Form]) -> Optional[Form]:
    number = values[0]
    is_char = _is_number(number) and isinstance(number, int) and 0 <= number < 128
    return chr(number) if is_char and isinstance(number, int) else None


def _integer_to_universal(values: list[Form]) -> Optional[Form]:
    number = values[0]
    is_char = _is_number(number) and isinstance(number, int) and 0 <= number < 0x110000 and not 0xD800 <= number < 0xE000
    return chr(number) if is_char and isinstance(number, int) else None


def _quadruple(values: list[Form]) -> Optional[Form]:
    """`char(group, plane, row, cell)`, a character by its place in ISO/IEC 10646."""
    places = [value for value in values if isinstance(value, int) and not isinstance(value, bool) and 0 <= value < 256]
    return _integer_to_universal([int.from_bytes(bytes(places), "big")]) if len(places) == len(values) else None


def _char_to_octets(values: list[Form]) -> Optional[Form]:
    text = values[0]
    if not isinstance(text, str) or any(ord(letter) > 127 for letter in text):
        return None
    return Digits("".join(f"{ord(letter):02X}" for letter in text), "O")


def _octets_to_char(values: list[Form]) -> Optional[Form]:
    octets = values[0]
    if not isinstance(octets, Digits) or octets.letter != "O":
        return None
    codes = bytes.fromhex(octets.digits)
    return codes.decode("ascii") if all(code < 128 for code in codes) else None


_ENCODINGS = {
    "UTF-8": "utf-8", "UTF-16": "utf-16-be", "UTF-16BE": "utf-16-be", "UTF-16LE": "utf-16-le",
    "UTF-32": "utf-32-be", "UTF-32BE": "utf-32-be", "UTF-32LE": "utf-32-le",
}
_MARKS = ("0000FEFF", "FFFE0000", "EFBBBF", "FEFF", "FFFE")


def _octets_to_universal(values: list[Form]) -> Optional[Form]:
    """The text of octets without a byte order mark, because a mark could be read in more than one way."""
    octets, encoding = values[0], values[1] if len(values) > 1 else "UTF-8"
    if not isinstance(octets, Digits) or octets.letter != "O" or octets.digits.startswith(_MARKS):
        return None
    known = _ENCODINGS.get(encoding) if isinstance(encoding, str) else None
    try:
        return bytes.fromhex(octets.digits).decode(known) if known else None
    except UnicodeDecodeError:
        return None


def _universal_to_octets(values: list[Form]) -> Optional[Form]:
    """The octets in UTF-8. For any other encoding it is open whether a byte order mark comes first."""
    text, encoding = values[0], values[1] if len(values) > 1 else "UTF-8"
    if not isinstance(text, str) or encoding != "UTF-8":
        return None
    return Digits(text.encode("utf-8").hex().upper(), "O")


def _without_mark(values: list[Form]) -> Optional[Form]:
    """`remove_bom`; refuses octets that begin with the marks of two encodings."""
    octets = values[0]
    if not isinstance(octets, Digits) or octets.letter != "O" or octets.digits.startswith("FFFE0000"):
        return None
    mark = next((mark for mark in _MARKS if octets.digits.startswith(mark)), "")
    return Digits(octets.digits.removeprefix(mark), "O")


def _integer_to_float(values: list[Form]) -> Optional[Form]:
    number = values[0]
    return float(number) if _is_number(number) and isinstance(number, int) and abs(number) < 1 << 53 else None


def _float_to_integer(values: list[Form]) -> Optional[Form]:
    number = values[0]
    return int(number) if isinstance(number, float) and abs(number) < 1 << 53 else None


def _text_to_float(values: list[Form]) -> Optional[Form]:
    text = values[0]
    is_float = isinstance(text, str) and re.fullmatch(r"-?[0-9]+(\.[0-9]+)?([eE][-+]?[0-9]{1,2})?", text, re.ASCII)
    return float(text) if is_float and isinstance(text, str) else None


def _any_to_text(values: list[Form]) -> Optional[Form]:
    """The text of values that can be written in only one way."""
    value = values[0]
    if isinstance(value, Digits):
        return f"'{value.digits}'{value.letter}"
    return str(value) if _is_number(value) else None


Parts = tuple[object, ...]


def _parts_of(form: Form) -> Optional[Parts]:
    """The parts of a value: elements, characters, digits, or octets."""
    if isinstance(form, Elements):
        return form.items
    if isinstance(form, Digits) and form.letter == "O":
        return tuple(form.digits[at : at + 2] for at in range(0, len(form.digits), 2))
    if isinstance(form, Digits):
        return tuple(form.digits)
    return tuple(form) if isinstance(form, str) else None


def _of_parts(like: Form, parts: Parts) -> Form:
    if isinstance(like, Elements):
        return Elements(parts)  # type: ignore[arg-type]
    text = "".join(map(str, parts))
    return Digits(text, like.letter) if isinstance(like, Digits) else text


def _cut(values: list[Form]) -> Optional[tuple[Parts, Parts, Parts]]:
    """The parts before the index, then `length` parts, and the parts after these."""
    parts, index, length = _parts_of(values[0]), values[1], values[2]
    if parts is None or not _is_number(index) or not _is_number(length):
        return None
    assert isinstance(index, int) and isinstance(length, int)
    is_within = 0 <= index and 0 <= length and index + length <= len(parts)
    return (parts[:index], parts[index : index + length], parts[index + length :]) if is_within else None


def _part(values: list[Form]) -> Optional[Form]:
    cut = _cut(values)
    return _of_parts(values[0], cut[1]) if cut is not None else None


def _replaced(values: list[Form]) -> Optional[Form]:
    """Replaces some parts, beginning at an index, by others."""
    cut, new = _cut(values), _parts_of(values[3])
    whole, other = values[0], values[3]
    is_alike = type(whole) is type(other) and getattr(whole, "letter", "") == getattr(other, "letter", "")
    return _of_parts(whole, cut[0] + new + cut[2]) if is_alike and cut is not None and new is not None else None


BITWISE: dict[str, Callable[[int, int], int]] = {"and4b": int.__and__, "or4b": int.__or__, "xor4b": int.__xor__}
MOVING = ("<<", ">>", "<@", "@>")


def bitwise(sign: str, left: Form, right: Form) -> Optional[Form]:
    """Combines two strings of bits, hex digits or octets with the same length (7.1.4)."""
    if not isinstance(left, Digits) or not isinstance(right, Digits) or len(left.digits) != len(right.digits):
        return None
    base = 2 if left.letter == "B" else 16
    digits = (f"{BITWISE[sign](int(a, base), int(b, base)):X}" for a, b in zip(left.digits, right.digits))
    return Digits("".join(digits), left.letter) if left.letter == right.letter else None


def all_ones_of(form: Form) -> Form:
    """A string of ones with the same length."""
    if not isinstance(form, Digits):
        return form
    return Digits(("1" if form.letter == "B" else "F") * len(form.digits), form.letter)


def moved(sign: str, left: Form, right: Form) -> Optional[Form]:
    """Shifted, with zeros in the free places, or rotated (7.1.6, 7.1.7)."""
    parts = _parts_of(left)
    if parts is None or not isinstance(right, int) or isinstance(right, bool):
        return None
    count = right if sign.startswith("<") else -right
    if sign in ("<@", "@>"):
        turn = count % len(parts) if parts else 0
        return _of_parts(left, parts[turn:] + parts[:turn])
    if not isinstance(left, Digits):
        return None
    zeros = ("00" if left.letter == "O" else "0",) * min(abs(count), len(parts))
    return _of_parts(left, parts[count:] + zeros if count > 0 else (zeros + parts)[: len(parts)])


def _group(values: list[Form]) -> Optional[Form]:
    """`regexp`, if the group can match in only one way."""
    text, pattern, number = values
    if not isinstance(text, str) or not isinstance(pattern, str) or not isinstance(number, int) or isinstance(number, bool):
        return None
    try:
        return group_of(text, read_pattern(pattern), number)
    except NotRead:
        return None


def _encoding_of(values: list[Form]) -> Optional[Form]:
    """The encoding, by its byte order mark. Refuses octets that begin with the marks of two encodings."""
    octets = values[0]
    if not isinstance(octets, Digits) or octets.letter != "O" or octets.digits.startswith("FFFE0000"):
        return None
    marks = {"0000FEFF": "UTF-32BE", "EFBBBF": "UTF-8", "FEFF": "UTF-16BE", "FFFE": "UTF-16LE"}
    found = next((name for mark, name in marks.items() if octets.digits.startswith(mark)), "")
    if found:
        return found
    codes = bytes.fromhex(octets.digits)
    # For other texts without a mark a tool may also answer that the encoding isn't known.
    return "ASCII" if codes.isascii() else None


def _conversions() -> dict[str, tuple[int, Computed]]:
    found: dict[str, tuple[int, Computed]] = {
        "char2int": (1, _char_to_integer), "int2char": (1, _integer_to_char), "char2oct": (1, _char_to_octets),
        "oct2char": (1, _octets_to_char), "unichar2int": (1, _char_to_integer), "int2unichar": (1, _integer_to_universal),
        "replace": (4, _replaced), "substr": (3, _part), "oct2unichar": (1, _octets_to_universal),
        "unichar2oct": (1, _universal_to_octets), "remove_bom": (1, _without_mark), "get_stringencoding": (1, _encoding_of),
        "regexp": (3, _group), "any2unistr": (1, _any_to_text),
        "char": (4, _quadruple), "int2float": (1, _integer_to_float), "float2int": (1, _float_to_integer),
        "str2float": (1, _text_to_float),
    }
    for word, letter in _PLACES.items():
        found[f"{word}2int"] = (1, _to_integer)
        found[f"{word}2str"] = (1, _to_text)
        found[f"int2{word}"] = (2, _from_integer(letter))
        found[f"str2{word}"] = (1, _from_text(letter))
        for other, letter_of_other in _PLACES.items():
            if other != word:
                found[f"{word}2{other}"] = (1, _to_digits(letter_of_other))
    del found["str2bit"]
    return found


CONVERSIONS = _conversions()
# These may have one more argument.
ENCODING = ("oct2unichar", "unichar2oct")
RESULTS = {"int": "integer", "str": "charstring", "char": "charstring", "unichar": UNIVERSAL, "float": "float", "unistr": UNIVERSAL}
RESULTS.update({"bit": "bitstring", "hex": "hexstring", "oct": "octetstring"})
