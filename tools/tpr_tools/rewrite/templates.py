"""The type of an expression, the binding of arguments to parameters, and the matching mechanisms of Annex B."""
from __future__ import annotations

from itertools import permutations
from typing import Optional

from . import tree
from .emitted import Code
from .paths import Key, Path, Scope, Slot, State
from .patterns import Either, NotRead, Pattern, Row, Sign, Times, read_pattern
from .predefined import CONVERSIONS, RESULTS
from .program import Program
from .reading_expressions import NOT_IN_PATTERNS
from .refusing import Refusal, refuse
from .tokens import Token
from .tree import Direction, Expression
from .types import UNIVERSAL, Kind, Type
from .values import Elements, Form, IfPresent, Mark, Options, Reference, TextPattern, Texts, Wild, has_received, is_value

_MOST_ORDERS = 24
_MOST_LENGTHS = 40
# The most texts in the list for a pattern, or for a range of characters.
_MOST_TEXTS = 100


class Shaper:
    def __init__(self, program: Program):
        self.program = program
        self.types = program.types
        self.values: dict[str, Form] = {}
        self.parameters: dict[str, Expression] = {}
        self.scopes = 0

    def new_scope(self, above: Optional[Scope]) -> Scope:
        self.scopes += 1
        return Scope(self.scopes, above)

    def nowhere(self) -> Path:
        """A path without variables, for expressions that are evaluated once for all behaviours."""
        code: Code = []
        return Path(code, State(), None)

    # The methods below belong to the evaluator, of which this class is a part.

    def find(self, word: str, scope: Optional[Scope], path: Path) -> Optional[Key]:
        raise NotImplementedError

    def slot(self, key: Key, path: Path) -> Slot:
        raise NotImplementedError

    def evaluate(
        self, node: Expression, path: Path, scope: Optional[Scope], type: Optional[Type] = None
    ) -> Form:
        raise NotImplementedError

    def settled(self, form: Form, at: Token, otherwise: str = "") -> Form:
        raise NotImplementedError

    # Types

    def type_of(self, node: Expression, path: Path, scope: Optional[Scope]) -> Optional[Type]:
        """The declared type of an expression; None if it has none of its own."""
        if isinstance(node, tree.Typed):
            return self.types.named(node.type.word, node.type.at)
        if isinstance(node, tree.Name):
            return self._type_of_name(node, path, scope)
        if isinstance(node, tree.Call):
            return self._type_of_call(node, path, scope)
        if isinstance(node, tree.Modified):
            return self.type_of(node.base, path, scope)
        if isinstance(node, tree.OneOf) and len(node.items) == 1:
            return self.type_of(node.items[0], path, scope)
        if isinstance(node, (tree.FieldOf, tree.IndexOf)):
            return self._type_of_part(node, path, scope)
        return None

    def _type_of_name(self, node: tree.Name, path: Path, scope: Optional[Scope]) -> Optional[Type]:
        key = self.find(node.word, scope, path)
        if key is not None:
            return self.slot(key, path).type
        found = self.program.constants.get(node.word) or self.program.templates.get(node.word)
        return self.types.of(found.type, node.word) if found else None

    def _type_of_call(self, node: tree.Call, path: Path, scope: Optional[Scope]) -> Optional[Type]:
        word = tree.word_called(node)
        if word in self.program.templates:
            return self.types.of(self.program.templates[word].type, word)
        function = self.program.functions.get(word)
        if function and function.result:
            return self.types.of(function.result, word)
        if word == "valueof" and node.arguments:
            return self.type_of(node.arguments[0].value, path, scope)
        if word in ("substr", "replace", "regexp") and node.arguments:
            return self.type_of(node.arguments[0].value, path, scope)
        base = {
            "int2str": "charstring", "lengthof": "integer", "str2int": "integer", "enum2int": "integer",
            "remove_bom": "octetstring", "char": UNIVERSAL, "testcasename": "charstring", "get_stringencoding": "charstring",
            "sizeof": "integer",
        }
        result = base.get(word) or (RESULTS.get(word.partition("2")[2]) if word in CONVERSIONS else None)
        return self.types.named(result, node.at) if result else None

    def _type_of_part(
        self, node: tree.FieldOf | tree.IndexOf, path: Path, scope: Optional[Scope]
    ) -> Optional[Type]:
        whole = self.type_of(node.value, path, scope)
        if whole is None:
            if isinstance(node, tree.FieldOf) and isinstance(node.value, tree.Name):
                return self._type_of_name(tree.Name(node.at, node.word), path, None)
            return None
        if isinstance(node, tree.IndexOf):
            return whole.root.element or whole.element
        number = whole.field_number(node.word)
        return whole.root.fields[number].type if number is not None else None

    # Arguments

    def bind(
        self, parameters: list[tree.Parameter], arguments: list[tree.Argument], at: Token,
        path: Path, scope: Optional[Scope],
    ) -> list[tuple[str, Slot]]:
        """Each parameter with its argument, in the order of the parameters."""
        by_name = {item.name: item.value for item in arguments if item.name is not None}
        in_order = [item.value for item in arguments if item.name is None]
        known = {item.name for item in parameters}
        if len(in_order) > len(parameters) or not set(by_name) <= known:
            refuse(at, "there are more arguments than parameters")
        bound: list[tuple[str, Slot]] = []
        for number, parameter in enumerate(parameters):
            value = in_order[number] if number < len(in_order) else by_name.get(parameter.name)
            if isinstance(value, tree.Special) and value.sign is tree.Sign.NOT_USED:
                value = None
            bound.append((parameter.name, self._bound(parameter, value, at, path, scope)))
        return bound

    def _bound(
        self, parameter: tree.Parameter, value: Optional[Expression], at: Token, path: Path, scope: Optional[Scope]
    ) -> Slot:
        type = self.types.of(parameter.type, parameter.name)
        if value is None:
            if parameter.value is None:
                refuse(at, f"the parameter `{parameter.name}` has no argument")
            form = self.evaluate(parameter.value, path, None, type)
            look_at_restricted(form, parameter.restriction, parameter.at)
            return Slot(type, form, restriction=parameter.restriction)
        by_reference = parameter.direction is not Direction.IN or type.kind is Kind.TIMER
        if by_reference and type.kind is not Kind.PORT:
            key, steps = self.target(value, path, scope)
            if steps:
                refuse(value.at, "a part of a variable is an argument by reference")
            return Slot(type, Reference(key[0], key[1], steps))
        form = self.evaluate(value, path, scope, type)
        if form is Mark.LOST:
            raise Refusal(at, "")
        look_at_restricted(form, parameter.restriction, value.at)
        return Slot(type, form, restriction=parameter.restriction)

    def target(
        self, node: Expression, path: Path, scope: Optional[Scope]
    ) -> tuple[Key, tuple[int, ...]]:
        """The variable that is meant, and the steps to its part."""
        if isinstance(node, tree.Name):
            key = self.find(node.word, scope, path)
            if key is None:
                refuse(node.at, f"the variable `{node.word}` isn't known here")
            value = path.state.variables[key].value
            if isinstance(value, Reference):
                return (value.scope, value.name), value.steps
            return key, ()
        if isinstance(node, tree.IndexOf):
            key, steps = self.target(node.value, path, scope)
            index = self.settled(self.evaluate(node.index, path, scope), node.at, "the index isn't known here")
            if isinstance(index, bool) or not isinstance(index, int) or not 0 <= index < 10_000:
                refuse(node.at, "the index isn't known here")
            return key, (*steps, index)
        if isinstance(node, tree.FieldOf):
            key, steps = self.target(node.value, path, scope)
            whole = self.type_of(node.value, path, scope)
            number = whole.field_number(node.word) if whole and whole.kind is Kind.RECORD else None
            if number is None:
                refuse(node.at, f"the field `{node.word}` isn't known here")
            return key, (*steps, number)
        refuse(node.at, "a variable is expected here")

    # Matching mechanisms

    def pattern(self, text: Form, at: Token) -> Form:
        if not isinstance(text, str):
            refuse(at, "the text of a pattern is known before")
        try:
            pattern = read_pattern(text)
        except NotRead:
            refuse(at, "this pattern has a sign that isn't carried over, or a fault")
        rows = _rows_of(pattern, None)
        forms = [_of_signs(row, None) for row in rows or []]
        if not forms or any(isinstance(form, Texts) for form in forms):
            return Texts(pattern)
        # Escaped signs of a text must not be confused with wildcards.
        return forms[0] if len(forms) == 1 and "\\" not in text else Options(tuple(forms))

    def other_matching(self, node: tree.OtherMatching, items: list[Form], type: Optional[Type]) -> Form:
        if node.word == "ifpresent":
            return IfPresent(items[0])
        refuse(node.at, f"`{node.word}` isn't carried over")

    def of_length(self, at: Token, base: Form, low: Optional[int], high: Optional[int], type: Optional[Type]) -> Form:
        """`? length(2)`: a list with as many `?`, for each allowed length. `high` is None without an upper bound."""
        if low is None or low < 0 or high is not None and high < low:
            refuse(at, "the length isn't known here")
        if max(low, high or 0) > _MOST_LENGTHS:
            refuse(at, f"lengths are carried over up to {_MOST_LENGTHS}")
        rows = _rows_of_form(base, type, high)
        if rows is None or any(row.count(Wild.ANY_OR_NONE) > 1 for row in rows):
            refuse(at, "a length behind this template isn't carried over")
        forms = tuple(dict.fromkeys(_of_signs(one, type) for row in rows for one in _of_lengths(row, low, high)))
        if not forms:
            refuse(at, "a length behind this template isn't carried over: nothing matches both")
        return base if is_value(base) else forms[0] if len(forms) == 1 else Options(forms)

    def with_permutations(self, node: tree.Braces, items: list[Form]) -> Form:
        """The elements; `permutation` among them becomes a list of all its orders."""
        lists: list[tuple[Form, ...]] = [()]
        for item, form in zip(node.items, items):
            if isinstance(item, tree.OtherMatching) and item.word == "permutation":
                assert isinstance(form, Elements)
                orders = _orders_of(form.items, item.at)
            else:
                orders = [(form,)]
            lists = [(*before, *order) for before in lists for order in orders]
            if len(lists) > _MOST_ORDERS:
                refuse(node.at, f"permutations of more than {_MOST_ORDERS} orders aren't carried over")
        if len(lists) == 1:
            return Elements(lists[0])
        return Options(tuple(Elements(found) for found in lists))


def look_at_restricted(form: Form, word: str, at: Token) -> None:
    """Refuses a template that breaks its restriction to values, or to forms that aren't omitted (15.8)."""
    if form in (Mark.LOST, Mark.UNSET) or not word:
        return
    is_left_out = form in (Mark.OMIT, Wild.ANY_OR_NONE) or isinstance(form, IfPresent)
    is_known = is_value(form) or has_received(form)
    is_so = {"present": not is_left_out, "omit": is_known, "value": is_known and form is not Mark.OMIT}
    if not is_so[word]:
        refuse(at, f"this isn't what `template({word})` allows, which is an error")


_Rows = Optional[list[list[Form]]]


def _rows_of(pattern: Pattern, most: Optional[int]) -> _Rows:
    """What is at each place of the matching texts, up to a length: a row for each text; None if there are too many."""
    if isinstance(pattern, Sign):
        letters = pattern.letters
        return [[Wild.ANY]] if letters is None else [[letter] for letter in sorted(letters) if " " <= letter <= "~"]
    if isinstance(pattern, Either):
        return _all_rows([_rows_of(part, most) for part in pattern.parts])
    if isinstance(pattern, Times):
        return _repeated(pattern, most)
    found: _Rows = [[]]
    for part in pattern.parts:
        found = _behind(found, _rows_of(part, most), most)
    return found


def _all_rows(several: list[_Rows]) -> _Rows:
    found: list[list[Form]] = []
    for rows in several:
        if rows is None:
            return None
        found += [row for row in rows if row not in found]
    return found if len(found) <= _MOST_TEXTS else None


def _behind(first: _Rows, second: _Rows, most: Optional[int]) -> _Rows:
    if first is None or second is None or len(first) * len(second) > 100 * _MOST_TEXTS:
        return None
    rows = [one + other for one in first for other in second]
    short = [row for row in rows if most is None or len(row) - row.count(Wild.ANY_OR_NONE) <= most]
    return _all_rows([short])


def _repeated(pattern: Times, most: Optional[int]) -> _Rows:
    if pattern.high is None and pattern.part == Sign(None):
        return [[*(Wild.ANY for _ in range(pattern.low)), Wild.ANY_OR_NONE]]
    limit = pattern.high if pattern.high is not None else most
    rows: _Rows = [[]]
    found: list[_Rows] = []
    if limit is None:
        return None
    inner = _rows_of(pattern.part, most)
    for count in range(limit + 1):
        if count >= pattern.low:
            found.append(rows)
        rows = _behind(rows, inner, most) if count < limit else rows
        if not rows:
            break
    return _all_rows(found + ([None] if rows is None else []))


def _rows_of_form(base: Form, type: Optional[Type], most: Optional[int]) -> _Rows:
    if isinstance(base, Texts):
        return _rows_of(base.pattern, most)
    if isinstance(base, Options):
        return _all_rows([_rows_of_form(item, type, most) for item in base.items])
    signs = _signs_of(base, type)
    return None if signs is None else [signs]


def _signs_of(base: Form, type: Optional[Type]) -> Optional[list[Form]]:
    """What a template of a charstring or of a record of has at each place; None for any other template."""
    if type is None or type.kind not in (Kind.CHARSTRING, Kind.LIST):
        return None
    if base in (Wild.ANY, Wild.ANY_OR_NONE):
        return [Wild.ANY_OR_NONE]
    if isinstance(base, TextPattern):
        signs: dict[str, Form] = {"?": Wild.ANY, "*": Wild.ANY_OR_NONE}
        return [signs.get(letter, letter) for letter in base.text]
    if isinstance(base, Elements):
        return list(base.items)
    return list(base) if isinstance(base, str) else None


def _of_lengths(signs: list[Form], low: int, high: Optional[int]) -> list[list[Form]]:
    """The lists with each allowed number of elements instead of the `*`. Without an upper bound the `*` stays after the
    required ones."""
    if Wild.ANY_OR_NONE not in signs:
        return [signs] if low <= len(signs) and (high is None or len(signs) <= high) else []
    place, fixed = signs.index(Wild.ANY_OR_NONE), len(signs) - 1
    before, behind = signs[:place], signs[place + 1 :]
    any_one: list[Form] = [Wild.ANY]
    if high is None:
        return [before + any_one * max(0, low - fixed) + [Wild.ANY_OR_NONE] + behind]
    return [before + any_one * (count - fixed) + behind for count in range(max(low, fixed), high + 1)]


def _of_signs(signs: list[Form], type: Optional[Type]) -> Form:
    if type is not None and type.kind is Kind.LIST:
        return Elements(tuple(signs))
    words = {Wild.ANY: "?", Wild.ANY_OR_NONE: "*"}
    text = "".join(words[sign] if isinstance(sign, Wild) else str(sign) for sign in signs)
    if not any(isinstance(sign, Wild) for sign in signs):
        return text
    if any(sign in NOT_IN_PATTERNS or sign in ("?", "*") for sign in signs):
        patterns: dict[Form, Pattern] = {Wild.ANY: Sign(None), Wild.ANY_OR_NONE: Times(Sign(None), 0, None)}
        return Texts(Row(tuple(patterns[sign] if isinstance(sign, Wild) else Sign(frozenset(str(sign))) for sign in signs)))
    return TextPattern(text)


def _orders_of(items: tuple[Form, ...], at: Token) -> list[tuple[Form, ...]]:
    """All orders of the elements of a permutation."""
    if Wild.ANY_OR_NONE in items or len(items) > 4:
        refuse(at, "a permutation of more than four elements, or with `*`, isn't carried over")
    return list(dict.fromkeys(permutations(items)))
