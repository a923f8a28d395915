"""Reads expressions and templates (ES 201 873-1, 7, 15 and Annex B): one grammar for both."""
from __future__ import annotations

from typing import Callable, Optional

from ..script.constructs import Construct

from . import tree
from .cursor import Cursor
from .tokens import Kind, Token
from .tree import Expression, Sign

# The precedence of each operator (ES 201 873-1, table 6).
_TIGHTNESS = {
    "or": 1, "xor": 2, "and": 3, "==": 5, "!=": 5, "<": 6, ">": 6, "<=": 6, ">=": 6, "<<": 7, ">>": 7, "<@": 7,
    "@>": 7, "or4b": 8, "xor4b": 9, "and4b": 10, "+": 12, "-": 12, "&": 12, "*": 13, "/": 13, "mod": 13, "rem": 13,
}
_UNARY = {"not": 4, "not4b": 11}
_OF_TEXTS = 12
_COMPARED = ("==", "!=", "<", ">", "<=", ">=")
_SIGNS = {
    "?": Sign.ANY, "*": Sign.ANY_OR_NONE, "omit": Sign.OMIT, "null": Sign.NULL, "self": Sign.SELF,
    "mtc": Sign.MTC, "system": Sign.SYSTEM, "getverdict": Sign.GETVERDICT, "infinity": Sign.INFINITY,
}
_VERDICTS = ("none", "pass", "inconc", "fail", "error")
_BASE_TYPES = (
    "integer", "boolean", "charstring", "float", "bitstring", "hexstring", "octetstring", "universal",
    "verdicttype", "default", "anytype", "address",
)
_SETS = {
    "superset": Construct.SUPERSET, "subset": Construct.SUPERSET, "permutation": Construct.PERMUTATION,
    "decmatch": Construct.MATCHING,
}
# Signs that a pattern of the profile may not contain.
NOT_IN_PATTERNS = frozenset('\\[]{}()|#+"')
# After a value and a dot, these words ask for something that is only known during a run.
_ASKED = ("running", "alive", "read", "checkstate")


class ExpressionReader(Cursor):
    def expression(self) -> Expression:
        self.deeper()
        value = self._level(0)
        value = self._behind(value)
        self.shallower()
        return value

    def _behind(self, value: Expression) -> Expression:
        """Reads a range, a length or `ifpresent` after a value."""
        if self.is_at(".."):
            at = self.take()
            if self.is_at("!"):
                self.fail("a bound that isn't itself in the range isn't carried over")
            return tree.RangeOf(at, value, self._level(0))
        while self.is_at("length", "ifpresent"):
            at = self.take()
            self.note(Construct.LENGTH if at.text == "length" else Construct.IFPRESENT, at)
            bounds = self.lengths() if at.text == "length" else []
            value = tree.OtherMatching(at, at.text, [value, *bounds])
        return value

    def lengths(self) -> list[Expression]:
        self.expect("(")
        bounds = [self._level(0)]
        if self.accept(".."):
            bounds.append(self._level(0))
        self.expect(")")
        return bounds

    def _level(self, least: int) -> Expression:
        """Reads an expression with operators of at least this precedence."""
        if self.token.text in _UNARY and self.token.kind is Kind.KEYWORD:
            at = self.take()
            self.note(Construct.EXPRESSION, at)
            self.deeper()
            left: Expression = tree.Unary(at, at.text, self._level(_UNARY[at.text]))
            self.shallower()
        else:
            left = self._signed()
        while self.token.kind in (Kind.SIGN, Kind.KEYWORD):
            tightness = _TIGHTNESS.get(self.token.text, -1)
            if tightness < max(least, 1):
                break
            at = self.take()
            compared = at.text in _COMPARED
            self.note(Construct.COMPARISON if compared else Construct.EXPRESSION, at)
            left = tree.Binary(at, at.text, left, self._level(tightness + 1))
        return left

    def _signed(self) -> Expression:
        if self.is_at("-", "+"):
            if self.is_at("-") and self.ahead(1).text in (",", "}", ")", ";"):
                at = self.take()
                self.note(Construct.NOT_USED, at)
                return tree.Special(at, Sign.NOT_USED)
            if self.is_at("-") and self.ahead(1).text == "infinity":
                at = self.take()
                self.take()
                return tree.Unary(at, "-", tree.Special(at, Sign.INFINITY))
            at = self.take()
            self.deeper()
            value = tree.Unary(at, at.text, self._signed())
            self.shallower()
            return value
        return self._postfix(self._primary())

    def _primary(self) -> Expression:
        token = self.token
        read = _BY_KIND.get(token.kind)
        if read:
            return read(self)
        if token.text in _SIGNS:
            return self._sign()
        read = _BY_WORD.get(token.text)
        if read and token.kind is not Kind.END:
            return read(self)
        if token.text in _VERDICTS:
            return tree.VerdictWord(self.take(), token.text)
        if token.text in _BASE_TYPES:
            return self._named(token.text == "universal")
        if token.text in _SETS and token.kind is Kind.KEYWORD:
            self.take()
            self.note(_SETS[token.text], token)
            items = self.in_parentheses() if self.is_at("(") or token.text != "decmatch" else []
            if token.text == "decmatch" and not self.is_at(")", ",", ";"):
                items.append(self.expression())
            return tree.OtherMatching(token, token.text, items)
        if token.kind is Kind.KEYWORD and self.ahead(1).text == "(":
            return tree.Name(self.take(), token.text)
        self.fail("a value is expected here")

    def _sign(self) -> Expression:
        token = self.take()
        if token.text == "omit":
            self.note(Construct.OMIT, token)
        if token.text == "getverdict":
            self.note(Construct.GETVERDICT, token)
        return tree.Special(token, _SIGNS[token.text])

    def _named(self, is_universal: bool = False) -> Expression:
        token = self.take()
        if is_universal:
            self.accept("charstring")
            self.note(Construct.UNIVERSAL, token)
            return self.maybe_typed(tree.Name(token, "universal charstring"))
        return self.maybe_typed(tree.Name(token, token.text))

    def maybe_typed(self, name: tree.Name) -> Expression:
        """Reads `T:value` if a `:` follows the name of a type."""
        if not self.is_at(":"):
            return name
        at = self.take()
        return tree.Typed(at, tree.TypeName(name.at, name.word), self.expression())

    def _literal(self) -> Expression:
        token = self.take()
        if token.kind is Kind.NUMBER:
            return tree.Literal(token, int(token.text) if len(token.text) < 400 else 10**400)
        if token.kind is Kind.FLOAT:
            self.note(Construct.FLOAT, token)
            return tree.Literal(token, float(token.text))
        return tree.Literal(token, token.text[1:-1].replace('""', '"'))

    def _bits(self) -> Expression:
        token = self.take()
        self.note(Construct.STRING_OF_BITS, token)
        return tree.Bits(token, "".join(token.text[1:-2].split()).upper(), token.text[-1])

    def _macro(self) -> Expression:
        token = self.take()
        self.note(Construct.MACRO, token)
        return tree.Name(token, token.text)

    def _truth(self) -> Expression:
        token = self.take()
        return tree.Literal(token, token.text == "true")

    def _braces(self) -> Expression:
        braces = tree.Braces(self.expect("{"), [], [])
        self.listed(lambda: self._item(braces), "}")
        return braces

    def _item(self, braces: tree.Braces) -> None:
        if _names_a_part(self.token) and self.ahead(1).text == ":=":
            name = self.take().text
            self.take()
            braces.named.append((name, self.expression()))
        elif self.is_at("["):
            self.take()
            index = self.expression()
            self.expect("]")
            self.expect(":=")
            braces.named.append((index, self.expression()))
        else:
            braces.items.append(self.expression())

    def _parentheses(self) -> Expression:
        at = self.token
        return tree.OneOf(at, self.in_parentheses())

    def in_parentheses(self) -> list[Expression]:
        self.expect("(")
        items = [self.expression()]
        while self.accept(","):
            items.append(self.expression())
        self.expect(")")
        for item in items:
            if len(items) > 1 and isinstance(item, tree.RangeOf):
                self.note(Construct.LIST_BARE, item.at)
        return items

    def _complement(self) -> Expression:
        return tree.Complement(self.take(), self.in_parentheses())

    def _pattern(self) -> Expression:
        at = self.take()
        if self.token.kind is Kind.MODIFIER or self.is_at("@"):
            self.fail("a pattern with a modifier isn't carried over")
        text = self._level(_OF_TEXTS)
        if not isinstance(text, tree.Literal) or set(str(text.value)) & NOT_IN_PATTERNS:
            self.note(Construct.PATTERN_SIGNS, text.at)
        return tree.PatternOf(at, text)

    def _modifies(self) -> Expression:
        at = self.take()
        self.note(Construct.MODIFIES, at)
        base = self._postfix(tree.Name(self.name(), self.tokens[self.place - 1].text))
        self.expect(":=")
        return tree.Modified(at, base, self.expression())

    def _activate(self) -> Expression:
        at = self.take()
        self.note(Construct.DEFAULT, at)
        self.expect("(")
        call = self.expression()
        self.expect(")")
        return tree.Activate(at, call)

    def _any(self) -> Expression:
        """`any component.running`, `all component.alive`, `any timer.running`, `any from cs.alive`."""
        at = self.take()
        words = [at.text]
        while self.is_at("component", "port", "timer", "from") or self.token.kind is Kind.NAME:
            words.append(self.take().text)
        while self.is_at("["):
            self.skip_brackets()
        self.expect(".")
        word = self.take()
        self.note(Construct.RUNNING, at)
        if self.is_at("("):
            self.skip_brackets()
        if self.accept("->"):
            while not self.is_at(";", ",", ")", "}") and self.token.kind is not Kind.END:
                self.take()
        return tree.Asked(at, " ".join(words), word.text)

    def _postfix(self, value: Expression) -> Expression:
        while True:
            if self.is_at("."):
                behind = self._dotted(value)
                if behind is None:
                    return value
                value = behind
            elif self.is_at("["):
                at = self.take()
                self.note(Construct.ARRAY, at)
                value = tree.IndexOf(at, value, self.expression())
                self.expect("]")
            elif self.is_at("(") and isinstance(value, (tree.Name, tree.FieldOf)):
                if value.word in ("match", "valueof"):
                    self.note(Construct.MATCHING, value.at)
                self.called.append(value.at)
                value = tree.Call(value.at, value, self.arguments())
            else:
                return value

    def _dotted(self, value: Expression) -> Optional[Expression]:
        """Reads a field, `create`, or a word that asks for a state; None if an operation of a statement follows."""
        word = self.ahead(1)
        if _names_a_part(word):
            self.place += 2
            if isinstance(value, tree.Name) and self.is_at(":"):
                self.note(Construct.GLOBAL_NAME, value.at)
                return self.maybe_typed(tree.Name(word, word.text))
            self._note_field(value, word)
            return tree.FieldOf(word, value, word.text)
        if word.text == "create":
            self.place += 2
            return self._create(value, word)
        if word.text in _ASKED:
            self.place += 2
            kinds = {"read": Construct.TIMER, "checkstate": Construct.CHECKSTATE}
            self.note(kinds.get(word.text, Construct.RUNNING), word)
            arguments = self.in_parentheses() if self.is_at("(") else []
            return tree.Asked(word, "", word.text, value, arguments)
        return None

    def _note_field(self, value: Expression, word: Token) -> None:
        if word.text == "checkstate" and self.is_at("("):
            self.note(Construct.CHECKSTATE, word)
        elif isinstance(value, tree.Name) and value.word in self.module_names:
            self.note(Construct.GLOBAL_NAME, value.at)
        else:
            self.note(Construct.FIELD, word)

    def _create(self, of: Expression, at: Token) -> Expression:
        arguments = []
        if self.is_at("("):
            self.note(Construct.CREATE_ARGUMENTS, at)
            arguments = self.in_parentheses()
        is_alive = self.is_at("alive")
        if is_alive:
            self.note(Construct.ALIVE, self.take())
        return tree.Create(at, of, arguments, is_alive)

    def arguments(self) -> list[tree.Argument]:
        self.expect("(")
        self.deeper()
        found = self.listed(self._argument, ")")
        self.shallower()
        return found

    def _argument(self) -> tree.Argument:
        at = self.token
        if at.kind is Kind.NAME and self.ahead(1).text == ":=":
            self.note(Construct.NAMED_ARGUMENT, at)
            self.place += 2
            return tree.Argument(at, at.text, self.expression())
        return tree.Argument(at, None, self.expression())


def _names_a_part(token: Token) -> bool:
    """Whether the token names a field, or an alternative of `anytype`, which has the name of its type."""
    return token.kind is Kind.NAME or token.text in _BASE_TYPES


_Read = Callable[[ExpressionReader], Expression]
_BY_KIND: dict[Kind, _Read] = {
    Kind.NUMBER: ExpressionReader._literal,
    Kind.FLOAT: ExpressionReader._literal,
    Kind.TEXT: ExpressionReader._literal,
    Kind.BITS: ExpressionReader._bits,
    Kind.MACRO: ExpressionReader._macro,
    Kind.NAME: ExpressionReader._named,
}
_BY_WORD: dict[str, _Read] = {
    "true": ExpressionReader._truth,
    "false": ExpressionReader._truth,
    "{": ExpressionReader._braces,
    "(": ExpressionReader._parentheses,
    "complement": ExpressionReader._complement,
    "pattern": ExpressionReader._pattern,
    "modifies": ExpressionReader._modifies,
    "activate": ExpressionReader._activate,
    "any": ExpressionReader._any,
    "all": ExpressionReader._any,
}
