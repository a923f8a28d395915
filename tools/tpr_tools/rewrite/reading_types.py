"""Reads the definitions of types (ES 201 873-1, 6)."""
from __future__ import annotations

from typing import Callable, Optional

from ..script.constructs import Construct

from . import tree
from .reading_expressions import ExpressionReader
from .tokens import Kind, Token
from .tree import Declared, Expression, TypeName

_BASES = ("integer", "boolean", "charstring")
_OTHER_BASES = {
    "float": Construct.FLOAT, "bitstring": Construct.STRING_OF_BITS, "hexstring": Construct.STRING_OF_BITS,
    "octetstring": Construct.STRING_OF_BITS, "verdicttype": Construct.OTHER_BASE,
    "default": Construct.DEFAULT_TYPE, "anytype": Construct.ANYTYPE, "address": Construct.ADDRESS,
}
_NESTED = ("record", "set", "union", "enumerated")


class TypeReader(ExpressionReader):
    def is_type_ahead(self) -> bool:
        token = self.token
        words = (*_BASES, *_OTHER_BASES, "universal")
        return token.kind is Kind.NAME or (token.kind is Kind.KEYWORD and token.text in words)

    def type_name(self) -> TypeName:
        at = self.token
        if at.text == "universal":
            self.note(Construct.UNIVERSAL, self.take())
            self.expect("charstring")
            return TypeName(at, "universal charstring")
        if not self.is_type_ahead():
            self.fail("a type is expected here")
        self.take()
        if at.text in _OTHER_BASES and at.kind is Kind.KEYWORD:
            self.note(_OTHER_BASES[at.text], at)
        word = at.text
        while self.is_at(".") and self.ahead(1).kind is Kind.NAME:
            self.note(Construct.GLOBAL_NAME, at)
            self.take()
            word = self.take().text
        return TypeName(at, word)

    def sizes(self) -> list[Expression]:
        """The sizes of an array, after its name."""
        found: list[Expression] = []
        while self.is_at("["):
            at = self.take()
            self.note(Construct.ARRAY, at)
            first = self.expression()
            found.append(first)
            self.expect("]")
        return found

    def type_definition(self, at: Token) -> tree.TypeDefinition:
        read = _DEFINITIONS.get(self.token.text)
        if read:
            return read(self, at)
        of = self.type_name()
        if self.is_at("address"):
            self.note(Construct.ADDRESS, self.take())
            self.restriction()
            return tree.TypeDefinition(at, "address", tree.OtherBody(at, "addresses aren't carried over"))
        name = self.name("the name of the type").text
        sizes = self.sizes()
        restriction = self.restriction()
        self.note(Construct.SUBTYPE if restriction else Construct.ALIAS, at)
        of.sizes = sizes
        return tree.TypeDefinition(at, name, tree.AliasBody(at, of, restriction))

    def restriction(self) -> Optional[tree.Restriction]:
        at = self.token
        values: list[Expression] = []
        lengths: list[Expression] = []
        if self.is_at("("):
            values = self.in_parentheses()
        if self.accept("length"):
            lengths = self.lengths()
        return tree.Restriction(at, values, lengths) if values or lengths else None

    def _structured(self, at: Token) -> tree.TypeDefinition:
        """Reads a record or a set, with fields or of elements, or a union."""
        word = self.take()
        is_list = word.text != "union" and self.is_at("of", "length")
        if word.text == "set":
            self.note(Construct.SET_OF if is_list else Construct.SET, word)
        elif word.text == "union":
            self.note(Construct.UNION, word)
        if is_list:
            body = self._list(word)
            name = self.name("the name of the type").text
            body.restriction = body.restriction or self.restriction()
            return tree.TypeDefinition(at, name, body)
        if self.is_at("address"):
            self.note(Construct.ADDRESS, self.take())
            self._fields()
            return tree.TypeDefinition(at, "address", tree.OtherBody(at, "addresses aren't carried over"))
        name = self.name("the name of the type").text
        fields = self._fields()
        if self.restriction() is not None:
            self.fail(f"a list of the values of a {word.text} isn't carried over")
        return tree.TypeDefinition(at, name, self._body(word, fields))

    def _body(self, word: Token, fields: list[tree.FieldType]) -> tree.TypeBody:
        if word.text == "union":
            return tree.UnionBody(word, fields)
        return tree.RecordBody(word, fields, word.text == "set")

    def _list(self, word: Token) -> tree.ListBody:
        restriction = None
        if self.is_at("length"):
            at = self.take()
            restriction = tree.Restriction(at, [], self.lengths())
        self.expect("of")
        element = self._nested_type()
        return tree.ListBody(word, element, word.text == "set", restriction)

    def _nested_type(self) -> TypeName:
        at = self.token
        if not self.is_at(*_NESTED):
            return self.type_name()
        self.deeper()
        word = self.take()
        self.note(Construct.NESTED_TYPE, at)
        body: tree.TypeBody
        if word.text == "enumerated":
            body = self._enumerated_names(at)
        elif word.text != "union" and self.is_at("of", "length"):
            body = self._list(word)
        else:
            body = self._body(word, self._fields())
        self.shallower()
        return TypeName(at, "", body)

    def _fields(self) -> list[tree.FieldType]:
        self.expect("{")
        return self.listed(self._field, "}")

    def _field(self) -> tree.FieldType:
        at = self.token
        if self.token.kind is Kind.MODIFIER:
            self.fail(f"the modifier `{self.token.text}` of a field isn't carried over")
        of = self._nested_type()
        name = self.name("the name of the field").text
        of.sizes = self.sizes()
        restriction = self.restriction()
        is_optional = self.is_at("optional")
        if is_optional:
            self.note(Construct.OPTIONAL, self.take())
        return tree.FieldType(at, of, name, is_optional, restriction)

    def _enumerated(self, at: Token) -> tree.TypeDefinition:
        self.note(Construct.ENUMERATED, self.take())
        name = self.name("the name of the type").text
        return tree.TypeDefinition(at, name, self._enumerated_names(at))

    def _enumerated_names(self, at: Token) -> tree.EnumBody:
        body = tree.EnumBody(at, [])
        self.expect("{")
        self.listed(lambda: self._enumerated_name(body), "}")
        return body

    def _enumerated_name(self, body: tree.EnumBody) -> None:
        body.names.append(self.name().text)
        body.numbers.append(None)
        if self.is_at("("):
            body.numbers[-1] = self._enumerated_number()
            body.is_of_ranges = body.is_of_ranges or body.numbers[-1] is None

    def _enumerated_number(self) -> Optional[int]:
        """The single number in the brackets; None if there are several, or a range."""
        sign = -1 if self.ahead(1).text == "-" else 1
        token, behind = self.ahead(2 if sign < 0 else 1), self.ahead(3 if sign < 0 else 2)
        self.skip_brackets()
        return sign * int(token.text) if token.kind is Kind.NUMBER and behind.text == ")" else None

    def _port(self, at: Token) -> tree.TypeDefinition:
        self.take()
        name = self.name("the name of the port type").text
        kind = self.take()
        if kind.text not in ("message", "procedure", "mixed", "stream"):
            self.fail("`message` is expected here")
        if kind.text != "message":
            self.note(Construct.PROCEDURE_PORT, kind)
        if self.is_at("realtime"):
            # Only time stamps ask for it, and those are refused.
            self.take()
        while self.token.kind is Kind.MODIFIER:
            self.known_modifier(())
        body = tree.PortBody(at, kind.text == "message", [], [], False)
        self.expect("{")
        while not self.is_at("}"):
            self._direction(body)
            if not self.accept(";") and not self.is_at("}"):
                self.fail("`;` or `}` is expected here")
        self.expect("}")
        return tree.TypeDefinition(at, name, body)

    def _direction(self, body: tree.PortBody) -> None:
        word = self.take()
        if word.text in ("map", "unmap", "address"):
            self.note(Construct.PORT_PARAMETERS, word)
            while not self.is_at(";", "}") and self.token.kind is not Kind.END:
                self.skip_brackets() if self.is_at("(") else self.take()
            return
        if word.text not in ("in", "out", "inout"):
            self.fail("`in`, `out` or `inout` is expected before this")
        while True:
            if self.is_at("all"):
                self.note(Construct.PORT_ALL, self.take())
                body.has_all = True
            else:
                of = self.type_name()
                body.sent += [of] if word.text != "in" else []
                body.received += [of] if word.text != "out" else []
            if not self.accept(","):
                return

    def _component(self, at: Token) -> tree.TypeDefinition:
        self.take()
        name = self.name("the name of the component type").text
        body = tree.ComponentBody(at, [], [])
        if self.is_at("extends"):
            self.note(Construct.EXTENDS, self.take())
            body.extends.append(tree.Name(self.name(), self.tokens[self.place - 1].text))
            while self.accept(","):
                body.extends.append(tree.Name(self.name(), self.tokens[self.place - 1].text))
        self.expect("{")
        while not self.is_at("}"):
            body.members.append(self._member())
        self.expect("}")
        return tree.TypeDefinition(at, name, body)

    def _member(self) -> tree.Declaration:
        if self.accept("private", "public", "friend"):
            self.note(Construct.VISIBILITY, self.tokens[self.place - 1])
        at = self.token
        if not self.is_at("port"):
            self.note(Construct.COMPONENT_MEMBER, at)
            return self.declaration()
        self.take()
        of = self.type_name()
        variables = [self._declared()]
        while self.accept(","):
            variables.append(self._declared())
        self.end()
        return tree.Declaration(at, Declared.PORT, of, variables, False)

    def _declared(self) -> tree.Variable:
        at = self.name()
        return tree.Variable(at, at.text, self.sizes(), None)

    def declaration(self) -> tree.Declaration:
        """Reads a `var`, `const`, `template` or `timer` in a body or a component type."""
        if not self.is_at("var", "const", "template", "timer"):
            self.fail("a declaration is expected here")
        start, at = self.place, self.take()
        kind = Declared(at.text)
        if kind is Declared.TEMPLATE:
            self.note(Construct.TEMPLATE, at)
        elif kind is Declared.VALUE and self.is_at("template"):
            self.note(Construct.VAR_TEMPLATE, self.take())
            kind = Declared.TEMPLATE
        restriction = self.template_restriction() if kind is Declared.TEMPLATE else ""
        is_late = self.is_at("@lazy", "@fuzzy")
        if is_late:
            self.note(Construct.MODIFIER, self.take())
        self.modifiers()
        of = TypeName(at, "timer") if kind is Declared.TIMER else self.type_name()
        if kind is Declared.TIMER:
            self.note(Construct.TIMER, at)
        if kind is Declared.CONSTANT:
            self.note(Construct.CONST, at)
        variables = [self._initialised(kind)]
        while self.accept(","):
            self.note(Construct.SEVERAL_VARIABLES, at)
            variables.append(self._initialised(kind))
        self.end()
        return tree.Declaration(at, kind, of, variables, is_late, (start, self.place), restriction)

    def _initialised(self, kind: Declared) -> tree.Variable:
        at = self.name()
        sizes = self.sizes()
        value = None
        if self.is_at(":="):
            self.take()
            value = self.expression()
            if isinstance(value, tree.Create):
                self.created.add(at.text)
            elif kind is Declared.VALUE:
                self.note(Construct.INITIAL_VALUE, at)
        return tree.Variable(at, at.text, sizes, value)


_DEFINITIONS: dict[str, Callable[[TypeReader, Token], tree.TypeDefinition]] = {
    "record": TypeReader._structured,
    "set": TypeReader._structured,
    "union": TypeReader._structured,
    "enumerated": TypeReader._enumerated,
    "port": TypeReader._port,
    "component": TypeReader._component,
}
