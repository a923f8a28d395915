"""Follows the statements of one behaviour, and writes the statements of the profile for them (ES 201 873-1, 19)."""
from __future__ import annotations

from dataclasses import replace
from typing import Callable, Optional

from . import tree
from .emitted import Verdict
from .hoisting import Communicates, calls_in, key_of
from .labels import lost_label
from .looping import Looper
from .paths import Exit, Key, Path, Scope, Slot
from .refusing import Refusal, refuse, refuse_silently
from .run import members_of
from .templates import look_at_restricted
from .tokens import Token
from .tree import Declared, Expression, Leaving, Statement
from .types import Kind, Type
from .values import DefaultValue, Elements, Fields, Form, Mark, Received, VerdictValue, matches, worse

MOST_CALLS = 60
_EXITS = {
    Leaving.BREAK: Exit.BREAK, Leaving.CONTINUE: Exit.CONTINUE, Leaving.REPEAT: Exit.REPEAT, Leaving.STOP: Exit.END,
}


class Follower(Looper):
    def follow(self, statement: Statement, path: Path, scope: Scope) -> list[Path]:
        if isinstance(statement, tree.Unsupported):
            raise Refusal(statement.at, statement.reason)
        simple = _SIMPLE.get(type(statement))
        if simple is not None:
            simple(self, statement, path, scope)
            return [path]
        followed = _FOLLOWED.get(type(statement))
        if followed is not None:
            return followed(self, statement, path, scope)
        return self.follow_operation(statement, path, scope)

    def follow_operation(self, statement: Statement, path: Path, scope: Scope) -> list[Path]:
        """Follows a statement on ports or components."""
        raise NotImplementedError

    def block(self, block: tree.Block, path: Path, scope: Scope) -> list[Path]:
        inner = self.new_scope(scope)
        paths = self.statements(block.statements, path, inner)
        return self.left(inner, paths)

    def left(self, scope: Scope, paths: list[Path]) -> list[Path]:
        """Forgets the names of a scope."""
        for path in paths:
            self.end_timers(scope, path)
            variables = path.state.variables
            for key in [key for key in variables if key[0] == scope.number]:
                del variables[key]
        return paths

    def new_timers(self, variable: tree.Variable, type: Type, path: Path) -> Form:
        raise NotImplementedError

    def end_timers(self, scope: Scope, path: Path) -> None:
        raise NotImplementedError

    def _block(self, statement: tree.Block, path: Path, scope: Scope) -> list[Path]:
        return self.block(statement, path, scope)

    def declare(self, statement: tree.Declaration, path: Path, scope: Scope) -> list[Path]:
        paths = [path]
        for variable in statement.variables:
            found: list[Path] = []
            for one in paths:
                found += self._declared(statement, variable, one, scope)
            paths = found
        return paths

    def _declared(
        self, statement: tree.Declaration, variable: tree.Variable, path: Path, scope: Scope
    ) -> list[Path]:
        if path.exit is not Exit.ON:
            return [path]
        sizes = [self._size(size, path, scope) for size in variable.sizes]
        type = self.types.array(self.types.of(statement.type, variable.name), sizes)
        key = (scope.number, variable.name)
        is_fixed = statement.kind is Declared.CONSTANT
        if statement.kind is Declared.TIMER:
            path.state.variables[key] = Slot(type, self.new_timers(variable, type, path))
            return [path]
        if variable.value is None:
            path.state.variables[key] = Slot(type, Mark.UNSET, False, statement.is_late, statement.restriction)
            return [path]
        if statement.is_late:
            refuse(variable.at, "a value that is evaluated where it is used isn't carried over")
        self.hint = variable.name
        found = self.values_of(variable.value, path, scope, type)
        for one, value in found:
            self.look_at_value_of(value, type, variable.at)
            look_at_restricted(value, statement.restriction, variable.at)
            one.state.variables[key] = Slot(type, value, is_fixed, restriction=statement.restriction)
        return [one for one, _ in found]

    def _size(self, node: Expression, path: Path, scope: Scope) -> int:
        if isinstance(node, tree.RangeOf):
            refuse(node.at, "an array with a lower bound isn't carried over")
        size = self.evaluate(node, path, scope)
        if isinstance(size, bool) or not isinstance(size, int) or not 0 < size <= 10_000:
            refuse(node.at, "the size of the array isn't known here")
        return size

    def values_of(
        self, node: Expression, path: Path, scope: Scope, type: Optional[Type]
    ) -> list[tuple[Path, Form]]:
        """The value on each path; a call of a function may fork."""
        if not self._is_call(node):
            return [(path, self.evaluate(node, path, scope, type))]
        assert isinstance(node, tree.Call)
        found: list[tuple[Path, Form]] = []
        for one in self.call(node, path, scope):
            value = one.result if one.result is not None else Mark.UNSET
            one.result = None
            found.append((one, value))
        return found

    def _is_call(self, node: Expression) -> bool:
        if not isinstance(node, tree.Call) or not isinstance(node.called, (tree.Name, tree.FieldOf)):
            return False
        return node.called.word in self.program.functions

    def _assign(self, statement: tree.Assignment, path: Path, scope: Scope) -> list[Path]:
        target = statement.target
        key, steps = self.target(target, path, scope)
        if path.state.variables[key].is_fixed:
            refuse(statement.at, "a constant is assigned to")
        if path.state.variables[key].is_late:
            refuse(statement.at, "a value that is evaluated where it is used isn't carried over")
        type = self.type_of(target, path, scope)
        self.hint = _hint(target, steps)
        found = self.values_of(statement.value, path, scope, type)
        for one, value in found:
            if one.exit is Exit.ON:
                if isinstance(statement.value, tree.Braces):
                    value = self._kept(key, steps, value, one)
                self.store(key, steps, value, one, statement.at)
        return [one for one, _ in found]

    def _kept(self, key: Key, steps: tuple[int, ...], value: Form, path: Path) -> Form:
        """The value, with the old contents of the fields that it leaves open."""
        if not isinstance(value, Fields) or not {Mark.UNSET, Mark.NOT_USED} & set(value.items):
            return value
        old = self.part(path.state.variables[key].value, steps)
        if not isinstance(old, Fields):
            return value
        pairs = zip(old.items, value.items)
        return Fields(tuple(a if b in (Mark.UNSET, Mark.NOT_USED) else b for a, b in pairs))

    def store(self, key: Key, steps: tuple[int, ...], value: Form, path: Path, at: Token) -> None:
        slot = path.state.variables[key]
        if steps and isinstance(slot.value, Received):
            self.split(slot.value, at, "a part of what was received is assigned to")
        self.look_at_value_of(value, slot.type if not steps else None, at)
        changed = self._changed(slot.value, slot.type, steps, value, at)
        look_at_restricted(changed, slot.restriction if not steps else "", at)
        path.state.variables[key] = replace(slot, value=changed)

    def _changed(
        self, whole: Form, type: Optional[Type], steps: tuple[int, ...], value: Form, at: Token
    ) -> Form:
        if not steps:
            return value
        if whole is Mark.LOST:
            return whole
        step = steps[0]
        inner: Optional[Type] = None
        if type is not None and type.kind is Kind.RECORD:
            fields = type.root.fields
            items = list(whole.items) if isinstance(whole, Fields) else [Mark.UNSET] * len(fields)
            inner = fields[step].type
        elif type is not None and type.kind is Kind.LIST:
            items = list(whole.items) if isinstance(whole, Elements) else []
            if type.size is not None and step >= type.size:
                refuse(at, "the array isn't so long")
            items += [Mark.UNSET] * (step + 1 - len(items))
            inner = type.root.element or type.element
        else:
            refuse(at, "a part of this can't be assigned to")
        if isinstance(whole, Received):
            self.split(whole, at, "a part of what was received is assigned to")
        items[step] = self._changed(items[step], inner, steps[1:], value, at)
        is_record = type.kind is Kind.RECORD
        return Fields(tuple(items)) if is_record else Elements(tuple(items))

    def _called(self, statement: tree.CallStatement, path: Path, scope: Scope) -> list[Path]:
        node = statement.call
        word = node.called.word if isinstance(node, tree.Call) and isinstance(node.called, tree.Name) else ""
        if word in self.program.altsteps:
            branch = tree.Branch(node.at, None, False, statement, None)
            return self.choose(tree.Alt(node.at, [branch], False, statement.span), path, scope)
        if self._is_call(node):
            assert isinstance(node, tree.Call)
            return self.call(node, path, scope)
        self.hint = ""
        if word == "int2enum" and isinstance(node, tree.Call):
            self._set_enumerated(node, path, scope)
            return [path]
        self.evaluate(node, path, scope)
        return [path]

    def _set_enumerated(self, node: tree.Call, path: Path, scope: Scope) -> None:
        """Stores the result of `int2enum`, which is in its second argument (16.1.2)."""
        if len(node.arguments) != 2 or any(item.name is not None for item in node.arguments):
            refuse(node.at, "`int2enum` has another number of arguments")
        number, target = (item.value for item in node.arguments)
        value = self.of_number(self.evaluate(number, path, scope), self.type_of(target, path, scope), node.at)
        key, steps = self.target(target, path, scope)
        self.store(key, steps, value, path, node.at)

    def choose(self, statement: tree.Alt, path: Path, scope: Scope) -> list[Path]:
        raise NotImplementedError

    def call(self, node: tree.Call, path: Path, scope: Optional[Scope]) -> list[Path]:
        """Follows the statements of a function, with its parameters in a scope of their own."""
        assert isinstance(node.called, (tree.Name, tree.FieldOf))
        function = self.program.functions[node.called.word]
        if function.body is None:
            refuse(node.at, f"the external function `{function.name}` is outside the script")
        bound = self.bind(function.parameters, node.arguments, node.at, path, scope)
        return self.perform(function, bound, path, node.at)

    def perform(
        self, function: tree.Function, bound: list[tuple[str, Slot]], path: Path, at: Token
    ) -> list[Path]:
        if len(self.results) >= MOST_CALLS:
            refuse(at, f"more than {MOST_CALLS} calls are open here")
        self.look_at_runs_on(function.runs_on, at)
        inner = self.new_scope(self.root if function.runs_on else None)
        for name, slot in bound:
            path.state.variables[inner.number, name] = slot
        result = self.types.of(function.result, function.name) if function.result else None
        self.results.append(result)
        assert function.body is not None
        paths = self.left(inner, self.statements(function.body.statements, path, inner))
        self.results.pop()
        lost = lost_label(paths)
        if lost is not None:
            refuse(at, f"a `goto` in what is called here has no label `{lost}` that it may jump to")
        for one in paths:
            if one.exit is Exit.RETURN:
                one.exit = Exit.ON
            if one.result is not None and function.result is not None:
                look_at_restricted(one.result, function.result.restriction, at)
        return paths

    def called_value(self, node: tree.Call, path: Path, scope: Optional[Scope]) -> Form:
        """The value of a call within an expression. The call may not write statements, because they have no place
        there. Calls that do are followed before the statement, if that is possible."""
        kept = path.state.variables.get(key_of(node))
        if kept is not None:
            return kept.value if kept.value is not Mark.LOST else refuse_silently(node.at)
        if not self.is_looking and self.program.communicates(tree.word_called(node)):
            self._look_at_arguments(node, path, scope)
            raise Communicates(node)
        written, before = len(path.code), path.state.setup()
        variables = dict(path.state.variables)
        paths = self._quietly(node, path, scope)
        if len(paths) != 1 or len(paths[0].code) != written or paths[0].exit is not Exit.ON:
            refuse(node.at, "this call within an expression does more than compute a value")
        found = paths[0]
        if found.code is not path.code or found.state.setup() != before:
            refuse(node.at, "this call within an expression does more than compute a value")
        if self.is_looking and found.state.variables != variables:
            refuse(node.at, "what is evaluated at each look at the branches changes a variable")
        value = found.result
        path.state, path.result = found.state, None
        if value is None:
            self._look_at_return(tree.word_called(node), node.at)
        return value if value is not None else Mark.LOST

    def _look_at_arguments(self, node: tree.Call, path: Path, scope: Optional[Scope]) -> None:
        """Calls in the arguments that communicate are followed before this call."""
        for item in node.arguments:
            open_calls = [call for call in calls_in(item.value) if key_of(call) not in path.state.variables]
            if any(self.program.communicates(tree.word_called(call)) for call in open_calls):
                self.evaluate(item.value, path, scope)

    def _look_at_return(self, name: str, at: Token) -> None:
        """Refuses a function without a result: it returns no value, or its `return` is refused and reported there."""
        if self.program.functions[name].result is None:
            refuse(at, "this function returns nothing")
        if self.run.refused or self.run.lost is not None:
            refuse_silently(at)
        refuse(at, "this function may end without a `return`")

    def _quietly(self, node: tree.Call, path: Path, scope: Optional[Scope]) -> list[Path]:
        """Follows a call that may be evaluated at each look at the branches."""
        is_looking, self.is_looking = self.is_looking, False
        paths = self.call(node, path, scope)
        self.is_looking = is_looking
        return paths

    def look_at_runs_on(self, word: Optional[str], at: Token) -> None:
        """Checks that a function or an altstep finds its ports here, each with its own type."""
        if word is None or word == self.type.name:
            return
        members = members_of(self.types, self.types.named(word, at), at, self.size_of)
        for port in members.ports.values():
            own = self.ports.get(port.name)
            if own is None or own.type.root is not port.type.root:
                refuse(at, f"this runs on `{word}`, which has ports that `{self.type.name}` hasn't")

    def look_at_value_of(self, value: Form, type: Optional[Type], at: Token) -> None:
        """Checks that a variable of a subtype gets only values of the subtype."""

    def _return(self, statement: tree.Return, path: Path, scope: Scope) -> list[Path]:
        if statement.value is None:
            path.exit = Exit.RETURN
            return [path]
        type = self.results[-1] if self.results else None
        found = self.values_of(statement.value, path, scope, type)
        for one, value in found:
            if one.exit is Exit.ON:
                one.exit, one.result = Exit.RETURN, value
        return [one for one, _ in found]

    def _choose_block(self, statement: Statement, path: Path, scope: Scope) -> list[Path]:
        block = self.chosen_block(statement, path, scope)
        return self.block(block, path, scope) if block is not None else [path]

    def chosen_block(self, statement: Statement, path: Path, scope: Scope) -> Optional[tree.Block]:
        """The block of an `if` or a `select` that is executed, if there is one."""
        if isinstance(statement, tree.Select):
            return (self._select_union if statement.is_union else self._select)(statement, path, scope)
        if isinstance(statement, tree.Block):
            return statement
        assert isinstance(statement, tree.If)
        is_so = self.truth(self.evaluate(statement.condition, path, scope), statement.condition.at)
        return statement.then if is_so else statement.otherwise

    def _select(self, statement: tree.Select, path: Path, scope: Scope) -> Optional[tree.Block]:
        type = self.type_of(statement.value, path, scope)
        value = self.evaluate(statement.value, path, scope, type)
        for case in statement.cases:
            if case.templates is None or any(
                self._is_case(value, item, path, scope, type) for item in case.templates
            ):
                return case.block
        return None

    def _select_union(self, statement: tree.Select, path: Path, scope: Scope) -> Optional[tree.Block]:
        """The block of the first case that names the chosen alternative (19.3.2). If the alternative of a received
        message is open, each alternative that a case names gets a branch."""
        type = self.type_of(statement.value, path, scope)
        value = self.evaluate(statement.value, path, scope, type)
        if type is None or type.kind is not Kind.UNION:
            refuse(statement.value.at, "`select union` asks for the alternative of a union")
        if value is Mark.UNSET:
            refuse(statement.value.at, "this has no value yet")
        for case in statement.cases:
            names = [self._alternative(item, type) for item in case.templates or []]
            if case.templates is None or any(self.has_chosen(value, name, case.at) for name in names):
                return case.block
        return None

    def _alternative(self, item: Expression, type: Type) -> str:
        if not isinstance(item, tree.Name) or type.field_number(item.word) is None:
            refuse(item.at, f"a case of `select union` names alternatives of `{type.name}`")
        return item.word

    def _is_case(
        self, value: Form, item: Expression, path: Path, scope: Scope, type: Optional[Type]
    ) -> bool:
        template = self.settled(self.evaluate(item, path, scope, type), item.at)
        if isinstance(value, Received):
            return self.fits(value, template, item.at)
        self.look_at_value(value, item.at)
        return matches(value, template)

    def _jump(self, statement: tree.Goto, path: Path, scope: Scope) -> None:
        path.exit, path.label = Exit.JUMP, statement.name

    def _pass(self, statement: tree.Label, path: Path, scope: Scope) -> None:
        """Follows a label, which itself does nothing."""

    def _leave(self, statement: tree.Leave, path: Path, scope: Scope) -> None:
        path.exit = _EXITS[statement.how]

    def _drop(self, statement: tree.Dropped, path: Path, scope: Scope) -> None:
        self._look_at_calls(statement, statement.arguments, path, scope)

    def _look_at_calls(
        self, statement: Statement, nodes: list[Expression], path: Path, scope: Scope
    ) -> None:
        """Evaluates expressions that are only printed, if they call a function, because the call may have an effect.
        They are left out of the written script."""
        if self.program.names_in(statement) & set(self.program.functions):
            for node in nodes:
                self.evaluate(node, path, scope)

    def _set_verdict(self, statement: tree.SetVerdict, path: Path, scope: Scope) -> None:
        value = self.evaluate(statement.verdict, path, scope)
        self._look_at_calls(statement, statement.reasons, path, scope)
        if value is Mark.LOST:
            raise Refusal(statement.at, "")
        if not isinstance(value, VerdictValue) or value.word == "error":
            is_known = isinstance(value, VerdictValue)
            refuse(statement.at, "`error` isn't set by a script" if is_known else "the verdict isn't known here")
        path.state.verdict = worse(path.state.verdict, value.word)
        self.emit(path, Verdict(statement.at, value.word))

    def _deactivate(self, statement: tree.Deactivate, path: Path, scope: Scope) -> None:
        if statement.value is None:
            path.state.defaults = ()
            return
        value = self.evaluate(statement.value, path, scope)
        if not isinstance(value, DefaultValue):
            refuse(statement.at, "which default is meant isn't known here")
        if all(one.number != value.number for one in path.state.defaults):
            refuse(statement.at, "this default isn't active any more")
        path.state.defaults = tuple(one for one in path.state.defaults if one.number != value.number)


def _hint(target: Expression, steps: tuple[int, ...]) -> str:
    while not isinstance(target, tree.Name):
        if not isinstance(target, (tree.FieldOf, tree.IndexOf)):
            return ""
        target = target.value
    return "_".join([target.word, *map(str, steps)])


_Simple = Callable[[Follower, "Statement", Path, Scope], None]
_Followed = Callable[[Follower, "Statement", Path, Scope], list[Path]]
_SIMPLE: dict[type, _Simple] = {
    tree.Leave: Follower._leave,  # type: ignore[dict-item]
    tree.Goto: Follower._jump,  # type: ignore[dict-item]
    tree.Label: Follower._pass,  # type: ignore[dict-item]
    tree.Dropped: Follower._drop,  # type: ignore[dict-item]
    tree.SetVerdict: Follower._set_verdict,  # type: ignore[dict-item]
    tree.Deactivate: Follower._deactivate,  # type: ignore[dict-item]
}
_FOLLOWED: dict[type, _Followed] = {
    tree.Declaration: Follower.declare,  # type: ignore[dict-item]
    tree.Assignment: Follower._assign,  # type: ignore[dict-item]
    tree.CallStatement: Follower._called,  # type: ignore[dict-item]
    tree.Block: Follower._block,  # type: ignore[dict-item]
    tree.If: Follower._choose_block,
    tree.Select: Follower._choose_block,
    tree.For: Follower.follow_for,  # type: ignore[dict-item]
    tree.While: Follower.follow_while,  # type: ignore[dict-item]
    tree.Return: Follower._return,  # type: ignore[dict-item]
}
