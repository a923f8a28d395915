"""What an editor shows for a name: what it is, and where it is defined; and the list of all definitions of a text."""
from __future__ import annotations

from typing import Optional, Union

from .documents import Document
from .frames import Json
from .outline import Declared, Definition, Outline
from .positions import Lines

_MOST_LINES = 12  # of a definition, and of the partners of a port
# The numbers of the protocol for kinds of symbols.
_MODULE, _CLASS, _FIELD, _INTERFACE, _FUNCTION, _VARIABLE, _CONSTANT, _STRUCT, _EVENT = 2, 5, 8, 11, 12, 13, 14, 23, 24
_KINDS = {
    "record": _STRUCT, "set": _STRUCT, "union": _STRUCT, "enumerated": _STRUCT, "record of": _STRUCT,
    "set of": _STRUCT, "port type": _INTERFACE, "component type": _CLASS, "testcase": _EVENT, "template": _CONSTANT,
    "const": _CONSTANT, "modulepar": _CONSTANT, "port": _FIELD, "field": _FIELD, "variable": _VARIABLE,
}  # fmt: skip


def hover_of(document: Document, offset: int) -> Optional[Json]:
    """The diagnostics at the place, and what the name there is."""
    line = document.lines.position(offset)["line"]
    told = [it.hover() for it in document.found if it.span["start"]["line"] == line]
    number = document.outline.word_at(offset)
    if number is not None:
        told += _of_name(document.outline, document.lines, number)
    return {"contents": {"kind": "markdown", "value": "\n\n".join(told)}} if told else None


def _of_name(outline: Outline, lines: Lines, number: int) -> list[str]:
    port = outline.port_of(number)
    if port is not None:
        return _of_port(outline, number, port)
    definition = outline.named.get(outline.words[number])
    target = outline.target_of(number)
    if definition is not None and target == definition.name:
        return [_source(outline, lines, definition)]
    around = outline.around(target) if target is not None else None
    for it in around.declared if around is not None else []:
        if it.name == target:
            return [f"{it.kind} `{outline.words[it.name]}` of type `{outline.words[it.type]}`"]
    return []


def _of_port(outline: Outline, number: int, port: Declared) -> list[str]:
    """Its type, what it sends and receives, and its partners."""
    word, port_type = outline.words[port.name], outline.words[port.type]
    owner = outline.around(port.name)
    of = f" of `{outline.words[owner.name]}`" if owner else ""
    told = [f"port `{word}`{of}, of type `{port_type}`"]
    told += [f"- {direction}" for direction in outline.directions(port_type)]
    component = outline.owner_of(number)
    type_name = outline.words[owner.name] if owner else ""
    names = [component] if component else [name for name, it in outline.components.items() if it == type_name]
    partners = [line for name in names for line in _partners(outline, f"{name}.{word}")]
    if outline.case is not None and not partners:
        told.append("- is neither connected nor mapped")
    told += partners[:_MOST_LINES]
    if len(partners) > _MOST_LINES:
        told.append(f"- and {len(partners) - _MOST_LINES} more")
    return ["\n".join([told[0], "", *told[1:]])]


def _partners(outline: Outline, port: str) -> list[str]:
    told = {"connect": "connected", "map": "mapped"}
    both = [ends for how, one, other in outline.joined for ends in ((how, one, other), (how, other, one))]
    return [f"- `{one}` is {told[how]} to `{other}`" for how, one, other in both if one == port]


def _source(outline: Outline, lines: Lines, definition: Definition) -> str:
    """The text of a type, or the head of a definition with statements."""
    has_statements = definition.kind in ("function", "altstep", "testcase")
    last = definition.head if has_statements else definition.last
    text = lines.text[outline.offsets[definition.first] : outline.end(last)]
    shown = text.splitlines()
    more = ["    .."] if len(shown) > _MOST_LINES else []
    return "\n".join(["```ttcn", *shown[:_MOST_LINES], *more, "```"])


def definition_of(document: Document, offset: int) -> Optional[Json]:
    number = document.outline.word_at(offset)
    target = document.outline.target_of(number) if number is not None else None
    return None if target is None else {"uri": document.uri, "range": _name(document.outline, document.lines, target)}


def _name(outline: Outline, lines: Lines, number: int) -> Json:
    return lines.region(outline.offsets[number], outline.end(number))


def symbols_of(outline: Outline, lines: Lines) -> list[Json]:
    """The definitions, each with its ports, fields and variables."""
    return [_symbol(outline, lines, it) for it in outline.definitions]


def _symbol(outline: Outline, lines: Lines, it: Union[Definition, Declared]) -> Json:
    place = _name(outline, lines, it.name)
    made: Json = {"name": outline.words[it.name], "range": place, "selectionRange": place}
    if isinstance(it, Declared):
        return {**made, "kind": _KINDS.get(it.kind, _VARIABLE), "detail": outline.words[it.type]}
    whole = lines.region(outline.offsets[it.first], outline.end(it.last))
    inner = [_symbol(outline, lines, one) for one in it.declared]
    return {**made, "kind": _KINDS.get(it.kind, _FUNCTION), "detail": it.kind, "range": whole, "children": inner}


def flat(symbols: list[Json], uri: str) -> list[Json]:
    """The same for a client that doesn't support symbols within symbols."""
    return [{"name": it["name"], "kind": it["kind"], "location": {"uri": uri, "range": it["range"]}} for it in symbols]
