"""The class of a port type for Eclipse Titan 8.2 that keeps its messages in the queue of libtp_port.a.

Titan writes a class `TYPE_BASE` for a port type that isn't `internal`, and leaves `TYPE` to its user. `TYPE_BASE`
handles messages of all types. So `TYPE` only shows it the top message, as if nothing else were queued, and checks
whether it was removed. The parameters of each operation are read from the header that Titan wrote.
"""
from __future__ import annotations

import os
import re
from typing import NamedTuple

from ..template import Template

# The text of the class, and of each of its operations and sends.
_TEMPLATE = Template(os.path.join(os.path.dirname(os.path.realpath(__file__)), "port"))
OPERATIONS = ("receive", "check_receive", "trigger")
_PROCEDURES = re.compile(r"^alt_status (?:check_)?(?:getcall|getreply|get_exception|catch)\(", re.M)
_BODY = r"^class {}_BASE : public PORT \{{\n(.*?process_message\([^\n]*\n)\}};"
_SENT = re.compile(r"^virtual void outgoing_send\((.*)\) = 0;", re.M)
_RECEIVED = re.compile(rf"^alt_status ({'|'.join(OPERATIONS)})\((.*)\);", re.M)
_NAMED = re.compile(r"(\w+)$")


class NoPort(Exception):
    """Why there is no class."""


class Operation(NamedTuple):
    """A receiving operation for one type of messages, or for any: its name, its parameters, and the names of these."""

    name: str
    parameters: tuple[str, ...]

    def names(self) -> list[str]:
        return [_NAMED.findall(it)[0] for it in self.parameters]


def port_class(port_type: str, header: str, file: str) -> str:
    """The text of TYPE.hh for the port type, from the header that Titan wrote for its module."""
    name = port_type.replace("_", "__")
    body = _body_of(name, port_type, header, file)
    space = re.search(r"^namespace (\w+) \{", header, re.M)
    if _PROCEDURES.search(body) or not space:
        raise NoPort(f"`{port_type}` of {file} isn't a port type for messages alone")
    parts = {"name": name, "file": file, "module": space[1], "port_type": port_type}
    parts["operations"] = "".join(_operation(name, it) for it in _operations(body))
    parts["sendings"] = "".join(_sending(port_type, it) for it in _SENT.findall(body))
    return _TEMPLATE.filled("class.hh", parts)


def _body_of(name: str, port_type: str, header: str, file: str) -> str:
    found = re.search(_BODY.format(name), header, re.M | re.S)
    if not found:
        why = "name another header, or compile the module without the extension `internal` for that port type"
        raise NoPort(f"{file} has no class `{name}_BASE` for the port type `{port_type}`: {why}")
    return found[1]


def _operations(body: str) -> list[Operation]:
    found = _RECEIVED.findall(body)
    return [Operation(name, tuple(_named(it) for it in given.split(", "))) for name, given in found]


def _named(parameter: str) -> str:
    """A parameter with a name: the last one has none in the header."""
    return parameter if _NAMED.search(parameter) else f"{parameter} index_redirect"


def _operation(name: str, it: Operation) -> str:
    parameters, names = ", ".join(it.parameters), ", ".join(it.names())
    parts = {"name": name, "operation": it.name, "parameters": parameters, "names": names}
    return _TEMPLATE.filled("operation.hh", parts)


def _sending(port_type: str, parameters: str) -> str:
    types = ", ".join(re.sub(r"\s*\b\w+$", "", it) for it in parameters.split(", "))
    return _TEMPLATE.filled("sending.hh", {"types": types, "port_type": port_type})
