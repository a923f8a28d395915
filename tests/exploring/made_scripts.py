"""Makes scripts for tools/explore that are larger than those in the repository."""
from __future__ import annotations


def senders(number: int, message: str) -> str:
    """Components c0, c1 and so on each send one message to `mtc`, which receives them all. An `@` in the message
    becomes the component's number."""
    each = range(number)
    lines = [
        "module Senders { type port P message { inout integer; } type component C { port P p; }",
        *(f"function f{at}() runs on C {{ p.send(integer:{message.replace('@', str(at))}) }}" for at in each),
        "testcase t() runs on C {",
        *(f"var C c{at} := C.create; connect(self:p, c{at}:p);" for at in each),
        *(f"c{at}.start(f{at}());" for at in each),
        f"for (var integer i := 0; i < {number}; i := i + 1) {{",
        "alt { [] p.receive(integer:1) {} [] p.receive {} } }",
        "setverdict(pass); all component.done; } }",
    ]
    return "".join(f"{line}\n" for line in lines)


def stars(number: int, length: int) -> str:
    """A pattern and a list with this many stars, and values of this length that almost match them."""
    pattern, members = "*a" * number + "*b", "*, 1, " * number + "*, 2"
    text, ones = "a" * length, ", ".join(["1"] * (length + 1))
    return f"""module Stars {{
type record of integer L;
type port P message {{ inout charstring, L; }}
type component C {{ port P p; }}
function sends() runs on C {{ p.send(charstring:"{text}"); p.send(L:{{{ones}}}); }}
testcase t() runs on C {{
    var C a := C.create;
    connect(self:p, a:p);
    a.start(sends());
    alt {{ [] p.receive(charstring:pattern "{pattern}") {{}} [] p.receive(charstring:?) {{}} }}
    alt {{ [] p.receive(L:{{{members}}}) {{}} [] p.receive(L:?) {{ setverdict(pass); }} }}
    all component.done;
}} }}
"""
