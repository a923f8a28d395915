"""Random scripts in which every form of the grammar of docs/PROFILE.md occurs: values and templates nested in each
other and with loop variables in them, both notations of a record, sends of what a variable or a loop variable holds,
messages of nine types, and the tokens of a script in any layout. `tpr check` accepts nearly all.

The configuration and the choice of statements are those of tests/orders/generator.py.
"""
from __future__ import annotations

import random
import re
import sys
from collections.abc import Callable
from pathlib import Path

sys.path.append(str(Path(__file__).resolve().parents[1] / "orders"))

from generator import IDLE, Maker, Place, indented, some_names
from tpr_tools.script.tokens import Text

RECORDS: dict[str, dict[str, str]] = {
    "R": {"i": "integer", "t": "charstring"},
    "E": {},
    "N": {"r": "R", "l": "L", "b": "boolean"},
}
LISTS = {"L": "integer", "M": "L", "S": "N"}
SIMPLE = ("integer", "boolean", "charstring")
HEADER = f"""module Grammar {{
    type record of integer L;
    type record of L M;
    type record R {{ integer i, charstring t }}
    type record E {{ }}
    type record N {{ R r, L l, boolean b }}
    type record of N S;
    type port P message {{ inout {", ".join((*SIMPLE, *LISTS))}; in R, E, N; out R, E, N; }}
    type component C {{ port P p, q; }}
    type component Unused {{ port P one; port P two; }}
"""
VARIABLES = {"n": "integer", "r": "R", "l": "L"}
TEXTS = ('""', '"ab"', '"a ""quoted"" word"', '"\\"')
PATTERNS = ('"*"', '"a?"', '"?*b"', '""')
NO_GAP_NEEDED = re.compile(r"[^A-Za-z0-9_]")
GAPS = (" ", " ", "\n", "\r\n", "\t", " /* a comment; } */ ", " // to the end of the line }\n")

# The forms that must occur somewhere among the scripts, each as a pattern of tokens with a space between each two.
FORMS = {
    "a loop variable that is sent": r"send \( i[12] \)",
    "a loop variable in a value": r"send \( [A-Z]\w* : [^;]*\bi[12]\b",
    "a loop variable in a template": r"(receive|trigger) \( [A-Z]\w* : [^;]*\bi[12]\b",
    "a record that is kept and sent": r"send \( r \)",
    "a record with the names of its fields": r"\{ \w+ := ",
    "a range to infinity": r"\.\. infinity",
    "a range from infinity": r"\( - infinity \.\.",
    "a complement": r"complement \(",
    "a pattern": r"pattern \"",
    "an alt with nothing but [else]": r"alt \{ \[ else \]",
    "a branch without a block": r"; \[ (\]|else)",
    "a check": r"check \( receive",
    "a redirect of both": r"-> value \w sender w",
    "a send to all": r"to all component",
    "an operation on all ports": r"all port \.",
    "a system under test": r"function sut",
    "a body that doesn't end with a semicolon": r"[^;}{] \} (function|testcase)",
}


class GrammarMaker(Maker):
    """Makes a random script, in which any form of the grammar may occur."""

    def value(self, of: str, place: Place) -> str:
        """A random value of the type, possibly with loop variables in it."""
        if of == "integer":
            loops = [f"i{it}" for it in range(1, place.loops + 1)]
            return self.chance.choice(["0", "1", "2", "-0", "-1", "9223372036854775807", *loops * 2])
        if of == "boolean":
            return self.chance.choice(("true", "false"))
        if of == "charstring":
            return self.chance.choice(TEXTS)
        return self.members(of, lambda it: self.value(it, place), self.chance.randint(0, 2))

    def members(self, of: str, member: Callable[[str], str], length: int) -> str:
        """A record or a `record of`, with its brackets."""
        if of in LISTS:
            return "{" + ", ".join(member(LISTS[of]) for _ in range(length)) + "}"
        fields = list(RECORDS[of].items())
        if self.often(0.5) or not fields:
            return "{" + ", ".join(member(it) for _, it in fields) + "}"
        self.chance.shuffle(fields)
        return "{" + ", ".join(f"{name} := {member(it)}" for name, it in fields) + "}"

    def template(self, of: str, place: Place, depth: int = 0) -> str:
        """A random template of the type."""
        kinds: list[Callable[[], str]] = [lambda: "?", lambda: self.value(of, place)]
        if depth < 3:
            kinds += [lambda: f"({self.several(of, place, depth)})"]
            kinds += [lambda: f"complement ({self.several(of, place, depth)})"]
        if of == "integer":
            kinds += [self.range_of] * 2
        if of == "charstring":
            kinds.append(lambda: f"pattern {self.chance.choice(PATTERNS)}")
        if of in RECORDS or of in LISTS:
            kinds += [lambda: self.matched_members(of, place, depth)] * 4
        return self.chance.choice(kinds)()

    def several(self, of: str, place: Place, depth: int) -> str:
        return ", ".join(self.template(of, place, depth + 1) for _ in range(self.chance.randint(1, 2)))

    def range_of(self) -> str:
        lower, upper = self.chance.choice(("-infinity", "-1", "0")), self.chance.choice(("1", "2", "infinity"))
        return f"({lower} .. {upper})"

    def matched_members(self, of: str, place: Place, depth: int) -> str:
        def member(it: str) -> str:
            return "*" if of in LISTS and self.often(0.3) else self.template(it, place, depth + 1)

        return self.members(of, member, self.chance.randint(0, 3))

    # Bodies

    def body(self, who: str) -> list[str]:
        place = Place(who, self.often(0.6))
        lines = ["var integer n; var C w; var R r; var L l;"] if place.variables else []
        for _ in range(self.chance.randint(1, 5)):
            lines += self.statement(place)
        return [*lines, IDLE if who == "system" else "setverdict(none);"]

    def send(self, place: Place) -> list[str]:
        ports = [port for port in "pq" if (place.who, port) in self.routes]
        port = self.chance.choice(ports or ["p", "q"])
        return [f"{port}.send({self.message(place)}){self.receiver(place, port)};"]

    def message(self, place: Place) -> str:
        if place.variables and self.often(0.1):
            return self.chance.choice(list(VARIABLES))
        if place.loops and self.often(0.4):
            return f"i{self.chance.randint(1, place.loops)}"
        of = self.chance.choice((*SIMPLE, "integer", *RECORDS, *LISTS))
        return f"{of}:{self.value(of, place)}"

    def choice(self, place: Place) -> list[str]:
        if self.often(0.1):
            return ["alt {", "[else] {", *self.block(place), "};", "}"]
        return self.without_empty_blocks(super().choice(place))

    def without_empty_blocks(self, lines: list[str]) -> list[str]:
        """Replaces some of the empty blocks of branches by a semicolon."""
        made, at = list[str](), 0
        while at < len(lines):
            is_empty = lines[at].startswith("[] ") and lines[at].endswith("{") and lines[at + 1] == "}"
            if is_empty and self.often(0.3):
                made.append(lines[at].removesuffix(" {") + ";")
                at += 2
            else:
                made.append(lines[at])
                at += 1
        return made

    def guard(self, place: Place, port: str = "") -> str:
        of = self.chance.choice((*SIMPLE, "integer", *RECORDS, *LISTS))
        template = f"({of}:{self.template(of, place)})" if self.often(0.6) else ""
        source = f" from {self.chance.choice(self.speakable(place.who))}" if self.often(0.2) else ""
        redirect = ""
        if place.variables and self.often(0.6):
            kept = [f" value {name}" for name, it in VARIABLES.items() if template and it == of]
            redirect = " ->" + "".join(kept) + (" sender w" if not kept or self.often(0.5) else "")
        received = template + source + redirect
        (how,) = self.chance.choices(("receive", "trigger", "check"), (6, 3, 2))
        port = port or self.chance.choice("pq")
        return f"{port}.check(receive{received})" if how == "check" else f"{port}.{how}{received}"


def some_grammar_script(chance: random.Random) -> str:
    """A random script. The same state of `chance` makes the same script."""
    made = some_names(chance)[:4]
    system = ["system"] if chance.random() < 0.2 else []
    maker = GrammarMaker(chance, chance.choice((0.1, 0.4)), 3, ["mtc", *made, *system])
    maker.arguments = {name: chance.choice(["mtc", "self", *made]) for name in made if chance.random() < 0.5}
    maker.connect()
    functions = [function_of(maker, name) for name in [*made, *system]]
    setup = [
        *(f"var C {name} := C.create;" for name in made),
        *maker.pairs,
        *(f"{name}.start(of_{name}({maker.arguments.get(name, '')}));" for name in made),
    ]
    body = indented([*setup, *maker.body("mtc"), "all component.done;"])
    clause = " system C" if system else ""
    case = f"testcase t() runs on C{clause} {{\n{body}}}\n"
    return laid_out(f"{HEADER}{''.join(functions)}{case}}}\n", chance)


def function_of(maker: GrammarMaker, name: str) -> str:
    parameter = "C x" if name in maker.arguments else ""
    function = "sut" if name == "system" else f"of_{name}"
    return f"function {function}({parameter}) runs on C {{\n{indented(maker.body(name))}}}\n"


def laid_out(text: str, chance: random.Random) -> str:
    """The same tokens in another layout, without some of the optional semicolons."""
    tokens = Text(text.encode()).tokens
    pieces = []
    for token, behind in zip(tokens, [*tokens[1:], ""]):
        if token == ";" and behind == "}" and chance.random() < 0.5:
            continue
        pieces += [token, chance.choice(GAPS) if chance.random() < 0.9 or is_glued(token, behind) else ""]
    return "".join(pieces) + "\n"


def is_glued(token: str, behind: str) -> bool:
    """Whether the two would be read as other tokens if there is no gap between them."""
    are_words = not (NO_GAP_NEEDED.match(token) or NO_GAP_NEEDED.match(behind))
    return are_words or {token[-1:], behind[:1]} <= set('.:-="/*>')
