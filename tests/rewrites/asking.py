"""Common functions of the tests of tools/rewrite: they run it, and report the cases."""
from __future__ import annotations

import os
import subprocess
import sys
from typing import NamedTuple

ROOT = os.path.dirname(os.path.dirname(os.path.dirname(os.path.realpath(__file__))))
REWRITE = f"{ROOT}/tools/rewrite"
FOLDER = f"{ROOT}/tests/rewrites"
# Another folder of tools, in which a fault is planted.
TOOLS = os.environ.get("REWRITING", f"{ROOT}/tools")
EXPLAIN = f"{TOOLS}/explain"
sys.path.insert(0, TOOLS)

from tpr_tools.rewrite.rewriting import rewrite
from tpr_tools.rewrite.run import Options
from tpr_tools.rewrite.tokens import Source

PRELUDE = (
    "module T { type record Order { integer id, charstring text } type record of integer L;"
    " type port P message { inout integer, boolean, charstring, Order, L }"
    " type component C { port P p, q; var integer vc_n := 0; }\n"
)


class Ended(NamedTuple):
    status: int
    printed: str
    said: str


def passed(name: str) -> None:
    print(f"passed {name}")


def failed(name: str, why: str) -> None:
    print(f"FAILED: {name}: {why}")


def judged(name: str, is_so: bool, why: str) -> None:
    passed(name) if is_so else failed(name, why)


def run(*words: str, data: bytes = b"") -> Ended:
    done = subprocess.run(words, input=data, stdout=subprocess.PIPE, stderr=subprocess.PIPE, check=False)
    printed, said = (text.decode("utf-8", "replace") for text in (done.stdout, done.stderr))
    return Ended(done.returncode, printed, said)


def carried(program: str, name: str, text: str, options: Options = Options()) -> Ended:
    """The result that tools/rewrite would have. It runs in this process, because new processes take long."""
    found = rewrite([Source(name, text.encode())], options=options)
    if found.refused:
        return Ended(2, "", "".join(f"{one.text()}\n" for one in found.refused))
    said = run(program, "check", data=found.text.encode()).printed
    return Ended(0 if said == "accepted\n" else 2, found.text, "" if said == "accepted\n" else said)
