"""Which commit this is, and whether a gate passed on it."""
from __future__ import annotations

import hashlib
import subprocess
from collections.abc import Mapping

from ..command import NOT_BUILT, REFUSED, Stop

# For each word of out/gate with a hash: the beginning of the message if another file is built.
_TRIED = {
    "program": "tpr isn't the program",
    "tpr_ordered": "tpr_ordered isn't the program",
    "library": "libtp_port.a isn't the library",
}


def git(root: str, *words: str) -> str:
    """What git prints of the repository."""
    try:
        ran = subprocess.run(["git", "-C", root, *words], stdin=subprocess.DEVNULL, capture_output=True, check=False)
    except OSError as error:
        raise Stop(NOT_BUILT, f"git can't be run: {error.strerror}") from None
    if ran.returncode != 0:
        said = ran.stderr.decode("utf-8", "replace").strip()
        raise Stop(NOT_BUILT, f"git {words[0]} ended with status {ran.returncode}: {said}")
    return ran.stdout.decode("utf-8", "surrogateescape")


def passed_gate(root: str, built: Mapping[str, bytes]) -> str:
    """The last lines of the gate, if it passed on this commit, and with exactly these programs and this library. ./test
    has kept them in out/gate: lines with a word and its value, an empty line, and the gate's last lines."""
    try:
        with open(f"{root}/out/gate", encoding="utf-8") as file:
            said = file.read()
    except OSError:
        raise Stop(REFUSED, "no gate has passed here: ./test leaves out/gate when it passes on a commit") from None
    named = dict(line.partition(" ")[::2] for line in said.partition("\n\n")[0].split("\n"))
    commit = git(root, "rev-parse", "HEAD").strip()
    if named.get("commit") != commit:
        raise Stop(REFUSED, f"the gate passed on commit {named.get('commit')}, and this is {commit}")
    changed = git(root, "status", "--porcelain").split("\n")[0]
    if changed:
        raise Stop(REFUSED, f"the work tree isn't what the gate passed on: {changed[3:]}")
    for word, data in built.items():
        if named.get(word) != hashlib.sha256(data).hexdigest():
            raise Stop(REFUSED, f"{_TRIED[word]} that the gate tried")
    return said
