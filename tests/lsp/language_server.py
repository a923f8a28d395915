#!/usr/bin/env python3
"""Tests tools/lsp over its protocol, frame by frame, and in a headless neovim if there is one.

    tests/lsp/language_server.py PROGRAM ORDERED
"""
from __future__ import annotations

import json
import os
import random
import re
import shutil
import signal
import sys
import textwrap
import time
from pathlib import Path
from typing import Any
from xml.etree import ElementTree

sys.dont_write_bytecode = True
sys.path.insert(0, str(Path(__file__).resolve().parents[1] / "tools"))

from client import PUBLISHED, ROOT, URI, Client, frame
from tool_calls import (
    Ended, Group, case, example, file_of, must, must_be, onto_a_full_device, program_of, room, run, try_groups,
)  # fmt: skip

from tpr_tools.words import RESERVED

PROGRAM, ORDERED = sys.argv[1], sys.argv[2]
EDITORS = ROOT / "tools" / "tpr_tools" / "lsp" / "editors"
os.environ["TPR_ORDERED"] = ORDERED
DOCUMENT = {"textDocument": {"uri": URI}}
HOVER, LENS, HINTS = "hover", "codeLens", "inlayHint"
KITCHEN = example("closed_counter_serves_no_order.ttcn").read_text(encoding="utf-8")
RACE = example("else_is_taken_for_a_timeout.ttcn").read_text(encoding="utf-8")
WRONG = KITCHEN.replace('bell.send(charstring:"one more?")', 'bell.send(Order:{2, "x"})')
FULL = """module Full {
  type port P message { inout integer; }
  type component C { port P p; }
  testcase TC() runs on C { log("begins"); var float v := 1.0; setverdict(pass); }
}
"""
MAIN = """module Main {
  import from Near all;
  testcase TC() runs on C { log("begins"); setverdict(pass); }
}
"""
NEAR = "module Near { import from Far all; type component C { port P p; } }\n"
IMPORTED = "module Far { import from Main all; type port P message { inout integer; } }\n"


def end_of(text: str) -> Any:
    """The position after the text."""
    return {"line": text.count("\n"), "character": len(text.rpartition("\n")[2].encode("utf-16-le")) // 2}


def place_of(text: str, piece: str, inside: int = 0) -> Any:
    return end_of(text[: text.index(piece) + inside])


def hover_at(client: Client, text: str, piece: str, inside: int = 0) -> str:
    found = client.of(HOVER, position=place_of(text, piece, inside))
    return str(found["contents"]["value"]) if found else ""


def errors(found: list[Any]) -> list[Any]:
    return [it for it in found if it["severity"] == 1]


# What an editor shows


def diagnostics() -> None:
    with Client(PROGRAM) as client:
        with case("an accepted script has no error"):
            client.open(KITCHEN)
            must_be(errors(client.diagnostics()), [])
        with case("a fault, its place, its code and the related place"):
            (found,) = client.diagnostics(WRONG)
            ends = [place_of(WRONG, 'Order:{2, "x"}', inside) for inside in (0, len("Order"))]
            must_be(found["range"], dict(zip(("start", "end"), ends)))
            must_be([found["code"], found["severity"], found["source"]], ["14 Direction", 1, "tpr"])
            must_be([it["message"] for it in found["relatedInformation"]], ["the port type"])
        with case("a hover on a fault has its rule, with the clauses"):
            form = r"rule: the message type is in the port's list of sent types, .* \(ES 201 873-1, 15, 19 to 24\)$"
            found = hover_at(client, WRONG, 'Order:{2, "x"}')
            must(re.search(form, found, re.MULTILINE), f"another rule: {found}")
        with case("all faults at once, the first of which is the program's"):
            found = client.diagnostics(WRONG.replace("setverdict(pass)", "setverdict(error)"))
            must_be([it["code"] for it in found], ["14 Direction", "13 WrongType"])
        with case("columns are units of UTF-16"):
            text = WRONG.replace("bell.send(Order", "/* \U0001f600 é */ bell.send(Order").replace("\n", "\r\n")
            start, end = (place_of(text, 'Order:{2, "x"}', inside) for inside in (0, len('Order:{2, "x"}')))
            must_be(client.diagnostics(text)[0]["range"]["start"], start)
        with case("an edit after a wide character"):
            client.change('charstring:"one more?"', {"start": start, "end": end})
            must_be(errors(client.diagnostics()), [])


def full_language() -> None:
    with Client(PROGRAM) as client:
        with case("a text of the full language, and what tools/rewrite does with it"):
            client.open(FULL)
            (first,) = client.diagnostics()
            must_be(first["code"], "10 Syntax")
            told = [it["message"] for it in client.diagnostics()]
            must(any("`log` isn't supported" in it for it in told), f"no log in {told}")
            is_replaced = all("write instead" in it or "no replacement" in it for it in told)
            must(is_replaced, f"a message names no replacement, and doesn't say that there is none: {told}")
            must(all("tools/rewrite carries it over" in it for it in told), f"not carried over: {told}")
        with case("a hover on a construct has its clause"):
            must("ES 201 873-1, 19.11" in hover_at(client, FULL, "log"), "no clause")
        with case("what tools/rewrite can't carry over, with its reason"):
            found = client.diagnostics(FULL.replace("type port", "import from Other all; type port"))
            must_be(found[0]["severity"], 1)
            must("tools/rewrite can't carry it over: " in json.dumps(client.diagnostics()), "no reason")
        with case("what a text imports, from the files beside it"):
            must_be(rewritten_in_a_folder(IMPORTED), ["tools/rewrite carries it over"] * 2)
            said = rewritten_in_a_folder("")
            form = r"tools/rewrite can't carry it over: \S*/near.ttcn:1:\d+: the module `Far` isn't among the files"
            must(len(said) == 2 and re.match(form, said[0]) and said[1] == said[0], f"other reasons: {said}")
        for number, text in enumerate(("", "\ud800", "\x00\x01", "It was a dark night.\n", "}{" * 50, '"', "/*"), 1):
            with case(f"a text that isn't TTCN-3, number {number}"):
                must_be([it["severity"] for it in client.diagnostics(text)][:1], [1])


def rewritten_in_a_folder(imported: str) -> list[str]:
    """The messages about tools/rewrite for an import and a `log`, in a text that isn't saved yet."""
    with room() as folder, Client(PROGRAM) as client:
        for name, text in (("near.ttcn", NEAR), ("far.ttcn3", imported), ("main.ttcn", "module Main {}\n")):
            file_of(folder / name, text)
        (folder / "folder.ttcn").mkdir()
        client.open(MAIN, f"file://{folder}/main.ttcn")
        client.diagnostics()
        messages = [it["message"].split("\n") for it in client.diagnostics()]
    return ["".join(line for line in lines if line.startswith("tools/rewrite")) for lines in messages]


def several_files_and_edits() -> None:
    with Client(PROGRAM) as client:
        with case("two texts at once"):
            other = "untitled:other"
            client.open(WRONG)
            client.open(KITCHEN, other)
            found = [client.notice(PUBLISHED) for _ in range(2)]
            must_be({it["uri"]: bool(errors(it["diagnostics"])) for it in found}, {URI: True, other: False})
        with case("a closed text has no diagnostics"):
            client.tell("textDocument/didClose", DOCUMENT)
            closed = client.next(lambda it: it.get("method") == PUBLISHED and "version" not in it["params"])
            must_be(closed["params"], {"uri": URI, "diagnostics": []})
        with case("a request on a closed text"):
            must_be(client.of(HOVER, position=end_of(""))["code"], -32602)
        with case("edits of ranges, at random"):
            client.open(KITCHEN)
            text = edited(client, KITCHEN, random.Random(1))
            symbols = client.of("documentSymbol")
            client.change(text)
            must_be(symbols, client.of("documentSymbol"))
    with Client(PROGRAM, "--delay", "1000") as client, case("many changes in a row, and diagnostics of the last alone"):
        client.open(WRONG)
        for _ in range(18):
            client.change(KITCHEN)
        must_be(client.notice(PUBLISHED)["version"], 19)


def edited(client: Client, text: str, chance: random.Random) -> str:
    """Makes random edits, which it also sends to the server. Returns the new text."""
    for _ in range(198):
        start, end = sorted(chance.randrange(len(text) + 1) for _ in range(2))
        end = min(end, start + 9)
        piece = chance.choice(["", "\n", "\U0001f600", "type port Q message {}\n", "x", "{", "}", '"'])
        client.change(piece, {"start": end_of(text[:start]), "end": end_of(text[:end])})
        text = text[:start] + piece + text[end:]
    return text


PORT = "port `bell` of `Person`, of type `Bell`\n\n- inout charstring\n"
JOINED = ("- `mtc.bell` is connected to `chef.bell`", "- `chef.bell` is connected to `mtc.bell`")
# The places to hover over, and the text of each hover.
HOVERS = (
    ("a port", "bell.send", 0, PORT + "\n".join(JOINED)),
    ("a port of one component", "chef:bell", 5, PORT + JOINED[1]),
    ("a type", "Order:{?", 0, "```ttcn\ntype record Order { integer number, charstring dish }\n```"),
)
# A name, and the beginning of its definition.
DEFINED = (
    ("cook());", 0, "cook() runs"),
    ("chef.start", 0, "chef := "),
    ("bell.send", 0, "bell; }"),
    ("Counter counter", 0, "Counter message"),
    ("chef:counter", 5, "counter; port"),
)


def names() -> None:
    with Client(PROGRAM) as client:
        client.open(KITCHEN)
        for name, piece, inside, told in HOVERS:
            with case(f"a hover on {name}"):
                must_be(hover_at(client, KITCHEN, piece, inside), told)
        with case("a hover on nothing"):
            must_be(client.of(HOVER, position={"line": 10**6, "character": 10**6}), None)
        for piece, inside, target in DEFINED:
            with case(f"the definition of {piece}"):
                found = client.of("definition", position=place_of(KITCHEN, piece, inside))
                must_be(found["range"]["start"], place_of(KITCHEN, target))
        with case("the definitions of a text"):
            found = client.of("documentSymbol")
            must_be([it["name"] for it in found], ["Order", "Counter", "Bell", "Person", "cook", "late_order"])
            must_be([it["name"] for it in found[3]["children"]], ["counter", "bell"])
        with case("a definition in a text with a fault"):
            client.change(KITCHEN + "}}")
            must(hover_at(client, KITCHEN, "bell.send"), "no hover")
    with Client(PROGRAM, can={}) as client, case("the definitions for a client without nested ones"):
        client.open(KITCHEN)
        must("location" in client.of("documentSymbol")[0], "they aren't flat")


def verdicts_and_runs() -> None:
    with Client(PROGRAM) as client:
        client.open(KITCHEN)
        with case("the verdict above the test case"):
            (lens,) = client.of(LENS)
            must_be(lens["command"], {"title": "always pass", "command": ""})
            must_be(lens["range"]["start"]["line"], place_of(KITCHEN, "testcase")["line"])
        with case("where messages went, and what was never reached"):
            client.notice("workspace/inlayHint/refresh")
            found = {it["position"]["line"] + 1: it["label"] for it in client.of(HINTS)}
            must_be(found, {11: "→ 25", 14: "never reached", 24: "→ 9", 26: "→ left", 27: "→ 12"})
        with case("a change drops the hints, and a save brings them back"):
            client.change(KITCHEN + "\n")
            must_be(client.of(HINTS), [])
            client.of(LENS)
            client.tell("textDocument/didSave", DOCUMENT)
            client.notice("workspace/inlayHint/refresh")
            must_be(len(client.of(HINTS)), 5)
        with case("the runs that diverge, as a document"):
            client.change(RACE)
            (lens,) = client.of(LENS)
            must_be(lens["command"].pop("title"), "pass or fail: show where the runs diverge")
            shown = client.ask("workspace/executeCommand", lens["command"])
            must_be(client.notice("window/showDocument")["uri"], shown["uri"])
            written = Path(shown["uri"].removeprefix("file://"))
            must_be(written.read_text(encoding="utf-8"), shown["text"])
            must(shown["text"].startswith("pass or fail\n") and shown["text"].count("  result ") == 2, shown["text"])
        with case("a refused script has no verdict"):
            client.change(WRONG)
            must_be(client.of(LENS), [])
        with case("the folder of documents goes with the server"):
            must_be([client.end(), written.parent.exists()], [0, False])
    with Client(PROGRAM, can={}) as client, case("where the runs are, for a client that can't show a document"):
        client.open(RACE)
        shown = client.ask("workspace/executeCommand", lens["command"])
        told = client.notice("window/showMessage")["message"]
        must_be(told, f"The runs are in {shown['uri'].removeprefix('file://')}.")


def programs_that_take_long() -> None:
    with room() as folder:
        started = folder / "started"
        waits = f'if [ "$1" = verdicts ]; then echo $$ >>{started}; exec sleep 600; fi'
        with Client(program_of(folder / "slow", waits, f'exec {PROGRAM} "$@"')) as client:
            client.open(KITCHEN)
            with case("a lens that isn't waited for longer"):
                (lens,) = client.of(LENS)
                must_be(lens["command"]["title"], "computing the verdicts")
            with case("a cancelled request"):
                number = client.begin("textDocument/codeLens", DOCUMENT)
                client.tell("$/cancelRequest", {"id": number})
                must_be(client.answer(number)["error"]["code"], -32800)
            with case("a request that a change overtakes, and the program that it waited for"):
                number = client.begin("textDocument/codeLens", DOCUMENT)
                first = int(started.read_text().split()[0])
                client.change(WRONG)
                must_be(client.answer(number)["error"]["code"], -32801)
                must_end(first)
            with case("the end of the server ends its programs"):
                client.change(KITCHEN)
                must_soon(lambda: len(started.read_text().split()) == 2, "no second program")
                must_be(client.end(False), 1)
                must_end(int(started.read_text().split()[1]))


UNDECIDED = r"cat >/dev/null; printf 'undecided\nseen pass\nstates 4194304\npass: mtc chef\n'; exit 3"


def programs_of_each_kind() -> None:
    """The server with undecided verdicts, with a run that takes too long, and without an answer."""
    with room() as folder:
        started = folder / "started"
        kinds = f"case $1 in verdicts) {UNDECIDED} ;; run) echo $$ >{started}; exec sleep 600 ;; esac"
        with Client(program_of(folder / "program", kinds, f'exec {PROGRAM} "$@"')) as client:
            client.open(KITCHEN)
            with case("verdicts that aren't decided"):
                (lens,) = client.of(LENS)
                must_be(lens["command"]["title"], "undecided after 4,194,304 states")
            with case("a run that takes too long is ended, and leaves no hints"):
                must_soon(lambda: started.exists() and started.read_text().strip(), "no run")
                client.notice("workspace/inlayHint/refresh")
                must_be(client.of(HINTS), [])
                must_end(int(started.read_text()))
        program_of(folder / "broken", "echo what")
        program_of(folder / "silent", "exec sleep 600")
        for name in ("absent", "broken", "silent"):
            program = str(folder / name)
            with Client(program) as client, case(f"a program that is {name}: the server's own reading decides"):
                client.open(WRONG)
                must_be(client.diagnostics()[0]["code"], "14 Direction")
                must("checks the script by itself" in client.notice("window/logMessage")["message"], "it isn't logged")


def must_soon(holds: Any, what: str) -> None:
    for _ in range(1000):
        if holds():
            return
        time.sleep(0.02)
    must(False, what)


def must_end(process: int) -> None:
    called = Path(f"/proc/{process}/cmdline")
    must_soon(lambda: not called.exists() or not called.read_bytes(), "it runs on")


# The protocol


def calls_and_ends() -> None:
    with Client(PROGRAM, is_initialized=False) as client:
        with case("a request before initialize"):
            must_be(client.of(HOVER)["code"], -32002)
        with case("what the server can"):
            found = client.ask("initialize", {"processId": None, "capabilities": {}})["capabilities"]
            must_be([found["positionEncoding"], found["textDocumentSync"]["change"]], ["utf-16", 2])
        with case("a second initialize"):
            must_be(client.ask("initialize", {})["code"], -32600)
        with case("a method that isn't there"):
            must_be(client.ask("textDocument/rename", {})["code"], -32601)
        wrong: tuple[Any, ...] = (None, [], {}, {"textDocument": 1}, {"textDocument": {"uri": 1}}, DOCUMENT)
        for number, params in enumerate(wrong, 1):
            with case(f"wrong parameters, number {number}"):
                must_be(client.ask("textDocument/hover", params)["code"], -32602)


def turns() -> None:
    opened = {"method": "textDocument/didOpen", "params": {"textDocument": {"uri": URI, "text": "x" * 9_000_000}}}
    asked = {"id": "a", "method": "textDocument/hover", "params": {**DOCUMENT, "position": end_of("")}}
    cancels = {"method": "$/cancelRequest", "params": {"id": "a"}}
    nobody = ({"id": 5, "result": 1}, {"method": "$/what", "params": 1}, {"method": "textDocument/didSave"})
    with Client(PROGRAM) as client:
        with case("a request that was cancelled before its turn"):
            client.write(b"".join(map(frame, (opened, asked, cancels))))
            must_be(client.next(lambda it: it.get("id") == "a")["error"]["code"], -32800)
        with case("an answer that nobody asked for, and notifications that nobody knows"):
            client.write(b"".join(map(frame, nobody)))
            must_be(client.of(HOVER, position=end_of("")), None)
        with case("shutdown, a request after it, and exit"):
            must_be([client.ask("shutdown"), client.of(HOVER)["code"], client.end(False)], [None, -32600, 0])
    with Client(PROGRAM) as client, case("exit without shutdown"):
        client.tell("exit", None)
        must_be(client.process.wait(60), 1)
    with Client(PROGRAM) as client, case("a signal"):
        client.process.send_signal(signal.SIGTERM)
        must_be(client.process.wait(60), 130)


LENGTH = b"Content-Length: %s\r\n\r\n"
NO_FRAMES = (b"\r\n", LENGTH % b"x", LENGTH % b"-1", b"what\r\n", b"A: b\r\n" * 40 + b"\r\n")
BODIES = ((b"{", -32700), (b"[]", -32600), (b"1", -32600), (b"\xff", -32700), (b"{}", -32600), (b"[" * 99_999, -32700))


def broken_frames() -> None:
    cases = [(it, -32700) for it in NO_FRAMES]
    cases += [(LENGTH % b"%d" % len(body) + body, code) for body, code in BODIES]
    for number, (data, code) in enumerate(cases, 1):
        with Client(PROGRAM) as client, case(f"a broken frame, number {number}"):
            client.write(data)
            must_be(client.answer(None)["error"]["code"], code)
            must_be(client.ask("textDocument/rename")["code"], -32601)
    chance = random.Random(2)
    for number in range(1, 9):
        with Client(PROGRAM) as client, case(f"bytes at random, number {number}"):
            client.write(chance.randbytes(40_000) + b"\r\n\r\n")
            must_be(client.ask("textDocument/rename")["code"], -32601)
            must_be(client.end(), 0)
    with Client(PROGRAM) as client, case("a frame that the input ends in"):
        client.write(b"Content-Length: 9\r\n\r\n{")
        must_be([client.end(False), (client.process.stderr or sys.stdin.buffer).read().decode()], [1, ""])


def streams_that_fail() -> None:
    server, begins = ROOT / "tools" / "lsp", frame({"id": 1, "method": "initialize"})
    with case("answers onto a full device"):
        onto_a_full_device(server, input=begins).must_say("lsp: the answer can't be written", 3)
    for number, name, status in ((0, "input", 1), (1, "output", 3)):
        with case(f"a standard {name} that is closed"):
            ended = run("sh", "-c", f'exec "$0" {number}>&-', server, input=begins)
            ended.must_say(f"lsp: standard {name} is closed", status)


def odd_names() -> None:
    for uri in ("file://[", f"file:///%00{'€' * 83}.ttcn"):
        with Client(PROGRAM) as client:
            with case(f"a text with the URI {uri}"):
                client.open(RACE, uri)
                must_be(errors(client.notice(PUBLISHED)["diagnostics"]), [])
            with case(f"its runs that diverge, for {uri}"):
                asked = {"command": "tpr.showDivergingRuns", "arguments": [uri]}
                must("Where the runs diverge" in client.ask("workspace/executeCommand", asked)["text"], "no runs")


def large_texts() -> None:
    line = '    counter.send(Order:{1, "soup of the day"});\n'
    head, tail = KITCHEN.split('        bell.send(charstring:"one more?");\n')
    for name, size, codes in (("1 MiB", 1_048_576, []), ("more than 1 MiB", 1_048_577, ["15 Limit"])):
        with Client(PROGRAM) as client, case(f"a text of {name}"):
            text = head + line * ((size - len(head + tail)) // len(line)) + tail
            client.open(text + " " * (size - len(text.encode())))
            must_be([it["code"] for it in errors(client.diagnostics())], codes)
            must_be(client.of("documentSymbol")[0]["name"], "Order")


# The editors


def setup_of(editor: str) -> str:
    """The lines of docs/EDITORS.md for an editor."""
    page = (ROOT / "docs" / "EDITORS.md").read_text(encoding="utf-8")
    found = re.search(rf"^## {editor}\b.*?\n\n((?:    [^\n]*\n)+)", page, re.DOTALL | re.MULTILINE)
    must(found, f"docs/EDITORS.md has no lines for {editor}")
    return textwrap.dedent(found[1]) if found else ""


def neovim() -> None:
    editor = shutil.which("nvim")
    if editor is None:
        print("left out neovim as a client of tools/lsp: there is no nvim")
        return
    words = (editor, "--headless", "--clean", "-n", "-c", "{}", "-c", "cquit 1")

    def drive(folder: Path, script: str, **more: str) -> Ended:
        command = [it.format(f"luafile tests/lsp/{script}") for it in words]
        own = {"TPR": PROGRAM, "HOME": str(folder), "XDG_CONFIG_HOME": str(folder)}
        return run(*command, folder=ROOT, more={**own, **more}).must_end(0)

    with room() as folder, case("neovim shows a fault where it is, after an edit"):
        script = file_of(folder / "kitchen.ttcn", KITCHEN)
        setup = file_of(folder / "setup.lua", setup_of("Neovim").replace("tools/lsp", str(ROOT / "tools" / "lsp")))
        ended = drive(folder, "neovim.lua", SETUP=str(setup), SCRIPT=str(script))
        place = place_of(KITCHEN, 'bell.send(charstring:"one more?")')
        line, column = place["line"], place["character"]
        ended.must_show(rf"^error {line}:{column + 10}-{column + 15} `bell` sends no `Order`")
        ended.must_show(r"^lens always pass$")
        ended.must_show(r"^filetype ttcn$")
    with room() as folder, case("the picture of docs/EDITORS.md has what neovim shows"):
        picture = folder / "editor.svg"
        drive(folder, "picture.lua", PICTURE=str(picture))
        for file in (picture, ROOT / "docs" / "editor.svg"):
            text = " ".join(" ".join(ElementTree.parse(file).getroot().itertext()).split())
            for piece in ("pass or fail: show where the runs diverge", "→ 7", "`bell` sends no `Order`"):
                must(piece in text, f"{file} lacks {piece}")


def colours() -> None:
    """The syntax files have each reserved word once."""
    lines = (EDITORS / "ttcn.vim").read_text(encoding="utf-8").splitlines()
    grammar, package = (json.loads((EDITORS / name).read_bytes()) for name in ("ttcn.tmLanguage.json", "package.json"))
    matches = [it["match"] for it in grammar["patterns"] if it.get("match", "").startswith(r"\b(")]
    kate = ElementTree.parse(EDITORS / "ttcn.xml").getroot()
    for name, found in (
        ("ttcn.vim", [word for line in lines if line.startswith("syn keyword ") for word in line.split()[3:]]),
        ("ttcn.tmLanguage.json", [word for match in matches for word in match[3:-3].split("|")]),
        ("ttcn.xml", [it.text or "" for it in kate.iter("item")]),
    ):
        with case(f"the reserved words in {name}"):
            must_be(sorted(found), sorted(RESERVED))
    with case("what docs/EDITORS.md says of Kate has the name in ttcn.xml"):
        (server,) = json.loads(setup_of("Kate"))["servers"].values()
        must_be(server["highlightingModeRegex"], f"^{kate.get('name')}$")
    with case("VS Code finds the grammar, by its language and scope"):
        (language,), (told,) = package["contributes"]["languages"], package["contributes"]["grammars"]
        must_be([told["language"], told["scopeName"]], [language["id"], grammar["scopeName"]])
        must_be([told["path"], grammar["fileTypes"]], ["./ttcn.tmLanguage.json", ["ttcn", "ttcn3"]])
    vim_colours()


# Pieces of a line, and the group of colours of each.
COLOURED = {
    "testcase": "Keyword", " t()": "", "in": "Comment", "send": "Operation", "charstring": "Type", "b": "String",
    "}": "",
}  # fmt: skip


def vim_colours() -> None:
    vim = shutil.which("vim")
    if vim is None:
        print("left out the colours of vim: there is no vim")
        return
    with room() as folder, case("vim has colours, set up as in docs/EDITORS.md"):
        (folder / ".vim" / "syntax").mkdir(parents=True)
        shutil.copy(EDITORS / "ttcn.vim", folder / ".vim" / "syntax")
        file_of(folder / ".vimrc", setup_of("Vim"))
        file_of(folder / "one.ttcn", 'testcase t() /* in */ { p.send(charstring:"a ""in"" b"); }\n')
        looks = "synIDattr(synID(1, match(getline(1), v:val) + 1, 1), 'name')"
        ask = f"call writefile([json_encode(map({json.dumps([*COLOURED])}, {json.dumps(looks)}))], 'found')"
        words = ("-N", "-u", ".vimrc", "-n", "-es", "-c", "edit one.ttcn", "-c", ask, "-c", "qall!")
        run(vim, *words, folder=folder, more={"HOME": str(folder), "LC_ALL": "C.UTF-8"})
        must_be(json.loads((folder / "found").read_bytes()), [it and f"ttcn{it}" for it in COLOURED.values()])


if __name__ == "__main__":
    groups = (diagnostics, full_language, several_files_and_edits, names, verdicts_and_runs, programs_that_take_long)
    others = (programs_of_each_kind, calls_and_ends, turns, broken_frames, streams_that_fail, odd_names, large_texts)
    editors = (colours, neovim)
    cases = [Group(it, 0 if it is neovim else 1, it.__name__) for it in (*groups, *others, *editors)]
    del sys.argv[1:]
    sys.exit(try_groups(cases))
