#!/usr/bin/env python3
"""The port class of `tools/titan --port`: the scripts that Eclipse Titan compiles, run by it with its own queue and
with that of libtp_port.a. With ours each verdict is one of the script's reports. So it is with Titan's own queue,
except where Titan departs from the standard. `titan/Ports.ttcn` tests what the examples don't show; it is run in single
mode too.

In this profile a component that has ended keeps its ports. In the full language it keeps them only if it was created
`alive` (21.3.4, 22.1), so each component here is. If a test case waits forever, the timer that guards it ends it with
an error, which is also the result of such a run here.

    tests/embedding/titan_ports.py PORT FOLDER [NAME..]

PORT is a folder that `embedding/build` has made. Everything is built in the FOLDER. Each NAME is a script to try;
without one, all are tried. TTCN3_DIR names the folder of a Titan that isn't below /usr. It prints a line `passed NAME`,
`left out NAME: WHY` or `FAILED: NAME: WHY` for each script.
"""
from __future__ import annotations

import argparse
import os
import re
import shlex
import shutil
import subprocess
import sys
from concurrent.futures import ThreadPoolExecutor
from pathlib import Path
from typing import Dict, NamedTuple, Optional, Tuple

sys.dont_write_bytecode = True

ROOT = Path(__file__).resolve().parents[2]
NEEDS = ("compiler", "mctr_cli", "g++")
TITAN = Path(os.environ.get("TTCN3_DIR", "/usr"))  # as Debian's package lays it out
HEADERS, LIBRARIES = TITAN / "include" / "titan", TITAN / "lib" / "titan"
RUN = ROOT / "bench" / "running" / "titan"
PAGE = ROOT / "docs" / "EMBEDDING.md"
KITCHEN = ROOT / "examples" / "closed_counter_serves_no_order.ttcn"  # the script of the page
SECONDS_OF_A_CASE, SECONDS_OF_WAITING = 60, 5
MOST_SECONDS = 900
OF_TITAN = ("-lcrypto", "-lxml2", "-ldl", "-lpthread", "-lrt")
OWN, OURS = "Titans", "our"
SINGLE, PARALLEL = "single", "parallel"
# The verdict of each test case, by its module and its name.
Verdicts = Dict[Tuple[str, str], str]

PORTS = Path(__file__).resolve().with_name("titan") / "Ports.ttcn"
# The departures of Titan's own queue from ES 201 873-1: the clause, what the queue does, and the resulting verdict.
DEPARTURES = {"stopped_port_queues": ("22.5.3", "its own queue refuses what comes to a stopped port", "error")}


class Driver(NamedTuple):
    """The system's reaction to a message of a mapped port. It replaces `sut`, which the full language doesn't have."""

    port_type: str
    message_type: str
    body: str

    def in_class(self, text: str) -> str:
        """The class of the port type, with this driver in it."""
        operation = f"outgoing_send(const {self.message_type}& message) {{ {self.body} }}"
        return re.sub(rf"outgoing_send\(const {self.message_type}&\) \{{.*\}}", operation, text)

    def titans_class(self, module: str) -> str:
        """The class of the port type with Titan's own queue."""
        name, sent = self.port_type, f"void outgoing_send(const {self.message_type}&) {{}}"
        made = f"{name}(const char *name = NULL) : {name}_BASE(name) {{}}"
        text = f"struct {name} : {name}_BASE {{ {made}\n{sent}\n}};"
        return f'#include "{module}.hh"\nnamespace {module} {{\n{self.in_class(text)}\n}}\n'


_NEXT = Driver("P", "INTEGER", "incoming_message(message + 1);")
DRIVERS = {
    "Ports": Driver("Echo", "CHARSTRING", "incoming_message(message);"),
    "system_goes_on_behind_the_end_of_mtc": _NEXT,
    "system_under_test_answers": _NEXT,
    "system_without_a_behaviour": Driver("P", "INTEGER", ""),
}

CONFIGURATION = """\
[MAIN_CONTROLLER]
TCPPort := 0
NumHCs := 1
UnixSocketsEnabled := Yes
[LOGGING]
LogFile := "{folder}/{which}.%r.log"
FileMask := TESTCASE | STATISTICS | VERDICTOP | ERROR
ConsoleMask := LOG_NOTHING
[EXECUTE]
{controls}
"""


class Script(NamedTuple):
    """A script as a module with a unique name."""

    name: str
    module: str
    text: str
    verdicts: frozenset[str]  # the verdicts of its reports

    def port_types(self) -> list[str]:
        return re.findall(r"type port (\w+) message", self.text)

    def cases(self) -> list[str]:
        return re.findall(r"\bexecute\((\w+)\(\)", self.text)


def script_of(file: Path, number: int) -> tuple[Optional[Script], str]:
    """The script, or the reason why it isn't tried."""
    reports = [it.read_text(encoding="utf-8") for it in sorted(file.parent.glob(f"{file.stem}.expected*"))]
    text = file.read_text(encoding="utf-8")
    if any(it.startswith(("refused", "fault")) for it in reports):
        return None, ""
    if re.search(r"\b(map|sut)\b", text) and file.stem not in DRIVERS:
        return None, "its system is played by `sut`, which the full language hasn't"
    waits = any("\nend waiting\n" in it for it in reports)
    seconds = SECONDS_OF_WAITING if waits else SECONDS_OF_A_CASE
    case = re.search(r"\btestcase (\w+)", text)
    module = f"Module{number}"
    renamed = re.sub(r"\bmodule \w+", f"module {module}", text, count=1).replace(".create;", ".create alive;")
    control = f"control {{ execute({case[1] if case else ''}(), {seconds}.0) }}\n}}"
    whole = re.sub(r"\};?\s*\Z", control, renamed) + "\n"
    return Script(file.stem, module, whole, frozenset(re.findall(r"^result (\w+)", "\n".join(reports), re.M))), ""


def run(words: list[str], folder: Path, seconds: int = MOST_SECONDS) -> tuple[int, str]:
    try:
        ran = subprocess.run(
            words, cwd=folder, stdin=subprocess.DEVNULL, stdout=subprocess.PIPE, stderr=subprocess.STDOUT,
            timeout=seconds, check=False,
        )
    except subprocess.TimeoutExpired:
        return 124, f"it took more than {seconds} seconds"
    return ran.returncode, ran.stdout.decode("utf-8", "replace")


def write_class(folder: Path, port_type: str, text: str) -> None:
    (folder / f"{port_type.replace('_', '__')}.hh").write_text(text, encoding="utf-8")


class Room:
    """Where each script is compiled in a folder of its own, and all are linked into one program for each queue."""

    def __init__(self, port: Path, folder: Path):
        self.port, self.folder = port, folder

    def compile(self, script: Script, which: str) -> str:
        """Compiles a script. Returns an error message, which is empty if that succeeds."""
        folder = self.folder / which / script.module
        folder.mkdir(parents=True)
        text, driver = script.text, DRIVERS.get(script.name)
        if which == OWN:
            driven = driver.port_type if driver else "none"  # a reserved word
            others = rf"(type port (?!{driven}\b)\w+ message \{{[^}}]*\}})"
            text = re.sub(others, r'\1 with { extension "internal" }', text)
        (folder / f"{script.module}.ttcn").write_text(text, encoding="utf-8")
        status, said = run(["compiler", f"{script.module}.ttcn"], folder)
        for name in script.port_types() if which == OURS and status == 0 else ():
            status, said = run([str(ROOT / "tools" / "titan"), "--port", name, f"{script.module}.hh"], folder)
            write_class(folder, name, driver.in_class(said) if driver and name == driver.port_type else said)
            if status != 0:
                return said
        if which == OWN and driver and status == 0:
            write_class(folder, driver.port_type, driver.titans_class(script.module))
        if status == 0:
            flags = ["-c", "-O0", "-w", "-DLINUX", f"-I{HEADERS}", f"-I{self.port}/include"]
            status, said = run(["g++", *flags, f"{script.module}.cc", "-o", "module.o"], folder)
        told = re.search(r"error: .*", said)
        return "" if status == 0 else told[0] if told else f"status {status}"

    def link(self, scripts: list[Script], which: str, mode: str) -> str:
        objects = [f"{which}/{it.module}/module.o" for it in scripts]
        library = "-lttcn3" if mode == SINGLE else "-lttcn3-parallel"
        libraries = [f"-L{LIBRARIES}", library, f"{self.port}/lib/libtp_port.a", *OF_TITAN]
        status, said = run(["g++", "-o", f"{which}.{mode}", *objects, *libraries], self.folder)
        return "" if status == 0 else said[-1000:]

    def verdicts(self, scripts: list[Script], which: str, mode: str) -> Verdicts:
        """The verdict of each test case, from one run of all."""
        controls = "\n".join(f"{it.module}.control" for it in scripts)
        configuration = CONFIGURATION.format(folder=self.folder, which=f"{which}.{mode}", controls=controls)
        (self.folder / f"{which}.cfg").write_text(configuration, encoding="utf-8")
        words = [*([] if mode == SINGLE else [str(RUN)]), f"./{which}.{mode}", f"{which}.cfg"]
        log = self.folder / f"{which}.{mode}.{'single' if mode == SINGLE else 'mtc'}.log"
        log.unlink(missing_ok=True)
        run(words, self.folder)
        found: Verdicts = {}
        module = ""
        for line in log.read_text(encoding="utf-8", errors="replace").splitlines() if log.exists() else ():
            if begun := re.search(r"control part in module (\w+) started", line):
                module = begun[1]
            elif ended := re.search(r"Test case (\w+) finished\. Verdict: (\w+)", line):
                found[module, ended[1]] = ended[2]
        return found


def departure(script: Script, case: str) -> Optional[tuple[str, str, str]]:
    return DEPARTURES.get(case if script.module == PORTS.stem else script.name)


def wrong_with(found: Verdicts, script: Script, case: str, which: str) -> str:
    """Describes what is wrong with the verdict of a test case with this queue; empty if nothing is."""
    departs, verdict = departure(script, case), found.get((script.module, case))
    wanted = {departs[2]} if departs and which == OWN else script.verdicts
    return "" if verdict in wanted else f"with {which} queue it is {verdict}, and not {' or '.join(sorted(wanted))}"


def scripts_of(names: list[str]) -> list[Script]:
    """The scripts to try; prints a line for each one that is left out."""
    found = []
    files = [*sorted((ROOT / "examples").glob("*.ttcn")), *sorted((ROOT / "tests" / "golden").glob("*/*.ttcn"))]
    for number, file in enumerate(files, 1):
        script, why = script_of(file, number)
        if names and file.stem not in names:
            continue
        if script is not None:
            found.append(script)
        elif why:
            print(f"left out {file.stem} by Titan: {why}", flush=True)
    if not names or PORTS.stem in names:
        found.append(Script(PORTS.stem, PORTS.stem, PORTS.read_text(encoding="utf-8"), frozenset(("pass",))))
    return found


def try_scripts(room: Room, scripts: list[Script]) -> int:
    with ThreadPoolExecutor(os.cpu_count()) as workers:
        jobs = {(it, which): workers.submit(room.compile, it, which) for it in scripts for which in (OWN, OURS)}
        refused = {it: said.result() for it, said in jobs.items()}
    compiled = []
    failed = 0
    for it in scripts:
        if refused[it, OWN]:
            print(f"left out {it.name} by Titan, whose compiler refuses it: {refused[it, OWN]}", flush=True)
        elif refused[it, OURS]:
            print(f"FAILED: {it.name}: its port classes don't compile: {refused[it, OURS]}", flush=True)
            failed += 1
        else:
            compiled.append(it)
    modes = ((compiled, PARALLEL), ([it for it in compiled if it.module == PORTS.stem], SINGLE))
    unlinked = [said for some, mode in modes for which in (OWN, OURS) if (said := room.link(some, which, mode))]
    if unlinked:
        print(f"FAILED: the scripts can't be linked: {unlinked[0]}", flush=True)
        return failed + 1
    return failed + sum(tell(room, some, mode) for some, mode in modes)


def wrong_page(room: Room) -> str:
    """Runs the commands of docs/EMBEDDING.md that compile and link the script of the README. Returns the fault."""
    folder = room.folder / "page"
    folder.mkdir()
    shutil.copyfile(KITCHEN, folder / "Kitchen.ttcn")
    (folder / "tools").symlink_to(ROOT / "tools")
    shown = re.search(r"^    compiler Kitchen\.ttcn\n(?:    .*\n)+", PAGE.read_text(encoding="utf-8"), re.M)
    commands = shown[0].replace("/usr/include/titan", str(HEADERS)) if shown else "false"
    found = f"PKG_CONFIG_PATH={shlex.quote(str(room.port))}/lib/pkgconfig\nexport PKG_CONFIG_PATH\n"
    status, said = run(["sh", "-e", "-c", found + commands.replace("/usr/lib/titan", str(LIBRARIES))], folder)
    return "" if status == 0 and (folder / "kitchen").exists() else f"status {status}: {said[-500:]}"


def try_page(room: Room) -> int:
    """Runs the commands of the page, prints the result, and returns how many cases failed."""
    if not shutil.which("pkg-config"):
        print("left out the commands of docs/EMBEDDING.md for Titan, because there is no pkg-config", flush=True)
        return 0
    wrong = wrong_page(room)
    print(f"FAILED: the commands of the page: {wrong}" if wrong else "passed the commands of the page", flush=True)
    return 1 if wrong else 0


def tell(room: Room, scripts: list[Script], mode: str) -> int:
    """Runs the scripts with both queues, prints the result of each test case, and returns how many failed."""
    found = {which: room.verdicts(scripts, which, mode) for which in (OWN, OURS)}
    failed = 0
    for script, case in ((it, case) for it in scripts for case in it.cases()):
        said = "; ".join(filter(None, (wrong_with(found[which], script, case, which) for which in found)))
        departs = departure(script, case)
        name = f"{script.name}, {case} by Titan in {mode} mode" + (f"; {departs[0]}: {departs[1]}" if departs else "")
        print(f"FAILED: {name}: {said}" if said else f"passed {name}", flush=True)
        failed += bool(said)
    return failed


def main() -> int:
    words = argparse.ArgumentParser(description=(__doc__ or "").partition("\n")[0])
    words.add_argument("port", metavar="PORT", type=Path)
    words.add_argument("folder", metavar="FOLDER", type=Path)
    words.add_argument("names", metavar="NAME", nargs="*")
    asked = words.parse_args()
    missing = [it for it in NEEDS if not shutil.which(it)] + ([] if HEADERS.is_dir() else [str(HEADERS)])
    if missing:
        print(f"left out the scripts by Titan, because there is no {missing[0]}")
        return 0
    room = Room(asked.port.resolve(), asked.folder.resolve())
    failed = try_scripts(room, scripts_of(asked.names)) + (0 if asked.names else try_page(room))
    return 1 if failed else 0


if __name__ == "__main__":
    sys.exit(main())
