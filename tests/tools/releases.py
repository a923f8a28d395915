#!/usr/bin/env python3
"""What is handed out: what a gate leaves for tools/release, and the archive and the packages that this makes.

    tests/tools/releases.py PROGRAM TPR_ORDERED FOLDER [LIBRARY]

The tests inspect them, plant faults in the tools that make them, check when they are refused, install them into an
empty root, and use them there. All files are written into FOLDER.
"""
from __future__ import annotations

import hashlib
import os
import re
import shutil
import sys
from functools import partial
from pathlib import Path
from typing import NamedTuple

sys.dont_write_bytecode = True

from installed_release import archive_is_used, library_is_used, manual_page, package_by_lintian, package_is_installed
from release_contents import wrong_with
from release_tree import COMMITTED, UNRELEASED, Made, Tree, names_of_all
from tool_calls import ROOT, Ended, Group, case, must, run, shown, try_groups, words_of

LAST_LINES = "the gate said\nexamples: 9 passed, 0 failed\n"


def files_in(folder: Path) -> dict[str, bytes]:
    return {str(it.relative_to(folder)): it.read_bytes() for it in sorted(folder.rglob("*")) if it.is_file()}


def must_be_whole(tree: Tree, folder: str) -> None:
    """The files that were made in the folder must have the expected contents."""
    wrong = wrong_with(tree, tree.made(folder))
    must(not wrong, f"{folder} differs{shown(wrong)}")


def makes_both(tree: Tree) -> None:
    made = tree.made("made")
    with case("the archive and the packages"):
        names = "".join(f"{it.relative_to(tree.room)}\n" for it in made)
        tree.release("made", "--unchecked").must_print(names)
    with case("what they hold"):
        must_be_whole(tree, "made")
    with case("made once more, on another day and by somebody else, they are the same"):
        for file in (tree.folder, *tree.folder.rglob("*")):
            os.utime(file)
        command = tree.folder / "tools" / "release"
        words = 'umask 077 && exec "$0" again --unchecked'
        run("sh", "-c", words, command, folder=tree.room, more={"TZ": "Asia/Tokyo"}).must_end(0)
        must(files_in(tree.room / "made") == files_in(tree.room / "again") != {}, "they aren't")
    with case("what is said where no gate is asked"):
        said = "No gate has passed on this: it was made with --unchecked, for tests.\n"
        tree.said_in(made, "GATE").must_print(said)


# Faults in how it is made


class Fault(NamedTuple):
    """A fault: its name, the file in tools/, the form to replace, the replacement, and the text to be reported."""

    name: str
    file: str
    form: str
    other: str
    told: str


TREE, ARCHIVES, DEBIAN = (f"tpr_tools/release/{it}.py" for it in ("tree", "archives", "debian"))
CONTROL = "tpr_tools/release/package/control"
CHARTS = "tools/tpr_tools/chart/"
OF_RELEASES = (
    Fault("no library of the tools", TREE, '"tools/costs.py"', f'"{CHARTS}"', f"/{CHARTS}page.py"),
    Fault("an archive of another version", "release", r'f"tpr-\{release\.version\}"', '"tpr-99.0.0"', "tpr-99.0.0/"),
    Fault("commands that a group may write", TREE, "0o755", "0o775", "-rwxrwxr-x 0/0"),
    Fault("folders for one alone", ARCHIVES, "(_OF_A_FOLDER = )0o755", r"\g<1>0o700", "drwx------ 0/0"),
    Fault("another owner's number", ARCHIVES, "head.mtime = time", r"\g<0>; head.uid = 1000", " 1000/0 "),
    Fault("another owner's name", ARCHIVES, '(head.uname = .*)"root"', r'\g<1>"games"', " games/games "),
    Fault("the time of another day", ARCHIVES, "head.mtime = time", r"\g<0> + 86400", " 2026-01-03 "),
    Fault("what is for who changes tpr", TREE, '"tools/costs.py", ', "", "tools/costs.py"),
)


def of_packages(version: str) -> tuple[Fault, ...]:
    return (
        Fault("no tool in the package", DEBIAN, r"^    entries = \[_pl.*", r"\g<0>[:1]", "./usr/lib/tpr/tools/chart"),
        Fault("a package of another version", CONTROL, "^Version: ", r"\g<0>1", f"Version: 1{version}"),
        Fault("a link to nowhere", DEBIAN, r'\.\./lib/tpr/tpr"', '../lib/tpr"', "tpr -> ../lib/tpr"),
        Fault("a library of another machine", DEBIAN, '"usr/lib/x86_64-', '"usr/lib/i386-', "./usr/lib/i386-linux-"),
    )


def tells_planted(tree: Tree, faults: tuple[Fault, ...]) -> None:
    """The inspection must report each planted fault."""
    for it in faults:
        with case(f"planted: {it.name}"):
            try:
                tree.change(f"tools/{it.file}", it.form, it.other)
                tree.release("planted", "--unchecked").must_end(0)
            finally:
                tree.restore()
            wrong = wrong_with(tree, tree.made("planted"))
            told = [line for line in wrong.splitlines() if line[:1] in "+-" and it.told in line]
            must(told, f"{it.told!r} isn't told{shown(wrong)}")
        shutil.rmtree(tree.room / "planted", ignore_errors=True)


# What a gate leaves


def gate(tree: Tree, script: str, toolchain: str = "echo a toolchain") -> Ended:
    """Runs functions of tests/gate/kept_gate.sh in the tree, with this script as the toolchain."""
    kept = ROOT / "tests" / "gate" / "kept_gate.sh"
    words = f'source "$0"; rt() {{ {toolchain}; }}; {script}'
    return run("bash", "-c", words, kept, folder=tree.folder)


def leaves_nothing(tree: Tree) -> None:
    must(not (tree.folder / "out" / "gate").exists(), "there is out/gate")


def keeps_gate(tree: Tree) -> None:
    """A gate that passed on one commit leaves out/gate, and a release can be made from it."""
    (tree.room / "last_lines").write_text(LAST_LINES, encoding="utf-8")
    kept, whole = tree.folder / "out" / "gate", "begin_gate && keep_gate ../last_lines"
    with case("a gate beside which a file is edited leaves nothing"):
        gate(tree, "begin_gate; echo more >>README.md; keep_gate ../last_lines").must_print("")
        leaves_nothing(tree)
    tree.restore()
    ended = gate(tree, whole, "return 1")
    with case("a gate of which rt doesn't say the toolchain leaves nothing"):
        leaves_nothing(tree)
    with case("and that is said"):
        ended.must_say("test: out/gate isn't kept: ", 1)
    with case("what a gate leaves"):
        gate(tree, whole).must_print("")
        head = tree.git("rev-parse", "HEAD")
        built = {"program": tree.program, "tpr_ordered": tree.ordered, "library": tree.built_library}
        sums = "".join(f"{word} {hashlib.sha256(it.read_bytes()).hexdigest()}\n" for word, it in built.items())
        wanted = f"commit {head}\ntoolchain a toolchain\n{sums}\n{LAST_LINES}"
        run("cat", kept).must_print(wanted)
    with case("a release of a gate that passed"):
        tree.release("gated").must_print("".join(f"{it.relative_to(tree.room)}\n" for it in tree.made("gated")))
    with case("which says what the gate said"):
        tree.said_in(tree.made("gated"), "GATE").must_print(kept.read_bytes())
    said = kept.read_bytes()
    with case("a gate that is under way, or failed, leaves nothing"):
        gate(tree, "begin_gate").must_print("")
        leaves_nothing(tree)
    kept.write_bytes(said)


# Refusals of releases


def refuses(tree: Tree, name: str, said: str, *words: str) -> None:
    """No release may be made, and nothing may be left of one."""
    with case(name):
        tree.release("refused", *words).must_say(f"release: {said}", 2)
        must(not (tree.room / "refused").exists(), "something is made")
    shutil.rmtree(tree.room / "refused", ignore_errors=True)


def refusals_of_gates(tree: Tree) -> None:
    """States that the gate didn't pass on."""
    commit = tree.git("rev-parse", "HEAD")
    refuses(tree, "no gate", "no gate has passed here")
    keeps_gate(tree)
    tree.append("README.md", "more\n")
    refuses(tree, "a file that was changed behind the gate", "the work tree isn't what the gate passed on: README.md")
    tree.restore()
    (tree.folder / "docs" / "new").touch()
    refuses(tree, "a file that came behind the gate", "the work tree isn't what the gate passed on: docs/new")
    (tree.folder / "docs" / "new").unlink()
    refusals_of_builds(tree)
    tree.append("README.md", "more\n")
    tree.commit()
    refuses(tree, "a commit behind the gate", f"the gate passed on commit {commit}, and this is ")
    tree.git("reset", "-q", "--hard", commit)


def refusals_of_builds(tree: Tree) -> None:
    """A program or a library that isn't the one that the gate tried."""
    tried = (("tpr", tree.built, "program"), ("tpr_ordered", tree.built_ordered, "program"))
    for name, built, kind in (*tried, ("libtp_port.a", tree.built_library, "library")):
        with open(built, "ab") as file:
            file.write(b"\n")
        refuses(tree, f"another {name} than the gate tried", f"{name} isn't the {kind} that the gate tried")
        tree.build()
    tree.built_library.unlink()
    refuses(tree, "no library", f"{tree.built_library} can't be read")
    tree.build()
    for option in ("--program", "--ordered"):
        with case(f"a program of one's own, by {option}, with a gate"):
            ended = tree.release(option, str(tree.program))
            ended.must_complain("^release: --program and --ordered need --unchecked", 4)


def refusals_of_versions(tree: Tree) -> None:
    version = tree.folder / "VERSION"
    version.write_text("0.9\n", encoding="utf-8")
    refuses(tree, "a version that is none", "'0.9' in VERSION isn't a version", "--unchecked")
    version.write_text("0.8.999\n", encoding="utf-8")
    name = "a version that CHANGELOG.md doesn't tell of"
    refuses(tree, name, "VERSION says 0.8.999, and", "--unchecked")
    tree.restore()
    tree.change("CHANGELOG.md", rf"^## \[{tree.version}\]", r"## [99.0.0] - 2026-01-02\n\n\g<0>")
    said = f"VERSION says {tree.version}, and the newest version in CHANGELOG.md is 99.0.0"
    refuses(tree, "a version that isn't the newest there", said, "--unchecked")
    tree.restore()


def between_releases(tree: Tree) -> None:
    """While CHANGELOG.md has unreleased changes, the day and the commit follow the number."""
    number = re.escape(tree.version)
    for changes, is_between in (("\n", False), ("\n### Fixed\n\n- **More.**\n\n", True)):
        tree.change("CHANGELOG.md", rf"^## \[{number}\]", f"{UNRELEASED}{changes}\\g<0>".replace("\n", r"\n"))
        wanted = tree.version
        if is_between:
            wanted += f"+git{COMMITTED[:10].replace('-', '')}.{tree.git('rev-parse', 'HEAD')[:8]}"
        name = "with changes that are not released" if is_between else "with a heading for such changes alone"
        with case(f"the version of a release {name}"):
            made = Made(*(tree.room / "between" / it for it in names_of_all(wanted)))
            tree.release("--unchecked", "between").must_print("".join(f"{it.relative_to(tree.room)}\n" for it in made))
            run("tar", "-xzOf", made.archive, f"tpr-{wanted}/VERSION").must_print(f"{wanted}\n")
        with case(f"the version that a tool says {name}"):
            ended = run(tree.folder / "tools" / "why", "--version")
            ended.must_print(f"why (tpr) {tree.version}{'+git' if is_between else ''}\n")
        tree.restore()
        shutil.rmtree(tree.room / "between", ignore_errors=True)


def refusals_of_releases(tree: Tree) -> None:
    refusals_of_gates(tree)
    for option in ("--program", "--ordered"):
        refuses(tree, f"no program, by {option}", "missing can't be read", "--unchecked", option, "missing")
    said = "ldd doesn't take a program for one"
    refuses(tree, "a program that is none", said, "--unchecked", "--program", "tree/README.md")
    refusals_of_versions(tree)
    between_releases(tree)
    tree.git("rm", "-q", "--cached", "docs/tpr.1")
    refuses(tree, "no manual page", "there is no docs/tpr.1", "--unchecked")
    tree.git("reset", "-q", "--hard")
    (tree.room / "a_file").touch()
    with case("a folder that is a file"):
        said = f"release: a_file/tpr-{tree.version}-amd64.tar.gz can't be written"
        tree.release("--unchecked", "a_file").must_say(said, 3)
    temporary = tree.room / "temporary"
    temporary.mkdir()
    with case("a full folder for temporary files"):
        words = 'ulimit -f 100; exec "$0" refused --unchecked'
        command = tree.folder / "tools" / "release"
        ended = run("sh", "-c", words, command, folder=tree.room, more={"TMPDIR": str(temporary)})
        ended.must_say("release: a temporary file for ldd can't be written: ", 1)
        must(not [*temporary.iterdir()] and not (tree.room / "refused").exists(), "something is left")


# What this machine can test


def groups(tree: Tree) -> list[Group]:
    found = [
        Group(partial(makes_both, tree), 4, "releases"),
        Group(partial(tells_planted, tree, OF_RELEASES), 8, "planted releases"),
        Group(partial(refusals_of_releases, tree), 30, "refusals of releases"),
        Group(partial(manual_page, tree), 12, "the manual page"),
        Group(partial(archive_is_used, tree), 4, "the archive that is used"),
        Group(partial(library_is_used, tree), 0, "the library that is used"),
    ]
    if not shutil.which("dpkg-deb") or not os.access("/usr/bin/python3", os.X_OK):
        print("left out the package, because there is no dpkg-deb, or no /usr/bin/python3", flush=True)
        return found
    found.append(Group(partial(tells_planted, tree, of_packages(tree.version)), 4, "planted packages"))
    found.append(Group(partial(package_is_installed, tree), 22, "the package that is installed"))
    if shutil.which("lintian"):
        found.append(Group(partial(package_by_lintian, tree), 1, "the package by lintian"))
    else:
        print("left out the package by lintian, because there is none", flush=True)
    return found


def main() -> int:
    *words, library = words_of(__doc__, "PROGRAM", "TPR_ORDERED", "FOLDER", "[LIBRARY]")
    program, ordered, folder = (Path(it).resolve() for it in words)
    if not shutil.which("git") or program.read_bytes()[:4] != b"\x7fELF":
        print("left out what tools/release makes, because there is no git, or TPR names no program of the machine")
        return 0
    tree = Tree(folder, program, ordered, Path(library).resolve() if library else None)
    tree.make()
    return try_groups(groups(tree))


if __name__ == "__main__":
    sys.exit(main())
