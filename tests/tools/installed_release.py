"""Tests a release as a user gets it: the package is installed into an empty root, the archive is unpacked, and both are
used there and compared with the manual page."""
from __future__ import annotations

import gzip
import os
import re
import shutil
from collections.abc import Iterable
from pathlib import Path
from typing import Optional

from release_tree import Tree, in_the_package, tools_of
from tool_calls import ROOT, Ended, case, difference, must, run, shown

BELL = "closed_counter_serves_no_order"
NATURAL = ROOT / "tests" / "rewrites" / "natural" / "login_with_templates.ttcn"
ADMIN = {"PATH": f"{os.environ.get('PATH', '')}:/usr/sbin:/sbin"}


def must_be_same(wanted: Path, found: Path) -> None:
    must(wanted.read_bytes() == found.read_bytes(), f"{found} isn't {wanted}")


# The package


def install(tree: Tree, root: Path) -> None:
    """Installs the package into an otherwise empty root: by dpkg if the user may do that; otherwise it is unpacked."""
    (root / "var/lib/dpkg/info").mkdir(parents=True)
    (root / "var/lib/dpkg/updates").mkdir()
    (root / "var/lib/dpkg/status").touch()
    package = tree.made("made").package
    if os.getuid() == 0:
        run("dpkg", f"--root={root}", "--force-depends", "-i", package, more=ADMIN).must_end(0)
    else:
        run("dpkg-deb", "-x", package, root).must_print("")


class Installed:
    """The commands of the package. Each is run in the room, with no others on PATH."""

    def __init__(self, tree: Tree):
        self.room, self.root = tree.room, tree.room / "empty"
        self.examples = self.root / "usr/share/doc/tpr/examples"

    def run(self, command: str, *words: str | Path) -> Ended:
        path = self.root / "usr" / "bin"
        return run(path / command, *words, folder=self.room, only={"PATH": str(path)})

    def example(self, name: str) -> Path:
        return self.examples / name


def uses_program(it: Installed) -> None:
    script = it.example(f"{BELL}.ttcn")
    with case("tpr queue, installed"):
        wanted = it.example("shutdown_keeps_messages_in_flight.expected")
        it.run("tpr", "queue", wanted.with_suffix(".queue")).must_print(wanted.read_bytes())
    with case("tpr check, installed"):
        it.run("tpr", "check", script).must_print("accepted\n")
    with case("tpr run, installed"):
        ended = it.run("tpr", "run", script).must_print(script.with_suffix(".expected").read_bytes())
        (it.room / "bell.report").write_bytes(ended.printed)
    with case("tpr trace, installed"):
        it.run("tpr", "trace", script).must_show("^came counter mtc 1 Order:.*$")
    with case("tpr without words, installed"):
        must(not it.run("tpr").must_end(4).printed, "it printed something")


def uses_charts(it: Installed) -> None:
    with case("tpr-chart, installed"):
        chart = (ROOT / "docs" / "charts" / f"{BELL}.svg").read_bytes()
        it.run("tpr-chart", "--title", BELL, "bell.report").must_print(chart)
    with case("a page of tpr-chart, installed"):
        it.run("tpr-chart", "--html", "bell.report").must_show("</html>")
    with case("tpr-compare, installed"):
        it.run("tpr-compare", "bell.report", "bell.report").must_print("equal\n")


def uses_readers_of_scripts(it: Installed) -> None:
    with case("tpr-explain, installed"):
        lines = it.example(f"{BELL}.ttcn").read_text(encoding="utf-8").splitlines(keepends=True)
        lines[25] = lines[25].replace("counter", "bell", 1)
        (it.room / "broken.ttcn").write_text("".join(lines), encoding="utf-8")
        it.run("tpr-explain", "--short", "broken.ttcn").must_show("^broken.ttcn:26:19: refused 14 Direction: ", 2)
    with case("tpr-rewrite, installed"):
        it.run("tpr-rewrite", NATURAL, "-o", "rewritten.ttcn").must_end(0)
        must((it.room / "rewritten.ttcn.map").stat().st_size > 0, "its map is empty")
    with case("tpr-why of what it wrote, installed"):
        it.run("tpr-why", "rewritten.ttcn").must_show(f"^lines of {re.escape(str(NATURAL))}$")


def uses_runners_of_scripts(it: Installed) -> None:
    with case("tpr-suite, installed"):
        it.run("tpr-suite", "--jobs", "1", it.examples).must_show("; all as expected$")
    with case("tpr-explore, installed"):
        script = it.example("broadcast_is_overtaken_by_an_answer.ttcn")
        explored = it.run("tpr-explore", script)
        explored.must_show('^  line 13: b took charstring:"begin" from mtc ', 5)
    with case("tpr-explore has reports, by the tpr_ordered that is installed"):
        explored.must_show("^ *component mtc$", 5)
    with case("tpr-suite --explore, installed"):
        it.run("tpr-suite", "--explore", "--junit", "explored.xml", it.example(f"{BELL}.ttcn")).must_end(0)
        told = (it.room / "explored.xml").read_text(encoding="utf-8")
        must('name="explored" value="always pass"' in told, f"the JUnit file tells{shown(told)}")


def lines_without_a_package(tree: Tree) -> list[str]:
    """The libraries that the program is linked with and that no dependency of the package provides; and python3, if it
    is missing."""
    named = [it.split()[0] for it in depended_on(tree)]
    found = [] if "python3" in named else ["python3 isn't named"]
    linked = [it.split()[0] for it in run("ldd", tree.program).must_end(0).text.splitlines() if "=>" in it]
    for library in linked:
        owners = {it.partition(":")[0] for it in run("dpkg", "-S", f"*/{library}").text.splitlines()}
        if not owners & {*named}:
            found.append(f"nothing named has {library}")
    return found


def depended_on(tree: Tree) -> list[str]:
    """The dependencies, each with `>=` and its least version, if it has one."""
    said = run("dpkg-deb", "-f", tree.made("made").package, "Depends").must_end(0).text
    return [re.sub("[()]", "", it).strip() for it in said.split(",")]


def too_old(tree: Tree) -> list[str]:
    """Dependencies that are newer than on this machine, on which the program runs."""
    found = []
    for name, _, least in (it.partition(" >= ") for it in depended_on(tree)):
        there = run("dpkg-query", "-f", "${Version}\\n", "-W", name).must_end(0).text.splitlines()[0]
        if run("dpkg", "--compare-versions", there, "ge", least).status != 0:
            found.append(f"{name} {there} is older than {least}")
    return found


def sorted_lines(names: Iterable[str]) -> str:
    return "".join(f"{it}\n" for it in sorted(names))


def names_of_the_repository(folder: Path, tools: list[str]) -> list[str]:
    """Commands that the documents below the folder name as in the repository."""
    named = rf"(?<![\w/])(?:\./tpr|tools/(?:{'|'.join(tools)}))(?![\w/])"
    documents = {it: it.read_text(encoding="utf-8") for it in folder.rglob("*.md")}
    must(any("tpr-explain" in text for text in documents.values()), "no document names tpr-explain")
    return [f"{found} in {it.name}" for it, text in documents.items() for found in re.findall(named, text)]


def says_its_names(it: Installed, tools: list[str], version: str) -> None:
    """A tool names itself and the others as they are installed."""
    with case("the version that each command says, installed"):
        for tool in tools:
            it.run(f"tpr-{tool}", "--version").must_print(f"tpr-{tool} (tpr) {version}\n")
    with case("the usage of a command, installed"):
        it.run("tpr-why").must_complain("^usage: tpr-why ", 4).must_complain("^tpr-why: ", 4)
    with case("the help of a command, installed"):
        text = it.run("tpr-why", "--help").must_show("^  tpr-why --annotate ").text
        must("tools/" not in text and "./tpr" not in text, f"it names what isn't installed{shown(text)}")


def installed_as_it_must(tree: Tree, it: Installed) -> None:
    """The installed files, after everything was used."""
    with case("the program that is installed"):
        must_be_same(tree.program, it.root / "usr/lib/tpr/tpr")
        must_be_same(tree.ordered, it.root / "usr/lib/tpr/tpr_ordered")
    with case("the examples that are installed"):
        others = ("-x", ".gitattributes", "-x", "README.md")
        run("diff", "-r", *others, it.examples, tree.folder / "examples").must_print("")
    with case("the documents name the commands as they are installed"):
        others_names = names_of_the_repository(it.root / "usr/share/doc/tpr", tools_of(tree))
        must(not others_names, f"they name {', '.join(others_names)}")
    with case("the manual page that is installed"):
        page = gzip.decompress((it.root / "usr/share/man/man1/tpr-suite.1.gz").read_bytes())
        must(page == (tree.folder / "docs" / "tpr.1").read_bytes(), "it isn't docs/tpr.1")
    with case("what is there, once all was used"):
        files = [str(file.relative_to(it.root)) for file in it.root.rglob("*") if file.is_symlink() or file.is_file()]
        wanted, found = [item.path for item in in_the_package(tree)], [it for it in files if not it.startswith("var/")]
        wrong = difference(sorted_lines(wanted), sorted_lines(found))
        must(not wrong, f"it is otherwise{shown(wrong)}")


def removed_as_it_must(it: Installed) -> None:
    with case("the sums of what is installed"):
        run("md5sum", "--quiet", "-c", "var/lib/dpkg/info/tpr.md5sums", folder=it.root).must_print("")
    with case("nothing is left of it once it is removed"):
        run("dpkg", f"--root={it.root}", "-r", "tpr", more=ADMIN).must_end(0)
        left = [str(file) for file in it.root.iterdir() if not file.name.startswith("var")]
        must(not left, f"there is still {left}")


def package_is_installed(tree: Tree) -> None:
    it = Installed(tree)
    with case("what the package depends on"):
        wrong = [*lines_without_a_package(tree), *too_old(tree)]
        must(not wrong, ", ".join(wrong))
    with case("the package in an empty root"):
        install(tree, it.root)
    uses_program(it)
    uses_charts(it)
    uses_readers_of_scripts(it)
    uses_runners_of_scripts(it)
    says_its_names(it, tools_of(tree), tree.version)
    installed_as_it_must(tree, it)
    if os.getuid() == 0:
        removed_as_it_must(it)


def package_by_lintian(tree: Tree) -> None:
    made = tree.made("made")
    with case("the package by lintian"):
        run("lintian", "--allow-root", made.package).must_print("")
    if tree.library:
        with case("the package of the library by lintian"):
            run("lintian", "--allow-root", made.library).must_print("")


# The archive


def must_be_unpacked(tree: Tree, folder: Path) -> None:
    """The folder has the tree's files, except those for developers, and additionally only GATE and the program."""
    shutil.unpack_archive(tree.made("made").archive, folder.parent, "gztar")
    others = ["-x", ".*", "-x", "crates", "-x", "embedding", "-x", "out", "-x", "releas*", "-x", "costs.py"]
    name = folder.relative_to(tree.room)
    wanted = "".join(f"Only in {name}: {it}\n" for it in ("GATE", "port", "tpr", "tpr_ordered"))
    run("diff", "-r", *others, "tree", name, folder=tree.room).must_print(wanted, 1)


def archive_is_used(tree: Tree) -> None:
    folder = tree.room / "unpacked" / f"tpr-{tree.version}"
    script = folder / "examples" / f"{BELL}.ttcn"
    path = {"PATH": f"{os.path.dirname(shutil.which('python3') or '')}:/usr/bin"}
    with case("what is unpacked"):
        must_be_unpacked(tree, folder)
    with case("the program that is unpacked"):
        must_be_same(tree.program, folder / "tpr")
    with case("tpr, unpacked"):
        wanted = script.with_suffix(".expected").read_bytes()
        run("./tpr", "run", script, folder=folder, only=path).must_print(wanted)
    with case("tools/suite, unpacked"):
        ended = run("tools/suite", "--jobs", "1", script, folder=folder, only=path)
        ended.must_show("^1 script: 1 pass; all as expected$")


# The library for C and C++


def uses_library(tree: Tree, name: str, example: Path, *words: str, more: Optional[dict[str, str]] = None) -> None:
    """Links the C example with the library by these words, or by those of pkg-config, and runs it."""
    with case(name):
        ran = run("sh", "-c", f"{' '.join(words)} -o soup && ./soup", example, folder=tree.room, more=more)
        ran.must_print("soup of the day\n")


def library_is_used(tree: Tree) -> None:
    if not tree.library or not shutil.which("cc"):
        print("left out a program with the library of the release, because there is no library, or no cc", flush=True)
        return
    port, root = tree.room / "port" / f"tpr-{tree.version}" / "port", tree.room / "library"
    shutil.unpack_archive(tree.made("made").archive, port.parent.parent, "gztar")
    example = port / "examples" / "soup.c"
    uses_library(tree, "the library that is unpacked", example, f'cc "$0" -I{port}/include {port}/lib/libtp_port.a')
    if shutil.which("pkg-config"):
        more = {"PKG_CONFIG_PATH": f"{port}/lib/pkgconfig"}
        by_name = 'cc "$0" $(pkg-config --cflags --libs tp_port)'
        uses_library(tree, "the same by pkg-config", example, by_name, more=more)
    if shutil.which("dpkg-deb"):
        run("dpkg-deb", "-x", tree.made("made").library, root).must_end(0)
        there = f"-I{root}/usr/include {root}/usr/lib/x86_64-linux-gnu/libtp_port.a"
        example = root / "usr" / "share" / "doc" / "libtp-port-dev" / "examples" / "soup.c"
        uses_library(tree, "the library of the package", example, f'cc "$0" {there}')


# The manual page


def options_of(tree: Tree, tool: str) -> list[str]:
    """The options in the help of the tool, except those that all tools have."""
    said = run(tree.folder / "tools" / tool, "--help").must_end(0).text
    named = re.findall(r"^ +(-{1,2}[a-z-]+)", said.partition("\noptions:\n")[2], re.MULTILINE)
    must(len(named) > 1, f"its help has no options{shown(said)}")
    return [it for it in named if it not in ("-h", "--version")]


def options_in(lines: list[str], tool: str) -> list[str]:
    """The options for the tool in the synopsis of the page, as they are typed."""
    synopsis = lines[lines.index(".Sh SYNOPSIS") : lines.index(".Sh DESCRIPTION")]
    found, is_of_it = [], False
    for line in synopsis:
        if line.startswith(".Nm"):
            is_of_it = line == f".Nm tpr-{tool}"
        elif is_of_it:
            found += [f"-{it}" for it in re.findall(r"(?:\bFl|\|) (-?[a-z][a-z-]*)", line)]
    return found


def manual_page(tree: Tree) -> None:
    page = tree.folder / "docs" / "tpr.1"
    lines = page.read_text(encoding="utf-8").splitlines()
    for tool in tools_of(tree):
        with case(f"the manual page names tpr-{tool}"):
            must({f".Nm tpr-{tool}", f".Nm tpr-{tool} ,"} & {*lines}, "it doesn't")
        with case(f"the manual page names each option of tpr-{tool}"):
            missing = [it for it in options_of(tree, tool) if it not in options_in(lines, tool)]
            must(not missing, f"it lacks {', '.join(missing)}")
    if shutil.which("man"):
        ended = run("man", "--warnings", "-E", "UTF-8", "-l", page)
        with case("the manual page"):
            ended.must_say_nothing()
        with case("the manual page tells the modes"):
            ended.must_show(re.escape("tpr check | run | trace | queue | judge | verdicts [file]"))
    else:
        print("left out the manual page, because there is no man", flush=True)
    if shutil.which("mandoc"):
        with case("the manual page by mandoc"):
            must(not run("mandoc", "-T", "lint", page).must_end(0).printed, "it has something to say")
