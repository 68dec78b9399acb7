"""Installs the program into an empty folder by `make install`, tries what is there, and removes it.

It also compares the manual page with docs/RULES.md and docs/REPORTS.md, and runs the checkers of manual pages that are
installed.
"""
import os
import re
import shutil

import common
import pytest
from common import SAMPLE, TOP

LEAST = 23
PAGE = TOP / "docs/dwv.1"
PAGES = PAGE, TOP / "docs/dwv-addr.1"
SCRIPTS = ("check", "explain", "c-header")
INSTALLED = ["644 share/bash-completion/completions/dwv", "644 share/fish/vendor_completions.d/dwv.fish",
             "644 share/man/man1/dwv.1", "644 share/zsh/site-functions/_dwv", "755 bin/dwv"]
for path in sorted((TOP / "contrib/integrations").glob("*/*")):
    mode = "755" if os.access(path, os.X_OK) else "644"
    INSTALLED.append(f"{mode} share/dwv/{path.relative_to(TOP / 'contrib')}")
for path in (TOP / "python/dwv").glob("*.py"):
    INSTALLED += [f"644 share/dwv/dwv/{path.name}"] if path.name != "tools.py" else []
for script in SCRIPTS:
    INSTALLED += [f"../share/dwv/{script} bin/dwv-{script}", f"755 share/dwv/{script}",
                  f"dwv share/bash-completion/completions/dwv-{script}", f"dwv.1 share/man/man1/dwv-{script}.1"]
ADDR = TOP / "crates/dwv_addr/out/dwv_addr"
if ADDR.exists():
    INSTALLED += ["755 bin/dwv-addr", "644 share/man/man1/dwv-addr.1", "dwv share/bash-completion/completions/dwv-addr"]
# What bash completes: a name, the function, the words, and what it offers for the last of them.
COMPLETED = [
    ("completion of no word", "_dwv", ["dwv", ""], "check show types size"),
    ("completion of a command", "_dwv", ["dwv", "s"], "show size"),
    ("completion of an option", "_dwv", ["dwv", "check", "--"], "--json"),
    ("completion of an option after the file", "_dwv", ["dwv", "check", "a.out", "-"], "--json"),
    ("names of files after check", "_dwv", ["dwv", "check", "a"], ""),
    ("completion of types", "_dwv", ["dwv", "t"], "types"),
    ("show has no option", "_dwv", ["dwv", "show", "-"], ""),
    ("completion of a command of dwv-addr", "_dwv_addr", ["dwv-addr", "f"], "find"),
    ("completion of an option of dwv-addr", "_dwv_addr", ["dwv-addr", "find", "-"], "--json"),
    ("completion of dwv-explain", "_dwv_script", ["dwv-explain", "--"], "--debuginfod --help --html --json --version"),
    ("completion of dwv-c-header", "_dwv_script", ["dwv-c-header", "--a"], "--all --assert"),
    ("completion of dwv-check", "_dwv_script", ["dwv-check", "--e"], "--every --explain"),
    ("completion of a file", "_dwv_script", ["dwv-explain", "a"], ""),
]
COMPLETE = ('source "$1"; function=$2; shift 2; COMP_WORDS=("$@"); COMP_CWORD=$(($# - 1)); "$function"; '
            'echo "${COMPREPLY[*]}"')


def files(folder):
    """The files below a folder, each after its permissions, and the links, each after where it leads."""
    found = [(it, os.readlink(it) if it.is_symlink() else f"{it.stat().st_mode & 0o7777:o}")
             for it in folder.rglob("*") if it.is_symlink() or it.is_file()]
    return sorted(f"{about} {it.relative_to(folder)}" for it, about in found)


@pytest.fixture(scope="module")
def root(tmp_path_factory):
    """The folder in which all is installed, by paths with spaces."""
    folder = tmp_path_factory.mktemp("install")
    words = [f"DESTDIR={folder}/a root", "PREFIX=/opt/dwv tools"]
    status, said = common.make(folder, "install", "library=", *words)
    assert status == 0, said
    assert not (folder / "called").exists(), "make install proves nothing"
    yield folder / "a root"
    assert common.make(folder, "uninstall", *words)[0] == 0
    assert files(folder / "a root") == [], "make uninstall removes every file"


@pytest.fixture
def installed(root):
    return root / "opt/dwv tools"


def test_files(root, installed):
    modules = files(installed / "share/dwv/dwv_tools")
    wanted = [f"644 {it.name}" for it in (TOP / "contrib/dwv_tools").iterdir() if it.suffix in (".py", ".txt")]
    assert modules == sorted(wanted)
    others = [it for it in files(installed) if " share/dwv/dwv_tools/" not in it]
    assert others == sorted(INSTALLED)
    assert len(files(root)) == len(others) + len(modules)


def test_interpreter(tmp_path):
    words = [f"DESTDIR={tmp_path}", "PREFIX=/usr", "PYTHON=/usr/bin/python3"]
    assert common.make(tmp_path, "install", "library=", *words)[0] == 0
    firsts = {(tmp_path / "usr/share/dwv" / it).read_text().partition("\n")[0] for it in SCRIPTS}
    assert firsts == {"#!/usr/bin/python3"}


def test_program(installed):
    assert common.run(installed / "bin/dwv", "check", SAMPLE, text=True)[1] == "sound: 1 units, 2 entries, 1 types\n"


@pytest.mark.parametrize("script", SCRIPTS)
def test_script(installed, script):
    if script == "c-header" and not common.LIBRARY.exists():
        common.lack("the C library is not built (make lib)")
    env = {"DWV_LIBRARY": str(common.LIBRARY), **os.environ, "PATH": f"{installed}/bin:{os.environ['PATH']}"}
    path = installed / f"bin/dwv-{script}"
    assert sum("sound" in line for line in common.run(path, SAMPLE, text=True, env=env)[1].splitlines()) == 1
    assert common.run(path, text=True, env=env)[2].split()[:2] == ["usage:", f"dwv-{script}"]


@pytest.mark.parametrize("name, function, words, wanted", COMPLETED, ids=[it[0] for it in COMPLETED])
def test_completion(installed, name, function, words, wanted):
    completions = installed / "share/bash-completion/completions/dwv"
    assert common.run("bash", "-c", COMPLETE, "-", completions, function, *words, text=True)[1] == f"{wanted}\n"


def test_default_prefix(tmp_path):
    said = common.make(tmp_path, "--dry-run", "install", "library=")[1]
    lines = [it for it in said.splitlines() if it.startswith("install ")]
    assert [it for it in lines if not re.search(r' "/usr/local/[a-z0-9/._-]*"$', it)] == []


def test_rules_of_the_manual_page():
    found = sorted(re.findall(r"(?m)^\.It Sy ([A-Z]\d*) (\w*)$", PAGE.read_text()))
    pages = "".join((TOP / f"docs/{name}.md").read_text() for name in ("RULES", "REPORTS"))
    assert found == sorted(set(re.findall(r"(?m)^\| ([A-EG-KN-WYZ]\d*) \| (\w*) \|", pages)))


def test_lines_of_the_manual_page():
    found = sorted(re.findall(r"(?m)^\.It (dwv: .*)", PAGE.read_text()))
    reports = (TOP / "docs/REPORTS.md").read_text()
    assert found == sorted(re.findall(r"(?m)^\|.*\| .(dwv: .*). \| [2-4] \|$", reports))


def test_mandoc():
    common.needs("mandoc")
    assert common.run("mandoc", "-T", "lint", "-W", "warning", *PAGES, text=True)[1:] == ("", "")


def test_man():
    common.needs("man")
    # Some systems have a program `man` that only says that there are no pages.
    if not common.run("man", "--version")[1].startswith(b"man "):
        pytest.skip("man is not installed")
    env = {**os.environ, "LC_ALL": "C.UTF-8"}
    for page in PAGES:
        assert common.run("man", "--warnings", "-l", "-Tutf8", "-Z", page, env=env)[2] == b""


def test_nothing_is_built(tmp_path):
    """In a copy of the repository `make install` says that the program is missing, fails and installs nothing."""
    copy, root = tmp_path / "copy", tmp_path / "root"
    for name in ("docs", "contrib"):
        shutil.copytree(TOP / name, copy / name)
    for name in ("Makefile", "crates.txt"):
        shutil.copy(TOP / name, copy)
    status, said = common.make(tmp_path, "-C", copy, "install", f"DESTDIR={root}")
    assert said.splitlines()[0] == "crates/dwv/out/dwv is not built: run make first."
    assert status == 2
    assert files(root) == []
