"""Runs the console examples of README, REPORTS, SCRIPTS and LIBRARY, and compares what they print with the pages.

Each example is run in an empty folder with the files that it names: sources are taken from the page, and other files
are made here. Where a compiler makes the file, its offsets, counts and versions are not compared. The edit that
CONTRIBUTING shows must be the one of its file.
"""
import doctest
import os
import re
import shutil

import common
import compilers
import pytest
import rows
from common import DWV, TOP

LEAST = 17
LIBRARY = TOP / "out/lib"
# The command that the wheel installs.
TABLE = """#!/usr/bin/env python3
import sys
from dwv.tools import table
sys.exit(table())
"""
EDIT = "crates/dw_types/must-fail/accepts_a_negative_count.edit"
# A unit by the table T of tests/rows: `int`, a typedef `t`, a structure `s`, and a typedef of a pointer to itself.
LISTING = """unit( 01 "a" 00  02 "int" 00 04 05  03 "t" 00 0f 00 00 00  04 "s" 00 04  05 "x" 00 16 00 00 00 00  00
    06 2a 00 00 00  02 "char" 00 01 06  02 "short" 00 02 05  02 "float" 00 04 04  03 "v" 00 2a 00 00 00  00 )"""


def app(folder, info):
    """Makes the file `app` of the table T and these units, by the parts of tests/rows."""
    parts = {}
    rows.read(common.HERE / "rows/parts.txt", parts)
    sections = {"abbrev": rows.Bytes("T", parts).all(), "info": rows.Bytes(info, parts).all()}
    (folder / "app").write_bytes(rows.elf(sections))


def objective_c(folder, page):
    (folder / "plain.m").write_text(compilers.SOURCES["plain.m"])
    if program := compilers.compiled(folder, "clang -gdwarf-5", "plain.m"):
        program.rename(folder / "app")


def source(folder, page):
    """Makes the C file that the page gives in a sentence."""
    name, text = re.search(r"Here `(\w+\.c)` has\s`([^`]+)`", page).groups()
    (folder / name).write_text(f"{text}\n")


def demo(folder, page):
    """Makes the library of that source."""
    source(folder, page)
    common.run("gcc", "-g", "-shared", "-o", "demo.so", "demo.c", cwd=folder)


def tree(folder, page):
    """Makes a folder of files: sound ones, object files, a broken one, an ELF file without information, others."""
    build, sample = folder / "build", common.SAMPLE.read_bytes()
    for name in ("lib", "bin"):
        (build / name).mkdir(parents=True)
    (build / "lib/libshapes.so").write_bytes(common.BROKEN)
    for name in ("app", "lib/librings.so"):
        (build / name).write_bytes(sample)
    (folder / "rings.c").write_text("struct ring { int first, last; } ring;\n")
    for name, flags in (("app.o", "-g"), ("lib/rings.o", "-g"), ("bin/small", "-g -m32")):
        common.run("gcc", *flags.split(), "-c", "-o", build / name, folder / "rings.c")
    (build / "strip").write_bytes(common.elf([(".text", 1, b"")]))
    for name in ("Makefile", "log", "lib/README"):
        (build / name).write_text("text\n")


def kinds(folder, page):
    """Makes a program, its object file, and it with compressed sections and without debugging information."""
    (folder / "app.c").write_text("struct point { int x, y; } at; int main(void) { return at.x; }\n")
    for command in ("gcc -g -c -o app.o app.c", "gcc -o app app.o", "objcopy --compress-debug-sections app app.gz",
                    "objcopy --only-keep-debug app stripped.debug",
                    "objcopy --strip-debug --add-gnu-debuglink=stripped.debug app stripped"):
        common.run(*command.split(), cwd=folder)


def rust(folder, page):
    """Makes a program of Rust that has the habit of its compiler."""
    (folder / "path.rs").write_text('fn main() { println!("{}", std::path::Path::new("a").display()); }\n')
    common.run("rustc", "-g", "-o", "app", "path.rs", cwd=folder)


def example(folder, page):
    (folder / "example.c").write_text(re.search(r"(?ms)^```c\n(.*?)^```$", page)[1])


# For each console example of a page, in their order: what makes its files, and the tools that it needs.
EXAMPLES = {
    "README.md": [(source, ("gcc",)), (None, ()), (kinds, ("gcc", "objcopy")), (demo, ("gcc", "sqlite3"))],
    "docs/REPORTS.md": [
        (lambda folder, page: app(folder, "F"), ()),
        (lambda folder, page: app(folder, LISTING), ()),
    ],
    "docs/SCRIPTS.md": [
        (kinds, ("gcc", "objcopy")), (rust, ("rustc",)), (objective_c, ("clang",)), (source, ("gcc", "clang")),
        (tree, ("gcc",)),
    ],
    "docs/LIBRARY.md": [(example, ("gcc", "pkg-config"))],
}


def masked(text, is_compiled):
    """A text without the time of a run, and without what a compiler chooses."""
    text = re.sub(r"\d+ bytes in [\d.]+ s, [\d.]+ MB/s", "N bytes in T s, R MB/s", text)
    if is_compiled:
        text = re.sub(r"0x[0-9a-f]{8}", "0xN", text)
        text = re.sub(r"sound: \d+ units, \d+ entries, \d+ types", "sound: N units, N entries, N types", text)
        text = re.sub(r"(producer  ).*", r"\1NAME", text)
        text = re.sub(r"\S*/(\w+\.debug\))", r"\1", text)
        text = re.sub(r"(\w+\.)[0-9a-f]{16}-cgu", r"\1N-cgu", re.sub(r"\s+", " ", text)) if "-cgu" in text else text
    return text


def blocks(name, language):
    """The texts of a page in a language."""
    return re.findall(rf"(?ms)^```{language}\n(.*?)^```$", (TOP / name).read_text())


def needs_library():
    if not (LIBRARY / "libdwv.a").exists():
        common.lack("the C library is not built (make lib)")


@pytest.mark.parametrize("name", EXAMPLES)
def test_count(name):
    assert len(blocks(name, "console")) == len(EXAMPLES[name])


@pytest.mark.parametrize("name, number", [(name, number) for name in EXAMPLES for number in range(len(EXAMPLES[name]))])
def test_console(tmp_path, name, number):
    """Runs the commands of an example one after another. Files in /tmp are in the folder."""
    make, tools = EXAMPLES[name][number]
    if name == "docs/LIBRARY.md" or make is demo:
        needs_library()
    common.needs(*tools)
    common.build()
    if make:
        make(tmp_path, (TOP / name).read_text())
    (tmp_path / "bin").mkdir()
    for link, to in (("bin/dwv", DWV), ("crates", TOP / "crates"), ("contrib", TOP / "contrib"),
                     ("bin/dwv-check", TOP / "contrib/check"), ("bin/python3", shutil.which(common.PYTHON))):
        (tmp_path / link).symlink_to(to)
    (tmp_path / "bin/dwv-table").write_text(TABLE)
    (tmp_path / "bin/dwv-table").chmod(0o755)
    env = {**os.environ, "PATH": f"{tmp_path}/bin:{os.environ['PATH']}", "PKG_CONFIG_PATH": str(LIBRARY / "pkgconfig"),
           "PYTHONPATH": str(TOP / "python")}
    for step in re.split(r"(?m)^\$ ", blocks(name, "console")[number])[1:]:
        command, _, wanted = step.partition("\n")
        words = ("bash", "-c", command.replace("/tmp/", f"{tmp_path}/"))
        _, text, errors = common.run(*words, text=True, cwd=tmp_path, env=env)
        assert masked(text + errors, bool(tools)) == masked(wanted, bool(tools)), command


def test_python(tmp_path, monkeypatch):
    """Runs the Python example of LIBRARY, on X1."""
    needs_library()
    monkeypatch.setenv("DWV_LIBRARY", str(LIBRARY / "libdwv.so.0"))
    monkeypatch.chdir(tmp_path)
    shutil.copy(common.SAMPLE, "a.out")
    said = []
    test = doctest.DocTestParser().get_doctest(*blocks("docs/LIBRARY.md", "pycon"), {}, "docs/LIBRARY.md", None, 0)
    assert doctest.DocTestRunner().run(test, out=said.append).failed == 0, "".join(said)


def test_edit():
    """The edit that CONTRIBUTING shows, with its control."""
    page = (TOP / "CONTRIBUTING.md").read_text()
    assert re.search(r"(?ms)^```text\n(file: .*?)^```$", page)[1] == (TOP / EDIT).read_text()
