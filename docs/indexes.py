"""What specs/, the code, the proofs and the edits have, for docs/make-indexes.py and docs/where.py: the definitions of
each chapter, and the functions of each crate with the names of their clauses, the words of these, proofs and edits.
"""
import collections
import functools
import pathlib
import re
import sys

TOP = pathlib.Path(__file__).resolve().parent.parent
sys.path.insert(0, str(TOP / "tests"))
sys.dont_write_bytecode = True
from edit_files import BLOCK, FUNCTION, Edit, functions_of

USE = re.compile(r"use Rattle\.(dw\w+)\.(specs|proofs)\.([A-Z]\w+)\.\{([^}]*)\}")
GIVEN = re.compile(r"crate::(specs|proofs)::([A-Z]\w+)::")
DEFINITION = re.compile(r"(?:  (?=abbrev|unfoldable|pub record|pub data))?(?:abbrev |unfoldable )?"
                        r"pub (?:record |data |class )?(?!use\b|mod\b|DW_|[A-Z_]+ )([^\s:(]+)")
CLAUSE = re.compile(r"(?m)^ *ensures(?: (\w+))? \{")
HEAD = r'^ *(?:pub |pub\(crate\) |const |extern "C" )*fn '
CONTRACT = re.compile(rf"(?ms){HEAD}.*?(?:\{{\}}?$|;$)(?!\n *(?:requires|ensures))")


class Crate:
    """What a reader of a crate can look up: the chapters of specs/, and the functions with their proofs and edits."""

    def __init__(self, name):
        self.name, self.path = name, TOP / "crates" / name
        lib = self.path / "src/lib.rt"
        uses = re.findall(r"pub use ([^;]*);", lib.read_text()) if lib.exists() else []
        self.exported = set(re.findall(r"\w+", " ".join(uses))) if lib.exists() else None
        self.sources = [it for it in sorted(self.path.glob("src/**/*.rt")) if it.stem not in ("tests", "lib")]
        edits = [it for folder in ("must-fail", "more-edits") for it in self.path.glob(f"{folder}/*.edit")]
        self.edits = {edit.name: edit.functions for edit in map(Edit, edits)}
        self.functions = [it for path in self.sources for it in self.functions_in(path)]

    def functions_in(self, path):
        text, file = path.read_text(), str(path.relative_to(self.path))
        lines, names = text.split("\n"), imported(text)
        heads = [it for line in lines if (it := BLOCK.match(line)) and it["trait"]]
        traits = {it["type"].split("::")[-1] + it["trait"].split("::")[-1]: it["type"] for it in heads}
        for it in functions_of(self.path, file, text):
            function = Function(self, path.stem, it.path, "\n".join(lines[it.first:it.last + 1]), names, traits)
            head = next(k for k in range(it.first, it.last + 1) if FUNCTION.match(lines[k]))
            function.place = f"crates/{self.name}/{file}:{head + 1}"
            yield function


class Function:
    """A function of the code: the clauses of its contract, and the words that these use."""

    def __init__(self, crate, module, path, text, names, traits):
        self.crate = crate
        _, *owner, self.name = path.split("::")
        self.owner = owner[-1] if owner and owner[-1][0].isupper() else ""
        of_type = traits.get(self.owner, self.owner)
        self.label = f"{of_type}::{self.name}" if of_type else self.name
        contract = CONTRACT.search(text)
        contract = re.sub(r"//.*", "", contract[0]) if contract else ""
        self.clauses = CLAUSE.findall(contract)
        self.words = {names[it] for it in re.findall(r"\w+", contract.partition("(")[2]) if it in names}
        head = re.search(rf"(?m){HEAD}", text)
        is_open = self.owner in traits or head is not None and "pub " in head[0]
        self.is_public = is_open and (crate.exported is None or (of_type or self.name) in crate.exported)
        self.edits = sorted(name for name, changed in crate.edits.items() if path in changed)
        # The answers of a method stand by the file of its type, which need not be the file of the method.
        folder = f"*/{self.owner}" if self.owner else module
        self.text, self.proofs = text, sorted(crate.path.glob(f"proofs/{folder}/{self.name}/*.antt"))
        proof = "\n".join(it.read_text() for it in self.proofs)
        cited = [(owner, kind, file) for owner, kind, file, _ in USE.findall(proof)]
        cited += [(crate.name, kind, file) for kind, file in GIVEN.findall(text)]
        self.lemmas = sorted({files(crate, owner, file) for owner, kind, file in cited
                              if kind == "proofs" or kind_of(owner, file) == "Laws"})
        self.chapters = sorted({files(crate, owner, file) for owner, file, _ in self.words})


def files(crate, owner, file):
    """A file of specs/ or proofs/, with the crate that has it where that is another one."""
    return file if owner == crate.name else f"{owner} {file}"


def imported(text):
    """What a text takes from specs/, by the name that it has there: the crate, the file and the name of each."""
    found = {}
    for owner, kind, file, names in USE.findall(text):
        for name in names.split(",") if kind == "specs" else ():
            name, _, other = name.strip().partition(" as ")
            found[other or name] = owner, file, name
    return found


@functools.cache
def lines_of(crate, file):
    path = TOP / f"crates/{crate}/specs/{file}.antt"
    return path.read_text().split("\n") if path.exists() else [""]


def kind_of(crate, file):
    """Whether a file of specs/ is a chapter, laws or state, as its first line says."""
    return lines_of(crate, file)[0].removeprefix("-- ").partition(":")[0]


@functools.cache
def crates():
    """The crates of the programs, in the order of crates.txt."""
    names = re.findall(r"(?m)^(dw\w*)", (TOP / "crates.txt").read_text())
    return [Crate(name) for name in names if name != "dw_tests"]


@functools.cache
def uses():
    """How many other files of specs/ use each definition."""
    return collections.Counter(it for path in TOP.glob("crates/*/specs/*.antt")
                               for it in imported(path.read_text()).values())


def chapters(crate):
    """The chapters of a crate, in reading order."""
    listed = (crate.path / "specs/Lib.antt").read_text()
    return [it for it in re.findall(r"(?m)^pub mod (\w+)$", listed) if kind_of(crate.name, it) == "Chapter"]


def first_paragraph(lines):
    """The comment at the front of some lines, as one text."""
    count = next((k for k, line in enumerate(lines) if not line.startswith("-- ")), len(lines))
    return " ".join(line[3:] for line in lines[:count])


def sentence_above(lines, number):
    """The comment above a line, or else above the group of mutual definitions that the line is in."""
    above = [it.strip() for it in lines[:number][::-1] if not it.startswith("infix")]
    count = next(k for k, it in enumerate(above) if not it.startswith("-- "))
    group = next((k for k in range(number)[::-1] if lines[k] and lines[k][0] != " "), 0)
    if not count and lines[number].startswith(" ") and lines[group].endswith("mutual"):
        return sentence_above(lines, group)
    return first_paragraph(above[:count][::-1])


def defined(crate, file):
    """The definitions of a chapter, each with the sentence above it."""
    lines = lines_of(crate, file)
    for number, line in enumerate(lines):
        if found := DEFINITION.match(line):
            yield found[1], sentence_above(lines, number), number + 1
