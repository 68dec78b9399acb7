#!/usr/bin/env python3
"""Writes tables of the definitions and of the proofs into out/docs, or into a folder: make-indexes.py [FOLDER]

DEFINITION-TABLES.md has the definitions of Headline, and those of the other chapters that the contract of a public
function or three other files of specs/ name, each with the sentence above it. PROOF-TABLES.md has the public functions
with a contract, and the others that an edit changes: the names of the clauses, the files of specs/ that define their
words, the files of lemmas that the proof cites, and the edits. What these mean is on the pages DEFINITIONS.md and
PROOFS.md. The tables are in the packages, and `make where NAME=..` looks up one name.
"""
import pathlib
import re
import sys
import textwrap

sys.path.insert(0, str(pathlib.Path(__file__).resolve().parent))
sys.dont_write_bytecode = True
from indexes import TOP, chapters, crates, defined, first_paragraph, lines_of, uses

PAGES = {
    "DEFINITION-TABLES.md": ("Definitions, by crate and chapter",
                             "The chapters of `specs/` in reading order, which DEFINITIONS.md explains. The tables "
                             "have the definitions of Headline, and those that the contract of a public "
                             "function or three other files of `specs/` name; the chapter has all. `make docs` makes "
                             "them.",
                             "definitions"),
    "PROOF-TABLES.md": ("Contracts, proofs and edits, by crate and function",
                        "The exported functions (in bold) and the others that an edit changes: the names of the "
                        "clauses, the files of `specs/` that define the words of the contract, the files of lemmas "
                        "that the proof cites, and the edits in `must-fail/` and `more-edits/` that turn the meaning "
                        "of the function. A file that is named without a crate is the crate's own. The claims in "
                        "prose are in PROOFS.md. `make docs` makes the tables.",
                        "proofs"),
}


def wrapped(text, indent=""):
    return textwrap.wrap(text, 120, subsequent_indent=indent, break_long_words=False, break_on_hyphens=False)


def definitions(crate):
    """The chapters of a crate with their definitions."""
    named = {it for function in crate.functions if function.is_public for it in function.words}
    for file in chapters(crate):
        title = first_paragraph(lines_of(crate.name, file)).partition(": ")[2]
        title = re.split(r"(?<=\.) (?=[A-Z])", title)[0]
        yield from ("", *wrapped(f"**{file}** (`crates/{crate.name}/specs/{file}.antt`): {title}"), "")
        before = None
        for name, said, _ in defined(crate.name, file):
            it, line = (crate.name, file, name), f"- `{name}`: {said}"
            if it in named or uses()[it] > 2 or file == "Headline":
                if said.startswith("the same") and before:
                    yield from wrapped(before, "  ")
                yield from wrapped(line, "  ")
                line = None
            before = line
    yield ""


def proofs(crate):
    """The table of a crate's functions."""
    yield from ("", "|Function: clauses|Definitions|Lemmas|Edits|", "|---|---|---|---|")
    for it in crate.functions:
        if it.edits or it.is_public and it.lemmas:
            clauses = ", ".join(filter(None, it.clauses))
            label = f"**`{it.label}`**" if it.is_public else f"`{it.label}`"
            label += f": {clauses}" if clauses else ""
            yield "|".join(["", label, ", ".join(it.chapters), ", ".join(it.lemmas), ", ".join(it.edits), ""])
    elsewhere = sorted(name for name, changed in crate.edits.items() if not changed - {None})
    plain = [f"`{it.label}`" for it in crate.functions if it.is_public and it.clauses and not (it.edits or it.lemmas)]
    lists = (("Edits of types, constants and definitions", elsewhere), ("With no lemma and no edit", plain))
    for title, found in lists:
        yield from ("", *wrapped(f"{title}: {', '.join(found)}.")) if found else ()
    yield ""


def page(title, text, make):
    """A page of tables, with a part for each crate."""
    yield from (f"# {title}", "", *wrapped(text), "")
    for crate in crates():
        yield from (f"## {crate.name}", *make(crate))


if __name__ == "__main__":
    folder = pathlib.Path(sys.argv[1]) if sys.argv[1:] else TOP / "out/docs"
    folder.mkdir(parents=True, exist_ok=True)
    for name, (title, text, make) in PAGES.items():
        (folder / name).write_text("\n".join(page(title, text, globals()[make])))
        print(f"written: {folder / name}")
