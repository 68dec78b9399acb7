#!/usr/bin/env python3
"""Says where a rule, a function or a definition is: where.py NAME (`make where NAME=R3`)

NAME is the code or the name of a rule (R3, NotNextSibling), a function (verify, or Sections::part), a definition of
specs/ (IsFaultOf), or an edit. It prints where the name is defined, where it is checked or used, the clauses, the files
of proofs and lemmas, the edits, and the rows of tests that have a rule. The exit status is 1 if nothing has the name.
"""
import pathlib
import re
import runpy
import sys

sys.path.insert(0, str(pathlib.Path(__file__).resolve().parent))
sys.dont_write_bytecode = True
from indexes import TOP, crates, defined, files, uses

RULES = runpy.run_path(str(TOP / "docs/make-rules.py"))
# What only says the text of a rule, and lists rules.
TEXTS = [*RULES["FAULTS"], *(chapter for _, _, chapter in RULES["ENUMS"].values())]
IMPORT = re.compile(r"(?:pub |ghost )*use ")


def rows(rule):
    """The rows of tests/rows/, and of RULES.md, that have a rule."""
    for path in (*sorted(TOP.glob("tests/rows/*.txt")), TOP / "docs/RULES.md"):
        row = None
        for number, line in enumerate(path.read_text().splitlines(), 1):
            if line.startswith("row "):
                row = f"{path.relative_to(TOP)}:{number}: {line}"
            if row and f"{rule.code} {rule.name}" in line:
                yield row
                row = None


def lines_with(name, pattern):
    """The lines of files that have a name, without imports and lists of all rules."""
    for path in sorted(TOP.glob(pattern)):
        if str(path.relative_to(TOP)) not in TEXTS:
            for number, line in enumerate(path.read_text().splitlines(), 1):
                if re.search(rf"(?<!\w){name}(?!\w)", line) and not IMPORT.match(line.strip()):
                    yield f"{path.relative_to(TOP)}:{number}: {line.strip()}"


def about(function):
    """What is known of a function: its place, its clauses and their words, its proof and its edits."""
    yield f"{function.place}: {function.crate.name}::{function.label}"
    if function.clauses:
        yield f"  clauses: {', '.join(name or 'ensures' for name in function.clauses)}"
    if function.words:
        words = sorted({f"{files(function.crate, owner, file)}.{word}" for owner, file, word in function.words})
        yield f"  words of them: {', '.join(words)}"
    for title, found in (("proof", [path.relative_to(TOP) for path in function.proofs]),
                         ("lemmas", function.lemmas), ("edits", function.edits)):
        if found:
            yield f"  {title}: {', '.join(map(str, found))}"


def of_rule(rule):
    """What is known of a rule. The functions are those that name it, by itself where it is imported."""
    yield f"{rule.code} {rule.name}: {rule.sentence}"
    enum = next(enum for enum, (_, letters, _) in RULES["ENUMS"].items() if rule.letter in letters.split())
    yield "definition:"
    yield from (f"  {line}" for line in lines_with(rule.name, "crates/*/specs/*.antt"))
    yield "check:"
    named = re.compile(rf"(?:(?<!\w){enum}::|(?<![\w:.])){rule.name}(?!\w)")
    for crate in crates():
        for function in crate.functions:
            if named.search(function.text) and not function.place.startswith(tuple(TEXTS)):
                yield from (f"  {line}" for line in about(function))
    yield "rows:"
    yield from (f"  {row}" for row in rows(rule))


def of_definition(crate, file, name, said, line):
    """What is known of a definition: the contracts and the other files of specs/ that have the word."""
    yield f"crates/{crate.name}/specs/{file}.antt:{line}: {name}: {said}"
    it = crate.name, file, name
    used = [function for crate in crates() for function in crate.functions if it in function.words]
    yield from (f"  contract: {function.place}: {function.crate.name}::{function.label}" for function in used)
    yield f"  other files of specs/ that use it: {uses()[it]}"


def found(name):
    """The lines on all that has a name."""
    for rule in RULES["table"]():
        if name in (rule.code, rule.name):
            yield from of_rule(rule)
    for crate in crates():
        for function in crate.functions:
            if name in (function.name, function.label, f"{crate.name}::{function.label}"):
                yield from about(function)
            elif name in function.edits:
                yield f"crates/{crate.name}: an edit of {function.label}"
                yield from about(function)
        for path in sorted((crate.path / "specs").glob("*.antt")):
            for word, said, line in defined(crate.name, path.stem):
                if word == name:
                    yield from of_definition(crate, path.stem, name, said, line)


def main():
    if len(sys.argv) != 2 or not sys.argv[1]:
        sys.exit("usage: make where NAME=R3")
    lines = list(found(sys.argv[1]))
    print("\n".join(lines) or f"nothing is named {sys.argv[1]}")
    return 0 if lines else 1


if __name__ == "__main__":
    sys.exit(main())
