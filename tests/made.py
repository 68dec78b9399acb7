#!/usr/bin/env python3
"""Tests that `make docs` would change nothing, that docs/rules.tsv has the rules of the code, that each rule has one
wording, that docs/where.py finds its definition and its check, that a crate has the names in what PROOFS.md claims of
it, that each definition in the tables has a sentence, that READING.md shows the code as it is, that COMPARISON.md lists
the rules that no peer reports by its table, and that each link between pages has a place.

It prints one line a test and ends with 'N passed, N failed, N skipped'.
"""
import re
import runpy
import sys

sys.dont_write_bytecode = True
import common
from common import TOP

tally = common.Tally(130)
COMMANDS = ("check", "show", "types", "size")
PAGES = [*TOP.glob("*.md"), *TOP.glob("docs/*.md"), *TOP.glob("crates/*/CALLING.md")]


def codes():
    """The code and the name of each rule and each refusal, as specs/ has them."""
    texts = "\n".join(path.read_text() for path in TOP.glob("crates/*/specs/*.antt"))
    found = {what: dict(re.findall(rf'(?m)^{what}_text (\w+) = codes "(\w+)"$', texts)) for what in ("code", "name")}
    pairs = re.findall(r'(?m)^texts \w+ = \(codes "(\w+)", codes "(\w+)"\)$', texts)
    return sorted([*pairs, *((code, found["name"].get(variant)) for variant, code in found["code"].items())])


def unknown_names():
    """The names in backticks in what PROOFS.md claims of a crate that neither its code nor its specs/ has."""
    claims = (TOP / "docs/PROOFS.md").read_text().partition("## What is only tested")[0]
    parts = re.split(r"(?m)^\*\*`(\w+)`\.\*\*", claims)
    for crate, text in zip(parts[1::2], parts[2::2]):
        sources = [*(TOP / "crates" / crate).glob("src/**/*.rt"), *(TOP / "crates" / crate).glob("specs/*.antt")]
        known = set(re.findall(r"\w+", "\n".join(path.read_text() for path in sources))) | {crate, *COMMANDS}
        words = re.findall(r"`([\w:]+)`", text)
        yield from sorted({f"{crate}: {name}" for word in words for name in word.split("::") if name not in known})


def unlike_the_code():
    """The lines of code of READING.md that the file of the link before them does not have."""
    page, lines = TOP / "docs/READING.md", []
    for part in re.finditer(r"(?ms)\]\(([^)#]*)\)|^```(?:rust|antt)\n(.*?)^```$", page.read_text()):
        if part[1]:
            lines = [line.strip() for line in (page.parent / part[1]).read_text().split("\n")]
        else:
            yield from (line for line in part[2].splitlines() if line.strip() not in lines)


def places(path):
    """The places of a page that a link can have: its headings, as their words are written in an address."""
    lines = re.sub(r"(?ms)^```.*?^```$", "", path.read_text())
    titles = re.findall(r"(?m)^#+ (.*)$", re.sub(r"\[([^]]*)\]\([^)]*\)", r"\1", lines))
    return {re.sub(r"[^\w\- ]", "", it).lower().replace(" ", "-") for it in titles}


def broken_links(path):
    """The links of a page to other pages of this repository that lead nowhere."""
    text = re.sub(r"(?ms)^```.*?^```$", "", path.read_text())
    for file, place in re.findall(r"\]\((?!https?:)([^)#\s]*)(?:#([^)]*))?\)", text):
        target = path.parent / file if file else path
        if not target.exists():
            yield file
        elif place and target.suffix == ".md" and place not in places(target):
            yield f"{file}#{place}"


def main():
    scripts = [runpy.run_path(str(path)) for path in sorted((TOP / "docs").glob("make-*.py"))]
    found = sorted((rule.code, rule.name) for script in scripts if "table" in script for rule in script["table"]())
    tally.same("the rules of docs/rules.tsv", found, codes())
    for rule in (it for script in scripts if "table" in script for it in script["table"]()):
        said = {text for text, _ in scripts[-1]["wordings"](rule)}
        tally.add(f"one wording of {rule.code}", None if len(said) == 1 else f"{len(said)} wordings")
    where = runpy.run_path(str(TOP / "docs/where.py"))
    for rule in where["RULES"]["table"]():
        said = "\n".join(where["of_rule"](rule))
        tally.add(f"the definition and the check of {rule.code}", None if re.search(
            r"definition:\n  crates(?s:.*)check:\n  crates/", said) else said)
    for path, make in (it for script in scripts if "made" in script for it in script["made"]()):
        text = (TOP / path).read_text()
        tally.add(path, None if make(text) == text else "it is not as `make docs` writes it")
    indexes = runpy.run_path(str(TOP / "docs/make-indexes.py"))
    lines = [line for crate in indexes["crates"]() for line in indexes["definitions"](crate)]
    tally.same("definitions in the tables without a sentence", [it for it in lines if it.endswith("`:")], [])
    tally.same("names in what PROOFS.md claims", list(unknown_names()), [])
    tally.same("code in READING.md", list(unlike_the_code()), [])
    compare = runpy.run_path(str(TOP / "bench/compare.py"))
    page = compare["PAGE"].read_text()
    tally.add("the list of COMPARISON.md", None if compare["with_list"](page) == page else "it is not as the table")
    for path in sorted(PAGES):
        tally.same(f"links of {path.relative_to(TOP)}", list(broken_links(path)), [])
    return tally.end()


sys.exit(main())
