#!/usr/bin/env python3
"""Tests that the files in specs/ can be read in the order that docs/DEFINITIONS.md gives.

The first line of a file says whether it is a chapter, laws or state. specs/Lib.antt lists the files by kind, and a
chapter after those that it uses, except that Headline comes first. Each definition has a sentence above it, except the
constants DW_*. `make docs` writes the chapters in that order. The script prints a line for each place where this fails,
and ends with 'N passed, N failed, N skipped', where a file is counted once.
"""
import re
import sys

sys.dont_write_bytecode = True
from common import TOP, tell

TITLES = {"-- Chapters, in reading order.": "Chapter", "-- Laws.": "Laws", "-- State.": "State"}
DEFINITION = re.compile(r"(?:pub )?(?:data|record|abbrev|unfoldable) ")
CONSTANT = re.compile(r"abbrev pub DW_\w+ : ")


def listed(specs):
    """The files that Lib.antt lists, each with its kind."""
    kind, kinds = None, {}
    for line in (specs / "Lib.antt").read_text().splitlines():
        if line.startswith("--"):
            kind = TITLES.get(line)
        else:
            kinds[line.removeprefix("pub mod ")] = kind
    return kinds


def wrong(path, kinds, crate):
    """What is wrong in a file."""
    lines = path.read_text().splitlines()
    kind = lines[0].removeprefix("-- ").partition(":")[0]
    names = list(kinds)
    if path.stem not in kinds:
        yield "1: Lib.antt does not list it"
        return
    if kind not in TITLES.values():
        yield f"1: the first line names no kind: {lines[0]}"
    elif kinds[path.stem] != kind:
        yield f"1: Lib.antt lists it under {kinds[path.stem]}"
    for number, line in enumerate(lines, 1):
        used = re.match(rf"(?:pub )?use Rattle\.{crate}\.specs\.(\w+)", line)
        is_later = used and used[1] in kinds and names.index(used[1]) > names.index(path.stem)
        if kind == "Chapter" and path.stem != "Headline" and is_later:
            yield f"{number}: it uses {used[1]}, which comes after it"
        beside = lines[number - 2] + (lines[number] if line.endswith("mutual") else "")
        if DEFINITION.match(line) and not CONSTANT.match(line) and not beside.lstrip().startswith(("--", "infix")):
            yield f"{number}: no sentence above {line}"


def main():
    found, tried = [], 0
    for specs in sorted(TOP.glob("crates/*/specs")):
        crate, kinds = specs.parent.name, listed(specs)
        for path in sorted(specs.glob("*.antt")):
            if path.stem != "Lib":
                tried += 1
                found += [f"{path.relative_to(TOP)}:{it}" for it in wrong(path, kinds, crate)]
    return tell(found, tried, 160)


sys.exit(main())
