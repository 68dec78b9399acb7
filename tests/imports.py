#!/usr/bin/env python3
"""Tests that no two files of a crate import one another in a circle.

A file imports another one if its code names that file's module after `crate::`. Imports of clauses (`ghost use`) are
left out, as they name specs/. The script prints a circle for each crate that has one, and ends with 'N passed, N
failed, N skipped', where a crate is counted once.
"""
import graphlib
import re
import sys

sys.dont_write_bytecode = True
from common import TOP, tell

LEFT_OUT = re.compile(r"//.*|\bghost use [^;]*;")
PATH = re.compile(r"\bcrate::(\w+)")
BRACES = re.compile(r"\bcrate::\{((?:[^{}]|\{[^{}]*\})*)\}")


def imports(path):
    """The modules that a file names after `crate::`, alone or in braces."""
    code = LEFT_OUT.sub("", path.read_text())
    first = [it for inside in BRACES.findall(code) for it in re.sub(r"\{[^{}]*\}", "", inside).split(",")]
    return {*PATH.findall(code), *(it.strip().partition("::")[0] for it in first)}


def circle(source):
    """The files of a circle, the first of them also last, or none."""
    files = {path.stem: path for path in source.glob("*.rt") if path.stem not in ("lib", "main")}
    graph = {name: sorted((imports(path) & files.keys()) - {name}) for name, path in sorted(files.items())}
    try:
        graphlib.TopologicalSorter(graph).prepare()
    except graphlib.CycleError as error:
        return error.args[1][::-1]
    return []


def main():
    found, tried = [], 0
    for source in sorted(TOP.glob("crates/*/src")):
        tried += 1
        crate, names = source.parent.name, circle(source)
        if names:
            found.append(f"{crate}: {' imports '.join(f'{name}.rt' for name in names)}")
    sys.exit(tell(found, tried, 12))


if __name__ == "__main__":
    main()
