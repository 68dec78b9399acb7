#!/usr/bin/env python3
"""Tests that functions marked `#[inline(always)]` are in line in the proved program.

`rattle` leaves one out of line, without a word, if it is too long with all that it calls so. One by which values are
read made `check` execute a quarter more instructions. The program of `make quick` has all of them in line.

It prints each function that is out of line, or that is named below and is not, and ends with 'N passed, N failed, N
skipped'.
"""
import re
import subprocess
import sys

sys.dont_write_bytecode = True
from common import DWV, TOP, Tally, build, tell
from edit_files import functions_of, short

# Those that are out of line: asked of a dimension, and not of each entry.
LEFT_OUT = {"dw_types::count::count_of"}


def marked(crate, path):
    """The functions of a file that are marked."""
    text = path.read_text()
    lines = text.split("\n")
    for it in functions_of(crate, str(path.relative_to(crate)), text):
        if "#[inline(always)]" in (line.strip() for line in lines[it.first:it.last]):
            yield it.path


def main():
    tally = Tally()
    if not tally.has("nm"):
        sys.exit(tally.end())
    build()
    listed = subprocess.run(["nm", DWV], capture_output=True, text=True, check=True).stdout
    names = {short(re.sub(r"::<.*", "", it)) for it in re.findall(r"(?m)^\w+ \w (.+)$", listed)}
    functions = {it for path in sorted(TOP.glob("crates/dw_*/src/*.rt")) for it in marked(path.parent.parent, path)}
    wrong = [f"{it} is {'out of line' if it in names else 'in line'}" for it in sorted(functions & names ^ LEFT_OUT)]
    sys.exit(tell(wrong, len(functions), 170))


if __name__ == "__main__":
    main()
