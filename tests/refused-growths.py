#!/usr/bin/env python3
"""Makes allocations fail: `dwv` then ends with status 4 and writes nothing, or prints the same as otherwise.

Each allocation that `dwv` makes on a file fails by a malloc of our own (tests/refusing-malloc.c): once alone, and once
with all allocations after it. The script prints one line a command and ends with
'N passed, N failed, N skipped'.
"""
import os
import pathlib
import sys

sys.dont_write_bytecode = True
import common
import rows
from common import DWV, HERE

# .debug_abbrev and .debug_info of small files, by the parts of tests/rows/parts.txt.
FILES = {
    "sound": ("A", "B"),
    "G1": ("A", "B[0f=03]"),
    "C1": ("T", "F"),
    "Z2": ("T", "N2"),
    "functions": ("T", "M"),
    "P1": ("T", "L"),
}
MEMORY = (4, b"", b"dwv: out of memory\n")
# A number past those of all requests.
ALL = 2**32


def ran(words, library, folder, refused, last):
    """The status and both texts of a run in which the requests from one to another fail, and how many it made."""
    count = folder / "requests"
    count.unlink(missing_ok=True)
    environment = dict(os.environ, LD_PRELOAD=str(library), REFUSED=str(refused), LAST=str(last), REQUESTS=str(count))
    said = common.run(DWV, *words, env=environment)
    return said, int(count.read_text()) if count.exists() else 0


def tried(words, library, folder):
    """How many requests a run makes, how many of them end it when they are refused, and the first wrong answer."""
    whole, requests = ran(words, library, folder, 0, 0)
    ended = 0
    for number in range(1, requests + 1):
        for last in (number, ALL):
            said, _ = ran(words, library, folder, number, last)
            if said == MEMORY:
                ended += last == number
            elif said != whole:
                later = "" if last == number else " and all after it"
                return requests, ended, f"request {number}{later} refused: {said!r}"
    return requests, ended, None


def main():
    tally = common.Tally(35)
    if not tally.has("gcc"):
        return tally.end()
    with common.empty_folder() as folder:
        library, program = folder / "refusing-malloc.so", folder / "program"
        source = HERE / "refusing-malloc.c"
        if not (common.compiled(library, "gcc -O1 -shared -fPIC -Wl,--no-as-needed -ldl", source)
                and common.compiled(program, "gcc -gdwarf-5 -O0", "shapes.c", "calls.c")):
            tally.lack("gcc does not compile the malloc that fails, or the program")
            return tally.end()
        for words in commands([*small(folder), program]):
            requests, ended, wrong = tried(words, library, folder)
            line = " ".join(pathlib.Path(word).name for word in words)
            why = wrong or (None if ended else "no refused request ends it")
            tally.add(f"dwv {line}", why, f"{requests} requests, {ended} of them end it with want of memory")
    return tally.end()


def small(folder):
    """The small files, each written into the folder."""
    parts = {}
    rows.read(HERE / "rows/parts.txt", parts)
    for name, (abbrev, info) in FILES.items():
        sections = {"abbrev": rows.Bytes(abbrev, parts).all(), "info": rows.Bytes(info, parts).all()}
        file = folder / name
        file.write_bytes(rows.elf(sections))
        yield file


def commands(files):
    """The words of each run."""
    for file in files:
        yield ["check", str(file)]
        yield ["check", "--json", str(file)]
        yield ["show", str(file)]
        yield ["types", str(file)]
        yield ["size", str(file), "0x0f"]


sys.exit(main())
