#!/usr/bin/env python3
"""Runs `dwv-addr` on small files whose line programs or ranges mean work: 100,000 units with a program each, programs
inside one another, functions inlined 100,000 deep, a list of 100,000 ranges, a list that 100,000 entries name.

usage: hostile_addresses.py [--only PATTERN]

Of each file `check` must print the stated line, and `find` the frames of an address, within limits of time and memory;
the C library must find as many.
It prints one line a run with the seconds it took, and ends with 'N passed, N failed, N skipped'.
"""
import argparse
import os
import re
import resource
import struct
import sys

sys.dont_write_bytecode = True
import common
from common import DWV_ADDR, unit

# How many of each there are, and what a run may take: seconds of processor time, twice those of a quiet machine, bytes
# of memory. A run that takes longer is ended.
MANY, SECONDS, MEMORY, END = 100_000, 3, 2 << 30, 60
# The first address of the code, and how many bytes it has.
LOW, SIZE = 0x1000, 0x1000000
# 1 compile unit with a line program; 2 compile unit, 3 function, 4 inlined function, with an address and a size; 5
# compile unit with an address and a range list, 6 function with a list; 7 function, 8 compile unit, without children,
# with an address and a size.
TABLE = bytes.fromhex("0111001017 0000" "021101 1101 1206 0000" "032e01 1101 1206 0000" "041d01 1101 1206 0000"
                      "051101 1101 5517 0000" "062e00 5517 0000" "072e00 1101 1206 0000" "081100 1101 1206 0000" "00")
# A program of version 4 with one row at the start of the code, which is one byte long.
HEADER = bytes((1, 1, 1, 0, 1, 10, 0, 1, 1, 1, 1, 0, 0, 0, 1)) + b"\0a\0\0\0\0\0"
ROW, ADVANCE, END_SEQUENCE = b"\1", b"\2\1", b"\0\1\1"


def program(opcodes):
    """A line program of version 4 that begins at the start of the code."""
    content = struct.pack("<HI", 4, len(HEADER)) + HEADER + b"\0\x09\2" + struct.pack("<Q", LOW) + opcodes
    return struct.pack("<I", len(content)) + content


def at(code, low=LOW, size=SIZE):
    """An item with an address and a size."""
    return bytes((code,)) + struct.pack("<QI", low, size)


def named(code, offset):
    """An item with an offset."""
    return bytes((code,)) + struct.pack("<I", offset)


# The first entry of a unit with the first list: its ranges count from 0.
LISTED = bytes((5,)) + bytes(8) + bytes(4)
# Prints as many lines as `find` for an address, by the C library.
BY_LIBRARY = """import dwv, sys
try:
    print("\\n" * 2 * max(len(dwv.addresses(sys.argv[1]).frames(int(sys.argv[2], 16))), 1))
except dwv.NotSound as error:
    print(error)
"""


def units(*items):
    """Units with these items."""
    return b"".join(unit(it, version=4) for it in items)


def list_of(count, size=8):
    """A range list of so many ranges, one after another, with a gap before each."""
    return b"".join(struct.pack("<QQ", LOW + size * k, LOW + size * k + 1) for k in range(count)) + bytes(16)


def files():
    """Each file: its name, its sections, what `check` prints, and how many lines `find` prints of the first address."""
    one = program(ROW + ADVANCE + END_SEQUENCE)
    offsets = [len(one) * k for k in range(MANY)]
    sound = r"sound: {} sequences, {} rows, {} ranges, {} functions, {} inlined, 0 dead"
    yield ("units with a program each", units(*(named(1, it) for it in offsets)), one * MANY, b"",
           sound.format(MANY, 2 * MANY, 0, 0, 0), 3)
    yield ("units with a program each, the last first", units(*(named(1, it) for it in reversed(offsets))), one * MANY,
           b"", sound.format(MANY, 2 * MANY, 0, 0, 0), 3)
    rows = program(ROW * (4 << 20) + ADVANCE + END_SEQUENCE)
    yield ("units that name one program", units(*[named(1, 0)] * MANY), rows, b"",
           sound.format(1, (4 << 20) + 1, 0, 0, 0), 3)
    yield ("units that name places in one program", units(*(named(1, it) for it in range(MANY))), rows, b"",
           r"fault L13 ProgramsMeet at .debug_line\+0x00000001 attribute 0x0", 1)
    yield ("functions inlined in one another", units(at(2) + at(3) + at(4) * MANY + bytes(MANY + 2)), b"", b"",
           sound.format(0, 0, MANY + 2, 1, MANY), 2 * MANY + 3)
    yield ("functions", units(at(2) + b"".join(at(7, LOW + 2 * k, 1) for k in range(MANY)) + b"\0"), b"", b"",
           sound.format(0, 0, MANY + 1, MANY, 0), 3)
    yield ("a list of ranges", units(LISTED + named(6, 16 * MANY + 16) + b"\0"), b"", list_of(MANY) + list_of(1),
           sound.format(0, 0, MANY + 1, 1, 0), 3)
    yield ("functions of one list", units(LISTED + named(6, 0) * MANY + b"\0"), b"", list_of(10_000),
           r"fault X13 ListBudget at .debug_info\+0x[0-9a-f]{8} attribute 0x0", 1)
    yield ("units at one address", units(*[at(8)] * MANY), b"", b"", sound.format(0, 0, MANY, 0, 0), 3)


def file_of(info, line, ranges):
    """An ELF file with these sections, and code."""
    sections = [(".debug_abbrev", TABLE), (".debug_info", info), (".debug_line", line), (".debug_ranges", ranges)]
    return common.elf([(name, 1, data) for name, data in sections], (LOW, SIZE))


def ran(*words):
    """The text of a run, and what is wrong of what it took, or None, and the seconds."""
    before = resource.getrusage(resource.RUSAGE_CHILDREN)
    env = {**os.environ, "PYTHONPATH": str(common.TOP / "python")}
    status, text, errors = common.run(*words, memory=MEMORY, seconds=END, text=True, env=env)
    after = resource.getrusage(resource.RUSAGE_CHILDREN)
    took = after.ru_utime + after.ru_stime - before.ru_utime - before.ru_stime
    if errors or status > 1:
        return text, f"status {status}: {errors[-100:]}", took
    return text, common.too_long(took, SECONDS, *words, env=env), took


def main():
    parser = argparse.ArgumentParser(description=__doc__.splitlines()[0])
    parser.add_argument("--only", default="", metavar="PATTERN", help="runs those whose names have this pattern")
    words = parser.parse_args()
    tally = common.Tally(1 if words.only else 27)
    common.build_addr()
    common.build_library()
    with common.empty_folder() as folder:
        path = folder / "file"
        for name, info, line, ranges, wanted, lines in files():
            if not re.search(words.only, name):
                continue
            path.write_bytes(file_of(info, line, ranges))
            text, why, took = ran(DWV_ADDR, "check", path)
            if not why and not re.fullmatch(f"{wanted}\n", text):
                why = f"{text[:200]!r}, wanted {wanted}"
            tally.add(f"check of {name}", why, f"{took:.2f} s")
            for title, *asked in (("find in", DWV_ADDR, "find"), ("dwv_frames of", sys.executable, "-c", BY_LIBRARY)):
                text, why, took = ran(*asked, path, f"0x{LOW:x}")
                if not why and text.count("\n") != lines:
                    why = f"{len(text.splitlines())} lines, wanted {lines}"
                tally.add(f"{title} {name}", why, f"{took:.2f} s")
    return tally.end()


if __name__ == "__main__":
    sys.exit(main())
