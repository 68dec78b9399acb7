#!/usr/bin/env python3
"""Runs the program on the smallest file of each rule: the rows in docs/RULES.md.

A row is named after its rule and must print that rule. Each rule in the tables of the page must have a row: one of the
page, where `make docs` writes those of tests/rows/types.txt too, or for a rule on ranges one of tests/rows/ranges.txt,
which tests/rows.py runs. A file that is too large as a whole is tried too, if there is memory for it. The script prints
one line a row and ends with 'N passed, N failed, N skipped'.
"""
import os
import pathlib
import re
import struct
import sys

sys.dont_write_bytecode = True
import common
import rows
from common import DWV

RULES = common.TOP / "docs/RULES.md"
# The most bytes of a file, and the free memory for a run on one that has more.
FILE_LIMIT, FREE = 2**32, 5 * 10**9


def read(has_lines=False):
    """The rows of the page whose files `dwv` checks, or those of line programs, and their parts."""
    lines, is_inside = [], False
    for line in RULES.read_text().splitlines():
        if line.startswith("```"):
            is_inside, line = line == "```text", ""
        lines.append(line if is_inside else "")
    parts = {}
    return [row for row in rows.read(RULES, parts, lines) if rows.has_lines(row) == has_lines], parts


def files():
    """The files of all rows: those of tests/rows, and those of the page."""
    for _, row, parts in rows.all_rows():
        yield from row.files(parts)
    table, parts = read()
    for row in table:
        yield from row.files(parts)


def rules():
    """The codes and names of the rules in the tables of the page, in its order."""
    return list(dict.fromkeys(re.findall(r"(?m)^\| ([A-Z]\d+) \| (\w+) \|", RULES.read_text())))


def rule_of(row):
    """The code and the name of a row's rule, or None if it prints another rule or none."""
    rule = tuple(row.name.split(",")[0].split(" "))
    lines = [lines for (command, *_), _, lines in row.asked if command in ("check", "lines", "addresses")]
    fault = f"fault {' '.join(rule)} at "
    return rule if lines and any(line.startswith(fault) for line in lines[0]) else None


def available():
    """How many bytes of memory a program can have, those of the system's caches among them."""
    return int(re.search(r"MemAvailable: *(\d+) kB", pathlib.Path("/proc/meminfo").read_text())[1]) * 1024


def too_large(tally, row, parts):
    """Runs the row of E1, whose last section has a gigabyte of zeros, and a file of more than four gigabytes.

    The zeros are at the end of the file, after the section headers, so that they take no place on the disk.
    """
    name, kind, zeros = row.more[-1]
    size = int(re.fullmatch(r"\( 00 \)\*(\d+)", zeros)[1])
    row.more[-1] = name, kind, ""
    file = bytearray(next(row.files(parts))[0])
    headers, count = struct.unpack_from("<Q", file, 40)[0], struct.unpack_from("<H", file, 60)[0]
    # The last section header is that of the name table.
    struct.pack_into("<QQ", file, headers + (count - 2) * 64 + 24, len(file), size)
    fault = f"{row.asked[0][2][0]}\n"
    with common.empty_folder() as folder:
        path = folder / "file"
        path.write_bytes(file)
        os.truncate(path, len(file) + size)
        tally.same(f"RULES: {row.name}", common.run(DWV, "check", path, text=True, timeout=300), (1, fault, ""))
        if available() < FREE:
            tally.skip("E1 TooLarge, a file: it takes 4.2 GB of memory")
            return
        os.truncate(path, FILE_LIMIT + 1)
        fault = "fault E1 TooLarge at section 0\n"
        tally.same("RULES: E1 TooLarge, a file", common.run(DWV, "check", path, text=True, timeout=300), (1, fault, ""))


def main():
    table, parts = read()
    of_lines = read(has_lines=True)[0]
    small = [row for row in table + of_lines if not row.name.startswith("E1 ")]
    tally = rows.tried((("RULES", row, parts) for row in small), 126)
    for row in table:
        if row.name.startswith("E1 "):
            too_large(tally, row, parts)
    of_ranges = [row for name, row, _ in rows.all_rows() if name == "ranges"]
    shown = {rule_of(row) for row in table + of_lines + of_ranges}
    for rule in rules():
        tally.add(f"RULES: {' '.join(rule)} has an example", None if rule in shown else "no row prints it")
    return tally.end()


if __name__ == "__main__":
    sys.exit(main())
