#!/usr/bin/env python3
"""Measures `dwv-addr find` beside llvm-symbolizer and gimli's addr2line, on the programs that bench.py generates.

usage: lookups.py [WORD ..]      only the programs whose names have one of the words, as "Rust" or "1 MB"

Each tool gets random addresses of the code: one, 50,000 and 200,000. `dwv-addr` checks the file before it answers, and
the others check nothing. They take turns, as in bench.py, and the least processor time counts. llvm-symbolizer and
addr2line get a copy without a table of symbols, from which they would take names. GIMLI_ADDR2LINE is the path of the
program `addr2line` of gimli's crate of that name. A tool that is not there is left out. The table is Markdown.
"""
import os
import pathlib
import shutil
import sys

sys.dont_write_bytecode = True
import bench

sys.path.insert(0, str(bench.HERE.parent / "tests"))
import common

COUNTS = (1, 50_000, 200_000)
FIND, SYMBOLIZER, GIMLI = "dwv-addr find", "llvm-symbolizer", "gimli's addr2line"
GIMLI_PATH = os.environ.get("GIMLI_ADDR2LINE")


def tools(program, copy):
    """The words of each tool that is there, which reads addresses from standard input."""
    found = {FIND: [common.DWV_ADDR, "find", program]}
    if tool := next(filter(shutil.which, ("llvm-symbolizer-19", "llvm-symbolizer")), None):
        found[SYMBOLIZER] = [tool, f"--obj={copy}", "--no-demangle", "--functions=linkage"]
    if GIMLI_PATH:
        found[GIMLI] = [pathlib.Path(GIMLI_PATH).absolute(), "-f", "-i", "-e", copy]
    return found


def rows(name, program):
    """The rows of the table for a program."""
    copy, given = program.with_name("without-symbols"), program.with_name("addresses")
    copy.write_bytes(common.without_symbols(program.read_bytes()))
    best = {}
    for count in COUNTS:
        given.write_text("".join(f"0x{it:x}\n" for it in common.some_addresses(program.read_bytes(), count)))
        best[count] = bench.measure(tools(program, copy), given)
    for tool in best[1]:
        found = [best[count][tool] for count in COUNTS]
        cells = [f"{it[0] * 1e3:.0f}" if it else f"over {bench.LIMIT} s" for it in found]
        yield f"| {name} | {tool} | {' | '.join(cells)} | {f'{found[-1][1]:.0f}' if found[-1] else ''} |"
    copy.unlink()
    given.unlink()


def main():
    words = sys.argv[1:] or [""]
    if not common.DWV_ADDR.exists():
        print("dwv-addr is not built: run `make addr` first.")
        return
    print(f"| program | tool | {', ms | '.join(f'{count:,}' for count in COUNTS)}, ms | peak MB |")
    print("|---|---|---|---|---|---|")
    for name in (name for name in bench.PROGRAMS if any(word in name for word in words)):
        if program := bench.build(name):
            for row in rows(name, program):
                print(row, flush=True)


if __name__ == "__main__":
    main()
