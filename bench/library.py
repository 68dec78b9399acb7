#!/usr/bin/env python3
"""Measures the C library: the processor time of a call of dwv_check, beside that of a run of the program, and that of a
call of dwv_table, with what a row of a value takes over the check.

It needs `make` and `make lib`, and gcc. The files are a small one and the programs of 10 MB of .debug_info that
bench.py generates. The table is Markdown.
"""
import subprocess
import sys

sys.dont_write_bytecode = True
import bench

INCLUDE, LIBRARY = bench.HERE.parent / "out/include", bench.LIBRARY / "libdwv.a"
CALLER = bench.OUT / "library"
SAMPLE = bench.HERE.parent / "crates/dwv/data/X1"


def main():
    for needed in (bench.DWV, LIBRARY):
        if not needed.exists():
            sys.exit(f"bench: {needed} is not there: run `make` and `make lib` first")
    bench.OUT.mkdir(exist_ok=True)
    words = ["-O2", "-Wall", "-I", INCLUDE, bench.HERE / "library.c", LIBRARY]
    subprocess.run(["gcc", "-o", CALLER, *words], check=True)
    columns = "a call of `dwv_check`, µs", "a run of `dwv check`, µs", "a call of `dwv_table`, µs", "ns a value row"
    print(f"| file | {' | '.join(columns)} |\n|---|---|---|---|---|")
    programs = {name: bench.build(name) for name, (_, megabytes, _) in bench.PROGRAMS.items() if megabytes == 10}
    for name, path in {"400 bytes": SAMPLE, **programs}.items():
        if path is None:
            continue
        ran = subprocess.run([CALLER, bench.DWV, path], capture_output=True, text=True, check=True)
        *times, called, run, filled = ran.stdout.split()
        if {called, run, filled} != {"0"}:
            sys.exit(f"bench: {path} is not sound")
        print(f"| {name} | {' | '.join(times)} |", flush=True)


main()
