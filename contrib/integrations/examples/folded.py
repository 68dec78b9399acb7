#!/usr/bin/env python3
"""Folds the stacks of `perf script` for a flame graph, with the functions that are inlined: folded.py PROGRAM

    perf record -g ./program
    perf script --show-mmap-events | folded.py program | flamegraph.pl > program.svg

The addresses of PROGRAM, which must be sound, are looked up by libdwv.so.0, all in one call. Other functions have the
names that perf knows. It is for one process.
"""
import collections
import os
import re
import struct
import sys

import dwv

# Where code is mapped: the first address, the size, the offset in the file, and the file.
MAP = re.compile(r".*PERF_RECORD_MMAP2? .*\[(0x[0-9a-f]+)\((0x[0-9a-f]+)\) @ (0x[0-9a-f]+|0) .*: \S*x\S* (.*)$")
# A call of a stack: the address, the function as perf knows it, and the file. Where a file is mapped, newer perfs print
# the offset in it in place of the address.
CALL = re.compile(r"\s+([0-9a-f]+) (.*?)(?:\+0x[0-9a-f]+)? \(([^()]*)\)$")


def segments(file):
    """What is loaded of an ELF file: the offset, the size and the first address of each part."""
    (start,), (size, count) = struct.unpack_from("<Q", file, 32), struct.unpack_from("<HH", file, 54)
    for at in range(start, start + size * count, size):
        kind, _, offset, address, _, length = struct.unpack_from("<IIQQQQ", file, at)
        if kind == 1:
            yield offset, length, address


def main():
    path = os.path.realpath(sys.argv[1])
    with open(path, "rb") as opened:
        file = opened.read()
    loaded, maps, stacks = list(segments(file)), [], [[]]
    for line in map(str.rstrip, sys.stdin):
        if it := MAP.match(line):
            if os.path.realpath(it[4]) == path:
                maps.append([int(number, 16) for number in it.groups()[:3]])
        elif it := CALL.match(line):
            # All but the innermost are return addresses, which are after the call.
            is_own = os.path.realpath(it[3]) == path
            stacks[-1].append((int(it[1], 16) - bool(stacks[-1]), it[2], is_own))
        elif not line:
            stacks.append([])

    def in_file(at, is_own):
        """The address in the file, or None."""
        offsets = [offset + at - start for start, size, offset in maps if start <= at < start + size] or [at] * is_own
        return next((address + it - offset for it in offsets for offset, size, address in loaded
                     if offset <= it < offset + size), None)

    asked = sorted({in_file(at, is_own) for stack in stacks for at, _, is_own in stack} - {None})
    found = dict(zip(asked, dwv.addresses(file).find(asked)))
    counts = collections.Counter()
    for stack in filter(None, stacks):
        names = [(it.function or name.encode()).decode(errors="replace") for at, name, is_own in stack
                 for it in found.get(in_file(at, is_own)) or [dwv.frames.Frame(None, None, None, None, None, 0)]]
        counts[";".join(reversed(names))] += 1
    for names, count in sorted(counts.items()):
        print(names, count)


if __name__ == "__main__":
    main()
