#!/usr/bin/env python3
"""Runs `line_rows` on small files whose line programs are costly to read: each must print the stated lines, within
limits of time and memory.

usage: hostile_lines.py [--list] [--only PATTERN]

A file has about 8 MB. It prints one line a file with the seconds it took, and ends with 'N passed, N failed,
N skipped'. With --list it runs nothing, and prints what each file has. With --only it runs those with such a name.
"""
import argparse
import re
import resource
import struct
import sys

sys.dont_write_bytecode = True
import common
from common import LINE_ROWS, uleb

# The bytes of what is repeated in a file, and what a run may take: seconds of processor time, bytes of memory.
SIZE, SECONDS, MEMORY = 8 << 20, 1.5, 2 << 30
# A run that takes longer is ended.
END = 60
# The fields from minimum_instruction_length to opcode_base, before version 4 and from there on. No opcode but the
# extended ones is a standard one. So 01 is the first special opcode: it appends a row, and 02 advances the address too.
FIELDS = bytes((1, 1, 0, 1, 1))
FIELDS4 = bytes((1, 1, 1, 0, 1, 1))
# The codes of contents and of forms.
PATH, DIRECTORY = 1, 2
STRING, UDATA, BLOCK, LINE_STRP = 0x08, 0x0F, 0x09, 0x1F
# The offset of a program, and the place of a fault.
PLACE = re.compile(r"^debug_line\[0x[0-9a-f]{8}\]$| at 0x[0-9a-f]{8}$")
ONE_FILE = b"\0a\0\0\0\0\0"
END_SEQUENCE = b"\0\1\1"


def sized(data):
    return struct.pack("<I", len(data)) + data


def address(at):
    """DW_LNE_set_address."""
    return b"\0\x09\2" + struct.pack("<Q", at)


def program2(opcodes, tables=ONE_FILE, fields=FIELDS, header_length=None):
    """A program of version 2."""
    header = fields + tables
    length = len(header) if header_length is None else header_length
    return sized(struct.pack("<HI", 2, length) + header + opcodes)


def program5(tables, opcodes=b""):
    """A program of version 5."""
    return sized(struct.pack("<HBB", 5, 8, 0) + sized(FIELDS4 + tables) + opcodes)


def table(contents, count, entries=b""):
    """A table of version 5: its format, the count of its entries, and the entries."""
    pairs = b"".join(uleb(kind) + uleb(form) for kind, form in contents)
    return bytes((len(contents),)) + pairs + uleb(count) + entries


def standard(*more):
    """The fields before version 4 with the twelve standard opcodes, and more with so many operands each."""
    counts = bytes((0, 1, 1, 1, 1, 0, 0, 0, 1, 0, 0, 1)) + bytes(more)
    return bytes((1, 1, 0, 1, len(counts) + 1)) + counts


def many(data, size=SIZE):
    """Bytes again and again, up to a size."""
    return data * (size // len(data))


def rows(count, *faults):
    """The lines of a program with so many rows at line 1, and those of its fault."""
    return [f"{count} rows, lines {count}", *faults]


def files():
    """What each file has: its name, .debug_line, .debug_line_str, and the lines that are printed of the first program.
    """
    empty = table((), 0)
    yield "an advance by 2^64 - 1", program2(b"\2" + uleb(2**64 - 1), fields=bytes((255,)) + standard()[1:]), b"", \
        rows(0, "fault M6 RowAddress at 0x00000022")
    yield "an advance by 2^64", program2(b"\2" + uleb(2**64), fields=standard()), b"", \
        rows(0, "fault M2 OpcodeNumber at 0x00000022")
    yield "2^32 files without contents", program5(empty + table((), 2**32)), b"", ["fault L9 LineForm at 0x00000000"]
    yield "2^32 directories without contents", program5(table((), 2**32)), b"", ["fault L9 LineForm at 0x00000000"]
    yield "2^64 - 1 files whose paths are not there", program5(empty + table(((PATH, STRING),), 2**64 - 1)), b"", \
        ["fault L2 LineCut at 0x00000000"]
    yield "a header that passes its section", program2(b"", header_length=2**32 - 1), b"", \
        ["fault L6 LineHeaderLength at 0x00000000"]
    yield "a program that passes its section", struct.pack("<I", 2**32 - 17) + bytes(SIZE), b"", \
        ["fault L2 LineCut at 0x00000000"]
    count = SIZE // 4
    others = b"".join(b"\0" + uleb(2**21 - 1 - k % 2**20) for k in range(count))
    yield "directories that name one another", program5(
        table(((PATH, STRING), (DIRECTORY, UDATA)), count, others) + empty), b"", rows(0)
    yield "directories of one byte each", program5(table(((PATH, STRING),), SIZE, bytes(SIZE)) + empty), b"", rows(0)
    one = table(((PATH, STRING),), 1, b"\0")
    yield "files of one byte each", program5(one + table(((PATH, STRING),), SIZE, bytes(SIZE)), b"\1\0\1\1"), b"", \
        ["2 rows, lines 2"]
    yield "files of version 2", program2(END_SEQUENCE, tables=b"\0" + many(b"a\0\0\0\0") + b"\0"), b"", rows(1)
    yield "paths that are one long string", program5(
        table(((PATH, LINE_STRP),), SIZE // 8, bytes(SIZE // 2)) + empty), many(b"a", SIZE // 2) + b"\0", rows(0)
    yield "a string without an end, which each path names", program5(
        table(((PATH, LINE_STRP),), SIZE // 8, bytes(SIZE // 2)) + empty), many(b"a", SIZE // 2), \
        ["fault L10 LineString at 0x00000000"]
    contents = ((PATH, STRING), *((kind, BLOCK) for kind in range(0x80, 0x80 + 254)))
    yield "formats of 255 contents in each program", many(program5(table(contents, 0) + table(contents, 0))), b"", \
        rows(0)
    yield "entries of 255 contents", program5(table(contents, SIZE // 255, many(bytes(255))) + empty), b"", rows(0)
    yield "special opcodes", program2(many(b"\1") + END_SEQUENCE), b"", rows(SIZE + 1)
    yield "special opcodes that advance", program2(many(b"\2") + END_SEQUENCE), b"", rows(SIZE + 1)
    yield "sequences", program2(many(END_SEQUENCE)), b"", rows(SIZE // 3)
    yield "addresses", program2(many(address(1)) + b"\1" + END_SEQUENCE), b"", rows(2)
    yield "extended opcodes of no standard", program2(many(b"\0\1\x80")), b"", rows(0)
    yield "advances of ten bytes", program2(many(b"\2" + b"\x80" * 9 + b"\0"), fields=standard()), b"", rows(0)
    yield "lines up and down", program2(many(b"\3\1\3\x7f"), fields=standard()), b"", rows(0)
    yield "opcodes of no standard with 255 operands", program2(
        many(b"\x0d" + bytes(255)), fields=standard(255)), b"", rows(0)
    yield "100,000 programs", program2(b"\1" * 50 + END_SEQUENCE) * 100_000, b"", rows(51)
    yield "empty programs", many(program2(b"")), b"", rows(0)
    # Of 8 MB, which are 2 million programs, line_rows prints 4 million lines. The programs themselves take 66
    # instructions each, however many there are.
    yield "a megabyte of programs of no bytes", bytes(SIZE // 8), b"", ["fault L2 LineCut at 0x00000000"]
    yield "a fault after many rows", program2(many(b"\1")), b"", rows(SIZE, f"fault M8 NotEnded at 0x{SIZE + 22:08x}")


def wrong(path, wanted):
    """What a run printed or took that it must not, and the seconds that it took."""
    before = resource.getrusage(resource.RUSAGE_CHILDREN)
    status, text, errors = common.run(LINE_ROWS, "--count", path, memory=MEMORY, seconds=END, text=True)
    after = resource.getrusage(resource.RUSAGE_CHILDREN)
    took = after.ru_utime + after.ru_stime - before.ru_utime - before.ru_stime
    lines = text.splitlines()
    first = lines[2:2 + len(wanted)]
    if status or errors or first != wanted:
        return f"status {status}, {first}, wanted {wanted} {errors[-100:]}", took
    # Of each other program the same is printed, after a line with its offset, but for the places of faults.
    of_one = [PLACE.sub("", line) for line in wanted]
    if [PLACE.sub("", line) for line in lines[1:]] != ["", *of_one] * ((len(lines) - 1) // (len(of_one) + 1)):
        return "other programs are not like the first", took
    return common.too_long(took, SECONDS, LINE_ROWS, "--count", path), took


def main():
    parser = argparse.ArgumentParser(description=__doc__.splitlines()[0])
    parser.add_argument("--list", action="store_true", help="runs nothing, and prints the files")
    parser.add_argument("--only", default="", metavar="PATTERN", help="runs those whose names have this pattern")
    words = parser.parse_args()
    tally = common.Tally(1 if words.only else 27)
    if not words.list:
        common.build_line_rows()
    with common.empty_folder() as folder:
        for name, line, line_str, wanted in files():
            if not re.search(words.only, name):
                continue
            if words.list:
                print(f"{name}: {len(line)} bytes of .debug_line, {wanted[-1]}")
                continue
            path = folder / "file"
            sections = [(".debug_info", 1, b""), (".debug_line", 1, line)]
            path.write_bytes(common.elf(sections + [(".debug_line_str", 1, line_str)]))
            why, took = wrong(path, wanted)
            tally.add(name, why, f"{took:.2f} s")
    return 0 if words.list else tally.end()


if __name__ == "__main__":
    sys.exit(main())
