#!/usr/bin/env python3
"""Runs `dwv` on files that are small and mean work: deep trees, long chains, one string with many names, declarations
of many attributes whose values take no bytes, typedefs whose names share their bytes.

usage: hostile_files.py [--list] [--only PATTERN]

For each the program must print the stated line, or `types` its whole text, within limits of time and memory, and no run
may crash. The lines of `show` of a deep tree are far more bytes than the memory that it may have: it must say so, and
write nothing. The script prints one line a run with the seconds it took, and ends with 'N passed, N failed, N skipped'.
With --list it runs nothing, and prints each file with its limits, and what must not be slow, or large, in it. With
--only it runs those with such a name. For files of doubled_files.py the instructions are counted by valgrind, so that
it is seen how they grow. Of a run that takes longer than it may they are counted too, and decide.
"""
import argparse
import os
import random
import re
import resource
import shutil
import struct
import subprocess
import sys
import time

sys.dont_write_bytecode = True
import common
import doubled_files
from common import DWV, linked, section, uleb, unit

# Seconds that a run may take at most, far above what it takes, since other work may run beside it.
LIMIT = 20
MANY = 100_000
# Structures inside one another whose lines are compared.
NESTED = 1_000
# Bytes of memory that a run of `show` may have.
MEMORY = 1 << 30
# Bytes of memory that a run of `types` may have.
TYPES_MEMORY = 1 << 29
TABLES = 40_000
DECLARATIONS = 1 << 19
# Tables that begin inside declarations of another one.
INSIDE = 16_000
# Tables that begin inside the attributes of one declaration, and the bytes of memory that they may take.
INSIDE_ATTRIBUTES = 8_000
INSIDE_MEMORY = 64 << 20
# Declarations with codes of ten bytes, at each of which a table begins, and the attributes that each declaration has.
LONG_CODES = 40_000
LONG_CODES_ATTRIBUTES = 35
# Bytes of memory for each byte of .debug_abbrev, and seconds, that they may take.
OVERLAP_MEMORY = 98
OVERLAP_TIME = 5
# Bytes after each of many tables that no unit names.
UNNAMED = 66
# Seconds of processor time and bytes of memory that runs with limits of their own may take.
SOON_TIME = 1
SOON_MEMORY = 1 << 29
# Entries of one byte with a flag for each code of DWARF 5 that may be one, and the codes that may not (rule K1).
FLAGGED = 500_000
NO_FLAGS = bytes.fromhex("01030b0d18222e2f3137383e474951696b7273")
# Such entries whose flags are rows of a table, and the bytes of memory, besides the rows, and seconds that it may take.
TABLED, TABLED_MEMORY, TABLED_TIME = 50_000, 64 << 20, 2
# Entries whose names are the suffixes of one string, in a table.
SUFFIXES = 1 << 18
# Contributions that have nothing: the length, the version 5, and of addresses their size.
NO_OFFSETS, NO_ADDRESSES = bytes.fromhex("0400000005000000"), bytes.fromhex("0400000005000800")
# What the rules ask of dimensions, lower bound, bit stride, upper bound, count and byte stride; and of members, bit
# size, abstract origin, location, specification and data bit offset.
OF_DIMENSIONS, OF_MEMBERS = bytes.fromhex("222e2f3751"), bytes.fromhex("0d3138476b")
# Entries without any of these, and the declarations that some of them have in turns.
SEARCHED, SEARCHED_IN_TURNS = 2_000_000, 4_000
# Entries whose values come after others in the form indirect, how many others each has, and units whose first entry is
# such a one.
BEHIND, BEHIND_VALUES, BEHIND_UNITS = 400_000, 8, 200_000
# Seconds of processor time that each of these files may take.
ASKED_TIME = 2
# Type units, the declared structures that each has by its signature, and the seconds of such a file.
SIGNED = 120_000
DECLARED = 5
SIGNED_TIME = 5
# Declarations of one table whose codes do not count up from 1, the bytes of memory for each byte of the table, and for
# the program itself.
CODES = 300_000
CODES_MEMORY = 60
PROGRAM_MEMORY = 16 << 20
# Declarations of one table, of which the last has the code of the first, and the seconds of such a file.
TWICE = 578_000
TWICE_TIME = 1.5
# Groups of codes of ten bytes that agree in so many of their lowest bits, the entries with the code of each group that
# is found last, and the seconds of such a file.
GROUPS = 11_400
LOW_BITS = 14
DEEP_ENTRIES = 400_000
DEEP_TIME = 2
# Units before one with a fault, the typedefs in each of them, and the bytes of memory that such a file may take.
BEFORE_FAULT = 500
BEFORE_TYPEDEFS = 1_000
LATE_MEMORY = 20 << 20
# Attributes of a declaration that has many.
WIDE = 50_000
SECTIONS = 65_000
# Bytes of the name of each of them.
LONG = 16 << 20
# Bytes of .debug_info whose small units refer to one another, and the seconds and the bytes of memory for each byte of
# the file that `check` may take.
REFERRING = 8 << 20
REFERRING_TIME = 1.5
REFERRING_MEMORY = 60


# Seconds of processor time that one of doubled_files may take, twice those of a quiet machine; bytes of memory for each
# byte of the file, besides those of the program; and how the instructions may grow from an eighth of the file to a
# quarter. Instructions are counted, because no other work changes them: a time grows more at the size at which a file
# outgrows a cache.
DOUBLED = doubled_files.Limits(seconds=3, memory=60, growth=2.2)
DOUBLED_MORE = {"a random chain of typedefs": DOUBLED._replace(seconds=8)}


def elf(sections):
    """A linked ELF64 file with these sections, by name."""
    return common.elf([(name, 1, data) for name, data in sections])


def alike():
    """A file of sections that share one long name. The only zero byte of the name table is its last byte."""
    names = b"a" * LONG + b".debug_info\0"
    info = section(LONG, 1, 64, 0)
    return linked(names, [bytes(64), info] + [section(0, 1, 64, 0)] * SECTIONS + [section(0, 3, 64, len(names))])


# 1 compile unit, 2 base type with a size, 3 typedef with a type, 4 structure with a size, 5 member with a type, 6 array
# with a type, 7 dimension with a count of 8 bytes, 8 variable with a name by offset, 9 type unit, 10 variable with a
# type by signature
TABLE = bytes.fromhex(
    "0111010000" "0224000b0b0000" "0316004913" "0000" "0413010b0b0000" "050d0049130000"
    "0601014913" "0000" "07210037070000" "083400030e0000" "0941010000" "0a340049200000" "00")
INT = bytes([2, 4])
# Where the first item behind a compile unit's entry stands.
FIRST = 13


def specified(others, values, targets):
    """The table and the unit of declared variables, and of many variables that are specifications of each in turn.

    A declared variable has these other attributes and their values before its DW_AT_declaration.
    """
    table = bytes.fromhex("0111010000" "0234004713000003" "3400") + others + bytes.fromhex("3c0c0000" "00")
    target = b"\x03" + values + b"\x01"
    uses = b"".join(b"\x02" + struct.pack("<I", FIRST + n % targets * len(target)) for n in range(2 * MANY))
    return table, unit(b"\x01" + target * targets + uses + b"\0")


def many(form):
    """How many attributes in one form are declared."""
    return b"".join(uleb(0x2000 + n) + form for n in range(WIDE))


def typedefs(first, count):
    """Typedefs in a row, each of the one before; the first is of the entry at an offset."""
    out, to = bytearray(), first
    at = FIRST + len(INT)
    for _ in range(count):
        out += b"\x03" + struct.pack("<I", to)
        to, at = at, at + 5
    return bytes(out)


def late_faults():
    """Units in a row, of which the last has a fault: the name of each file, its sections, and its fault.

    Each has another table than the one before it, and no form of a reference to another unit, so that they are verified
    one after another.
    """
    table = TABLE[:TABLE.index(bytes.fromhex("0a340049200000"))] + b"\0"
    pair = [unit(b"\x01" + INT + typedefs(FIRST, BEFORE_TYPEDEFS) + b"\0", table=at) for at in (0, len(table))]
    units = b"".join(pair) * (BEFORE_FAULT // 2)
    own = FIRST + len(INT)
    at = len(units) + own
    for name, items, fault in (
            ("an undeclared code", b"\x7f", f"G1 UndeclaredCode at .debug_info+0x{at:08x} attribute 0x0\n"),
            ("a name outside .debug_str", b"\x08\0\0\0\0", f"S3 StringEnd at .debug_info+0x{at:08x} attribute 0x3\n"),
            ("a typedef of itself", b"\x03" + struct.pack("<I", own),
             f"C1 ContainsItself at .debug_info+0x{at:08x} attribute 0x0\ncycle 0x{at:08x} 0x{at:08x}\n"),
            ("a member outside its structure", b"\x04\x01\x05" + struct.pack("<I", FIRST) + b"\0",
             f"Z3 MemberOutside at .debug_info+0x{at + 2:08x} attribute 0x0\n")):
        sections = [(".debug_abbrev", table * 2), (".debug_info", units + unit(b"\x01" + INT + items + b"\0"))]
        yield f"{BEFORE_FAULT} units, and {name} in the next one", sections, f"fault {fault}"


def deep():
    """Structures, each inside the one before."""
    return b"\x01" + b"\x04\x01" * MANY + b"\0" * (MANY + 1)


# How an attribute is declared whose values take no bytes: by the form flag_present, or by implicit_const and a number.
BYTELESS = {"flag_present": b"\x19", "implicit_const": b"\x21\x07"}
# What comes after the attributes without bytes: its name, the specification, and the value in an entry.
NAME = ("a name", b"\x03\x08", b"a\0")
TYPE = ("a type", b"\x49\x13", struct.pack("<I", FIRST))
BYTE_SIZE = ("a byte size", b"\x0b\x0b", b"\4")
NOTHING = ("nothing", b"", b"")


def wide(tag, byteless, last):
    """A table whose declaration 11 has this tag, many attributes whose values take no bytes, and this one after."""
    return TABLE[:-1] + b"\x0b" + uleb(tag) + b"\0" + many(byteless) + last + b"\0\0" + b"\0"


def wide_files():
    """Each file with entries of such a declaration: its name, its sections, and how the line must start."""
    def sections(table, items):
        return [(".debug_abbrev", table), (".debug_info", unit(b"\x01" + INT + items + b"\0"))]

    count = 2 * MANY
    for form, byteless in BYTELESS.items():
        for what, spec, value in (NAME, TYPE, BYTE_SIZE, NOTHING):
            variables = sections(wide(0x34, byteless, spec), (b"\x0b" + value) * count)
            yield (f"{count:,} variables with {WIDE:,} attributes of the form {form} and then {what}", variables,
                   f"sound: 1 units, {count + 2} entries, 1 types")

        types = sections(wide(0x24, byteless, BYTE_SIZE[1]), (b"\x0b" + BYTE_SIZE[2]) * count)
        yield (f"{count:,} base types with {WIDE:,} attributes of the form {form} and then a byte size", types,
               f"sound: 1 units, {count + 2} entries, {count + 1} types")

        members = b"\x04\x04" + (b"\x0b" + TYPE[2]) * count + b"\0"
        yield (f"{count:,} members with {WIDE:,} attributes of the form {form} and then a type",
               sections(wide(0x0d, byteless, TYPE[1]), members), f"sound: 1 units, {count + 3} entries, 2 types")

        # Entry 12 of the table has a specification; the wide entries that these refer to end with DW_AT_declaration.
        table = wide(0x34, byteless, b"\x3c\x19")[:-1] + b"\x0c\x34\0\x47\x13\0\0\0"
        declared = FIRST + len(INT)
        targets = b"".join(b"\x0c" + struct.pack("<I", declared + n) for n in range(MANY))
        yield (f"{MANY:,} specifications of variables with {WIDE:,} attributes of the form {form}",
               sections(table, b"\x0b" * MANY + targets), f"sound: 1 units, {2 * MANY + 2} entries, 1 types")


def usual(info, strings=b""):
    """The sections of these units, whose table is TABLE."""
    return [(".debug_abbrev", TABLE), (".debug_info", info), (".debug_str", strings)]


def files():
    """Each file: its name, its sections, and the beginning of the line that it must get."""
    yield f"{MANY:,} nested structures", usual(unit(deep())), f"sound: 1 units, {MANY + 1} entries, {MANY} types"

    chain = b"\x01" + INT + typedefs(FIRST, MANY) + b"\0"
    yield (f"a chain of {MANY:,} typedefs", usual(unit(chain)),
           f"sound: 1 units, {MANY + 2} entries, {MANY + 1} types")

    last = FIRST + len(INT) + 5 * (MANY - 1)
    ring = b"\x01" + INT + typedefs(last, MANY) + b"\0"
    yield (f"a ring of {MANY:,} typedefs", usual(unit(ring)),
           f"fault C1 ContainsItself at .debug_info+0x{FIRST + len(INT):08x} ")

    text = b"a" * (4 << 20) + b"\0"
    names = b"\x01" + b"\x08\0\0\0\0" * 2 * MANY + b"\0"
    yield (f"one string of 4 MB with {2 * MANY:,} names", usual(unit(names), text),
           f"sound: 1 units, {2 * MANY + 1} entries, 0 types")

    for where, others, values, targets in (
        ("a name of 4 MB", b"\x03\x08", text, 1),
        (f"{WIDE:,} numbers", many(b"\x0f"), bytes(WIDE), 1),
        (f"{WIDE:,} numbers, each of 10", many(b"\x0f"), bytes(WIDE), 10),
        (f"{WIDE:,} flags without bytes", many(b"\x19"), b"", 1),
    ):
        table, info = specified(others, values, targets)
        yield (f"{2 * MANY:,} specifications of an entry that is declared behind {where}",
               [(".debug_abbrev", table), (".debug_info", info)],
               f"sound: 1 units, {2 * MANY + targets + 1} entries, 0 types")

    signed = b"".join(unit(b"\x09" + INT + b"\0", 2, struct.pack("<QI", n, 25)) for n in range(MANY))
    users = unit(b"\x01" + b"".join(b"\x0a" + struct.pack("<Q", n) for n in range(MANY)) + b"\0")
    yield (f"{MANY:,} type units and references to each", usual(signed + users),
           f"sound: {MANY + 1} units, {3 * MANY + 1} entries, {MANY} types")

    yield from large()
    yield from tables()
    yield from wide_files()
    yield from apart()


def large():
    """Arrays of many elements and of many dimensions, and a structure of many members."""
    counts = b"".join(b"\x07" + struct.pack("<Q", n) for n in (1 << 40, 1 << 40, 0))
    array = b"\x01" + INT + b"\x06" + struct.pack("<I", FIRST) + counts + b"\0\0"
    yield "an array of 2^40 by 2^40 by 0", usual(unit(array)), "sound: 1 units, 6 entries, 5 types"

    ones = (b"\x07" + struct.pack("<Q", 1)) * MANY
    array = b"\x01" + INT + b"\x06" + struct.pack("<I", FIRST) + ones + b"\0\0"
    yield (f"an array of {MANY:,} dimensions", usual(unit(array)),
           f"sound: 1 units, {MANY + 3} entries, {MANY + 2} types")

    member = b"\x05" + struct.pack("<I", FIRST)
    holder = b"\x01" + INT + b"\x04\x04" + member * MANY + b"\0\0"
    yield f"a structure of {MANY:,} members", usual(unit(holder)), f"sound: 1 units, {MANY + 3} entries, 2 types"


def tables():
    """Units with overlapping tables, and a table whose codes fall."""
    # Each declaration begins a table of its own, whose tail is the table of the next one.
    codes = [uleb(n + 1) for n in range(TABLES)]
    starts = [0]
    for code in codes:
        starts.append(starts[-1] + len(code) + 4)
    row = b"".join(code + b"\x11\0\0\0" for code in codes) + b"\0"
    for order, some in orders([unit(code, table=start) for code, start in zip(codes, starts)]):
        yield (f"{TABLES:,} units with overlapping tables, {order}",
               [(".debug_abbrev", row), (".debug_info", some)],
               f"sound: {TABLES} units, {TABLES} entries, 0 types")

    row = b"".join(uleb(DECLARATIONS - n) + b"\x11\0\0\0" for n in range(DECLARATIONS)) + b"\0"
    yield (f"{DECLARATIONS:,} declarations of one table, their codes falling",
           [(".debug_abbrev", row), (".debug_info", unit(b"\x01"))],
           "sound: 1 units, 1 entries, 0 types")


def apart():
    """Files of many units that refer to no other one, or only the last does."""
    row = uleb(1) + b"\x11\0\0\0" + b"".join(uleb(n + 2) + b"\x34\0\x03\x08\x3b\x0b\0\0" for n in range(MANY)) + b"\0"
    units = unit(b"\x01") * TABLES
    yield (f"{TABLES:,} units of one table of {MANY:,} declarations", [(".debug_abbrev", row), (".debug_info", units)],
           f"sound: {TABLES} units, {TABLES} entries, 0 types")

    # A declaration of a variable whose type is a reference to another unit.
    table = TABLE[:-1] + bytes.fromhex("0b340049100000" "00")
    types = unit(b"\x01" + INT + b"\0") * TABLES
    last = unit(b"\x01\x0b" + struct.pack("<I", FIRST) + b"\0", table=len(TABLE))
    yield (f"{TABLES:,} units, and one that refers to the first",
           [(".debug_abbrev", TABLE + table), (".debug_info", types + last)],
           f"sound: {TABLES + 1} units, {2 * TABLES + 2} entries, {TABLES} types")

    yield (f"{TABLES:,} units, and 4 MB of strings without a zero byte",
           [(".debug_abbrev", TABLE), (".debug_info", types), (".debug_str", b"a" * (4 << 20))],
           f"sound: {TABLES} units, {2 * TABLES} entries, {TABLES} types")


def elsewhere():
    """Small units whose entries refer to other units, far away and in mixed order."""
    # 1 compile unit, 2 base type with a size, 3 variable with a type in any unit, 4 imported unit
    table = bytes.fromhex("0111010000" "0224000b0b0000" "0334004910" "0000" "043d001810" "0000" "00")
    for what, before, item, target in (("types of variables", INT, b"\x03", FIRST),
                                       ("imported units", b"", b"\x04", FIRST - 1)):
        size = len(unit(b"\x01" + before + (item + bytes(4)) * 3 + b"\0"))
        count = REFERRING // size
        units = (unit(b"\x01" + before + b"".join(
            item + struct.pack("<I", (3 * n + k) * 40_503 % count * size + target) for k in range(3)) + b"\0")
            for n in range(count))
        entries, types = (5, 1) if before else (4, 0)
        yield (f"{count:,} units of three {what}, which are in other units",
               [(".debug_abbrev", table), (".debug_info", b"".join(units))],
               f"sound: {count} units, {count * entries} entries, {count * types} types")


def tiny():
    """Units of one entry, each with a table of its own, among bytes of .debug_abbrev that no unit names."""
    own = bytes.fromhex("0111000000" "00") + bytes(UNNAMED)
    units = b"".join(unit(b"\x01", table=n * len(own)) for n in range(MANY))
    yield (f"{MANY:,} units of one entry, among {UNNAMED * MANY:,} bytes that no unit names",
           [(".debug_abbrev", own * MANY), (".debug_info", units)], f"sound: {MANY} units, {MANY} entries, 0 types")


def orders(units):
    """The units joined in three orders."""
    shuffled = units[::2] + units[1::2][::-1]
    named = (("rising", units), ("falling", units[::-1]), ("mixed", shuffled))
    return [(name, b"".join(some)) for name, some in named]


def inside():
    """Units with a table that begins at the second byte of a declaration, and goes on with those after it."""
    codes = [uleb(128 + n) for n in range(INSIDE)]
    row = b"".join(code + b"\x11\0\0\0" for code in codes) + b"\0"
    units = [unit(code[1:], table=6 * n + 1) for n, code in enumerate(codes)]
    for order, some in orders(units):
        sections = [(".debug_abbrev", row), (".debug_info", some)]
        yield (f"{INSIDE:,} units with tables inside declarations, {order}", sections,
               f"sound: {INSIDE} units, {INSIDE} entries, 0 types")


def inside_attributes():
    """Units with a table at every second attribute of one declaration: the number in its specification is a code."""
    row, starts = bytearray(b"\x09\x34\0"), []
    for n in range(INSIDE_ATTRIBUTES):
        # An attribute in the form implicit_const with the number 5, and one in the form addr. In the table that begins
        # at the number, 5 is a code, the attribute after it is a tag, and the form says that there are children.
        row += uleb(128 + 2 * n) + b"\x21"
        starts.append(len(row))
        row += b"\x05" + uleb(129 + 2 * n) + b"\x01"
    row += b"\0\0" + b"\x01\x11\0\0\0" + b"\0"
    units = b"".join(unit(b"\x01", table=start) for start in starts)
    return (f"{INSIDE_ATTRIBUTES:,} units with tables inside the attributes of one declaration", bytes(row), units,
            INSIDE_ATTRIBUTES)


def inside_codes():
    """Units with a table at each byte of the codes of declarations with many attributes."""
    flags = b"".join(uleb(1 + n) + b"\x19" for n in range(LONG_CODES_ATTRIBUTES)) + b"\0\0"
    row, starts = bytearray(), []
    for n in range(LONG_CODES):
        code = uleb(mixed(n))
        starts += [len(row) + k for k in range(len(code))]
        row += code + b"\x34\0" + flags
    row += b"\x03\x11\0\0\0" + b"\0"
    units = b"".join(unit(b"\x03", table=start) for start in starts)
    count = len(starts)
    return f"{count:,} units with tables inside {LONG_CODES:,} codes of ten bytes", bytes(row), units, count


def flagged():
    """Variables of one byte with many flags, and one with an attribute in the form indirect; a reference after them."""
    known = [code for code in range(1, 0x8d) if code not in NO_FLAGS]
    flags = b"".join(uleb(code) + b"\x19" for code in known)
    table = TABLE[:-1] + b"\x0b\x34\0" + flags + b"\0\0" + b"\x0c\x34\0" + uleb(0x2000) + b"\x16\0\0" + b"\0"
    items = b"\x01" + b"\x0b" * FLAGGED
    sound = [(".debug_abbrev", table), (".debug_info", unit(items + b"\x0c\x0b\1\0"))]
    yield (f"{FLAGGED:,} variables with {len(known)} flags without bytes", sound,
           f"sound: 1 units, {FLAGGED + 2} entries, 0 types")
    fault = [(".debug_abbrev", table), (".debug_info", unit(items + b"\x03\0\0\0\0\0"))]
    yield (f"{FLAGGED:,} variables with {len(known)} flags without bytes, and a reference to no entry", fault,
           f"fault R1 NoEntry at .debug_info+0x{FIRST + FLAGGED:08x} attribute 0x49")


def tabled():
    """Files whose tables are large, or whose texts are long: the name, the sections, the entries and the values."""
    known = [code for code in range(1, 0x8d) if code not in NO_FLAGS]
    flags = b"".join(uleb(code) + b"\x19" for code in known)
    table = TABLE[:-1] + b"\x0b\x34\0" + flags + b"\0\0" + b"\0"
    yield (f"rows of {TABLED:,} variables with {len(known)} flags without bytes",
           [(".debug_abbrev", table), (".debug_info", unit(b"\x01" + b"\x0b" * TABLED + b"\0"))], TABLED + 1,
           TABLED * len(known))
    table = TABLE[:-1] + b"\x0b\x34\0\x03\x0e\0\0" + b"\0"
    items = b"".join(b"\x0b" + struct.pack("<I", at) for at in range(SUFFIXES))
    yield (f"rows of {SUFFIXES:,} variables whose names are suffixes of one string",
           [(".debug_abbrev", table), (".debug_info", unit(b"\x01" + items + b"\0")),
            (".debug_str", b"n" * SUFFIXES + b"\0")], SUFFIXES + 1, SUFFIXES)


def beside(asked):
    """Flags without bytes. Each code differs in one bit from one that is asked, so that a search by bits is long."""
    codes = {code ^ 1 << bit for code in asked for bit in range(5, 16)} - set(NO_FLAGS)
    return b"".join(uleb(code) + b"\x19" for code in sorted(codes))


def searched():
    """Dimensions and members without the attributes that rules ask, but with others whose codes are alike."""
    def sections(holder, row, items):
        return [(".debug_abbrev", TABLE[:-1] + row + b"\0"),
                (".debug_info", unit(b"\x01" + INT + holder + items + b"\0\0"))]

    array, structure = b"\x06" + struct.pack("<I", FIRST), b"\x04\x04"
    dimension = b"\x21\0" + beside(OF_DIMENSIONS) + b"\0\0"
    member = b"\x0d\0" + beside(OF_MEMBERS) + b"\x49\x13\0\0"
    yield (f"{SEARCHED:,} dimensions without bounds", sections(array, b"\x0b" + dimension, b"\x0b" * SEARCHED),
           f"sound: 1 units, {SEARCHED + 3} entries, {SEARCHED + 2} types")

    codes = [uleb(0x0b + n) for n in range(SEARCHED_IN_TURNS)]
    turns = b"".join(codes[n * 1597 % SEARCHED_IN_TURNS] for n in range(SEARCHED_IN_TURNS))
    count = SEARCHED // 2
    yield (f"{count:,} dimensions of {SEARCHED_IN_TURNS:,} declarations in turns, without bounds",
           sections(array, b"".join(code + dimension for code in codes), turns * (count // SEARCHED_IN_TURNS)),
           f"sound: 1 units, {count + 3} entries, {count + 2} types")

    count = SEARCHED // 4
    yield (f"{count:,} members without places",
           sections(structure, b"\x0b" + member, (b"\x0b" + struct.pack("<I", FIRST)) * count),
           f"sound: 1 units, {count + 3} entries, 2 types")


def behind_values():
    """Entries in which all that is asked comes after values in the form indirect."""
    others = b"".join(uleb(0x2000 + n) + b"\x16" for n in range(BEHIND_VALUES))
    values = b"\x19" * BEHIND_VALUES
    table = (TABLE[:-1] + b"\x0b\x13\0" + others + bytes.fromhex("3c0c0b0b0000")
             + b"\x0c\x21\0" + others + bytes.fromhex("2f0b220b0000")
             + b"\x0d\x11\0" + others + bytes.fromhex("721773171305") + b"\0\0" + b"\0")

    def sections(info):
        return [(".debug_abbrev", table), (".debug_info", info), (".debug_str_offsets", NO_OFFSETS),
                (".debug_addr", NO_ADDRESSES)]

    structures = (b"\x0b" + values + b"\0\4") * BEHIND
    yield (f"{BEHIND:,} structures behind {BEHIND_VALUES} values", sections(unit(b"\x01" + structures + b"\0")),
           f"sound: 1 units, {BEHIND + 1} entries, {BEHIND} types")
    array = b"\x06" + struct.pack("<I", FIRST) + (b"\x0c" + values + b"\0\0") * BEHIND
    yield (f"{BEHIND:,} dimensions behind {BEHIND_VALUES} values", sections(unit(b"\x01" + INT + array + b"\0\0")),
           f"sound: 1 units, {BEHIND + 3} entries, {BEHIND + 2} types")
    first = unit(b"\x0d" + values + struct.pack("<IIH", 8, 8, 12))
    yield (f"{BEHIND_UNITS:,} units whose bases come after {BEHIND_VALUES} values", sections(first * BEHIND_UNITS),
           f"sound: {BEHIND_UNITS} units, {BEHIND_UNITS} entries, 0 types")


def signed():
    """Type units, and declared structures that refer to each by its signature, far from the one before."""
    table = TABLE[:-1] + bytes.fromhex("0b13003c1969200000" "0c13000b0b0000" "00")
    types = b"".join(unit(b"\x09\x0c\4\0", 2, struct.pack("<QI", n, 25)) for n in range(SIGNED))
    count = SIGNED * DECLARED
    users = b"".join(b"\x0b" + struct.pack("<Q", n * 7919 % SIGNED) for n in range(count))
    return [(".debug_abbrev", table), (".debug_info", types + unit(b"\x01" + users + b"\0"))]


def coded():
    """Tables whose codes do not count up from 1: numbers of 63 bits in no order, and those from 2 on; falling ones."""
    numbers = range(1, CODES)
    orders = (("of ten bytes in no order", [mixed(n) for n in numbers]),
              ("from 2 on", [n + 1 for n in numbers]), ("falling", [CODES + 1 - n for n in numbers]))
    for name, codes in orders:
        row = b"".join(uleb(code) + b"\x34\0\x03\x08\0\0" for code in codes) + uleb(1) + b"\x11\0\0\0" + b"\0"
        sections = [(".debug_abbrev", row), (".debug_info", unit(b"\x01"))]
        yield f"a table of {CODES:,} declarations, codes {name}", sections, len(row) * CODES_MEMORY + PROGRAM_MEMORY


def mixed(number):
    """A number that takes ten bytes. Those of numbers in a row are in no order."""
    return number * 0x9e3779b97f4a7c15 % 2**63 + 2**63


def twice():
    """A table whose last declaration has the code of the first, and the line that it gets."""
    row = b"".join(uleb(mixed(n + 1)) + b"\x34\0\0\0" for n in range(TWICE))
    table = row + uleb(mixed(1)) + b"\x11\0\0\0" + b"\0"
    return table, f"fault A3 CodeTwice at .debug_abbrev+0x{len(row):08x} attribute 0x0\n"


def deep_codes():
    """Entries whose codes agree in many of their lowest bits: in a group, each with the next in up to two more."""
    rows, codes = [], [mixed(n + 1) >> LOW_BITS << LOW_BITS | n for n in range(GROUPS)]
    for bit in range(LOW_BITS, 64, 2):
        rows += [uleb(codes[n * 7919 % GROUPS]) + b"\x34\0\0\0" for n in range(GROUPS)]
        codes = [code ^ (1 << bit) for code in codes] if bit < 62 else codes
    table = b"".join(rows) + b"\x01\x11\1\0\0" + b"\0"
    entries = b"".join(uleb(codes[n * 3571 % GROUPS]) for n in range(DEEP_ENTRIES))
    return table, unit(b"\x01" + entries + b"\0")


# 1 compile unit, 2 base type with a name and a size, 3 typedef with a name and a type, 4 structure with a size,
# 5 member with a name and a type, 6 const with a type, 7 pointer with a type, 8 structure with a name and a size,
# 9 prototyped subroutine with a type, 10 parameter with a type, 11 const, 12 compile unit with a name and a language,
# 13 array with a type, 14 dimension with an upper bound of a byte, 15 enumeration with a size, 16 enumerator with a
# name and a value, 17 volatile with a type, 18 member with a name, a type and a size in bits
NAMES = bytes.fromhex(
    "0111010000" "02240003080b0b0000" "031600030849130000" "0413010b0b0000" "050d00030849130000" "06260049130000"
    "070f0049130000" "08130103080b0b0000" "091501271949130000" "0a050049130000" "0b26000000" "0c11010308130b0000"
    "0d010149130000" "0e21002f0b0000" "0f04010b0b0000" "10280003081c0d0000" "11350049130000"
    "120d00030849130d0b0000" "00")
# The first five alone.
FIVE = NAMES[:39] + b"\0"


class Types:
    """The entries of a unit with the type `int`, and the lines that `types` has to print of them."""

    def __init__(self, first=b"\x01", table=NAMES):
        self.items, self.table, self.printed, self.refused = bytearray(first), table, [], []
        self.int = self.add(2, "int", more=b"\x04")

    def next(self):
        """Where the next entry stands."""
        return 12 + len(self.items)

    def add(self, code, name=None, to=None, more=b""):
        """An entry with a name and a reference where its code has them. It returns where the entry stands."""
        at = self.next()
        self.items.append(code)
        self.items += b"" if name is None else name.encode() + b"\0"
        self.items += b"" if to is None else struct.pack("<I", to)
        self.items += more
        return at

    def structure(self, members, name=None, size=8):
        """A structure, whose members are names and where their types stand."""
        at = self.add(4 if name is None else 8, name, more=bytes([size]))
        for member, to in members:
            self.add(5, member, to)
        self.items.append(0)
        return at

    def typedef(self, name, to, text=None, rule=None):
        """A typedef, whose line has the text of its type and the name, or is refused by a rule."""
        at = self.add(3, name, to)
        if rule:
            self.refuse(at, rule)
        else:
            self.printed.append(f"typedef {text};\n")
        return at

    def refuse(self, at, rule):
        """The line of a refused type."""
        self.refused.append(f"/* 0x{at:08x} {rule} */\n")

    def file(self):
        """The file."""
        return elf([(".debug_abbrev", self.table), (".debug_info", unit(bytes(self.items) + b"\0"))])

    def text(self):
        """What `types` prints of it."""
        return "".join(self.printed + self.refused)


def chains():
    """Types in chains and cycles: the name of each file, and its types."""
    types = Types()
    for n in range(MANY):
        types.typedef(f"t{n}", types.int, f"int t{n}")
    yield f"{MANY:,} typedefs", types

    types = Types()
    last, word = types.int, "int"
    for n in range(MANY):
        last, word = types.typedef(f"t{n}", last, f"{word} t{n}"), f"t{n}"
    yield f"a chain of {MANY:,} typedefs", types

    types = Types()
    consts = [types.int]
    for _ in range(MANY):
        consts.append(types.add(6, to=consts[-1]))
    for n, at in enumerate(consts):
        types.typedef(f"t{n}", at, "const " * n + f"int t{n}", "P5 TooDeep" if n > 63 else None)
    yield f"a chain of {MANY:,} consts, and a typedef of each", types

    types = Types()
    pointers = [types.add(6, to=types.next() + 5)]
    pointers.append(types.add(7, to=pointers[0]))
    for _ in range(MANY):
        pointers.append(types.add(7, to=pointers[-1]))
    for n, at in enumerate(pointers):
        types.typedef(f"t{n}", at, rule="P1 NotPrintable")
    yield f"{MANY:,} pointers in a chain to a cycle, and a typedef of each", types

    types = Types()
    cycles = []
    for _ in range(MANY // 2):
        cycles.append(types.add(6, to=types.next() + 5))
        types.add(7, to=cycles[-1])
    for n, at in enumerate(cycles):
        types.typedef(f"t{n}", at, rule="P1 NotPrintable")
    yield f"{MANY // 2:,} cycles, and a typedef of each", types

    types = Types()
    first = types.next()
    size = len(b"\x04\x04") + len(b"\x05m\0") + 4 + len(b"\0") + len(b"\x07") + 4
    for n in range(MANY):
        types.structure([("m", types.next() + size - 5)])
        types.add(7, to=first + (n + 1) % MANY * size)
    for n in range(MANY):
        types.typedef(f"t{n}", first + n * size + size - 5, rule="P1 NotPrintable")
    yield f"a cycle of {MANY:,} structures, and {MANY:,} typedefs of pointers to it", types


def bodies():
    """Structures with many members, or much text: the name of each file, and its types."""
    for levels, rule in ((1, None), (11, None), (12, "P6 TooLong"), (63, "P6 TooLong"), (64, "P5 TooDeep")):
        types = Types(table=FIVE)
        last, text = types.int, "int"
        for _ in range(levels):
            last = types.structure([("a", last), ("b", last)], size=4)
            text = f"struct {{ {text} a; {text} b; }}" if len(text) < 1 << 16 else text
        types.typedef("t", last, f"{text} t", rule)
        yield f"{levels} structures, each with two members of the one before", types

    types = Types()
    last = types.int
    for _ in range(40):
        last = types.structure([("a", last), ("b", last)])
    for n in range(MANY):
        types.typedef(f"t{n}", last, rule="P6 TooLong")
    yield f"40 structures, each with two members of the one before, and {MANY:,} typedefs of the last", types

    types = Types()
    wide = types.structure([(f"m{n}", types.int) for n in range(MANY // 10)])
    for n in range(MANY):
        types.typedef(f"t{n}", wide, rule="P6 TooLong")
    yield f"a structure of {MANY // 10:,} members, and {MANY:,} typedefs of it", types

    types = Types()
    wide = types.structure([(f"m{n}", types.int) for n in range(MANY // 10)])
    for n in range(MANY // 10):
        types.refuse(types.structure([("m", wide)], f"s{n}"), "P6 TooLong")
    yield f"a structure of {MANY // 10:,} members, and {MANY // 10:,} structures that contain it", types

    types = Types()
    pointer = types.add(7, to=types.next() + 5)
    types.refuse(types.structure([(f"m{n}", pointer) for n in range(MANY)], "s"), "P6 TooLong")
    yield f"a structure of {MANY:,} pointers to itself", types

    types = Types()
    other = types.add(4, more=b"\x04")
    types.add(5, "x", types.int)
    for _ in range(MANY):
        types.add(11)
    types.items.append(0)
    for n in range(MANY):
        types.typedef(f"t{n}", other, f"struct {{ int x; }} t{n}")
    yield f"a structure of {MANY:,} children that are no members, and {MANY:,} typedefs of it", types


def texts():
    """Types whose text is long, or costly to find: the name of each file, and its types."""
    types = Types()
    long = types.structure([(f"m{n:04}", types.int) for n in range(5000)])
    text = "".join(f"int m{n:04}; " for n in range(5000))
    for n in range(1000):
        types.typedef(f"t{n}", long, f"struct {{ {text}}} t{n}")
    yield "1,000 typedefs of a structure whose text has 55,000 bytes", types

    types = Types(b"\x0c" + b"a" * (4 << 20) + b"\0\x0c")
    for n in range(MANY):
        at = types.add(13, to=types.int, more=b"\x0e\1\x0e\2\0")
        types.typedef(f"t{n}", at, f"int t{n}[2][3]")
    yield f"{MANY:,} arrays of two dimensions in a unit whose DW_AT_language comes after a name of 4 MB", types

    types = Types()
    last = types.int
    for _ in range(30):
        last = types.add(9, to=last)
        types.add(10, to=types.int, more=b"\0")
        last = types.add(7, to=last)
    for n in range(MANY // 100):
        types.typedef(f"t{n}", last, "int " + "(*" * 30 + f"t{n}" + ")(int)" * 30)
    yield f"{MANY // 100:,} typedefs of a pointer to a function that returns such a pointer, 30 deep", types


# The most bytes of a declaration, and how many typedefs there are of a type whose text has more.
DECLARATION = 65_536
HIDDEN = 200_000


def hidden():
    """Typedefs of a type whose text is too long, which its names and its children do not show: the name of each file,
    and its types."""
    for what in ("a structure of 256 members", "a pointer each to a structure of 256 members"):
        types = Types()
        last = types.int
        for _ in range(50):
            last = types.add(6, to=last)
        wide = types.structure([("m", last)] * 256)
        for _ in range(HIDDEN):
            to = wide if what.startswith("a structure") else types.add(7, to=wide)
            types.typedef("t", to, rule="P6 TooLong")
        yield f"{HIDDEN:,} typedefs of {what} with 50 qualifiers", types


def enumerators(types):
    """An enumeration: where it is, and its text before and after a name."""
    at, texts = types.add(15, more=b"\4"), []
    for n in range(3000):
        types.add(16, f"e{n}", more=bytes([n % 128]))
        texts.append(f"e{n} = {n % 128 - n % 128 // 64 * 128}")
    types.items.append(0)
    return at, f"enum {{ {', '.join(texts)} }} ", ""


def parameters(types):
    """A function of many parameters."""
    at = types.add(9, to=types.int)
    for _ in range(9000):
        types.add(10, to=types.int)
    types.items.append(0)
    return at, "int ", f"({', '.join(['int'] * 9000)})"


def dimensions(types):
    """An array of many dimensions."""
    at = types.add(13, to=types.int, more=b"\x0e\0" * 15000 + b"\0")
    return at, "int ", "[1]" * 15000


def nested_structure(types):
    """A structure in a structure."""
    inner = types.structure([(f"m{n}", types.int) for n in range(4000)])
    text = "".join(f"int m{n}; " for n in range(4000))
    return types.structure([("a", inner)]), f"struct {{ struct {{ {text}}} a; }} ", ""


def forms(types):
    """Types of many forms: where each is, and its text before and after a name."""
    const = types.add(6, to=types.int)
    pointer = types.add(7, to=types.int)
    fixed = types.add(6, to=pointer)
    array = types.add(13, to=const, more=b"\x0e\x09\x0e\0\0")
    row = types.add(7, to=array)
    made = [(types.int, "int ", ""), (const, "const int ", ""), (pointer, "int *", ""), (fixed, "int *const ", ""),
            (types.add(6, to=types.add(17, to=types.int)), "const volatile int ", ""),
            (types.add(17, to=fixed), "int *volatile const ", ""),
            (types.add(7, to=types.add(11)), "const void *", ""),
            (row, "const int (*", ")[10][1]"), (types.add(6, to=row), "const int (*const ", ")[10][1]")]
    function = types.add(9, to=pointer)
    for to, _, _ in made:
        types.add(10, to=to)
    types.items.append(0)
    texts = ", ".join(f"{before.rstrip()}{after}" for _, before, after in made)
    made += [(types.add(7, to=function), "int *(*", f")({texts})"),
             (types.add(13, to=row, more=b"\x0e\0\0"), "const int (*", "[1])[10][1]"),
             (array, "const int ", "[10][1]")]
    return made


def members(types):
    """A structure of members of many forms."""
    made = forms(types)
    at, texts = types.add(4, more=b"\xff"), []
    for n in range(40000 // sum(len(f"{before}m000{after}; ") for _, before, after in made)):
        for to, before, after in made:
            types.add(5, f"m{n}", to)
            texts.append(f"{before}m{n}{after}; ")
        types.add(18, f"b{n}", types.int, bytes([n % 30 + 1]))
        texts.append(f"int b{n} : {n % 30 + 1}; ")
    types.items.append(0)
    return at, f"struct {{ {''.join(texts)}}} ", ""


def sides():
    """Types whose declaration has as many bytes as it may have, and one more: the name of each file, and its types."""
    for make in (enumerators, parameters, dimensions, nested_structure, members):
        for more in (0, 1):
            types = Types(b"\x0c\0\x0c")
            at, before, after = make(types)
            name = "n" * (DECLARATION + more - len(f"typedef {before}{after};"))
            types.typedef(name, at, f"{before}{name}{after}", "P6 TooLong" if more else None)
            yield f"{make.__name__} whose declaration has {DECLARATION + more:,} bytes", types


# 1 compile unit, 2 typedef with a name, 3 const
SMALL = bytes.fromhex("0111010000" "02160003080000" "0326000000" "00")
# Seconds of processor time that `types` may take for typedefs whose numbers collide, or that share a long name.
TYPEDEFS_TIME = 2
COLLISIONS = 125_000


def hashed(number):
    """The hash of an entry's number in a table of the toolchain, whose seed is fixed: of four bytes, read twice."""
    product = (0x243f_6a88_85a3_08d3 ^ (number | number << 32)) * (0x9e37_79b9_7f4a_7c15 ^ 8)
    hash = (product ^ product >> 64) % (1 << 64)
    return (hash ^ hash >> 32) % (1 << 32)


def collisions():
    """Typedefs whose numbers would be in one sixteenth of a hash table, and what `types` prints of them."""
    items, number, left = bytearray(b"\x01"), 1, COLLISIONS
    while left:
        chosen = hashed(number) % (1 << 14) < 1 << 10
        items += b"\x02t\0" if chosen else b"\x03"
        number, left = number + 1, left - chosen
    file = elf([(".debug_abbrev", SMALL), (".debug_info", unit(bytes(items) + b"\0"))])
    return file, "typedef void t;\n" * COLLISIONS


# 1 compile unit, 2 typedef with a name by offset
SHARED = bytes.fromhex("0111010000" "021600030e0000" "00")


def shared_names():
    """Typedefs whose names are suffixes of one string: the name of each file, the file, and what `types` prints."""
    text = b"a1" * (1 << 20) + b"-" + b"b2" * (1 << 20) + b"\0"
    middle = text.index(b"-")
    for name, starts in ((f"{MANY:,} typedefs of one name of 2 MB", [middle + 1] * MANY),
                         (f"{MANY:,} typedefs whose names are suffixes of one string of 4 MB",
                          range(middle - MANY // 2, middle + MANY // 2))):
        items = b"".join(b"\x02" + struct.pack("<I", start) for start in starts)
        sections = [(".debug_abbrev", SHARED), (".debug_info", unit(b"\x01" + items + b"\0")), (".debug_str", text)]
        rules = ["P6 TooLong" if start > middle and text[start:start + 1].isalpha() else "P2 BadName"
                 for start in starts]
        yield name, elf(sections), "".join(f"/* 0x{FIRST + 5 * n:08x} {rule} */\n" for n, rule in enumerate(rules))


# 1 compile unit, 2 typedef with a name and a type at an offset of two bytes, 3 typedef with a name
MIXED = bytes.fromhex("0111010000" "02160003084912" "0000" "0316000308" "0000" "00")
# Units, and the typedefs in each of them, each of five bytes.
MIXED_UNITS, MIXED_TYPEDEFS = 10_000, 37
# 1 compile unit with a base of string offsets, 2 typedef with a name by index
INDEXED = bytes.fromhex("01110172170000" "0216000325" "0000" "00")
INDEXED_TYPEDEFS = 1_000_000


def shuffled(count, seed):
    """Numbers below a count in no order."""
    numbers = list(range(count))
    random.Random(seed).shuffle(numbers)
    return numbers


def leveled():
    """Typedefs of one another in mixed order, so that the lines of `types` go to and fro in the file: the name of each
    file, the file, and what `types` prints of it."""
    for bad in (False, True):
        info, lines = bytearray(), [[] for _ in range(MIXED_TYPEDEFS)]
        for number in range(MIXED_UNITS):
            start, row = len(info), shuffled(MIXED_TYPEDEFS, number)
            items = [b""] * MIXED_TYPEDEFS
            items[row[0]] = b"\x03-\0" if bad else b"\x03t\0"
            places, at = {}, FIRST
            for k in range(MIXED_TYPEDEFS):
                places[k], at = at, at + (3 if k == row[0] else 5)
            for to, k in zip(row, row[1:]):
                items[k] = b"\x02t\0" + struct.pack("<H", places[to])
            for level, k in enumerate(row):
                lines[level].append((start + places[k], "typedef void t;\n" if level == 0 else "typedef t t;\n"))
            info += unit(b"\x01" + b"".join(items) + b"\0")
        name = f"{MIXED_UNITS:,} units of {MIXED_TYPEDEFS} typedefs of one another in mixed order"
        if bad:
            refused = sorted(lines[0] + lines[1])
            text = "".join(line for some in lines[2:] for _, line in some)
            text += "".join(f"/* 0x{at:08x} P2 BadName */\n" for at, _ in refused)
            name += ", of which the first has a bad name"
        else:
            text = "".join(line for some in lines for _, line in some)
        yield name, elf([(".debug_abbrev", MIXED), (".debug_info", bytes(info))]), text

    row = shuffled(2 * MANY, 0)
    places, at = {}, FIRST
    for k in range(2 * MANY):
        places[k], at = at, at + (3 if k == row[0] else 7)
    items = [b""] * 2 * MANY
    items[row[0]] = b"\x03t\0"
    for to, k in zip(row, row[1:]):
        items[k] = b"\x02t\0" + struct.pack("<I", places[to])
    table = MIXED.replace(b"\x49\x12", b"\x49\x13")
    yield (f"a chain of {2 * MANY:,} typedefs in mixed order",
           elf([(".debug_abbrev", table), (".debug_info", unit(b"\x01" + b"".join(items) + b"\0"))]),
           "typedef void t;\n" + "typedef t t;\n" * (2 * MANY - 1))

    names = [b"a" * 62 + b"-\0"] * 256
    offsets = struct.pack("<IHH", 4 + 4 * len(names), 5, 0)
    offsets += b"".join(struct.pack("<I", n * len(names[0])) for n in range(len(names)))
    items = b"".join(bytes([2, n % 256]) for n in range(INDEXED_TYPEDEFS))
    info = unit(b"\x01" + struct.pack("<I", 8) + items + b"\0")
    yield (f"{INDEXED_TYPEDEFS:,} typedefs of two bytes with names of 63 bytes", elf([
        (".debug_abbrev", INDEXED), (".debug_info", info), (".debug_str", b"".join(names)),
        (".debug_str_offsets", offsets)]),
        "".join(f"/* 0x{FIRST + 4 + 2 * n:08x} P2 BadName */\n" for n in range(INDEXED_TYPEDEFS)))


# Entries of the types below, and the bytes of memory that `types` may have for each byte of them, besides its own.
SMALL_TYPES = 4_000_000
NODE_MEMORY = 56


def nodes():
    """Types of one or two bytes that others use: the name of each file, its sections, and the beginning of what `types`
    prints."""
    def sections(table, items):
        return [(".debug_abbrev", bytes.fromhex("0111010000") + table + b"\0"), (".debug_info", items)]

    # 2 prototyped subroutine, 3 parameter, 4 typedef with a name and a type
    table = bytes.fromhex("02150127190000" "03050000" "00" "04160003084913" "0000")
    at = FIRST + 2 + SMALL_TYPES
    items = b"\x01\x02" + b"\x03" * SMALL_TYPES + b"\0\x04t\0" + struct.pack("<I", FIRST) + b"\0"
    yield (f"a function of {SMALL_TYPES:,} parameters without a type", sections(table, unit(items)),
           f"/* 0x{at:08x} P4 Unspeakable */\n")

    # 2 enumeration with the size 4, 3 enumerator, 4 typedef with a name and a type
    table = bytes.fromhex("0204010b2104" "0000" "03280000" "00" "04160003084913" "0000")
    yield (f"an enumeration of {SMALL_TYPES:,} enumerators of one byte each", sections(table, unit(items)),
           f"/* 0x{at:08x} P2 BadName */\n")

    # 2 array with a type, 3 dimension, 4 typedef with a name and a type, 5 pointer
    table = bytes.fromhex("0201014911" "0000" "03210000" "00" "04160003084913" "0000" "050f0000" "00")
    items = b"\x01\x05\x02" + bytes([FIRST]) + b"\x03" * SMALL_TYPES + b"\0"
    items += b"\x04t\0" + struct.pack("<I", FIRST + 1) + b"\0"
    yield (f"an array of {SMALL_TYPES:,} dimensions of one byte each", sections(table, unit(items)),
           f"/* 0x{at + 2:08x} P4 Unspeakable */\n")

    # 2 const with a type, 3 typedef with a name and a type, 4 const
    table = bytes.fromhex("0226004911" "0000" "0316000308491100" "00" "04260000" "00")
    items = bytearray(b"\x01\x04")
    for _ in range(55):
        items += bytes([2, len(items) + 12 - (2 if len(items) > 2 else 1)])
    items += b"\x03t\0" + bytes([len(items) + 12 - 2]) + b"\0"
    one = unit(bytes(items))
    yield ("chains of consts of two bytes each", sections(table, one * (SMALL_TYPES // len(one))),
           f"typedef {'const ' * 56}void t;\n")

    # 2 pointer, 3 parameter with a type, 4 prototyped subroutine, 5 typedef with a name and a type
    table = bytes.fromhex("020f0000" "00" "030500491100" "00" "04150127190000" "0516000308491100" "00")
    items = b"\x01" + b"\x02" * 70 + b"\x04" + b"".join(bytes([3, FIRST + k]) for k in range(70)) + b"\0"
    one = unit(items + b"\x05t\0" + bytes([FIRST + 70]) + b"\0")
    yield ("pointers of one byte each, and parameters of them", sections(table, one * (SMALL_TYPES // len(one))),
           f"typedef void t({', '.join(['void *'] * 70)});\n")

    # 2 structure with the size 0, 3 member with a type, 4 structure with a name and the size 0
    table = bytes.fromhex("0213000b2100" "0000" "030d00491100" "00" "04130103080b2100" "0000")
    one = unit(b"\x01" + b"\x02" * 70 + b"\x04s\0" + b"".join(bytes([3, FIRST + k]) for k in range(70)) + b"\0\0")
    yield ("structures of one byte each, and members of them", sections(table, one * (SMALL_TYPES // len(one))),
           f"struct s {{ {'struct { }; ' * 70}}};\n")


def limits_of(seconds=LIMIT, memory=None):
    """The limits of a run as text."""
    return f"{seconds} s" + (f" and {memory / 2**20:.0f} MiB" if memory else "")


def asking(command, *words, **limits):
    """What asks `dwv` of a file within these limits, and returns both texts and the status."""
    def ask(path):
        status, text, errors = common.run(DWV, command, path, *words, timeout=LIMIT, text=True, **limits)
        return f"{text}{errors}status {status}\n"

    ask.limits = limits_of(**limits)
    return ask


def kept_within(memory, seconds=LIMIT, command=(DWV, "check")):
    """What returns what a command says of a file, or what it took if that is more than these: its bytes of memory, or
    its seconds of processor time (if its instructions are more too)."""
    def ask(path):
        with subprocess.Popen([*command, path], stdout=subprocess.PIPE, text=True) as run:
            text = run.stdout.read()
            _, run.returncode, used = os.wait4(run.pid, 0)
        had, took = used.ru_maxrss << 10, used.ru_utime + used.ru_stime
        # A process counts as large as the one that made it, until it is larger.
        if had > max(memory, resource.getrusage(resource.RUSAGE_SELF).ru_maxrss << 10):
            return f"{had} bytes of memory\n"
        return common.too_long(took, seconds, *command, path) or text

    ask.limits = limits_of(seconds, memory)
    return ask


# What prints how many rows the table of a file has.
COUNT_ROWS = (sys.executable, "-c", """import sys
sys.path.insert(0, sys.argv[1])
import dwv
print(dwv.table(sys.argv[2], limit=1 << 40))""", common.TOP / "python")
# What prints how many units, entries and values the table of a file has, with room for nothing.
COUNT_ALONE = (sys.executable, "-c", """import ctypes, sys
sys.path.insert(0, sys.argv[1])
import dwv
data, counts, verdict = open(sys.argv[2], "rb").read(), (ctypes.c_size_t * 3)(), dwv._Verdict()
dwv._library.dwv_table(data, len(data), None, 0, None, 0, None, 0, counts, ctypes.byref(verdict))
print(*counts)""", common.TOP / "python")


# What is returned of a file of which a command says what is wanted, in the time and memory that it may take.
AS_WANTED = "as wanted"


def taken(command, path):
    """What a command says of a file, its seconds of processor time, and its bytes of memory."""
    with subprocess.Popen([*command, path], stdout=subprocess.PIPE) as ran:
        resource.prlimit(ran.pid, resource.RLIMIT_CPU, (LIMIT, LIMIT))
        text = ran.stdout.read().decode(errors="replace")
        _, ran.returncode, used = os.wait4(ran.pid, 0)
    return text, used.ru_utime + used.ru_stime, used.ru_maxrss << 10


def doubling(command, want, parts, limits):
    """What returns AS_WANTED, or what a command says of a file that is not wanted, or what is wrong with what it takes:
    its seconds, its memory, or how its instructions grow. They are counted for files of no sections, of an eighth of
    the size and of a quarter, each with what the command must say of it."""
    def ask(path):
        text, took, memory = taken(command, path)
        if not text.startswith(want):
            return text[:200]
        most = path.stat().st_size * limits.memory + PROGRAM_MEMORY
        if memory > max(most, resource.getrusage(resource.RUSAGE_SELF).ru_maxrss << 10):
            return f"{memory} bytes of memory\n"
        late = common.too_long(took, limits.seconds, *command, path)
        if late:
            return late
        if not shutil.which("valgrind"):
            return AS_WANTED
        counts, beside = [], path.with_name("part")
        for part, want_of_part in parts:
            beside.write_bytes(part)
            text, count = common.counted(*command, beside)
            if not text.startswith(want_of_part):
                return f"{text[:200]!r} of a part of {len(part):,} bytes"
            counts.append(count)
        none, eighth, quarter = counts
        growth = (quarter - none) / (eighth - none)
        return AS_WANTED if growth <= limits.growth else f"x{growth:.2f}, {quarter:,} instructions of a quarter\n"

    ask.limits = (f"{limits_of(limits.seconds)}, {limits.memory} bytes of memory a byte, "
                  f"x{limits.growth} of the instructions for the double size")
    return ask


def doubled():
    """Each file of doubled_files, with those whose instructions are counted."""
    for it in doubled_files.files():
        command = COUNT_ALONE if it.command == "table" else (DWV, it.command)
        made = [([], ""), *(it.make(it.count // part) for part in (8, 4, 1))]
        *parts, (whole, want) = [(elf(sections), want) for sections, want in made]
        ask = doubling(command, want, parts, DOUBLED_MORE.get(it.name, DOUBLED))
        yield f"{it.command} of {it.name}", whole, ask, AS_WANTED


def ends():
    """The sizes of the last types of chains: the name of each file, its types, where the last is, and its size."""
    types = Types()
    last = types.int
    for n in range(MANY):
        last = types.add(3, f"t{n}", last)
    yield f"a chain of {MANY:,} typedefs", types, last, 4

    types = Types()
    last = types.int
    for _ in range(MANY):
        last = types.structure([("m", last)])
    yield f"a chain of {MANY:,} structures, each with a member of the one before", types, last, 8


def nested():
    """Structures, each inside the one before, and the lines of `show`."""
    level = b"\x04\x01"
    lines = [f"0x{12:08x} 0x0011\n"]
    lines += [f"0x{FIRST + n * len(level):08x} {'  ' * (n + 1)}0x0013 size 1\n" for n in range(NESTED)]
    info = unit(b"\x01" + level * NESTED + b"\0" * (NESTED + 1))
    return elf([(".debug_abbrev", TABLE), (".debug_info", info)]), "".join(lines)


# 1 compile unit with a name and a language, 2 array with a type in any unit, 3 dimension with an upper bound of a byte,
# 4 base type with a name and a size
TURNS = bytes.fromhex("0111010308130b0000" "02010149100000" "0321002f0b0000" "04240003080b0b0000" "00")


def turns():
    """Arrays of two units in turns: the elements of each are the next one, and each unit has a long first entry."""
    first, last, array, header = b"\x01" + b"n" * (4 << 20) + b"\0\x0c", b"\x04c\0\x01", 8, 12
    one = header + len(first) + len(last)
    two = one + MANY // 2 * array + 1 + header + len(first)

    def arrays(targets):
        return b"".join(b"\x02" + struct.pack("<I", to) + b"\x03\0\0" for to in targets)

    ones = arrays(two + n * array for n in range(MANY // 2))
    twos = arrays([one + n * array for n in range(1, MANY // 2)] + [header + len(first)])
    return [(".debug_abbrev", TURNS), (".debug_info", unit(first + last + ones + b"\0") + unit(first + twos + b"\0"))]


def runs():
    """Each run: its name, the file, what asks it, and the beginning of what it must say."""
    check, check_soon = asking("check"), asking("check", memory=SOON_MEMORY, seconds=SOON_TIME)
    types = asking("types", memory=TYPES_MEMORY)
    types_soon = asking("types", memory=TYPES_MEMORY, seconds=TYPEDEFS_TIME)
    for name, sections, want in files():
        yield name, elf(sections), check, want
    for some in (inside(), flagged(), tiny()):
        for name, sections, want in some:
            yield name, elf(sections), check_soon, want
    check_asked = kept_within(SOON_MEMORY, ASKED_TIME)
    for some in (searched(), behind_values()):
        for name, sections, want in some:
            yield name, elf(sections), check_asked, want
    for name, sections, want in elsewhere():
        file = elf(sections)
        yield name, file, kept_within(len(file) * REFERRING_MEMORY, REFERRING_TIME), want
    yield (f"{MANY:,} arrays of two units in turns, whose DW_AT_language comes after a name of 4 MB", elf(turns()),
           check_soon, f"sound: 2 units, {2 * MANY + 3} entries, {2 * MANY + 1} types")
    for name, sections, memory in coded():
        yield name, elf(sections), kept_within(memory), "sound: 1 units, 1 entries, 0 types"
    row, want = twice()
    yield (f"a table of {TWICE:,} declarations with codes of ten bytes in no order, and the first code again",
           elf([(".debug_abbrev", row), (".debug_info", unit(b"\x01"))]),
           kept_within(len(row) * CODES_MEMORY + PROGRAM_MEMORY, TWICE_TIME), want)
    row, entries = deep_codes()
    yield (f"{DEEP_ENTRIES:,} entries with codes of ten bytes, each found after {(64 - LOW_BITS) // 2} others",
           elf([(".debug_abbrev", row), (".debug_info", entries)]),
           kept_within(len(row) * CODES_MEMORY + PROGRAM_MEMORY, DEEP_TIME),
           f"sound: 1 units, {DEEP_ENTRIES + 1} entries, 0 types")
    for name, sections, want in nodes():
        file = elf(sections)
        yield (f"types of {name}", file,
               kept_within(len(file) * NODE_MEMORY + PROGRAM_MEMORY, TYPEDEFS_TIME, (DWV, "types")), want)
    for name, sections, want in late_faults():
        yield name, elf(sections), asking("check", memory=LATE_MEMORY), want
    for name, sections, entries, values in tabled():
        file = elf(sections)
        rows = 64 * entries + 32 * values
        yield (name, file, kept_within(len(file) + rows + TABLED_MEMORY, TABLED_TIME, COUNT_ROWS),
               f"Table(1 units, {entries} entries, {values} values)")
    name, row, units, count = inside_attributes()
    yield (name, elf([(".debug_abbrev", row), (".debug_info", units)]),
           asking("check", memory=INSIDE_MEMORY, seconds=SOON_TIME), f"sound: {count} units, {count} entries, 0 types")
    name, row, units, count = inside_codes()
    yield (name, elf([(".debug_abbrev", row), (".debug_info", units)]),
           kept_within(len(row) * OVERLAP_MEMORY + PROGRAM_MEMORY + len(units), OVERLAP_TIME),
           f"sound: {count} units, {count} entries, 0 types")
    count = SIGNED * DECLARED
    yield (f"{SIGNED:,} type units and {count:,} declared structures", elf(signed()),
           asking("check", memory=SOON_MEMORY, seconds=SIGNED_TIME),
           f"sound: {SIGNED + 1} units, {2 * SIGNED + count + 1} entries, {SIGNED + count} types")
    for some in (chains(), bodies(), texts()):
        for name, made in some:
            yield f"types of {name}", made.file(), types, f"{made.text()}status 0\n"
    for name, made in hidden():
        yield f"types of {name}", made.file(), types_soon, f"{made.text()}status 0\n"
    for name, made in sides():
        yield f"types of {name}", made.file(), types, f"{made.text()}status 0\n"
    file, want = collisions()
    yield f"types of {COLLISIONS:,} typedefs whose numbers collide", file, types_soon, f"{want}status 0\n"
    for some in (shared_names(), leveled()):
        for name, file, want in some:
            yield f"types of {name}", file, types_soon, f"{want}status 0\n"
    for name, made, at, size in ends():
        yield f"size of the last in {name}", made.file(), asking("size", f"0x{at:x}"), f"size {size}\n"
    file, want = nested()
    yield f"show of {NESTED:,} nested structures, each line", file, asking("show"), f"{want}status 0\n"
    tree = [(".debug_abbrev", TABLE), (".debug_info", unit(deep()))]
    yield (f"show of {MANY:,} nested structures", elf(tree), asking("show", memory=MEMORY),
           "dwv: out of memory\nstatus 4\n")
    yield from doubled()
    yield f"{SECTIONS:,} sections with one name of 16 MB", alike(), check, "sound: 0 units, 0 entries, 0 types"


# What each file is for, by words of its name: the first that occur decide.
REASONS = (
    ("(in|of) a declared structure", "What its parent is, is not read again for each member."),
    ("other children|such an enumeration|behind a long text", "The children of a type are not passed for each use."),
    ("many attributes without bytes", "Values are counted by declarations."),
    ("(attributes|names) are found last", "An attribute that is present takes no search."),
    ("behind values", "The values before those that are asked are not passed for each question."),
    ("random chain|levels of", "What is kept of a type is found by its number."),
    ("parities|in no order$", "A list takes little memory for each attribute, wherever it is read from."),
    ("^show of", "The text of a deep tree is far longer than the file. If it does not fit, nothing is written."),
    ("^size of", "A size is measured by the order of the types, and no chain is followed for one type."),
    ("dimensions in a unit|two units in turns", "The language of a unit is read once, and not for each dimension."),
    ("a chain of .* (typedefs|consts)|a ring of", "A chain of types is followed once, in little of the call stack."),
    ("to a cycle|cycles|a cycle of", "A cycle is found once for all types that reach it."),
    ("without (bounds|places)", "An attribute that is absent takes no search."),
    ("(behind|after) [0-9,]* values", "The values before those that rules read are not passed for each rule."),
    ("in other units", "An entry of another unit is found as fast as one of the same unit."),
    ("of (one|two) bytes? each|without a type", "Types that take a byte or two of the file take little memory each."),
    ("2\\^40", "The product of the counts passes 2^64 on the way to 0."),
    ("another in mixed order", "The lines of `types` go to and fro in the file as fast as in its order."),
    ("collide", "No key of a hash table is one that a file can choose."),
    ("of one name of|suffixes of|one string of|names of 63", "A string is not read to its end for each name in it."),
    ("specifications of an entry", "What comes before DW_AT_declaration is not read for each specification."),
    ("type units", "The type of a signature is found by a search."),
    ("^rows of .* flags", "An attribute without bytes takes a row of a table, and no more memory than that."),
    ("attributes of the form|flags without bytes", "Attributes whose values take no bytes are passed at once."),
    ("inside|overlapping", "What tables have in common is read once and kept once."),
    ("codes", "A code is found by its bits, whatever the order of the codes, in little memory for each."),
    ("units of one table|refers to the first|a zero byte", "What all units share is not read again for each of them."),
    ("no unit names", "Bytes of tables that no unit names are not read."),
    ("in the next one$", "A fault near the end takes no second look at what is before it, and no memory for it."),
    ("65,53[67] bytes$", "The limit of a declaration is exact, for each form of type."),
    ("structures, each|members?, and|itself|55,000|qualifiers", "A text that is too long is not begun."),
    ("30 deep", "A type is written in one walk, and not one for each level."),
    ("typedefs$", "What a type needs of others is kept for each, in little memory."),
    ("nested structures|dimensions|members|no members", "Entries that are deep or many are passed one after another."),
    ("sections", "A name is compared no further than the names of the six sections go."),
)


def reason(name):
    """What must not be slow or large in a file, by its name; None if nothing says so."""
    return next((text for words, text in REASONS if re.search(words, name)), None)


def main():
    options = argparse.ArgumentParser(description=__doc__.partition("\n")[0])
    options.add_argument("--list", action="store_true", help="print each file, and run nothing")
    options.add_argument("--only", metavar="PATTERN", default="", help="only files with such a name")
    given = options.parse_args()
    if given.list:
        for name, _, ask, _ in runs():
            print(f"{name} (within {ask.limits}). {reason(name)}")
        return 0
    # Rows and counts of tables need the library. Beside a program of DWV none is proved for them.
    if "DWV" not in os.environ and not given.only:
        common.build_library()
    has_library = common.LIBRARY.exists() or "DWV_LIBRARY" in os.environ
    tally = common.Tally(1 if given.only else 140 if has_library else 137)
    tally.has("valgrind")
    with common.empty_folder() as folder:
        path, unsaid = folder / "file", []
        for name, file, ask, want in runs():
            if not re.search(given.only, name):
                continue
            path.write_bytes(file)
            unsaid += [] if reason(name) else [name]
            if name.startswith(("rows of ", "table of ")) and not has_library:
                tally.skip(f"{name}: the C library is not built")
                continue
            before = time.monotonic()
            try:
                text = ask(path)
            except subprocess.TimeoutExpired as late:
                text = f"no answer within {late.timeout} seconds"
            seconds = f"{time.monotonic() - before:.3f} s"
            tally.add(name, None if text.startswith(want) else f"{text[:200]!r}, {seconds}", seconds)
    tally.same("files of which the list says nothing", unsaid, [])
    return tally.end()


if __name__ == "__main__":
    sys.exit(main())
