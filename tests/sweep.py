#!/usr/bin/env python3
"""Runs the program and the calls of the C library on files of many entries alike: of each tag, with each kind of
child, used in each way, and with what is asked of them first, or last behind much else. No answer may cost more than in
proportion to the file.

usage: sweep.py [--part] [--jobs N] [--only PATTERN] [--list] [--table FILE]

A file has 30,000 entries of a kind, and one of half the size 15,000. Each command and each call must end within 1
second of processor time and 1 GiB of memory, and take at most 2.5 times as long as for half the size. The times are
processor times, each the least of up to six runs, so that other work on the machine does not count. A time below 0.15 s
is not compared: the steps of a square, 450 million, take longer. Where the text that must be written grows faster than
the file, the time may grow with the text, and 1 second more is for every 200 MB of it.

Without --part it runs all pairs of a tag and a child in each use, with the other choices in turn: 21,000 files. With
--part it runs a tenth of the files that tell most, and one of 200 of the others, by the number of commits. It
prints a line for each kind of file that fails, and a table with the slowest and the greatest growth by command, and
ends with 'N passed, N failed, N skipped'. A file and a command, or call, is a test.
"""
import argparse
import collections
import concurrent.futures
import ctypes
import functools
import itertools
import os
import pathlib
import re
import struct
import subprocess
import sys
import time

sys.dont_write_bytecode = True
import common
from common import uleb, unit

MANY = 30_000
# How the time may grow where the size doubles, the seconds that a run may take, the least time that is compared, and
# how often one is measured.
GROWTH, SECONDS, FLOOR, TRIES = 2.5, 1.0, 0.15, 6
# A time that is not measured again.
HOPELESS = 3 * SECONDS
# Bytes of memory that a run may have, and the bytes of text for which a run may take a second more.
MEMORY, TEXT = 1 << 30, 200_000_000
# Bytes of text below which its growth is not looked at.
LITTLE = 1 << 20
# The part for the gate: every so-manieth of the telling files, and of the others.
TELLING_PART, PART = 10, 200

CONSTANTS = (common.TOP / "crates/dw_forms/src/constants.rt").read_text()
# The tags that the program names, and one that it does not; those of types.
TAGS = {name: int(code, 16) for name, code in re.findall(r"const DW_TAG_(\w+): Tag = Tag\((0x\w+)\)", CONSTANTS)}
TYPES = set(re.findall(r"DW_TAG_(\w+)$", CONSTANTS[:CONSTANTS.index("// Tags")], re.M))
TAGS["label"] = 0x0A
POINTERS = {"pointer_type", "reference_type", "rvalue_reference_type", "ptr_to_member_type"}
UNITS = {"compile_unit", "partial_unit", "type_unit"}
# Tags of entries that have a size of their own, and of those that have no type.
SIZED = {"structure_type", "class_type", "union_type", "interface_type", "base_type", "enumeration_type", "string_type"}
TYPELESS = SIZED - {"enumeration_type"} | UNITS | {
    "label", "unspecified_type", "unspecified_parameters", "variant_part", "imported_unit"}

NAME, BYTE_SIZE, CONST_VALUE, COUNT, DECLARATION, TYPE = 0x03, 0x0B, 0x1C, 0x37, 0x3C, 0x49
REF_ADDR = 0x10
SIBLING, LANGUAGE, IMPORT, PROTOTYPED, ORIGIN, SPECIFICATION = 0x01, 0x13, 0x18, 0x27, 0x31, 0x47
SIGNATURE, STR_OFFSETS_BASE = 0x69, 0x72
DATA1, STRING, SDATA, REF4, INDIRECT, FLAG, IMPLICIT, SIG8, OFFSET, STRX1 = (
    0x0B, 0x08, 0x0D, 0x13, 0x16, 0x19, 0x21, 0x20, 0x17, 0x25)

# What a file has: its shape, the tag of the entry that is used and what it is, the tag of its children and what they
# are, how it is used, and where what is asked stands, in which of the entries.
Case = collections.namedtuple("Case", "shape tag kind child filling use place at")
SHAPES = ("one", "each", "each, falling", "chain", "nested", "units")
KINDS = ("named", "nameless", "declared", "signed", "nameless and declared")
FILLINGS = ("bare", "full", "few")
PLACES = ("first", "behind a text", "behind values", "behind flags", "implicit", "indirect", "among codes alike")
ATS = ("entry", "child", "user", "unit")
INT_NAME = (NAME, STRING, b"int\0")
# How many children have all attributes, where few have.
FEW = 8


def words_of(case):
    """A case in words."""
    where = "" if case.place == "first" else f", what is asked of the {case.at} {case.place}"
    return f"{case.shape}: {case.kind} {case.tag} with {case.filling} {case.child}, {case.use}{where}"


class File:
    """A file that is made: its table, the items of its unit, and how many entries of a kind it has."""

    def __init__(self, case, many):
        self.case, self.many, self.is_small = case, many, case.shape == "units"
        self.table, self.codes, self.items = bytearray(), {}, bytearray()
        self.int = None

    def code(self, tag, has_children, pairs):
        """The code of a declaration."""
        key = (tag, has_children, pairs)
        if key not in self.codes:
            self.codes[key] = uleb(len(self.codes) + 1)
            listed = b"".join(uleb(code) + form for code, form in pairs)
            self.table += self.codes[key] + uleb(tag) + bytes([has_children]) + listed + b"\0\0"
        return self.codes[key]

    def entry(self, tag, attributes, has_children=False, at=None, is_one=True):
        """The bytes of an entry with these attributes, each a code, a form and a value.

        What is asked stands where the case says, if that is of this entry. What takes bytes is put before it in one
        entry of its kind alone.
        """
        if at is not None and at == self.case.at:
            attributes = self.placed(attributes, is_one)
        pairs = tuple((code, bytes([form]) + (value if form == IMPLICIT else b"")) for code, form, value in attributes)
        values = b"".join(value for _, form, value in attributes if form != IMPLICIT)
        return self.code(TAGS.get(tag, tag), has_children, pairs) + values

    def placed(self, attributes, is_one):
        """Attributes with others before them, or in other forms, as the case says."""
        place, some, is_one = self.case.place, self.many // 4, is_one and not self.is_small
        if place == "behind a text" and is_one:
            return [(0x2001, STRING, b"t" * (10 * self.many) + b"\0"), *attributes]
        if place == "behind values" and is_one:
            return [*((0x2002 + n, INDIRECT, b"\x19") for n in range(some)), *attributes]
        if place == "behind flags":
            return [*((0x2002 + n, FLAG, b"") for n in range(some)), *attributes]
        if place == "implicit":
            return [(code, IMPLICIT, value) if form in (DATA1, SDATA) else (code, form, value)
                    for code, form, value in attributes]
        if place == "indirect":
            return [(code, INDIRECT, bytes([form]) + value) if form not in (IMPLICIT, FLAG) else (code, form, value)
                    for code, form, value in attributes]
        if place == "among codes alike":
            own = {code for code, _, _ in attributes}
            near = {code ^ 1 << bit for code in own for bit in range(8, 16)} - own
            return [*((code, FLAG, b"") for code in sorted(near)), *attributes]
        return attributes

    def next(self):
        """Where the next entry stands in the unit."""
        return self.start + len(self.items)

    def add(self, data):
        at = self.next()
        self.items += data
        return at

    def named(self, text=b"n"):
        """A name: in the entry, or by an index into .debug_str_offsets where the case asks the unit."""
        return (NAME, STRX1, b"\0") if self.case.at == "unit" else (NAME, STRING, text + b"\0")

    def type(self, at):
        return (TYPE, REF4, struct.pack("<I", at))


def used(file, to, has_children=True, more=()):
    """The entry that is used, whose type is at an offset if it has one. Its children follow."""
    tag, kind = file.case.tag, file.case.kind
    attributes = [] if "nameless" in kind else [file.named()]
    if "declared" in kind or kind == "signed":
        attributes.append((DECLARATION, FLAG, b""))
        attributes += [(SIGNATURE, SIG8, struct.pack("<Q", 7))] if kind == "signed" else []
    if tag in SIZED and (tag == "base_type" or kind in ("named", "nameless")):
        attributes.append((BYTE_SIZE, DATA1, b"\4"))
    if tag not in TYPELESS:
        attributes.append(file.type(to))
    return file.entry(tag, [*attributes, *more], has_children, "entry")


def child(file, is_full, is_one):
    """A child of the entry that is used."""
    tag, attributes = file.case.child, []
    if is_full:
        attributes.append(file.named(b"a_longer_name"))
    if tag in SIZED:
        is_sized = is_full or tag == "base_type"
        attributes.append((BYTE_SIZE, DATA1, b"\4") if is_sized else (DECLARATION, FLAG, b""))
    if tag == "enumerator" and is_full:
        attributes.append((CONST_VALUE, SDATA, b"\1"))
    if tag in ("subrange_type", "generic_subrange") and is_full:
        # The product is 0, and the text of many is longer than a declaration may be.
        attributes.append((COUNT, DATA1, b"\0" if is_one else b"\x64"))
    # A member and an array without a type violate a rule, unless what has the member is only declared.
    is_asked = tag == "array_type" or tag == "member" and not re.search("declared|signed", file.case.kind)
    if tag not in TYPELESS and (is_full or is_asked):
        attributes.append(file.type(file.int))
    if file.case.at == "child" and not attributes and file.case.place != "first":
        attributes.append((CONST_VALUE, DATA1, b"\1"))
    return file.entry(tag, attributes, False, "child", is_one)


def children(file, count, is_one=True):
    """Children of the entry that is used, and the null after them."""
    filling = file.case.filling
    if filling == "few":
        shown = child(file, True, is_one) + child(file, True, False) * (FEW - 2)
        return shown + file.entry("label", []) * count + child(file, True, False) + b"\0"
    return child(file, filling == "full", is_one) + child(file, filling == "full", False) * (count - 1) + b"\0"


def each_of(prefix, targets, suffix=b""):
    """An entry for each target: a reference to it, after and before some bytes."""
    return b"".join(prefix + struct.pack("<I", to) + suffix for to in targets)


# How an entry is used: the tag of a user, its attributes before the reference and the attribute of that; whether the
# user has a child; what has all users, if anything has; the tag of what uses the user. Uses by a type come first.
USES = {
    "typedefs": ("typedef", "n", TYPE, "", None, None),
    "variables": ("variable", "n", TYPE, "", None, None),
    "members of one structure": ("member", "n", TYPE, "", "structure", None),
    "members of one structure without a name": ("member", "n", TYPE, "", "body", None),
    "members of one union": ("member", "n", TYPE, "", "union", None),
    "arrays": ("array_type", "", TYPE, "dimension", None, "typedef"),
    "arrays in one structure": ("array_type", "", TYPE, "dimension", "structure", "member"),
    "pointers": ("pointer_type", "", TYPE, "", None, "variable"),
    "consts": ("const_type", "", TYPE, "", None, "typedef"),
    "parameters of one function": ("formal_parameter", "", TYPE, "", "function", None),
    "functions": ("subroutine_type", "p", TYPE, "", None, "typedef"),
    "base classes": ("inheritance", "", TYPE, "", "structure", None),
    "dimensions": ("subrange_type", "c", TYPE, "", "array", None),
    "enumerations": ("enumeration_type", "ne", TYPE, "", None, "variable"),
    "specifications": (None, "n", SPECIFICATION, "", None, None),
    "abstract origins": (None, "n", ORIGIN, "", None, None),
    "imports": ("label", "", IMPORT, "", None, None),
    "counts": ("subrange_type", "", COUNT, "", "array", None),
    "siblings": ("label", "", SIBLING, "", None, None),
}
BY_TYPE = {use for use, row in USES.items() if row[2] == TYPE}


def users(file, targets):
    """The users of entries at these offsets, one each, and what uses them."""
    tag, before, attribute, inner, holder, outer = USES[file.case.use]
    tag = tag or file.case.tag
    known = {"n": file.named(), "p": (PROTOTYPED, FLAG, b""), "c": (COUNT, DATA1, b"\1"),
             "s": (BYTE_SIZE, DATA1, b"\x08"), "e": (BYTE_SIZE, DATA1, b"\4")}
    holders = {"structure": ("structure_type", "ns"), "body": ("structure_type", "s"), "union": ("union_type", "ns"),
               "function": ("subroutine_type", "p"), "array": ("array_type", "t")}
    if attribute == SIBLING:
        size = len(file.entry(tag, [(SIBLING, REF4, bytes(4))]))
        start, prefix = file.next(), file.entry(tag, [(SIBLING, REF4, b"")])
        file.add(each_of(prefix, (start + size * (n + 1) for n in range(len(targets)))))
        file.add(file.entry(tag, []))
        return
    at = None
    if holder:
        of, how = holders[holder]
        row = [known[it] for it in how if it != "t"] + ([file.type(file.int)] if "t" in how else [])
        at = file.add(file.entry(of, row, True))
    own = [known[it] for it in before] + ([known["e"]] if tag == "base_type" else [])
    # The first stands for what takes many bytes; of the others, those before the reference are the same in all.
    first = [*own, (attribute, REF4, struct.pack("<I", targets[0]))]
    dimension = file.entry("subrange_type", [(COUNT, DATA1, b"\1")]) + b"\0" if inner else b""
    made = file.entry(tag, first, bool(inner), "user")
    starts = [file.add(made + dimension)]
    prefix = file.entry(tag, [*own, (attribute, REF4, b"")], bool(inner), "user", False)
    start, size = file.next(), len(prefix) + 4 + len(dimension)
    file.add(each_of(prefix, targets[1:], dimension))
    starts += range(start, start + size * (len(targets) - 1), size)
    if outer:
        file.add(each_of(file.entry(outer, [file.named(), (TYPE, REF4, b"")]), starts))
    if holder:
        file.items += b"\0"
        if holder in ("body", "function", "array"):
            file.add(file.entry("typedef", [file.named(), file.type(at)]) * len(targets))


def first_entry(file, kind=1):
    """The entry that a unit starts with."""
    attributes = [(LANGUAGE, DATA1, b"\x0c")]
    if file.case.at == "unit":
        attributes.append((STR_OFFSETS_BASE, OFFSET, struct.pack("<I", 8)))
    return file.entry({1: "compile_unit", 2: "type_unit"}[kind], attributes, True, "unit")


def fill(file):
    """Writes the entries of a case, and returns the offset of one that is a type."""
    shape, many = file.case.shape, file.many
    if shape == "one":
        at = file.add(used(file, file.int))
        file.add(children(file, many))
        users(file, [at] * many)
        return at
    if shape.startswith("each"):
        one = used(file, file.int) + children(file, 1)
        file.add(one)
        other = used_again(file, file.int) + children(file, 1, False)
        start = file.next()
        file.add(other * (many - 1))
        places = [start + len(other) * n for n in range(many - 1)] + [start - len(one)]
        users(file, places[::-1] if shape.endswith("falling") else places)
        return places[0]
    if shape == "chain":
        rest, at = children(file, 1, False), file.add(used(file, file.int))
        file.add(children(file, 1))
        prefix, places = used_again(file, None), [at]
        start, size = file.next(), len(prefix) + len(rest)
        places += [start + size * n for n in range(many - 1)]
        if file.case.tag not in TYPELESS:
            last = used_again(file, 0)
            cut = last.rindex(bytes(4))
            file.add(b"".join(last[:cut] + struct.pack("<I", at if n == 0 else start + size * (n - 1))
                              + last[cut + 4 :] + rest for n in range(many - 1)))
        else:
            file.add((prefix + rest) * (many - 1))
        users(file, places)
        return places[-1]
    if shape == "nested":
        levels, at = many // 10, file.add(used(file, file.int))
        one = child(file, file.case.filling == "full", False) + used_again(file, file.int)
        start = file.next()
        file.add(one * levels + b"\0" * (levels + 1))
        users(file, [start + len(one) * levels - len(used_again(file, file.int)), at] * (many // 2))
        return at
    raise AssertionError(shape)


def used_again(file, to):
    """The entry that is used, without what takes many bytes."""
    place = file.case.place
    if file.case.at == "entry" and place in ("behind a text", "behind values"):
        plain = file.case._replace(place="first")
        file.case, kept = plain, file.case
        made = used(file, file.int if to is None else to)
        file.case = kept
        return made
    return used(file, file.int if to is None else to)


def units(file):
    """Many small units, each with the entry and a user of it in the next unit or in the one before it."""
    # A unit has the same bytes but for the reference, which is by ref_addr.
    case, count = file.case, file.many // 4
    tag, before, attribute, *_ = USES[case.use]
    tag = tag or case.tag
    file.start = 12
    file.add(first_entry(file))
    file.int = file.add(file.entry("base_type", [INT_NAME, (BYTE_SIZE, DATA1, b"\4")]))
    at = file.add(used(file, file.int))
    file.add(children(file, 3))
    own = [file.named()] if "n" in before else []
    own += [(BYTE_SIZE, DATA1, b"\4")] if tag in ("base_type", "enumeration_type") else []
    # What takes bytes is put before nothing here, since all units would have it.
    head = file.entry(tag, [*own, (attribute, REF_ADDR, b"")], False, case.place != "indirect" and "user", False)
    size = 12 + len(file.items) + len(head) + 5
    front = struct.pack("<I", size - 4) + struct.pack("<HBBI", 5, 1, 8, 0) + bytes(file.items) + head
    info = b"".join(front + struct.pack("<I", n * 7919 % count * size + at) + b"\0" for n in range(count))
    return info, at


def sections_of(case, many):
    """The sections of a file, and the offset of a type of it."""
    file = File(case, many)
    if case.shape == "units":
        info, at = units(file)
    else:
        file.start = 12
        file.add(first_entry(file))
        file.int = file.add(file.entry("base_type", [INT_NAME, (BYTE_SIZE, DATA1, b"\4")]))
        at = fill(file)
        info = unit(bytes(file.items) + b"\0")
    if case.kind == "signed":
        signed = File(case._replace(at=None), many)
        signed.codes, signed.table, signed.start = file.codes, file.table, 24
        signed.add(first_entry(signed, 2))
        signed.int = signed.add(signed.entry("base_type", [(BYTE_SIZE, DATA1, b"\4")]))
        row = [] if case.tag in TYPELESS else [signed.type(signed.int)]
        place = signed.add(signed.entry(case.tag, [(BYTE_SIZE, DATA1, b"\4"), *row]))
        info += unit(bytes(signed.items) + b"\0", 2, struct.pack("<QI", 7, place))
    return {".debug_abbrev": bytes(file.table) + b"\0", ".debug_info": info, ".debug_str": b"n\0",
            ".debug_str_offsets": struct.pack("<IHHI", 8, 5, 0, 0)}, at


def is_made(case):
    """Whether there is such a case: an entry that is no type is not used as one, and few children are no bare ones."""
    if case.use in BY_TYPE and case.tag not in TYPES:
        return False
    if case.kind == "signed" and case.tag not in TYPES:
        return False
    if case.use == "siblings" and case.shape == "units" or case.use == "enumerations" and case.tag in POINTERS:
        return False
    if case.shape == "chain" and case.tag not in TYPES:
        return False
    return case.shape == "one" or case.filling != "few"


def cases():
    """All cases: each tag with each child in each use, and the other choices in turn."""
    triples = itertools.product(TAGS, TAGS, USES)
    numbers = (n * 2654435761 % 2**32 >> 7 for n in itertools.count(1))
    for (tag, inner, use), n in zip(triples, numbers):
        n, shape = divmod(n, 2 * len(SHAPES))
        n, kind = divmod(n, len(KINDS))
        n, filling = divmod(n, len(FILLINGS))
        n, place = divmod(n, len(PLACES))
        # Half of the files have one entry with many children and many users.
        case = Case(SHAPES[max(shape - len(SHAPES), 0)], tag, KINDS[kind], inner, FILLINGS[filling], use, PLACES[place],
                    ATS[n % len(ATS)])
        if case.place == "first":
            case = case._replace(at="entry")
        if use == "specifications" and "declared" not in case.kind:
            case = case._replace(kind="declared")
        if is_made(case):
            yield case


def telling():
    """The cases that tell most: an entry with many children, each of a kind that is asked, and what is asked behind
    much else."""
    pairs = (("structure_type", "member"), ("union_type", "member"), ("enumeration_type", "enumerator"),
             ("array_type", "subrange_type"), ("subroutine_type", "formal_parameter"),
             ("structure_type", "inheritance"), ("structure_type", "label"), ("enumeration_type", "label"),
             ("array_type", "label"), ("subroutine_type", "label"))
    uses = ("typedefs", "members of one structure without a name", "parameters of one function")
    for (tag, inner), kind, filling in itertools.product(pairs, KINDS, FILLINGS):
        for place, at in (("first", "entry"), *itertools.product(PLACES[1:4], ("entry", "child"))):
            for use in uses[: 1 if place != "first" else None]:
                yield Case("one", tag, kind, inner, filling, use, place, at)
    for shape, tag, kind in itertools.product(SHAPES, ("structure_type", "enumeration_type", "array_type", "const_type",
                                                       "typedef"), ("named", "nameless")):
        yield Case(shape, tag, kind, "member", "full", "typedefs", "first", "entry")
        yield Case(shape, tag, kind, "subrange_type", "bare", "arrays", "first", "entry")


# What was taken for a file of the full size and for half of it: processor seconds, bytes of text, bytes of memory, and
# what is wrong with it.
Taken = collections.namedtuple("Taken", "case what seconds half text memory wrong")


class Made:
    """The files of a case by their sizes. Each is made when it is asked for."""

    def __init__(self, case, folder):
        self.case, self.folder, self.kept = case, folder, {}

    def of(self, many):
        """The sections of a file, its bytes, its path, and the offset of a type of it."""
        if many not in self.kept:
            found, at = sections_of(self.case, many)
            data, path = common.elf([(name, 1, data) for name, data in found.items()]), self.folder / str(many)
            path.write_bytes(data)
            self.kept[many] = found, data, path, at
        return self.kept[many]


def commands(made):
    """The commands by their names: what runs one on the file of a size, as seconds, bytes of text and of memory."""
    def asking(command):
        def ask(many):
            _, _, path, at = made.of(many)
            more = [f"0x{at:x}"] if command == "size" else []
            return common.spent(command, path, *more, memory=MEMORY, seconds=20 * SECONDS)
        return ask

    return {command: asking(command) for command in ("check", "show", "types", "size")}


@functools.cache
def library():
    """The C library that is built, or None."""
    path = pathlib.Path(os.environ.get("DWV_LIBRARY", common.LIBRARY))
    return ctypes.CDLL(str(path)) if path.exists() else None


@functools.cache
def rows():
    """What calls write into."""
    return ctypes.create_string_buffer(1 << 26)


def calls(made):
    """The calls of the C library by their names: each returns seconds, bytes of text and of memory, which is not known.

    Those that write have room for nothing, and then for what they need.
    """
    lib = library()
    if lib is None:
        return {}
    size, room = ctypes.c_size_t, rows()

    def timed(call, *words):
        start = time.thread_time()
        call(*words)
        return time.thread_time() - start

    def of_file(many):
        _, data, _, _ = made.of(many)
        return [data, size(len(data))]

    def of_sections(many):
        found, _, _, _ = made.of(many)
        names = (".debug_info", ".debug_abbrev", ".debug_str", ".debug_line_str", ".debug_str_offsets", ".debug_addr")
        return [word for name in names for data in [found.get(name, b"")] for word in (data, size(len(data)))]

    def check(words, name):
        return lambda many: (timed(getattr(lib, name), *words(many), room), 0, 0)

    def report(request):
        def ask(many):
            needed, took, (*_, at) = size(), 0.0, made.of(many)
            for length in (0, len(room)):
                took += timed(lib.dwv_report, *of_file(many), request, at, room, size(length), ctypes.byref(needed))
            return took, needed.value, 0
        return ask

    def table(words, name):
        def ask(many):
            counts, verdict, took = (size * 3)(), ctypes.create_string_buffer(128), 0.0
            for lengths in ((0, 0, 0), None):
                places, at = [], 0
                for length, each in zip(lengths or counts, (40, 64, 32)):
                    places += [ctypes.byref(room, at), size(length)]
                    at += length * each
                if at > len(room):
                    break
                took += timed(getattr(lib, name), *words(many), *places, counts, verdict)
            return took, sum(n * each for n, each in zip(counts, (40, 64, 32))), 0
        return ask

    def frames(many):
        """The frames at address 0: there are none."""
        counts, verdict, address = (size * 2)(), ctypes.create_string_buffer(128), ctypes.c_uint64(0)
        places = [word for count in (1, 0, 0) for word in (ctypes.byref(room, 64 * count), size(count))]
        return timed(lib.dwv_frames, *of_file(many), ctypes.byref(address), size(1), *places, counts, verdict), 0, 0

    found = {"dwv_check": check(of_file, "dwv_check"), "dwv_check_sections": check(of_sections, "dwv_check_sections"),
             "dwv_table": table(of_file, "dwv_table"), "dwv_frames": frames,
             "dwv_table_sections": table(of_sections, "dwv_table_sections")}
    names = ("check", "check --json", "show", "types", "size")
    return found | {f"dwv_report, {name}": report(number) for number, name in enumerate(names)}


def least(ask, many, best=None):
    """What a run takes, and that of an earlier run where it took less time."""
    now = ask(many)
    return now if best is None or now[0] < best[0] else best


def wrong_of(whole, half):
    """What is wrong with what a run takes: its time, or how that grows. Where text is the cost it grows with that."""
    seconds, text, _ = whole
    if seconds > SECONDS + text / TEXT:
        return f"{seconds:.2f} s"
    if half is None or seconds <= FLOOR:
        return None
    most = GROWTH
    if text > LITTLE and half[1]:
        most = max(GROWTH, 1.5 * text / half[1])
    growth = seconds / max(half[0], FLOOR / 100)
    return f"x{growth:.2f}" if growth > most else None


def tried(case):
    """What each command and each call takes for a case."""
    taken = []
    with common.empty_folder() as folder:
        made = Made(case, folder)
        for what, ask in (commands(made) | calls(made)).items():
            try:
                whole, half, left = ask(MANY), None, TRIES
                if whole[0] > FLOOR:
                    half = ask(MANY // 2)
                    while wrong_of(whole, half) and whole[0] < HOPELESS and (left := left - 1):
                        whole, half = least(ask, MANY, whole), least(ask, MANY // 2, half)
                taken.append(Taken(case, what, whole[0], half and half[0], whole[1], whole[2], wrong_of(whole, half)))
            except common.Failed as error:
                taken.append(Taken(case, what, 0.0, None, 0, 0, str(error)))
    return taken


def line_of(it):
    """A row of the table: what was taken, and its file."""
    growth = f"x{it.seconds / it.half:.1f}" if it.half else ""
    return f"| `{it.what}` | {it.seconds:.3f} s | {growth} | {it.text / 1e6:.1f} MB | {words_of(it.case)} |"


def table(found):
    """The table: for each command and call the slowest file, and the one whose time grows most."""
    yield "| What | Time | Grows | Text | File |"
    yield "|---|---|---|---|---|"
    by = collections.defaultdict(list)
    for it in found:
        by[it.what].append(it)
    for some in by.values():
        slowest = max(some, key=lambda it: it.seconds)
        growing = max((it for it in some if it.half), key=lambda it: it.seconds / it.half, default=slowest)
        yield from dict.fromkeys(map(line_of, (slowest, growing)))


def turn():
    """The number of commits of the checkout, or 0."""
    ran = subprocess.run(["git", "-C", common.TOP, "rev-list", "--count", "HEAD"], capture_output=True, text=True)
    return int(ran.stdout or "0")


def main():
    options = argparse.ArgumentParser(description=__doc__.partition("\n")[0])
    options.add_argument("--part", action="store_true", help="a part in turn, by the number of commits")
    options.add_argument("--jobs", metavar="N", type=int, default=1, help="how many files to try side by side")
    options.add_argument("--only", metavar="PATTERN", default="", help="only files with such words")
    options.add_argument("--list", action="store_true", help="print the files, and run nothing")
    options.add_argument("--table", metavar="FILE", help="write the table to a file too")
    given = options.parse_args()
    some = [*telling(), *cases()]
    if given.part:
        some = [*list(telling())[turn() % TELLING_PART :: TELLING_PART], *list(cases())[turn() % PART :: PART]]
    some = [it for it in dict.fromkeys(some) if re.search(given.only, words_of(it))]
    if given.list:
        print("\n".join(map(words_of, some)))
        return 0
    common.build()
    tally, found, begin = common.Tally(1 if given.only else 4 * len(some)), [], time.monotonic()
    if library() is None:
        tally.skip("the C library is not built: its calls are not tried")
    with concurrent.futures.ProcessPoolExecutor(given.jobs) as pool:
        for taken in pool.map(tried, some, chunksize=4):
            found += taken
            for it in taken:
                if it.wrong:
                    tally.add(f"{it.what} of {words_of(it.case)}", it.wrong)
                else:
                    tally.passed += 1
    text = "\n".join(table(found))
    print(f"{len(some)} files in {time.monotonic() - begin:.0f} s\n\n{text}\n")
    if given.table:
        pathlib.Path(given.table).write_text(f"{text}\n")
    return tally.end()


if __name__ == "__main__":
    sys.exit(main())
