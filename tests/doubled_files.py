"""Files of which each is made at several sizes, so that what one costs is seen to grow no faster than the file.

Each file of `files` has a name, the command that is run on it, what makes it of a count, and that count. What makes it
returns the sections by their names, and the beginning of what the command must print.
"""
import collections
import random
import struct

from common import uleb, unit

# A file at several sizes: `make` of the count, and of parts of it.
Doubled = collections.namedtuple("Doubled", "name command make count")
# Seconds, bytes of memory for each byte of the file, and how the instructions may grow where the size doubles.
Limits = collections.namedtuple("Limits", "seconds memory growth")

# Where the first item behind a compile unit's entry of one byte stands.
FIRST = 13
# A flag without bytes in the form indirect, and how its value is spelt.
INDIRECT_FLAG, FLAG_FORM = b"\x16", b"\x19"
# How many others each entry has before what is asked, where each has some.
BEFORE = 8
# The forms of DWARF 5 that refer to no other file, without that which takes a number in the declaration.
FORMS = [code for code in range(0x01, 0x2d) if code not in (0x02, 0x1c, 0x1d, 0x21, 0x24)]


def declared(*rows):
    """A table of declarations: each a tag, whether there are children, and attributes with forms in hexadecimal."""
    return b"".join(uleb(code) + uleb(tag) + bytes([has]) + (bytes.fromhex(more) if isinstance(more, str) else more)
                    + b"\0\0" for code, (tag, has, more) in enumerate(rows, 1)) + b"\0"


def sections(table, info, **more):
    """The sections of a file."""
    return [(".debug_abbrev", table), (".debug_info", info), *((f".debug_{name}", data) for name, data in more.items())]


def values(count):
    """The declarations of values by indirect, and the values: flags without bytes."""
    return b"".join(uleb(0x2000 + n) + INDIRECT_FLAG for n in range(count)), FLAG_FORM * count


def in_declared(count, before, data):
    """A declared structure whose DW_AT_declaration stands behind other values, and its members of one byte."""
    table = declared((0x11, 1, ""), (0x13, 1, before + b"\x3c\x19"), (0x0d, 0, ""))
    info = unit(b"\x01" + b"\x02" + data + b"\x03" * count + b"\0\0")
    return sections(table, info), f"sound: 1 units, {count + 2} entries, 1 types"


def behind_values(count):
    return in_declared(count, *values(count))


def behind_a_name(count):
    return in_declared(count, b"\x03\x08", b"n" * count + b"\0")


def outside(count):
    """Members that end outside of a declared structure. Its size is that of the type that has its signature."""
    table = declared((0x41, 1, ""), (0x13, 0, "0b0b"), (0x11, 1, ""), (0x24, 0, "0b0b"),
                     (0x13, 1, "03083c196920"), (0x0d, 0, "4911"))
    types = unit(b"\x01\x02\x01\0", 2, struct.pack("<QI", 7, 25))
    items = b"\x04\x04\x05" + b"n" * count + b"\0" + struct.pack("<Q", 7) + bytes([6, FIRST]) * count
    return (sections(table, types + unit(b"\x03" + items + b"\0\0")),
            f"sound: 2 units, {count + 5} entries, 3 types")


# 1 compile unit, 2 base type with a name and a size, 3 typedef with a name and a type, 4 enumeration with a size,
# 5 enumerator with a name and a value, 6 entry of another kind, 7 array with a type, 8 dimension with a count,
# 9 enumerator with a name, a text and a value, 10 dimension with a text and a count, 11 structure with a size,
# 12 member with a name and a type, 13 typedef with a name and a type
OTHERS = declared((0x11, 1, ""), (0x24, 0, "03080b0b"), (0x16, 0, "03084911"), (0x04, 1, "0b0b"), (0x28, 0, "03081c0d"),
                  (0x0a, 0, ""), (0x01, 1, "4911"), (0x21, 0, "370b"), (0x28, 0, "030825081c0d"), (0x21, 0, "2508370b"),
                  (0x13, 1, "0b0b"), (0x0d, 0, "03084911"), (0x16, 0, "03084913"))
INT = b"\x02int\0\x04"
# Where what follows the type `int` stands.
SECOND = FIRST + len(INT)


def typedefs_of(items, count, line):
    """A file of a type and so many typedefs of it, and the lines of these."""
    info = unit(b"\x01" + INT + items + (b"\x03t\0" + bytes([SECOND])) * count + b"\0")
    return sections(OTHERS, info), line * count


def enumeration(count):
    """Typedefs of an enumeration with many children that are no enumerators."""
    others = b"\x06" * (count // 2)
    items = b"\x04\x04" + others + b"\x05e\0\1" + others + b"\0"
    return typedefs_of(items, count, "typedef enum { e = 1 } t;\n")


def array(count):
    """Typedefs of an array with many children that are no dimensions."""
    others = b"\x06" * (count // 2)
    return typedefs_of(bytes([7, FIRST]) + others + b"\x08\2" + others + b"\0", count, "typedef int t[2];\n")


def body(count):
    """Typedefs of a structure with a hundred members of an enumeration with many children that are no enumerators."""
    members = (b"\x0cm\0" + bytes([SECOND])) * 100
    items = b"\x04\x04" + b"\x05e\0\1" + b"\x06" * count + b"\0"
    at = SECOND + len(items)
    items += b"\x0b\x04" + members + b"\0" + (b"\x0ds\0" + struct.pack("<I", at)) * (count // 50)
    line = f"typedef struct {{ {'enum { e = 1 } m; ' * 100}}} s;\n"
    return sections(OTHERS, unit(b"\x01" + INT + items + b"\0")), line * (count // 50)


def long_enumerator(count):
    """Typedefs of an enumeration whose one value stands behind a long text."""
    items = b"\x04\x04" + b"\x09e\0" + b"x" * count + b"\0\1" + b"\0"
    return typedefs_of(items, count, "typedef enum { e = 1 } t;\n")


def long_dimension(count):
    """Typedefs of an array whose one count stands behind a long text."""
    return typedefs_of(bytes([7, FIRST, 10]) + b"x" * count + b"\0\2" + b"\0", count, "typedef int t[2];\n")


def byteless(count):
    """Entries of one byte with many attributes whose values take no bytes."""
    flags = b"".join(uleb(0x2000 + n) + FLAG_FORM for n in range(count * 2 // 5))
    table = declared((0x11, 1, ""), (0x34, 0, flags))
    made = sections(table, unit(b"\x01" + b"\x02" * count + b"\0"))
    return made, f"1 {count + 1} {count * (count * 2 // 5)}"


def apart(asked):
    """The codes of attributes after which one is found last: each agrees with it in two more of its lowest bits."""
    return [asked ^ (0x5555 >> 2 * k << 2 * k) for k in range(8)]


# Declarations in which what is asked is found last.
LAST = 12_000


def found_last(tag, asked, forms, value, holder=b"\x01", more=()):
    """What makes a file of entries, each of one of many declarations in which what is asked is found last: the code of
    two bytes, and its values. `holder` has what is before the entries."""
    def make(count):
        others = dict.fromkeys(code for of in asked for code in apart(of) if code not in asked)
        flags = b"".join(uleb(code) + FLAG_FORM for code in others)
        listed = b"".join(uleb(of) + bytes.fromhex(form) for of, form in zip(asked, forms))
        # Each list ends with an attribute of its own, so that no two have a part in common.
        rows = [(tag, 0, flags + listed + uleb(0x8000 + n) + FLAG_FORM) for n in range(LAST)]
        front = [(0x11, 1, "7217" if more else ""), (0x24, 0, "0b0b"), (0x01, 1, "4911"), (0x13, 1, "0b0b")]
        # Codes of two bytes are those from 128 on.
        front += [(0x0a, 0, "")] * (127 - len(front))
        table = declared(*front, *rows)
        items = b"".join(uleb(128 + n * 7919 % LAST) + value for n in range(LAST))
        base = struct.pack("<I", 8) if more else b""
        null = b"\0" if holder != b"\x01" else b""
        info = unit(holder[:1] + base + holder[1:] + items * (count // LAST) + null + b"\0")
        return sections(table, info, **dict(more)), ""
    return make


IN_ARRAY, IN_STRUCTURE = b"\x01\x02\x04" + bytes([3, FIRST]), b"\x01\x02\x04" + b"\x04\x04"
ONE_NAME = (("str", b"n\0"), ("str_offsets", struct.pack("<IHHI", 8, 5, 0, 0)))


def behind(tag, own, data, holder=b""):
    """What makes a file of entries with values by indirect, these attributes after them, and the values of these."""
    def make(count):
        others, before = values(BEFORE)
        table = declared((0x11, 1, ""), (0x24, 0, "0b0b"), (tag, 0, others + bytes.fromhex(own)),
                         (0x13, 1, "0b0b"), (0x04, 1, "03080b0b"))
        items = (b"\x03" + before + data) * count
        return sections(table, unit(b"\x01\x02\x04" + holder + items + (b"\0" if holder else b"") + b"\0")), ""
    return make


# 1 compile unit, 2 typedef with a name and a type, 3 typedef with a name, 4 base type with a name and a size
CHAINED = declared((0x11, 1, ""), (0x16, 0, "03084913"), (0x16, 0, "0308"), (0x24, 0, "03080b0b"))


def chain(order, name=b"t"):
    """What makes typedefs of one another, in the order of the numbers that `order` returns for a count."""
    def make(count):
        size, row = 1 + len(name) + 1 + 4, order(count)
        places = [0] * count
        for above, below in zip(row, row[1:]):
            places[above] = FIRST + len(INT) + below * size
        places[row[-1]] = FIRST
        items = b"".join(b"\x02" + name + b"\0" + struct.pack("<I", to) for to in places)
        info = unit(b"\x01\x04int\0\x04" + items + b"\0")
        good = "typedef int t;\n" + "typedef t t;\n" * (count - 1)
        return sections(CHAINED, info), good if name.isalpha() else f"/* 0x{SECOND:08x} P2 BadName */\n"
    return make


def mixed_order(count):
    numbers = list(range(count))
    random.Random(7).shuffle(numbers)
    return numbers


def code_of_ten(number):
    """A number that takes ten bytes. Those of numbers in a row are in no order."""
    return number * 0x9e3779b97f4a7c15 % 2**63 + 2**63


def twice(count):
    """A table whose codes have ten bytes, and whose last declaration has the code of the first."""
    row = b"".join(uleb(code_of_ten(n + 1)) + b"\x34\0\0\0" for n in range(count))
    table = row + uleb(code_of_ten(1)) + b"\x11\0\0\0" + b"\0"
    return (sections(table, unit(b"\x01")),
            f"fault A3 CodeTwice at .debug_abbrev+0x{len(row):08x} attribute 0x0\n")


def deep_codes(count):
    """Entries with codes of ten bytes. Declarations are in groups: in one, each code agrees with the next in two more
    of its bits, from the fourteenth on, and the entries have the code that is found last."""
    groups, low = count // 35, 14
    rows, codes = [], [code_of_ten(n + 1) >> low << low | n for n in range(groups)]
    for bit in range(low, 64, 2):
        rows += [uleb(codes[n * 7919 % groups]) + b"\x34\0\0\0" for n in range(groups)]
        codes = [code ^ (1 << bit) for code in codes] if bit < 62 else codes
    table = b"".join(rows) + b"\x01\x11\1\0\0" + b"\0"
    entries = b"".join(uleb(codes[n * 3571 % groups]) for n in range(count))
    return sections(table, unit(b"\x01" + entries + b"\0")), f"sound: 1 units, {count + 1} entries, 0 types"


def reordered_codes(count):
    """Entries with codes of ten bytes. Their table has the codes of one that was read before it, in another order."""
    codes, row = [code_of_ten(n + 1) for n in range(count)], b"\x34\0\0\0"
    first, second = (b"".join(uleb(codes[n]) + row for n in order) + b"\x01\x11\1\0\0" + b"\0"
                     for order in (range(count), mixed_order(count)))
    entries = b"".join(uleb(codes[n * 7919 % count]) for n in range(count))
    units = unit(b"\x01\0") + unit(b"\x01" + entries + b"\0", table=len(first))
    return sections(first + second, units), f"sound: 2 units, {count + 2} entries, 0 types"


def two_parities(count):
    """Tables that begin at the first and at the second byte of a declaration. The second reads each form as an
    attribute, and each attribute as a form."""
    # The second begins at the tag: that is its code, and what says that there are children is its tag. Both end at one
    # place: behind an attribute in the form implicit_const, or one with the code of that form.
    forms = [code for code in FORMS if code > 1]
    row = b"\x02\x34\1" + b"\1" + bytes([forms[0]])
    row += b"".join(bytes([forms[n * 5 % len(forms)], forms[n]]) for n in range(1, len(forms)))
    row += bytes([forms[0]]) + b"\x21\x0b" + b"\0\0" + b"\1\x11\0\0\0" + b"\0"
    units = b"".join(unit(b"\1", table=n * len(row) + more) for n in range(count) for more in (0, 1))
    return sections(row * count, units), f"sound: {2 * count} units, {2 * count} entries, 0 types"


def no_order(count):
    """Declarations of as many attributes of two bytes as there are, each in an order of its own."""
    codes, rows = list(range(1, 128)), []
    shuffler = random.Random(3)
    for _ in range(count):
        shuffler.shuffle(codes)
        rows.append((0x34, 0, b"".join(bytes([code]) + FLAG_FORM for code in codes)))
    table = declared((0x11, 0, ""), *rows)
    return sections(table, unit(b"\x01")), "sound: 1 units, 1 entries, 0 types"


def files():
    """All of them."""
    in_one = "members of one byte in a declared structure"
    yield Doubled(f"{in_one}, behind values by indirect", "check", behind_values, 47_000)
    yield Doubled(f"{in_one}, behind a long name", "check", behind_a_name, 150_000)
    yield Doubled("members that end outside of a declared structure with a signature", "check", outside, 100_000)
    yield Doubled("typedefs of an enumeration with other children", "types", enumeration, 18_000)
    yield Doubled("typedefs of an array with other children", "types", array, 18_000)
    yield Doubled("typedefs of a structure with members of such an enumeration", "types", body, 15_000)
    yield Doubled("typedefs of an enumeration behind a long text", "types", long_enumerator, 96_000)
    yield Doubled("typedefs of an array behind a long text", "types", long_dimension, 96_000)
    yield Doubled("entries of one byte with many attributes without bytes", "table", byteless, 100_000)
    for name, make, size in (
        ("declared structures", found_last(0x13, (0x3c,), ("19",), b""), 2),
        ("subranges", found_last(0x21, (0x37, 0x2f), ("2101", "2101"), b""), 2),
        ("members", found_last(0x0d, (0x49, 0x38), ("11", "2100"), bytes([FIRST]), IN_STRUCTURE), 3),
        ("dimensions", found_last(0x21, (0x37, 0x22), ("2101", "2100"), b"", IN_ARRAY), 2),
    ):
        yield Doubled(f"{name} whose attributes are found last", "check", make, 7_200_000 // size // LAST * LAST)
    for command, tag, what in (("show", 0x34, "variables"), ("types", 0x16, "typedefs")):
        make = found_last(tag, (0x03,), ("25",), b"\0", more=ONE_NAME)
        yield Doubled(f"{what} whose names are found last", command, make, 5_400_000 // 3 // LAST * LAST)
    for command in ("check", "types", "show"):
        yield Doubled("structures behind values", command, behind(0x13, "0b0b", b"\4"), 800_000)
        yield Doubled("enumerations behind values", command, behind(0x04, "0b0b", b"\4"), 800_000)
    yield Doubled("bit members behind values", "types", behind(0x0d, "49110d0b", bytes([FIRST, 1]), b"\x04\x04"),
                  720_000)
    yield Doubled("enumerators behind values", "types", behind(0x28, "1c0b", b"\1", b"\x05e\0\x04"), 800_000)
    yield Doubled("a random chain of typedefs", "types", chain(mixed_order), 1_100_000)
    yield Doubled("levels of typedefs", "types", chain(lambda count: list(range(count))), 1_150_000)
    yield Doubled("levels of refused typedefs", "types", chain(lambda count: list(range(count)), b"-"), 1_150_000)
    yield Doubled("a table with codes of ten bytes, and the first again", "check", twice, 578_000)
    yield Doubled("entries with codes of ten bytes, found last", "check", deep_codes, 400_000)
    yield Doubled("entries with codes of ten bytes, in another order than before", "check", reordered_codes, 200_000)
    yield Doubled("lists of attributes that are read at two parities", "check", two_parities, 48_000)
    yield Doubled("lists of attributes in no order", "check", no_order, 30_000)
