"""Reads numbers, texts, values and the declarations of abbreviation tables (DWARF 5, 7.5.3 to 7.6).

It may read any bytes: what it can't read raises `Unreadable`.
"""
import collections
import itertools

# The bytes that the values of forms take. Those of OFFSET take 4, in 64-bit DWARF 8; addr takes that of an address.
FIXED = {
    0x05: 2, 0x06: 4, 0x07: 8, 0x0B: 1, 0x0C: 1, 0x11: 1, 0x12: 2, 0x13: 4, 0x14: 8, 0x19: 0, 0x1C: 4, 0x1E: 16,
    0x20: 8, 0x21: 0, 0x24: 8, 0x25: 1, 0x26: 2, 0x27: 3, 0x28: 4, 0x29: 1, 0x2A: 2, 0x2B: 3, 0x2C: 4,
}
OFFSET = {0x0E, 0x10, 0x17, 0x1D, 0x1F, 0x1F20, 0x1F21}
ULEB = {0x0F, 0x15, 0x1A, 0x1B, 0x22, 0x23, 0x1F01, 0x1F02}
BLOCKS = {0x03: 2, 0x04: 4, 0x0A: 1, 0x09: None, 0x18: None}
ADDR, STRING, SDATA, INDIRECT, IMPLICIT, FLAG_PRESENT = 0x01, 0x08, 0x0D, 0x16, 0x21, 0x19
STRP, LINE_STRP, REF_ADDR, REF_SIG8 = 0x0E, 0x1F, 0x10, 0x20
STRX, REF_UNIT = {0x1A, 0x25, 0x26, 0x27, 0x28}, {0x11, 0x12, 0x13, 0x14, 0x15}

NAME, BYTE_SIZE, BIT_OFFSET, BIT_SIZE, LANGUAGE, PRODUCER = 0x03, 0x0B, 0x0C, 0x0D, 0x13, 0x25
DECL_FILE, DECL_LINE = 0x3A, 0x3B
MEMBER_LOCATION, DECLARATION, TYPE, BIT_POSITION, STR_OFFSETS_BASE, ALIGNMENT = 0x38, 0x3C, 0x49, 0x6B, 0x72, 0x88

Section = collections.namedtuple("Section", "name type flags start size")
# A declaration of an abbreviation table: its place, and pairs of an attribute, a form and the number in the table.
Declaration = collections.namedtuple("Declaration", "at tag has_children pairs")


class Unreadable(Exception):
    """There is nothing at this place that can be read. `entry` has what was read of an entry."""

    def __init__(self, text, entry=None):
        super().__init__(text)
        self.entry = entry


class Cursor:
    """Reads numbers and texts of a section from an offset on, up to another."""

    def __init__(self, data, section, at, end=None):
        self.data, self.start, self.at = data, section.start, at
        self.end = section.size if end is None else min(end, section.size)

    def bytes(self, count):
        if not 0 <= count <= self.end - self.at:
            raise Unreadable(f"{count} bytes at 0x{self.at:x} pass the end")
        self.at += count
        return self.data[self.start + self.at - count : self.start + self.at]

    def number(self, size):
        return int.from_bytes(self.bytes(size), "little")

    def leb(self, is_signed=False):
        value, shift = 0, 0
        while True:
            byte = self.number(1)
            value |= (byte & 0x7F) << shift
            shift += 7
            if byte < 0x80:
                return value - (1 << shift) if is_signed and byte & 0x40 else value
            if shift >= 70:
                raise Unreadable(f"a number of more than 10 bytes ends before 0x{self.at:x}")

    def text(self):
        end = self.data.find(b"\0", self.start + self.at, self.start + self.end) if self.at < self.end else -1
        if end < 0:
            raise Unreadable(f"the text at 0x{self.at:x} has no end")
        text = self.data[self.start + self.at : end]
        self.at = end + 1 - self.start
        return text


def read_value(cursor, form, number, offset_size, address_size):
    """A value of a form: a number, a text or a block as bytes. `number` is that of implicit_const."""
    if form in FIXED:
        if form == IMPLICIT:
            return number
        return 1 if form == FLAG_PRESENT else cursor.number(FIXED[form])
    if form in OFFSET:
        return cursor.number(offset_size)
    if form == ADDR:
        return cursor.number(address_size)
    if form in ULEB or form == SDATA:
        return cursor.leb(form == SDATA)
    if form == STRING:
        return cursor.text()
    if form in BLOCKS:
        return cursor.bytes(cursor.number(BLOCKS[form]) if BLOCKS[form] else cursor.leb())
    raise Unreadable(f"there is no form 0x{form:x}")


def parts_of_declaration(cursor):
    """The parts of a declaration: where each starts and ends, what it is, its number. After the code 0 there are none.
    """

    def part(what, read, *words):
        start, number = cursor.at, read(*words)
        return start, cursor.at, what, number

    code = part("code", cursor.leb)
    yield code
    if code[3] == 0:
        return
    yield part("tag", cursor.leb)
    yield part("children", cursor.number, 1)
    while True:
        attribute = part("attribute", cursor.leb)
        yield attribute
        form = part("form", cursor.leb)
        yield form
        if form[3] == IMPLICIT:
            yield part("number", cursor.leb, True)
        if attribute[3] == form[3] == 0:
            return


def read_declaration(cursor):
    """The code of a declaration, and the declaration; the code 0 ends a table."""
    at = cursor.at
    (*_, code), *parts = parts_of_declaration(cursor)
    if code == 0:
        return 0, None
    (*_, tag), (*_, children), *parts = parts
    pairs = []
    for *_, what, number in parts[:-2]:
        if what == "attribute":
            attribute = number
        elif what == "form":
            pairs.append((attribute, number, 0))
        else:
            pairs[-1] = (*pairs[-1][:2], number)
    return code, Declaration(at, tag, children != 0, pairs)


def readable_parts(cursor, most):
    """The parts of a declaration as far as they can be read, and at most so many."""
    found = []
    try:
        found.extend(itertools.islice(parts_of_declaration(cursor), most))
    except Unreadable:
        pass
    return found
