"""Reads the sections of an ELF64 file, and in `.debug_info` units and their entries.

It may read any bytes: what it can't read raises `Unreadable`. It looks only at what it is asked for, so one entry of a
large file costs what its unit costs, or less.
"""
import array
import bisect
import collections
import mmap
import struct
import time

from dwv_tools.reading import (
    ADDR, FIXED, INDIRECT, LINE_STRP, OFFSET, REF_ADDR, REF_SIG8, REF_UNIT, STRING, STRP, STRX, STR_OFFSETS_BASE,
    Cursor, Section, Unreadable, read_declaration, read_value,
)

# How long a search may take, and how many abbreviation tables are kept.
SECONDS, TABLES = 10, 256

# An attribute of an entry: its code, its form (of an indirect one that which its value names), where its value is.
Attribute = collections.namedtuple("Attribute", "code form value at end")
Entry = collections.namedtuple("Entry", "unit at tag has_children attributes end")


class Unit:
    """The header of a unit at an offset of `.debug_info`. Its fields are None from the first that can't be read on."""

    def __init__(self, file, at):
        self.file, self.at = file, at
        self.version = self.type = self.address_size = self.table = self.first = self.end = None
        self.signature = self.type_offset = None
        self.skip_of = {}
        self.offset_size, cursor = 4, Cursor(file.data, file.info, at)
        self.length = cursor.number(4)
        if self.length == 0xFFFFFFFF:
            self.offset_size, self.length = 8, cursor.number(8)
        self.end = cursor.at + self.length
        cursor.end = min(self.end, cursor.end)
        self.fields = [(at, cursor.at, "length", self.length)]

        def field(what, size):
            self.fields.append((cursor.at, cursor.at + size, what, cursor.number(size)))
            return self.fields[-1][3]

        try:
            self.version = field("version", 2)
            if self.version >= 5:
                self.type, self.address_size = field("type", 1), field("address size", 1)
                self.table = field("offset of the abbreviation table", self.offset_size)
                if self.type in (2, 6):
                    self.signature = field("signature", 8)
                    self.type_offset = field("type offset", self.offset_size)
                elif self.type in (4, 5):
                    field("identity of the split unit", 8)
            else:
                self.table = field("offset of the abbreviation table", self.offset_size)
                self.address_size = field("address size", 1)
            self.first = cursor.at
        except Unreadable:
            pass

    def declaration(self, code):
        """The declaration of a code in the unit's table."""
        found = self.file.table(self.table).get(code)
        if found is None:
            raise Unreadable(f"the code {code} is not declared")
        return found

    def entry(self, at):
        """The entry at an offset, or None for a null."""
        cursor = Cursor(self.file.data, self.file.info, at, self.end)
        code = cursor.leb()
        if code == 0:
            return None
        declaration = self.declaration(code)
        attributes = []
        entry = Entry(self, at, declaration.tag, declaration.has_children, attributes, None)
        try:
            for attribute, form, number in declaration.pairs:
                start = cursor.at
                while form == INDIRECT:
                    form = cursor.leb()
                attributes.append(Attribute(attribute, form, self.value(form, number, cursor), start, cursor.at))
        except Unreadable as error:
            raise Unreadable(str(error), entry) from error
        return entry._replace(end=cursor.at)

    def value(self, form, number, cursor):
        """A value of a form: a number, a text or a block as bytes."""
        # In version 2 this form is an address.
        form = ADDR if form == REF_ADDR and self.version == 2 else form
        return read_value(cursor, form, number, self.offset_size, self.address_size)

    def skips(self, code):
        """How the values of a code's entries are passed: by so many bytes, or by a form. Then whether it has children.
        """
        if code not in self.skip_of:
            declaration, steps = self.declaration(code), [0]
            for _, form, _ in declaration.pairs:
                size = self.offset_size if form in OFFSET else self.address_size if form == ADDR else None
                size = FIXED.get(form, size)
                if size is None or form == REF_ADDR:
                    steps += [~form, 0]
                else:
                    steps[-1] += size
            self.skip_of[code] = [step for step in steps if step], declaration.has_children
        return self.skip_of[code]

    def path_to(self, at):
        """The offsets of the entries above the item at an offset, the first one's at the front."""
        cursor, above = Cursor(self.file.data, self.file.info, self.first, self.end), []
        limit = time.monotonic() + SECONDS
        while cursor.at < at:
            start, code = cursor.at, cursor.leb()
            if code == 0:
                above[-1:] = []
                continue
            steps, has_children = self.skips(code)
            for step in steps:
                if step >= 0:
                    cursor.at += step
                else:
                    form = ~step
                    while form == INDIRECT:
                        form = cursor.leb()
                    self.value(form, 0, cursor)
            if has_children:
                above.append(start)
            if time.monotonic() > limit:
                raise Unreadable(f"the entries before it were not read within {SECONDS} s")
        if cursor.at != at:
            raise Unreadable("no entry starts there")
        return above

    def children(self, entry):
        """The entries right below an entry."""
        place, depth = entry.end, 0
        while entry.has_children:
            child = self.entry(place)
            if child is None:
                place, depth = place + 1, depth - 1
                if depth < 0:
                    return
                continue
            if depth == 0:
                yield child
            place, depth = child.end, depth + child.has_children

    def text(self, attribute):
        """The text of an attribute, or None if it is of another class."""
        form, value, file = attribute.form, attribute.value, self.file
        if form == STRING:
            return value
        if form in STRX:
            base = find(self.entry(self.first), STR_OFFSETS_BASE)
            if base is None:
                raise Unreadable("the unit has no DW_AT_str_offsets_base")
            value = Cursor(file.data, file.section(".debug_str_offsets"), base.value + 4 * value).number(4)
        elif form not in (STRP, LINE_STRP):
            return None
        return Cursor(file.data, file.section(".debug_line_str" if form == LINE_STRP else ".debug_str"), value).text()

    def target(self, attribute):
        """The unit and the offset that a reference resolves to, or None if the attribute is of another class."""
        form, value = attribute.form, attribute.value
        if form in REF_UNIT:
            return self, self.at + value
        if form == REF_ADDR:
            return self.file.unit_of(value), value
        if form == REF_SIG8:
            return self.file.type_of(value)
        return None


def find(entry, code):
    """The first attribute of a code, or None."""
    return next((it for it in entry.attributes if it.code == code), None) if entry else None


class File:
    """An ELF64 file of little-endian order, as far as it can be read."""

    def __init__(self, path):
        with open(path, "rb") as file:
            try:
                self.data = mmap.mmap(file.fileno(), 0, access=mmap.ACCESS_READ)
            except ValueError:
                self.data = b""
        self.type, self.sections, self.tables = None, [], {}
        self.units, self.types, self.last, self.kept = None, None, None, {}
        head = self.data[:64]
        if len(head) == 64 and head[:6] == b"\x7fELF\x02\x01":
            self.type, = struct.unpack_from("<H", head, 16)
            self.sections = self._sections(head)
        self.info, self.abbrev = self.section(".debug_info"), self.section(".debug_abbrev")

    def _sections(self, head):
        start, = struct.unpack_from("<Q", head, 40)
        _, count, names_at = struct.unpack_from("<HHH", head, 58)
        table = self.data[start : start + 64 * count]
        headers = [struct.unpack_from("<IIQQQQ", table, 64 * k) for k in range(len(table) // 64)]
        at, size = headers[names_at][4:6] if names_at < len(headers) else (0, 0)
        names = self.data[at : at + size]
        texts = [names[it[0] : names.find(b"\0", it[0])] for it in headers]
        return [Section(text.decode(errors="replace"), *it[1:3], *it[4:6]) for text, it in zip(texts, headers)]

    def forget(self):
        """Frees the tables, and the pages of the file that were read. What is asked for again is read again."""
        self.tables.clear()
        if self.data:
            self.data.madvise(mmap.MADV_DONTNEED)

    def section(self, name):
        """The bytes of a section. One that is absent, compressed or without bytes is empty."""
        for it in self.sections:
            if it.name == name and it.type != 8 and not it.flags & 0x800:
                return it._replace(size=max(0, min(it.size, len(self.data) - it.start)))
        return Section(name, 1, 0, 0, 0)

    def has_section(self, name):
        return any(it.name == name for it in self.sections)

    def table(self, at):
        """The declarations of an abbreviation table by their codes, as far as they can be read."""
        if at is None:
            raise Unreadable("the unit has no table")
        if at not in self.tables:
            if len(self.tables) == TABLES:
                self.forget()
            table, cursor = self.tables.setdefault(at, {}), Cursor(self.data, self.abbrev, at)
            try:
                while (found := read_declaration(cursor))[0] != 0:
                    table.setdefault(*found)
            except Unreadable:
                pass
        return self.tables[at]

    def starts(self):
        """The offsets of the units, up to the first whose length can't be read."""
        if self.units is None:
            self.units, at, limit = array.array("Q"), 0, time.monotonic() + SECONDS
            while at + 4 <= self.info.size and time.monotonic() < limit:
                self.units.append(at)
                at = self.unit(at).end
            self.forget()
        return self.units

    def unit(self, at):
        """The unit at an offset."""
        if self.last is None or self.last.at != at:
            self.last = self.kept.get(at) or Unit(self, at)
        return self.last

    def unit_of(self, at):
        """The unit that has an offset. Those that were asked for are kept."""
        starts = self.starts()
        place = bisect.bisect_right(starts, at) - 1
        unit = self.unit(starts[place]) if place >= 0 else None
        if unit is None or at >= unit.end:
            raise Unreadable(f"no unit has the offset 0x{at:x}")
        return self.kept.setdefault(unit.at, unit)

    def type_of(self, signature):
        """The unit and the offset of the type that has a signature."""
        if self.types is None:
            self.types = {}
            for unit in map(self.unit, self.starts()):
                if unit.signature is not None and unit.type_offset is not None:
                    self.types.setdefault(unit.signature, (unit.at, unit.at + unit.type_offset))
        if signature not in self.types:
            raise Unreadable(f"no type unit has the signature 0x{signature:016x}")
        unit, at = self.types[signature]
        return self.kept.setdefault(unit, self.unit(unit)), at
