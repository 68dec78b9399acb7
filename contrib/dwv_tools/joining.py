"""Joins a file with the shared file that dwz moved entries and strings to, in a copy.

The units of the shared file follow those of the file. A reference into the shared file becomes DW_FORM_ref_addr, and a
string of it DW_FORM_strp. Both the form and the value keep their lengths, so each entry of the file keeps its offset.
What the file can't refer to by itself, it can't refer to in the copy: an offset outside its own sections is made one
outside the joined sections too.
"""
import struct

from dwv_tools.copying import SIX, Refused, content
from dwv_tools.reading import (
    INDIRECT, LINE_STRP, REF_ADDR, STRP, Cursor, Section, Unreadable, parts_of_declaration, read_value,
)

# The forms that refer to the shared file: by offset of an entry, and by offset of a string.
REFERENCES, STRINGS = {0x1F20, 0x1C}, {0x1F21, 0x1D}
NEW = dict.fromkeys(REFERENCES, REF_ADDR) | dict.fromkeys(STRINGS, STRP)
# A string or an entry that no section has.
NOWHERE = 0xFFFFFFFF
INDEXED = (".debug_str_offsets", ".debug_addr")


class Rewriter:
    """Changes the values of some forms in the bytes of .debug_info, and the codes of forms in .debug_abbrev.

    `plus` has what is added to the value of a form, and `sizes` from which value on it is outside.
    """

    def __init__(self, sections, plus, sizes, base):
        self.info, self.abbrev = sections[".debug_info"], sections[".debug_abbrev"]
        self.plus, self.sizes, self.base = plus, sizes, base
        self.tables, self.codes, self.unit_at, self.read = {}, {}, 0, 0

    def cursor(self, data, at, end=None):
        return Cursor(data, Section("", 1, 0, 0, len(data)), at, end)

    def run(self):
        while self.unit_at < len(self.info):
            self.unit()
        for at, code in self.codes.items():
            self.abbrev[at : at + len(code)] = code
        for at, table in self.tables.items():
            # Tables may overlap, so that a code of one is something else in another.
            wanted = {code: (has, tuple(NEW.get(form, form) for form in forms)) for code, (has, forms) in table.items()}
            if self.table(at) != wanted:
                raise Refused("its abbreviation tables overlap")

    def note(self, start, end, form, codes):
        """Notes the new code of a form at a place, if the form refers to the shared file."""
        if form in NEW:
            if form not in self.plus:
                raise Refused("the shared file refers to another one")
            count = end - start
            codes[start] = bytes([NEW[form] | 0x80, *[0x80] * (count - 2), 0] if count > 1 else [NEW[form]])

    def table(self, at):
        """The declarations of a table: from a code to whether there are children, and the forms."""
        cursor, found = self.cursor(self.abbrev, at), {}
        while len(parts := list(parts_of_declaration(cursor))) > 1:
            forms = [(start, end, number) for start, end, what, number in parts[:-2] if what == "form"]
            for place in forms:
                self.note(*place, self.codes)
            found.setdefault(parts[0][3], (parts[2][3], tuple(form for *_, form in forms)))
        # Each table is read twice. Tables of which many have a part in common would be read again and again.
        self.read += cursor.at - at
        if self.read > 2 * len(self.abbrev):
            raise Refused("its abbreviation tables overlap")
        return found

    def unit(self):
        """Reads a unit from its header on."""
        cursor = self.cursor(self.info, self.unit_at)
        length, version = cursor.number(4), cursor.number(2)
        end = self.unit_at + 4 + length
        if length >= 0xFFFFFFF0 or version not in (4, 5) or end > len(self.info):
            raise Refused(f"the unit at 0x{self.unit_at:08x} is not one that dwv reads")
        kind, size = (cursor.number(1), cursor.number(1)) if version == 5 else (1, 8)
        table_at, table = cursor.at, cursor.number(4)
        size = cursor.number(1) if version == 4 else size
        if kind not in (1, 3):
            raise Refused(f"the unit at 0x{self.unit_at:08x} is a type unit or a split unit")
        if table not in self.tables:
            self.tables[table] = self.table(table)
        self.info[table_at : table_at + 4] = struct.pack("<I", table + self.base)
        self.values(self.cursor(self.info, cursor.at, end), self.tables[table], size)
        self.unit_at = end

    def values(self, cursor, table, address_size):
        """Changes the values of a unit's entries."""
        while cursor.at < cursor.end:
            code = cursor.leb()
            if code == 0:
                continue
            if code not in table:
                raise Refused(f"the code {code} of an entry is not declared")
            for form in table[code][1]:
                while form == INDIRECT:
                    codes, start = {}, cursor.at
                    form = cursor.leb()
                    self.note(start, cursor.at, form, codes)
                    for at, new in codes.items():
                        self.info[at : at + len(new)] = new
                if form in self.plus:
                    self.change(cursor, form)
                else:
                    read_value(cursor, form, 0, 4, address_size)

    def change(self, cursor, form):
        at, value = cursor.at, cursor.number(4)
        new = value + self.plus[form] if value < self.sizes[form] else NOWHERE
        if new > NOWHERE:
            raise Refused("the joined sections would be too large")
        self.info[at : at + 4] = struct.pack("<I", new)


def sections_of(sections):
    """The bytes of the six sections by their names."""
    found = {name: bytearray() for name in SIX}
    seen = set()
    for it in sections:
        if it.name in found:
            if it.name in seen:
                raise Refused(f"it has two sections {it.name}")
            seen.add(it.name)
            found[it.name] = bytearray(content(it))
    return found


def joined(own, shared):
    """The six sections of a file and of its shared file as one. Both are changed."""
    for name in INDEXED:
        if shared[name] or own[".debug_str_offsets"]:
            raise Refused("it has indexed strings, which dwz does not write")
    for name in (".debug_str", ".debug_line_str"):
        if own[name] and own[name][-1]:
            raise Refused(f"the last string of {name} has no end")
    sizes = {name: len(data) for name, data in own.items()}
    info, texts, lines = sizes[".debug_info"], sizes[".debug_str"], sizes[".debug_line_str"]
    beyond = NOWHERE + 1
    plus = dict.fromkeys(REFERENCES, info) | dict.fromkeys(STRINGS, texts) | {REF_ADDR: 0, STRP: 0, LINE_STRP: 0}
    inside = dict.fromkeys((*REFERENCES, *STRINGS), beyond) | {REF_ADDR: info, STRP: texts, LINE_STRP: lines}
    try:
        Rewriter(own, plus, inside, 0).run()
        Rewriter(shared, {REF_ADDR: info, STRP: texts, LINE_STRP: lines},
                 dict.fromkeys((REF_ADDR, STRP, LINE_STRP), beyond), sizes[".debug_abbrev"]).run()
    except Unreadable as error:
        raise Refused(str(error)) from None
    return {name: bytes(own[name] + shared[name]) for name in SIX}


def join(copy, shared):
    """Joins a copy with the sections of the shared file. Returns where its units begin."""
    own = sections_of(copy.sections)
    start = len(own[".debug_info"])
    numbers = {it.name: number for number, it in enumerate(copy.sections)}
    for name, data in joined(own, sections_of(shared.iter_sections())).items():
        if name in numbers:
            copy.replace(numbers[name], data)
        elif data:
            copy.add(name, data)
    return start
