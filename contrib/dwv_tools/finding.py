"""What is at the place of a fault: the unit, the entry, and those above it, as far as they can be read."""
import re

from dwv_tools import dwarf, names, reading, running
from dwv_tools.entries import number_of, readable, text_of

LINE = re.compile(
    r"fault ([A-Z]\d+) (\w+) at (?:section (\d+)|(\.debug_\w+)\+0x([0-9a-f]{8}) attribute 0x([0-9a-f]+))"
)
JOINED = re.compile(r"joined with .* from 0x([0-9a-f]{8}) on")
# How many entries above one are read, and how many attributes, entries of a cycle and fields are shown. How many fields
# of a declaration are read.
MOST, FIELDS = 40, 1000
HEADER_RULES = {"U1", "U2", "U3", "U4", "U5", "U6", "U7", "R5", "R6"}


class Place:
    """The place of a fault. What can't be read of it is None, and `trouble` says why. Steps that read more of the file
    keep the limits."""

    def __init__(self, verdict, path, limits=running.Limits()):
        rule, name, number, section, at, attribute = LINE.fullmatch(verdict.lines[0]).groups()
        self.rule, self.name, self.lines, self.note = rule, name, verdict.lines, verdict.note
        self.section, self.at = section or "file", int(at or "0", 16) if section else int(number)
        self.attribute = int(attribute or "0", 16)
        cycles = [line.split()[1:] for line in verdict.lines if line.startswith("cycle ")]
        self.cycle = [int(it, 16) for it in cycles[0]] if cycles else []
        self.unit = self.declaration = self.entry = self.trouble = None
        self.above, self.file, self.limits = [], dwarf.File(path), limits
        try:
            if section == ".debug_abbrev":
                self._find_declaration()
            elif section:
                self._find_entry()
        except reading.Unreadable as error:
            self.entry, self.trouble = error.entry, str(error)
        self.unit_name, self.producer, self.language = self._about_unit()
        self.declared = self._declared()
        # In the file that dwz shared, the line tables are others.
        joined = JOINED.search(verdict.note)
        is_shared = self.unit and joined and self.unit.at >= int(joined[1], 16)
        self.line_table = None if is_shared else path

    def _declared(self):
        """The number of the source file, and the line, of the innermost entry that has a line, or None."""
        for entry in filter(None, [self.entry, *reversed(self.above)]):
            line = number_of(entry, reading.DECL_LINE)
            if line is not None:
                return number_of(entry, reading.DECL_FILE), line
        return None

    def _find_declaration(self):
        """The first unit of the table that has the place, and what can be read of the declaration there."""
        before = (unit for unit in map(self.file.unit, self.file.starts()) if unit.table is not None)
        self.unit = max((unit for unit in before if unit.table <= self.at), key=lambda unit: unit.table, default=None)
        cursor = reading.Cursor(self.file.data, self.file.abbrev, self.at)
        self.declaration = reading.readable_parts(cursor, FIELDS)

    def _find_entry(self):
        self.unit = self.file.unit_of(self.at)
        if self.rule in HEADER_RULES:
            return
        if self.at > self.unit.first:
            self.above = [self.unit.entry(at) for at in self.unit.path_to(self.at)[:MOST]]
        self.entry = self.unit.entry(self.at)

    def _about_unit(self):
        """The name of the unit and its producer and language. Those of another unit serve for one that has none."""
        found = [None, None, None]
        try:
            others = (self.file.unit(at) for at in self.file.starts()[:4096])
            for unit in [self.unit, *others] if self.unit else []:
                entry = readable(unit, unit.first) if unit.first is not None else None
                for k, code in enumerate((reading.NAME, reading.PRODUCER, reading.LANGUAGE)):
                    attribute = dwarf.find(entry, code)
                    if attribute and found[k] is None and (k or unit is self.unit):
                        found[k] = text_of(unit, attribute) if k < 2 else names.name("LANG", attribute.value)
                if found[1]:
                    break
        except (reading.Unreadable, TypeError):
            pass
        return found
