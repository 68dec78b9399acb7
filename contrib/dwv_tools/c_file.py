"""The entries of a sound file, by the table that the C library makes. The module `dwv` of python/ calls it."""
import bisect
import functools
import pathlib
import sys

from dwv_tools.entries import POINTER, SAME_SIZE
from dwv_tools.reading import (
    ALIGNMENT, BIT_OFFSET, BIT_POSITION, BIT_SIZE, BYTE_SIZE, DECLARATION, LANGUAGE, MEMBER_LOCATION, NAME, TYPE,
)

# The module is beside these scripts where they are installed, and in python/ of a checkout.
sys.path.append(str(pathlib.Path(__file__).resolve().parents[2] / "python"))

ARRAY, SUBRANGE = 0x01, 0x21
UPPER, COUNT, VECTOR = 0x2F, 0x37, 0x2107
# The kinds of values that are numbers: without a sign, with a sign, flags (enum dwv_kind of dwv.h).
NUMBERS, SIGNED = {1, 2, 3}, 2
# How many entries are kept that types refer to, and how many lists of attributes.
KEPT = 2**14


def places(attributes):
    """Where each attribute is among those of an entry, by the bytes of their column."""
    return {attribute: place for place, attribute in enumerate(memoryview(attributes).cast("I"))}


class Entry:
    """An entry of a file, by its row."""

    __slots__ = ("file", "row", "tag", "first", "places")

    def __init__(self, file, row):
        self.file, self.row, self.tag, self.first = file, row, file.tags[row], file.first[row]
        self.places = file.places_of(file.attributes[self.first : self.first + file.count[row]].tobytes())

    @property
    def at(self):
        """Where it starts in `.debug_info`."""
        return self.file.offsets[self.row]

    def name(self):
        """The name, or None."""
        name = self.file.table.name(self.row)
        return None if name is None else name.decode(errors="backslashreplace")

    def number(self, attribute):
        """The number that an attribute has, or None."""
        place = self.places.get(attribute)
        if place is None or (kind := self.file.kinds[self.first + place]) not in NUMBERS:
            return None
        number = self.file.numbers[self.first + place]
        return number - 2**64 if kind == SIGNED and number >= 2**63 else number

    def has(self, attribute):
        return attribute in self.places

    def type(self):
        """The entry that DW_AT_type refers to, or None. It is always a reference."""
        place = self.places.get(TYPE)
        return None if place is None else self.file.entry(self.file.numbers[self.first + place])

    def children(self):
        """The entries right below."""
        return (Entry(self.file, row) for row in self.file.table.children(self.row))

    def language(self):
        """The language of its unit."""
        return self.file.table.columns["units"]["language"][self.file.units[self.row]]

    def size(self):
        """The size of a type, or None. That of a vector is a power of 2."""
        size = self.file.table.size(self.row)
        return 1 << (size - 1).bit_length() if size and self.is_vector() else size

    def is_vector(self):
        return self.tag == ARRAY and self.has(VECTOR)

    def count(self):
        """The count of a dimension, or None."""
        count, upper = self.number(COUNT), self.number(UPPER)
        count = upper + 1 if count is None and upper is not None else count
        return None if count is None or not 0 <= count < 2**63 else count


class File:
    """The table of a file, which has at most so many values, or as many as `dwv.table` takes."""

    def __init__(self, path, limit=None):
        import dwv
        self.table = dwv.table(path, limit)
        entries, values = self.table.columns["entries"], self.table.columns["values"]
        self.tags, self.offsets, self.units = entries["tag"], entries["offset"], entries["unit"]
        self.first, self.count, self.attributes = entries["first_value"], entries["values"], values["attribute"]
        self.numbers, self.kinds = values["number"], values["kind"]
        self.has_vectors = VECTOR in self.attributes.tolist()
        self.entry = functools.lru_cache(KEPT)(functools.partial(Entry, self))
        self.places_of = functools.lru_cache(KEPT)(places)

    def at(self, offset):
        """The entry at an offset."""
        return Entry(self, bisect.bisect_left(self.offsets, offset))

    def named(self, tags):
        """The rows of the entries with these tags and a name."""
        sections = self.table.columns["entries"]["name_section"]
        return (row for row, tag in enumerate(self.tags) if tag in tags and sections[row])
