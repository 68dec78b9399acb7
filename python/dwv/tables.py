"""What a sound file says, in three arrays: units, entries and values. `dwv.table` makes a Table.

An entry is named by its row, and so is a value. The arrays are the memory that the library wrote, and nothing is
copied. The methods on one entry or value need no other module; `arrays` needs numpy, and the frames pandas.
"""
import ctypes
import functools
import mmap
import pathlib
import re
from typing import Any, Callable, Dict, Iterator, List, NamedTuple, Optional, Tuple, Union

# The row of a parent or of a next sibling that an entry does not have.
NONE = 0xFFFFFFFF
(UNSIGNED, SIGNED, FLAG, ADDRESS, TEXT, BLOCK, EXPRESSION, WIDE, REFERENCE, SECTION_OFFSET, LOCATION_LIST,
 RANGE_LIST) = range(1, 13)
# What a value means, by its kind.
KINDS = (None, "unsigned", "signed", "flag", "address", "text", "block", "expression", "wide", "reference",
         "section_offset", "location_list", "range_list")
# The sections that a text or bytes may be in, by the number that a row has.
SECTIONS = (None, ".debug_info", ".debug_str", ".debug_line_str")

# The fields of struct dwv_unit, dwv_entry and dwv_value of dwv.h, and how many bytes each has.
FIELDS = {
    "units": {"language": 8, "offset": 4, "version": 4, "unit_type": 4, "address_size": 4, "first": 4, "entries": 4,
              "rnglists_base": 4, "loclists_base": 4},
    "entries": {"size": 8, "name": 8, "offset": 4, "depth": 4, "tag": 4, "has_size": 4, "name_length": 4,
                "name_section": 4, "first_value": 8, "values": 4, "unit": 4, "parent": 4, "next_sibling": 4},
    "values": {"number": 8, "length": 4, "section": 4, "entry": 4, "attribute": 4, "kind": 4, "zero": 4},
}
SIZES = {part: sum(fields.values()) for part, fields in FIELDS.items()}
BYTES = (TEXT, BLOCK, EXPRESSION, WIDE)


class Arrays(NamedTuple):
    """The rows as structured arrays of numpy, over the memory of the table."""

    units: Any
    entries: Any
    values: Any


class Table:
    """The units, entries and values of a sound file.

    `columns` has a view of each field of each array, as `columns["entries"]["tag"]`: one number a row. `parts` has the
    bytes that places of names, texts and blocks count in, by the number of the section.
    """

    def __init__(self, parts: Tuple[bytes, ...], memory: Dict[str, Any], counts: Dict[str, int]) -> None:
        self.parts, self._memory, self._counts = parts, memory, counts
        self.columns: Dict[str, Dict[str, memoryview]] = {
            part: dict(columns_of(memory[part], fields, counts[part])) for part, fields in FIELDS.items()}
        entries, values = self.columns["entries"], self.columns["values"]
        self._tags, self._parents, self._next = entries["tag"], entries["parent"], entries["next_sibling"]
        self._first, self._count = entries["first_value"], entries["values"]
        self._attributes, self._kinds, self._numbers = values["attribute"], values["kind"], values["number"]

    def __repr__(self) -> str:
        return "Table({units} units, {entries} entries, {values} values)".format(**self._counts)

    # One entry, by its row

    def __len__(self) -> int:
        """How many entries there are."""
        return self._counts["entries"]

    def tag(self, entry: int) -> str:
        """The tag, as "DW_TAG_base_type"."""
        return name_of("TAG", self._tags[entry])

    def name(self, entry: int) -> Optional[bytes]:
        """The name, or None."""
        entries = self.columns["entries"]
        section, start = entries["name_section"][entry], entries["name"][entry]
        return self.parts[section][start : start + entries["name_length"][entry]] if section else None

    def size(self, entry: int) -> Optional[int]:
        """The size of a type in bytes, or None if it has none."""
        entries = self.columns["entries"]
        return entries["size"][entry] if entries["has_size"][entry] else None

    def parent(self, entry: int) -> Optional[int]:
        """The entry right above, or None."""
        found = self._parents[entry]
        return None if found == NONE else found

    def children(self, entry: int) -> Iterator[int]:
        """The entries right below, in the order of the file."""
        child = entry + 1
        if child < self._counts["entries"] and self._parents[child] == entry:
            while child != NONE:
                yield child
                child = self._next[child]

    def find(self, entry: int, attribute: Union[int, str]) -> Optional[int]:
        """The value of an attribute, given by its code or as "DW_AT_type", or None."""
        code = code_of("AT", attribute) if isinstance(attribute, str) else attribute
        first, attributes = self._first[entry], self._attributes
        for value in range(first, first + self._count[entry]):
            if attributes[value] == code:
                return value
        return None

    def attribute(self, entry: int, attribute: Union[int, str]) -> Any:
        """What an attribute of an entry says, as `value` returns it, or None if the entry does not have it."""
        found = self.find(entry, attribute)
        return None if found is None else self.value(found)

    def attributes(self, entry: int) -> Dict[str, Any]:
        """What all attributes of an entry say, by their names."""
        first = self._first[entry]
        values = range(first, first + self._count[entry])
        return {name_of("AT", self._attributes[it]): self.value(it) for it in values}

    # One value, by its row

    def kind(self, value: int) -> str:
        """What a value means, as "reference"."""
        return KINDS[self._kinds[value]] or ""

    def value(self, value: int) -> Union[int, bool, bytes]:
        """A text, a block or an expression as bytes; a flag as a bool; a reference as the row of an entry; else a
        number."""
        kind, number = self._kinds[value], self._numbers[value]
        if kind == SIGNED:
            return number - (number >> 63 << 64)
        if kind == FLAG:
            return bool(number)
        if kind not in BYTES:
            return number
        values = self.columns["values"]
        found = self.parts[values["section"][value]][number : number + values["length"][value]]
        return int.from_bytes(found, "little") if kind == WIDE else found

    # All of them

    @functools.cached_property
    def arrays(self) -> Arrays:
        """The rows as structured arrays of numpy."""
        import numpy
        return Arrays(*(numpy.frombuffer(self._memory[part], [(name, f"u{size}") for name, size in fields.items()],
                                         self._counts[part]) for part, fields in FIELDS.items()))

    def units(self) -> Any:
        """A frame of the units."""
        import pandas
        return pandas.DataFrame(self.arrays.units)

    def entries(self) -> Any:
        """A frame of the entries: tags and names are categories. What an entry does not have is missing."""
        import pandas
        rows = self.arrays.entries
        frame = pandas.DataFrame({name: rows[name] for name in ("offset", "depth", "unit", "first_value", "values")})
        frame.insert(1, "tag", _named("TAG", rows["tag"]))
        frame.insert(2, "name", self._texts(rows["name"], rows["name_length"], rows["name_section"],
                                            rows["name_section"] != 0))
        frame.insert(3, "size", _optional(rows["size"], rows["has_size"] == 0))
        for name in ("parent", "next_sibling"):
            frame[name] = _optional(rows[name], rows[name] == NONE)
        return frame

    def values(self) -> Any:
        """A frame of the values: attributes, kinds and texts are categories. `number` is that of the row, `signed` the
        same bits with a sign, and `text` is missing if the value is no text."""
        import pandas
        rows = self.arrays.values
        return pandas.DataFrame({
            "entry": rows["entry"],
            "attribute": _named("AT", rows["attribute"]),
            "kind": pandas.Categorical.from_codes(rows["kind"].astype("i1") - 1, KINDS[1:]),
            "number": rows["number"],
            "signed": rows["number"].view("i8"),
            "length": rows["length"],
            "text": self._texts(rows["number"], rows["length"], rows["section"], rows["kind"] == TEXT),
        })

    def to_arrow(self) -> Dict[str, Any]:
        """The three frames as tables of pyarrow, by their names."""
        import pyarrow
        frames = {"units": self.units(), "entries": self.entries(), "values": self.values()}
        return {name: pyarrow.Table.from_pandas(frame) for name, frame in frames.items()}

    def _texts(self, starts, lengths, sections, is_text) -> Any:
        """Texts as categories. Each place of the file is read once."""
        import numpy
        import pandas
        codes = numpy.full(len(starts), -1, "i4")
        places, which = numpy.unique(
            starts[is_text] | sections[is_text].astype("u8") << numpy.uint64(40), return_inverse=True)
        long = numpy.zeros(len(places), "u4")
        long[which] = lengths[is_text]
        found: Dict[str, int] = {}
        numbers = numpy.empty(len(places), "i4")
        for k, (place, length) in enumerate(zip(places.tolist(), long.tolist())):
            start = place & (1 << 40) - 1
            text = self.parts[place >> 40][start : start + length].decode(errors="backslashreplace")
            numbers[k] = found.setdefault(text, len(found))
        codes[is_text] = numbers[which]
        return pandas.Categorical.from_codes(codes, list(found))


def columns_of(memory, fields: Dict[str, int], count: int) -> Iterator[Tuple[str, memoryview]]:
    """A view of each field of `count` rows."""
    view, at, row = memoryview(memory).cast("B"), 0, sum(fields.values())
    for name, size in fields.items():
        words = view.cast("Q" if size == 8 else "I")
        yield name, words[at // size : count * row // size : row // size]
        at += size


def _optional(numbers, is_missing) -> Any:
    """Numbers of which some are missing."""
    import pandas
    return pandas.arrays.IntegerArray(numbers.copy(), is_missing)


def _named(kind: str, codes) -> Any:
    """Codes as categories that have their names."""
    import numpy
    import pandas
    found, which = numpy.unique(codes, return_inverse=True)
    return pandas.Categorical.from_codes(which, [name_of(kind, it) for it in found.tolist()])


@functools.lru_cache(None)
def _names() -> Dict[str, Dict[int, str]]:
    """The names of tags, attributes and languages, from a file that the scripts have too."""
    here = pathlib.Path(__file__).resolve().parent
    folders = [here / "scripts", here.parents[1] / "contrib", here.parent]
    places = [folder / "dwv_tools/names.txt" for folder in folders]
    tables: Dict[str, Dict[int, str]] = {"TAG": {}, "AT": {}, "LANG": {}}
    for line in next(filter(pathlib.Path.exists, places)).read_text().splitlines():
        found = re.match(r"([0-9a-f]{4}) (DW_([A-Z]+)_\w+)$", line)
        if found and found[3] in tables:
            tables[found[3]][int(found[1], 16)] = found[2]
    return tables


@functools.lru_cache(None)
def _codes() -> Dict[str, int]:
    return {name: code for table in _names().values() for code, name in table.items()}


def name_of(kind: str, code: int) -> str:
    """The name of a code: name_of("TAG", 0x24) is "DW_TAG_base_type"."""
    return _names()[kind].get(code) or f"DW_{kind}_0x{code:x}"


def code_of(kind: str, name: str) -> int:
    """The code of a name, also of one that `name_of` makes of a code."""
    found = _codes().get(name)
    if found is None:
        if not name.startswith(f"DW_{kind}_0x"):
            raise KeyError(name)
        found = int(name[len(f"DW_{kind}_"):], 16)
    return found


def usual_limit(length: int) -> int:
    """The most values that a file of so many bytes may have, if no other limit is given: a value for each byte and a
    million more, which is more than compilers write."""
    return length + 1_000_000


def read(call, parts: Tuple[bytes, ...], limit: Optional[int]) -> Union[Table, int]:
    """The table that a call of the library writes, or its status. More values than the limit, or than `usual_limit`
    says, raise MemoryError, before memory is asked for them.

    `call` gets the memory and the rooms of the arrays, and the counts."""
    # Compilers write fewer rows for 64 bytes of .debug_info. In all, these take at most 1 GiB.
    blocks = min(len(parts[1]) // 64, 500_000) + 1
    limit = usual_limit(len(parts[1])) if limit is None else limit

    def accept(counts):
        if counts[2] > limit:
            raise MemoryError(f"{counts[2]} values, and the limit is {limit}")

    found = written(call, SIZES, [], [blocks, 12 * blocks, max(0, min(40 * blocks, limit))], accept)
    return found if isinstance(found, int) else Table(parts, found[0], dict(zip(FIELDS, found[1])))


def written(call, sizes: Dict[str, int], fixed: List[int], guess: List[int],
            accept: Callable[[List[int]], None] = lambda counts: None) -> Union[Tuple[Dict[str, Any], List[int]], int]:
    """The memory of the arrays that a call of the library writes, and the counts that it gives, or its status. The
    first arrays have `fixed` rooms, the others at first those of `guess`. The call is made again only if there is more
    than that, or no memory for so much: then it says how much there is, which `accept` may refuse. What is not written
    is not touched."""
    counts, rooms, is_guess = (ctypes.c_uint64 * len(guess))(), guess, True
    while True:
        try:
            memory = {part: mmap.mmap(-1, max(room, 1) * size, mmap.MAP_PRIVATE | mmap.MAP_ANONYMOUS)
                      for (part, size), room in zip(sizes.items(), [*fixed, *rooms])}
            starts = [ctypes.byref(ctypes.c_char.from_buffer(it)) for it in memory.values()]
            status = call([word for pair in zip(starts, [*fixed, *rooms]) for word in pair], counts)
        except OSError:  # there is no memory
            status = 4
        if status == 0:
            return memory, list(counts)
        if status == 5:
            rooms = list(counts)
            accept(rooms)
        elif status == 4 and is_guess:
            rooms = [0] * len(guess)
        else:
            return status
        is_guess = False
