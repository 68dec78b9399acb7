"""Which functions have the addresses of a sound file, and at which lines. `dwv.addresses` makes an Addresses.

The frames at an address need no other module. `arrays` needs numpy, and `to_pandas` pandas.
"""
import array
import ctypes
import functools
from typing import Any, Dict, Iterable, Iterator, List, NamedTuple, Optional, Union

from dwv.tables import NONE, columns_of, written

# The fields of struct dwv_located and dwv_frame of dwv.h, and how many bytes each has.
FIELDS = {
    "located": {"first": 8, "frames": 8},
    "frames": {"line": 8, "column": 8, "name": 8, "name_length": 8, "path": 8, "path_length": 8, "function": 4,
               "unit": 4},
}
# The same of each row, and of the text.
SIZES = {**{part: sum(fields.values()) for part, fields in FIELDS.items()}, "text": 1}

# For how many frames, and how many bytes of names and paths, there is room at first: for twice what an address of
# programs of C++ and Rust needs, and in all for at most 1 GiB.
GUESS, MOST = (12, 2_400), (9_000_000, 500_000_000)


class Frame(NamedTuple):
    """A function that has an address, and a place in it: of the innermost function that of the address, and of each
    other one the call of the function before it. What is not known is None.

    The function is its linkage name, if it has one. `entry` and `unit` are rows of `dwv.table`."""

    function: Optional[bytes]
    file: Optional[bytes]
    line: Optional[int]
    column: Optional[int]
    entry: Optional[int]
    unit: int

    def __str__(self) -> str:
        """As "square at /home/user/demo.c:1:33"; what is not known is ?? or 0."""
        name, path = (_decoded(it or b"??") for it in (self.function, self.file))
        return f"{name} at {path}:{self.line or 0}:{self.column or 0}"


class Arrays(NamedTuple):
    """The rows as structured arrays of numpy, over the memory that the library wrote."""

    located: Any
    frames: Any


class Found:
    """The frames at each of the addresses that were asked for, in their order: a sequence of lists of Frame.

    `columns` has a view of each field of each array. `columns["located"]["first"]` has the row of the first frame at
    each address, and `columns["located"]["frames"]` how many there are. Names and paths are bytes of `text`. `counts`
    has how many addresses, frames and bytes there are.
    """

    def __init__(self, addresses: "array.array[int]", memory: Dict[str, Any], counts: Dict[str, int]) -> None:
        self.addresses, self._memory, self.counts = addresses, memory, counts
        self.text = memoryview(memory["text"])[: counts["text"]]
        self.columns: Dict[str, Dict[str, memoryview]] = {
            part: dict(columns_of(memory[part], fields, counts[part])) for part, fields in FIELDS.items()}

    def __repr__(self) -> str:
        return "Found({located} addresses, {frames} frames)".format(**self.counts)

    def __len__(self) -> int:
        """How many addresses there are."""
        return len(self.addresses)

    def __getitem__(self, number: int) -> List[Frame]:
        """The frames at the address with a number, the innermost first."""
        located = self.columns["located"]
        first = located["first"][number]
        return [self._frame(row) for row in range(first, first + located["frames"][number])]

    def __iter__(self) -> Iterator[List[Frame]]:
        return map(self.__getitem__, range(len(self)))

    def _frame(self, row: int) -> Frame:
        rows = self.columns["frames"]
        name, path = (bytes(self.text[start : start + length]) or None for start, length in
                      ((rows[it][row], rows[f"{it}_length"][row]) for it in ("name", "path")))
        entry = rows["function"][row]
        return Frame(name, path, rows["line"][row] or None, rows["column"][row] or None,
                     None if entry == NONE else entry, rows["unit"][row])

    @functools.cached_property
    def arrays(self) -> Arrays:
        """The rows as structured arrays of numpy."""
        import numpy
        return Arrays(*(numpy.frombuffer(self._memory[part], [(name, f"u{size}") for name, size in fields.items()],
                                         self.counts[part]) for part, fields in FIELDS.items()))

    def to_pandas(self) -> Any:
        """A frame of pandas with a row for each Frame: the address, how many are before it at that address, and its
        fields. Functions and files are categories. What is not known is missing."""
        import numpy
        import pandas
        located, rows = self.arrays
        which = numpy.repeat(numpy.arange(len(located)), located["frames"].astype("i8"))
        numbers = {name: pandas.arrays.IntegerArray(rows[name].copy(), rows[name] == 0) for name in ("line", "column")}
        return pandas.DataFrame({
            "address": numpy.array(self.addresses, "u8")[which],
            "depth": numpy.arange(len(rows)) - located["first"].astype("i8")[which],
            "function": self._categories(rows["name"], rows["name_length"]),
            "file": self._categories(rows["path"], rows["path_length"]),
            **numbers,
            "entry": pandas.arrays.IntegerArray(rows["function"].copy(), rows["function"] == NONE),
            "unit": rows["unit"],
        })

    def _categories(self, starts, lengths) -> Any:
        """Texts as categories."""
        import pandas
        found: Dict[str, int] = {}
        codes = [found.setdefault(_decoded(bytes(self.text[start : start + length])), len(found)) if length else -1
                 for start, length in zip(starts.tolist(), lengths.tolist())]
        return pandas.Categorical.from_codes(codes, list(found))


class Addresses:
    """A sound file that addresses are looked up in. Each look-up verifies the whole file: so ask for many addresses at
    once."""

    def __init__(self, find) -> None:
        self._find, self._most = find, [0, 0]

    def find(self, addresses: Iterable[int]) -> Found:
        """The frames at each of these addresses, which may be an array of numpy."""
        found = self._find(array.array("Q", addresses), self._most)
        self._most = [max(found.counts[part], most) for part, most in zip(("frames", "text"), self._most)]
        return found

    def frames(self, address: int) -> List[Frame]:
        """The frames at an address, the innermost first."""
        return self.find([address])[0]


def read(call, addresses: "array.array[int]", most: List[int]) -> Union[Found, int]:
    """What a call of the library finds for addresses, or its status. `most` has the most frames and bytes of names and
    paths of earlier calls. `call` gets the addresses, the memory and the rooms of the arrays, and the counts."""
    count = len(addresses)
    asked = (ctypes.c_uint64 * max(count, 1)).from_buffer(addresses or array.array("Q", [0]))
    guess = [max(before, min(count * each, limit)) for before, each, limit in zip(most, GUESS, MOST)]
    found = written(lambda rooms, counts: call(asked, count, *rooms, counts), SIZES, [count], guess)
    return found if isinstance(found, int) else Found(addresses, found[0], dict(zip(SIZES, [count, *found[1]])))


def _decoded(text: bytes) -> str:
    return text.decode(errors="backslashreplace")
