"""Verifies the DWARF debugging information of linked ELF64 files, by the proved code of libdwv.so.0.

>>> import dwv
>>> dwv.check(b"no ELF file")
Fault(rule='E2', name='NotElf64', section='file', at=0, attribute=0)
>>> print(dwv.check(b"no ELF file"))
fault E2 NotElf64 at section 0

A fault is false in a condition, and counts are true. `verify` raises `NotSound` in place of returning a fault. A file
is given by its path, or as bytes, a bytearray, a memoryview or an mmap, of which a copy is checked.

The library is the one of the path in DWV_LIBRARY, or in this package, or beside it as `make lib` or `make install` put
it, or the one that the system finds. Other threads run during a call.
"""
import ctypes
import mmap
import os
import pathlib
from typing import List, NamedTuple, Optional, Tuple, Union

from dwv import frames, tables

__version__ = "0.9.0"
__all__ = ["CHECK", "CHECK_JSON", "SHOW", "TYPES", "SIZE", "Counts", "Fault", "Entry", "NotSound", "File", "check",
           "check_sections", "verify", "entries", "table", "table_sections", "addresses", "report"]

CHECK, CHECK_JSON, SHOW, TYPES, SIZE = range(5)

File = Union[bytes, bytearray, memoryview, mmap.mmap, str, os.PathLike]


class Counts(NamedTuple):
    """What a sound file has."""

    units: int
    entries: int
    types: int

    def __str__(self) -> str:
        return f"sound: {self.units} units, {self.entries} entries, {self.types} types"


class Fault(NamedTuple):
    """The first rule that a file violates. In the section `file`, the place is the number of a section header."""

    rule: str
    name: str
    section: str
    at: int
    attribute: int

    def __bool__(self) -> bool:
        """False, so that `if dwv.check(file):` is true for sound files alone."""
        return False

    def __str__(self) -> str:
        """The first line that `dwv check` prints. A cycle, its second line after C1, is in `report`."""
        if self.section == "file":
            return f"fault {self.rule} {self.name} at section {self.at}"
        return f"fault {self.rule} {self.name} at {self.section}+{self.at:#010x} attribute {self.attribute:#x}"


class Entry(NamedTuple):
    """An entry of a sound file. The size is None if it is no type, or has none; the name is None if it has none."""

    offset: int
    depth: int
    tag: int
    size: Optional[int]
    name: Optional[bytes]


class NotSound(ValueError):
    """Raised by `verify` for a file that is not sound."""

    def __init__(self, fault: Fault) -> None:
        super().__init__(str(fault))
        self.fault = fault


def check(file: File) -> Union[Counts, Fault]:
    """The counts of a sound file, or the fault of another one."""
    data = _bytes(file)
    raw = _Verdict()
    return _verdict(_library.dwv_check(data, len(data), ctypes.byref(raw)), raw)


def verify(file: File) -> Counts:
    """The counts of a sound file. Any other raises NotSound, with the fault."""
    verdict = check(file)
    if isinstance(verdict, Fault):
        raise NotSound(verdict)
    return verdict


def check_sections(*, info: bytes = b"", abbrev: bytes = b"", str: bytes = b"", line_str: bytes = b"",
                   str_offsets: bytes = b"", addr: bytes = b"") -> Union[Counts, Fault]:
    """The verdict on six sections, which may come from a file of any format. One that is not given is empty."""
    given = [bytes(it) for it in (info, abbrev, str, line_str, str_offsets, addr)]
    raw = _Verdict()
    words = [word for data in given for word in (data, len(data))]
    return _verdict(_library.dwv_check_sections(*words, ctypes.byref(raw)), raw)


def entries(file: File) -> Union[List[Entry], Fault]:
    """The entries of a sound file in rising offset, without their values, or the fault of another one."""
    try:
        found = table(file)
    except NotSound as error:
        return error.fault
    rows = found.columns["entries"]
    return [Entry(offset, depth, tag, found.size(row), found.name(row))
            for row, (offset, depth, tag) in enumerate(zip(rows["offset"], rows["depth"], rows["tag"]))]


def table(file: File, limit: Optional[int] = None) -> tables.Table:
    """The units, entries and values of a sound file. Any other raises NotSound, with the fault.

    A small file may have very many values, of 32 bytes each. If it has more than the limit, MemoryError is raised. The
    limit is else a value for each byte and a million more, which is more than compilers write.
    """
    data = _bytes(file)
    return _table(_library.dwv_table, [data, len(data)], (data,) * 4, limit)


def table_sections(*, info: bytes = b"", abbrev: bytes = b"", str: bytes = b"", line_str: bytes = b"",
                   str_offsets: bytes = b"", addr: bytes = b"", limit: Optional[int] = None) -> tables.Table:
    """The same of six sections, which may come from a file of any format. One that is not given is empty. The limit is
    else by the bytes of `info`."""
    given = [bytes(it) for it in (info, abbrev, str, line_str, str_offsets, addr)]
    words = [word for data in given for word in (data, len(data))]
    return _table(_library.dwv_table_sections, words, (b"", given[0], given[2], given[3]), limit)


def addresses(file: File) -> frames.Addresses:
    """A sound file, to find the functions and lines of its addresses. Any other raises NotSound, with the fault.

    Here the line programs, the files that entries name and the ranges must be valid too."""
    data = _bytes(file)

    def find(asked, most):
        raw = _Verdict()

        def call(*words):
            return _library.dwv_frames(data, len(data), *words, ctypes.byref(raw))

        return _found(frames.read(call, asked, most), raw)

    found = frames.Addresses(find)
    found.find([])
    return found


def report(file: File, request: int = CHECK, offset: int = 0) -> Tuple[int, bytes]:
    """The exit status of a command of the program, and what it prints."""
    data = _bytes(file)
    if not 0 <= offset < 1 << 32:
        raise ValueError("the offset does not fit in 32 bits")
    needed = ctypes.c_size_t(4096)
    while True:
        buffer = ctypes.create_string_buffer(needed.value or 1)
        size = ctypes.sizeof(buffer)
        status = _library.dwv_report(data, len(data), request, offset, buffer, size, ctypes.byref(needed))
        if status == 4:
            raise MemoryError
        if status == 6:
            raise ValueError("there is no such request")
        if status != 5:
            return status, buffer.raw[: needed.value]


def _table(call, words, parts, limit):
    """The table that a call writes. `parts` has the bytes that places count in, by the number of the section."""
    raw = _Verdict()
    return _found(tables.read(lambda rooms, counts: call(*words, *rooms, counts, ctypes.byref(raw)), parts, limit), raw)


def _found(found, raw):
    """What a call found, or what its status raises."""
    if found == 1:
        raise NotSound(_fault(raw))
    if found == 4:
        raise MemoryError
    return found


class _Verdict(ctypes.Structure):
    """struct dwv_verdict of dwv.h."""

    _fields_ = [
        ("units", ctypes.c_uint64),
        ("entries", ctypes.c_uint64),
        ("types", ctypes.c_uint64),
        ("at", ctypes.c_uint32),
        ("attribute", ctypes.c_uint32),
        ("rule", ctypes.c_char * 8),
        ("section", ctypes.c_char * 16),
        ("name", ctypes.c_char * 24),
    ]


def _verdict(status, raw):
    """The verdict of a call that returned this status."""
    if status == 0:
        return Counts(raw.units, raw.entries, raw.types)
    if status == 1:
        return _fault(raw)
    raise MemoryError


def _fault(raw):
    return Fault(raw.rule.decode(), raw.name.decode(), raw.section.decode(), raw.at, raw.attribute)


def _bytes(file):
    """The bytes of a file. Only `bytes` are taken as they are: the others may change during a call."""
    if isinstance(file, bytes):
        return file
    if isinstance(file, (bytearray, memoryview, mmap.mmap)):
        return bytes(memoryview(file))
    if isinstance(file, int):
        raise TypeError("expected the path of a file, or its bytes, not a number")
    with open(file, "rb") as opened:
        return opened.read()


def _loaded():
    """The library, with the types of its calls."""
    here = pathlib.Path(__file__).resolve().parent
    # In a wheel, in a checkout, and where `make install` puts it.
    places = [here / "libdwv.so.0", here.parents[1] / "out/lib/libdwv.so.0", here.parents[2] / "lib/libdwv.so.0"]
    path = os.environ.get("DWV_LIBRARY") or next(filter(pathlib.Path.exists, places), "libdwv.so.0")
    try:
        # ctypes.CDLL releases the lock of the interpreter during a call; PyDLL would not.
        library = ctypes.CDLL(os.fspath(path))
    except OSError as error:
        what = f"{error}: install the library of dwv, or set DWV_LIBRARY to the path of libdwv.so.0"
        raise ImportError(what) from None
    size, pointer = ctypes.c_size_t, ctypes.POINTER
    library.dwv_check.argtypes = [ctypes.c_char_p, size, pointer(_Verdict)]
    library.dwv_check_sections.argtypes = [ctypes.c_char_p, size] * 6 + [pointer(_Verdict)]
    library.dwv_report.argtypes = [ctypes.c_char_p, size, ctypes.c_uint32, ctypes.c_uint32, ctypes.c_char_p, size,
                                   pointer(size)]
    rooms = [ctypes.c_void_p, size] * 3 + [ctypes.c_void_p, pointer(_Verdict)]
    library.dwv_table.argtypes = [ctypes.c_char_p, size, *rooms]
    library.dwv_table_sections.argtypes = [ctypes.c_char_p, size] * 6 + rooms
    library.dwv_frames.argtypes = [ctypes.c_char_p, size, *[ctypes.c_void_p, size] * 4, ctypes.c_void_p,
                                   pointer(_Verdict)]
    for call in (library.dwv_check, library.dwv_check_sections, library.dwv_report, library.dwv_table,
                 library.dwv_table_sections, library.dwv_frames):
        call.restype = ctypes.c_uint32
    return library


_library = _loaded()
