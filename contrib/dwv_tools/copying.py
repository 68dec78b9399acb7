"""Copies an ELF64 file and changes sections in the copy. It stands on pyelftools, which reads the headers.

Sections keep their numbers: new bytes follow the last byte of the file, and the section header tells where. No change
may hide what is wrong with the file, so a copy is `Refused` if its sections can't be read whole as they are.
"""
import io
import shutil
import struct
import sys
import zlib

from dwv_tools.running import LARGEST, LARGEST_SECTION

SIX = (".debug_info", ".debug_abbrev", ".debug_str", ".debug_line_str", ".debug_str_offsets", ".debug_addr")
# `explain` reads the line table too.
READ = (*SIX, ".debug_line")
NOBITS, COMPRESSED, ZLIB, ZSTD = "SHT_NOBITS", 0x800, 1, 2
# How many bytes of a stream are read at first, and at most, at once.
FIRST_PIECE, LAST_PIECE = 256, 2**20
# The most bytes of a section's name that are read. No name that is looked for has as many.
LONGEST_NAME = 64
# A section header has 64 bytes: the name, the type and the flags are its first, its place and its size follow.
NAME, FLAGS, PLACE = 0, 8, 24


class Refused(Exception):
    """A file can't be prepared; the text says why."""


def plain_name(name):
    """The name of a section without what says that it is compressed."""
    return "." + name[2:] if name.startswith(".zdebug_") else name


def read_zlib(data, most):
    """At most so many bytes of the streams of zlib in some data.

    A stream is given in pieces, first small ones, because all that is not of the stream is copied.
    """
    made, at, whole = bytearray(), 0, memoryview(data)
    while at < len(whole) and len(made) < most:
        stream, size = zlib.decompressobj(), FIRST_PIECE
        while not stream.eof and len(made) < most:
            piece = whole[at : at + size]
            if not piece:
                raise zlib.error("the data ends too early")
            made += stream.decompress(piece, most - len(made))
            at, size = at + len(piece) - len(stream.unused_data), min(2 * size, LAST_PIECE)
    return bytes(made)


def read_zstd(data, most):
    """At most so many bytes of the frames of zstd in some data."""
    try:
        import zstandard
    except ImportError:
        why = f"it is compressed by zstd, and the Python package zstandard is not installed for {sys.executable}"
        raise Refused(why) from None
    with zstandard.ZstdDecompressor().stream_reader(io.BytesIO(data), read_across_frames=True) as reader:
        return reader.read(most)


# How each method of compression is undone: in at most so many bytes.
METHODS = {ZLIB: read_zlib, ZSTD: read_zstd}


def inflated(name, data, size, method):
    """The bytes of a compressed section, which must be as many as its header says."""
    if size > LARGEST_SECTION:
        raise Refused(f"{name} would have {size} bytes")
    if method not in METHODS:
        raise Refused(f"{name} is compressed by the unknown method {method}")
    try:
        made = METHODS[method](data, size + 1)
    except Refused as error:
        raise Refused(f"{name}: {error}") from None
    except Exception as error:     # zlib.error, or ZstdError of a package that may not be there
        raise Refused(f"{name} can't be decompressed: {error}") from None
    if len(made) != size:
        raise Refused(f"{name} does not have the {size} bytes that its header says")
    return made


def content(section):
    """The bytes of a section of pyelftools, decompressed."""
    name, stream = section.name, section.stream
    if section["sh_type"] == NOBITS:
        return b""
    stream.seek(section["sh_offset"])
    data = stream.read(section["sh_size"])
    if len(data) != section["sh_size"]:
        raise Refused(f"{name} passes the end of the file")
    if name.startswith(".zdebug_"):
        if data[:4] != b"ZLIB" or len(data) < 12:
            raise Refused(f"{name} has no header of zlib")
        return inflated(name, data[12:], int.from_bytes(data[4:12], "big"), ZLIB)
    if not section.compressed:
        return data
    if len(data) < 24:
        raise Refused(f"{name} has no header of a compressed section")
    method, _, size = struct.unpack_from("<IIQ", data)
    return inflated(name, data[24:], size, method)


def open_elf(path):
    """The ELF64 file at a path, as pyelftools reads it."""
    try:
        from elftools.elf.elffile import ELFFile
    except ImportError:
        raise Refused(f"the Python package pyelftools is not installed for {sys.executable}") from None

    class File(ELFFile):
        """Reads the names of sections once, and of each no more than is compared. Many may share one long name."""

        names = None

        def _get_section_name(self, header):
            table = self._section_header_stringtable
            if table is None:
                raise Refused("the names of its sections can't be read")
            if self.names is None:
                self.stream.seek(table["sh_offset"])
                self.names = self.stream.read(min(table["sh_size"], LARGEST_SECTION))
            name = self.names[header["sh_name"] : header["sh_name"] + LONGEST_NAME]
            return name.partition(b"\0")[0].decode("latin-1")

    elf = File(open(path, "rb"))
    if elf.elfclass != 64 or not elf.little_endian:
        raise Refused("it is for a 32-bit or a big-endian machine")
    end = elf["e_shoff"] + elf.num_sections() * elf["e_shentsize"]
    elf.stream.seek(0, 2)
    if elf["e_shentsize"] != 64 or end > elf.stream.tell():
        raise Refused("its section headers can't be read")
    return elf


class Copy:
    """A copy of the file at `path`, in the file `out`."""

    def __init__(self, path, out):
        self.elf = open_elf(path)
        shutil.copyfile(path, out)
        self.file = open(out, "r+b")
        self.end = self.file.seek(0, 2)
        self.sections = list(self.elf.iter_sections())
        self.start = self.elf["e_shoff"]
        self.names, self.added = {}, []     # from the number of a section to its new name; places and sizes
        for it in self.sections:
            is_inside = it["sh_type"] == NOBITS or it["sh_offset"] + it["sh_size"] <= self.end
            if plain_name(it.name) in SIX and not is_inside:
                raise Refused(f"{it.name} passes the end of the file")

    def _patch(self, number, at, layout, *values):
        self.file.seek(self.start + 64 * number + at)
        self.file.write(struct.pack(layout, *values))

    def replace(self, number, data):
        """Gives a section other bytes, which are not compressed."""
        if self.end + len(data) > LARGEST:
            raise Refused("the copy would be larger than dwv reads")
        self._patch(number, FLAGS, "<Q", self.sections[number]["sh_flags"] & ~COMPRESSED)
        self._patch(number, PLACE, "<QQ", self.end, len(data))
        self.file.seek(self.end)
        self.end += self.file.write(data)

    def decompress(self):
        """Decompresses the sections that are read."""
        for number, it in enumerate(self.sections):
            if plain_name(it.name) in READ and (it.name.startswith(".zdebug_") or it.compressed):
                self.replace(number, content(it))
        self.decompress_names()

    def decompress_names(self):
        """Names no section .zdebug_*: one that is not read loses the dot."""
        for number, it in enumerate(self.sections):
            if it.name.startswith(".zdebug_"):
                self.names[number] = plain_name(it.name) if plain_name(it.name) in READ else it.name[1:]

    def add(self, name, data):
        """Adds a section after the others."""
        self.names[len(self.sections) + len(self.added)] = name
        self.file.seek(self.end)
        self.added.append((self.end, len(data)))
        self.end += self.file.write(data)

    def set_linked(self):
        """Makes the type in the file header that of a shared object."""
        self.file.seek(16)
        self.file.write(struct.pack("<H", 3))

    def _move_headers(self):
        """Puts the section headers to the end, with those of the sections that are added."""
        count = len(self.sections)
        self.file.seek(self.start)
        table = self.file.read(64 * count)
        for at, size in self.added:
            table += struct.pack("<IIQQQQIIQQ", 0, 1, 0, 0, at, size, 0, 0, 1, 0)
        self.file.seek(self.end)
        self.start, self.end = self.end, self.end + self.file.write(table)
        self.file.seek(40)
        self.file.write(struct.pack("<Q", self.start))
        self.file.seek(60)
        self.file.write(struct.pack("<H", count + len(self.added)))

    def close(self):
        """Writes the headers that are added, the new names, and the file."""
        if self.added:
            self._move_headers()
        if self.names:
            number = self.elf.get_shstrndx()
            names = content(self.sections[number])
            if not names.endswith(b"\0") or any(it["sh_name"] >= len(names) for it in self.sections):
                raise Refused("the names of its sections can't be read")
            for place, name in self.names.items():
                self._patch(place, NAME, "<I", len(names))
                names += name.encode() + b"\0"
            self.replace(number, names)
        self.file.close()
