"""Finds the file that has the debugging information of another one, and the shared file that dwz made.

They are found by `.gnu_debuglink`, by the build ID, and by `.gnu_debugaltlink` or `.debug_sup`, in the places where gdb
looks, and with --debuginfod by the program `debuginfod-find`.
"""
import os
import pathlib
import shutil
import struct
import subprocess
import zlib

from dwv_tools.copying import Refused, content, open_elf

ROOT = "/usr/lib/debug"
# The type of the note that has the build ID, and the most bytes of notes that are read of a file.
BUILD_ID, NOTES = 3, 2**20
GNU_LINK, GNU_ALT, SUPPLEMENT = ".gnu_debuglink", ".gnu_debugaltlink", ".debug_sup"


def build_id(elf):
    """The build ID of a file in hexadecimal, or None. It is looked for in the first bytes of the notes.

    A note of pyelftools may have read all that is behind it, so that many notes take the square of their number.
    """
    left = NOTES
    for section in elf.iter_sections():
        if section["sh_type"] == "SHT_NOTE" and left > 0:
            elf.stream.seek(section["sh_offset"])
            data = elf.stream.read(min(section["sh_size"], left))
            left -= len(data)
            if number := build_id_in(data):
                return number.hex()
    return None


def build_id_in(notes):
    """The build ID in the bytes of notes, or None. Names and descriptions begin at multiples of four bytes."""
    at = 0
    while at + 12 <= len(notes):
        name_size, size, kind = struct.unpack_from("<III", notes, at)
        start = at + 12 + (name_size + 3 & ~3)
        if kind == BUILD_ID and notes[at + 12 : at + 12 + name_size] == b"GNU\0":
            return notes[start : start + size]
        at = start + (size + 3 & ~3)
    return None


def roots(path):
    """The folders of debugging information for a file: that of the system, and those below the folders above it."""
    above = [it for it in pathlib.Path(os.path.abspath(path)).parents if it != it.parent]
    return [ROOT, *filter(os.path.isdir, (f"{folder}{ROOT}" for folder in above))]


def by_id(path, number):
    """Where the debugging information of a build ID may be."""
    return [f"{root}/.build-id/{number[:2]}/{number[2:]}.debug" for root in roots(path)] if number else []


def fetched(number, number_of=build_id):
    """The file that debuginfod has for a build ID. It must have that ID itself."""
    tool = shutil.which("debuginfod-find")
    if tool is None:
        raise Refused("debuginfod-find is not installed")
    if not os.environ.get("DEBUGINFOD_URLS"):
        raise Refused("DEBUGINFOD_URLS names no server")
    ran = subprocess.run([tool, "debuginfo", number], capture_output=True, text=True, errors="replace")
    place = ran.stdout.strip()
    if ran.returncode or not place:
        said = ran.stderr.strip().splitlines()
        raise Refused(f"debuginfod-find has no file of the build ID: {said[-1] if said else 'it gives no reason'}")
    if number_of(open_elf(place)) != number:
        raise Refused(f"debuginfod-find has a file of another build ID: {place}")
    return place


def has_crc(path, wanted):
    """Whether a file has a checksum, as .gnu_debuglink gives it."""
    found = 0
    with open(path, "rb") as file:
        while block := file.read(2**20):
            found = zlib.crc32(block, found)
    return found == wanted


def linked(elf, path):
    """The file that .gnu_debuglink names, with its checksum, or None."""
    section = elf.get_section_by_name(GNU_LINK)
    if section is None:
        return None
    data = content(section)
    name = os.fsdecode(data.partition(b"\0")[0])
    folder = os.path.dirname(os.path.realpath(path))
    places = [f"{folder}/{name}", f"{folder}/.debug/{name}", *(f"{root}{folder}/{name}" for root in roots(path))]
    wanted = int.from_bytes(data[-4:], "little")
    is_other = [it for it in places if os.path.isfile(it) and not os.path.samefile(it, path)]
    return next((it for it in is_other if has_crc(it, wanted)), None)


def debug_file(path, use_debuginfod=False):
    """The file that has the debugging information of the file at a path, or None."""
    elf = open_elf(path)
    number = build_id(elf)
    for place in by_id(path, number):
        if os.path.isfile(place) and not os.path.samefile(place, path) and build_id(open_elf(place)) == number:
            return place
    found = linked(elf, path)
    if found is None and use_debuginfod and number:
        found = fetched(number)
    return found


def has_link(elf):
    """Whether a file names a shared file of dwz."""
    return any(elf.get_section_by_name(it) for it in (GNU_ALT, SUPPLEMENT))


def link_of(elf):
    """The name of the shared file of dwz, its build ID in hexadecimal, and whether it is named by .debug_sup."""
    if section := elf.get_section_by_name(GNU_ALT):
        name, _, number = content(section).partition(b"\0")
        return os.fsdecode(name), number.hex(), False
    name, _, rest = content(elf.get_section_by_name(SUPPLEMENT))[3:].partition(b"\0")
    return os.fsdecode(name), rest[1:].hex(), True


def number_of(elf, is_supplement):
    """The number by which a shared file is known."""
    if not is_supplement:
        return build_id(elf)
    section = elf.get_section_by_name(SUPPLEMENT)
    return content(section)[3:].partition(b"\0")[2][1:].hex() if section else None


def shared_file(elf, path, use_debuginfod=False):
    """The path of the shared file of dwz that the file at a path refers to."""
    name, number, is_supplement = link_of(elf)
    tops = [root[: -len(ROOT)] for root in roots(path)]
    places = [os.path.join(os.path.dirname(os.path.realpath(path)), name), *(top + name for top in tops)]
    places += [f"{root}/.dwz/{os.path.basename(name)}" for root in roots(path)] + by_id(path, number)
    others = 0
    for place in filter(os.path.isfile, places):
        if number_of(open_elf(place), is_supplement) == number:
            return place
        others += 1
    why = f"the shared file of dwz is {'of another build' if others else 'not here'}: {name}"
    if not (use_debuginfod and number):
        raise Refused(why)
    try:
        return fetched(number, lambda it: number_of(it, is_supplement))
    except Refused as error:
        raise Refused(f"{why}; {error}") from None
