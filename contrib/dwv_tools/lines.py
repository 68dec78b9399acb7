"""The source file and the line of a declaration, by the line table, which pyelftools reads.

A malformed table may have any number of files, so it is read in a step of its own, within limits.
"""
from dwv_tools import preparing

# How long a table may take. The others take less than a second.
SECONDS = 10


def text(value):
    return value.decode(errors="backslashreplace") if isinstance(value, bytes) else str(value)


def source_of(path, at, number):
    """The name of the source file with a number in the line table of the unit at an offset, or None."""
    from elftools.elf.elffile import ELFFile

    with open(path, "rb") as file:
        dwarf = ELFFile(file).get_dwarf_info(relocate_dwarf_sections=False, follow_links=False)
        found = dwarf.line_program_for_CU(dwarf.get_CU_at(at))
        if found is None:
            return None
        files, folders = found["file_entry"], found["include_directory"]
        is_five = found["version"] >= 5
        entry = files[number if is_five else number - 1]
        if not is_five and number == 0:
            return None
        name, place = text(entry.name), entry.dir_index
        if name.startswith("/") or not (is_five or place):
            return name
        folder = folders[place if is_five else place - 1]
        folder = text(folder) if isinstance(folder, (bytes, str)) else text(folder.name)
        # The first folder of version 5 is that of the compilation, to which names of the unit are relative.
        return name if is_five and place == 0 else f"{folder}/{name}"


def place_of(path, at, file, line, limits):
    """Where a declaration of the unit at an offset is: FILE:LINE, or the line alone if the file is not known."""
    unknown = f"line {line}, of this file or of one that it includes"
    if file is None or path is None:
        return unknown
    limits = limits._replace(seconds=min(limits.seconds or SECONDS, SECONDS))
    try:
        source, _ = preparing.asked("source", path, str(at), str(file), False, limits)
    except preparing.Lost:
        source = None
    return f"{source}:{line}" if source else unknown
