"""Verifies a file that pyelftools has opened. It decompresses sections, so that compressed ones are no fault (E7).

    with open(path, "rb") as stream:
        elf = ELFFile(stream)
        verdict = dwv.elf.check(elf)        # dwv.Counts, or dwv.Fault
        dwarf = elf.get_dwarf_info()        # of a sound file nothing that `sound` covers fails now
"""
from typing import TYPE_CHECKING, Union

import dwv

if TYPE_CHECKING:
    from elftools.elf.elffile import ELFFile

SECTIONS = ("info", "abbrev", "str", "line_str", "str_offsets", "addr")


def check(elf: "ELFFile") -> Union[dwv.Counts, dwv.Fault]:
    """The verdict on the six sections of an ELF file. It is one of dwv if they are those of a linked file."""
    found = {name: elf.get_section_by_name(f".debug_{name}") for name in SECTIONS}
    return dwv.check_sections(**{name: it.data() for name, it in found.items() if it is not None})
