"""What is known of the cause of a fault, and what to do.

A cause is chosen by the rule, by what is at the place of the fault, and by the producer that the unit names. Of several
that fit, the first of the list counts.
"""
import collections
import os

from dwv_tools import dwarf, entries

# `kind` is "compiler" for what a compiler always writes, "limit" for what `dwv` does not read, "file" if the file is
# not what the standard says and no reason is known.
Cause = collections.namedtuple("Cause", "kind text remedy")

# Tags: structures, a member, what a function is made of. An attribute.
STRUCTURES, MEMBER, FUNCTIONS = {0x02, 0x13, 0x17}, 0x0D, {0x2E, 0x0B, 0x1D}
SIGNATURE, LINKAGE_NAME = 0x69, 0x6E
GNU_ALT, GNU_SPLIT = {0x1F20, 0x1F21, 0x1C, 0x1D, 0x24}, {0x1F01, 0x1F02}
ALT_SECTION, BUILD_ID = ".gnu_debugaltlink", ".note.gnu.build-id"


def is_by(place, *words):
    """Whether the producer of the unit has one of these words."""
    return any(word in (place.producer or "").lower() for word in words)


def tag(place):
    return place.entry.tag if place.entry else None


def is_below(place, tags):
    return any(entry.tag in tags for entry in place.above)


def is_foreign_member(place):
    """Whether the entry is a member of a type of a `lib` of Crystal, and not its first one."""
    is_later = tag(place) == MEMBER and place.above and place.at != place.above[-1].end
    return is_later and "::" in (entries.name_of(place.above[-1]) or "")


def form(place):
    """The form of a declaration's attribute that a fault names."""
    fields = place.declaration or []
    for (*_, what, code), (*_, number) in zip(fields, fields[1:]):
        if what == "attribute" and code == place.attribute:
            return number
    return None


def has_type_units(place):
    units = map(place.file.unit, place.file.starts())
    return place.file.has_section(".debug_types") or any(it.signature is not None for it in units)


def debug_file(place):
    """Where the debugging information of a stripped file is stored by its build ID, or None."""
    note = place.file.section(BUILD_ID)
    text = place.file.data[note.start : note.start + note.size]
    if len(text) <= 16 or text[12:16] != b"GNU\0":
        return None
    number = text[16 : 16 + int.from_bytes(text[4:8], "little")].hex()
    return f"/usr/lib/debug/.build-id/{number[:2]}/{number[2:]}.debug"


def without_info(place):
    """The cause of E9."""
    if place.file.has_section(".stab"):
        return Cause("limit", "The debugging information is in the format stabs, which tcc and pcc write.",
                     "Compile with gcc or clang, or with a tcc that knows -gdwarf.")
    at, said = debug_file(place), "The file has no debugging information: it was built without -g, or stripped."
    if at and os.path.exists(at):
        return Cause("limit", said, f"Its debugging information is in another file, which dwv-check finds: {at}")
    more = f" Distributions have it in a package -dbg, -dbgsym or -debuginfo, as {at}." if at else ""
    return Cause("limit", said, f"Build with -g, and check the program before strip.{more}")


def compressed(file):
    """The cause of E7."""
    plain = "dwv-check FILE decompresses it in a copy, and dwv-check -o PLAIN FILE keeps the copy."
    if file.has_section(".go.buildinfo"):
        said = "The linker of Go compresses the debugging information, and dwv does not decompress anything."
        return Cause("limit", said, f"go build -ldflags=-compressdwarf=false, or: {plain}")
    said = "The debugging information is compressed, and dwv does not decompress anything."
    return Cause("limit", said, f"{plain} Or link without -gz and --compress-debug-sections.")


def no_elf(file):
    """The cause of E2."""
    if bytes(file.data[:4]) == b"\x7fELF" and len(file.data) >= 64:
        return Cause("limit", "The file is for a 32-bit or a big-endian machine.",
                     "Only 64-bit little-endian ELF files can be checked.")
    return Cause("file", "The file is no whole ELF file, as those of Linux are.",
                 "Check the program, the shared library or the debug file, as the linker or the package has it.")


def unit_type(place):
    return place.unit.type if place.unit else None


# Rules, whether a cause fits the place, and the cause; or a function that makes it.
KNOWN = [
    ("Z3", lambda it: is_by(it, "clang", "llvm") and "ObjC" in (it.language or "") and tag(it) == MEMBER, Cause(
        "compiler",
        "clang gives Objective-C's objc_object the size 0, with the member isa of 8 bytes: the entry contradicts"
        " itself. It is in each file that names the type id.",
        "Compile the Objective-C files without -g, or with gcc. No change of your source helps.",
    )),
    ("Z3", lambda it: is_by(it, "rustc") and tag(it) == MEMBER, Cause(
        "compiler",
        "rustc gives a structure that ends with a slice or a str (as Path, CStr, and what an Arc of a str points to)"
        " the size of what is before it, and describes the slice as one element, past the end.",
        "Compile the package of the unit with -C debuginfo=1: then it has no types. No flag of rustc changes how they"
        " are described.",
    )),
    ("Z1", lambda it: is_by(it, "ada", "gnat"), Cause(
        "compiler",
        "The size of a record is only known when the program runs (its bounds are computed), or the program was"
        " compiled with -fgnat-encodings=all. DWARF allows a record without a size; dwv can't give it one.",
        "Leave -fgnat-encodings out. If the fault stays, give the record bounds that are known when it is compiled, or"
        " compile this source file without -g.",
    )),
    ("Z1 Z4", lambda it: dwarf.find(it.entry, SIGNATURE), Cause(
        "compiler",
        "The type is described in a type unit, and this entry refers to it by its signature, but gcc left out"
        " DW_AT_declaration, so that the entry has no size.",
        "Compile without -fdebug-types-section.",
    )),
    ("R4", lambda it: it.file.has_section(".debug_types"), Cause(
        "limit",
        "The types are in the section .debug_types (-fdebug-types-section with DWARF 4), and dwv does not read that.",
        "Compile without -fdebug-types-section.",
    )),
    ("Z1 Z4", has_type_units, Cause(
        "compiler",
        "The file was built with -fdebug-types-section, and gcc leaves a size or DW_AT_declaration out then.",
        "Compile without -fdebug-types-section.",
    )),
    ("Z1", lambda it: is_by(it, "gnu c") and tag(it) in STRUCTURES and is_below(it, FUNCTIONS), Cause(
        "compiler",
        "A structure inside a function has a member of variable length (int a[n]; an extension of gcc), so its size is"
        " not known before the program runs. DWARF allows this; dwv can't give the type a size.",
        "Replace the member by a pointer or an array of fixed length. Or compile this source file without -g.",
    )),
    ("K1 Z1 Z3", lambda it: is_by(it, "free pascal", "fpc"), Cause(
        "compiler",
        "Free Pascal describes some types otherwise than the standard says, for example bounds of arrays.",
        "No flag helps: -gw2 and -gw3 write versions that dwv does not read (U3). Verify with another tool, such as"
        " llvm-dwarfdump --verify.",
    )),
    ("A8", lambda it: it.attribute == LINKAGE_NAME and is_by(it, "gnu c"), Cause(
        "compiler",
        "gcc 5 to 7 wrote DW_AT_linkage_name twice in some declarations of functions of the C library. Old packages of"
        " distributions still have it.",
        "Compile with gcc 8 or later, or without -g.",
    )),
    ("Z4", lambda it: is_by(it, "crystal"), Cause(
        "compiler",
        "Crystal gives an enumeration another size than that of its base type. One is in its prelude, and so in each"
        " program that is built with --debug.",
        "Build without --debug: then the program has functions and lines, but no types. Or pass such faults by"
        " dwv-check --allow compiler.",
    )),
    ("Z3", lambda it: is_by(it, "crystal") and is_foreign_member(it), Cause(
        "compiler",
        "Crystal gives some members of a union of C (lib) an offset that has nothing to do with it; it differs from one"
        " build to the next.",
        "Build without --debug: then the program has functions and lines, but no types. Or pass such faults by"
        " dwv-check --allow compiler.",
    )),
    ("E7", None, lambda it: compressed(it.file)),
    ("A7", lambda it: form(it) in GNU_ALT or it.file.has_section(ALT_SECTION), Cause(
        "limit",
        "dwz moved entries of this file into another one (.gnu_debugaltlink), and dwv reads one file at a time.",
        "dwv-check joins it with the other file, if that is here or debuginfod has it (--debuginfod); install the"
        " package's -dbg or -dbgsym package, whole. Or check the file before dwz runs.",
    )),
    ("A7", lambda it: form(it) in GNU_SPLIT, Cause(
        "limit",
        "The file was built with -gsplit-dwarf in DWARF 4, which puts most entries into .dwo files.",
        "Compile without -gsplit-dwarf.",
    )),
    ("E3", None, Cause(
        "limit",
        "The file is an object file (.o, .ko, .dwo) or a core dump. In an object file, offsets have values only once it"
        " is linked.",
        "dwv-check applies the relocations of object files and kernel modules for x86-64, AArch64 and RISC-V in a copy."
        " Of others, check the program or the shared library that is linked from it.",
    )),
    ("U4", lambda it: unit_type(it) in (4, 5, 6), Cause(
        "limit",
        "The file was built with -gsplit-dwarf: most entries are in .dwo files, and this unit only refers to them.",
        "Compile without -gsplit-dwarf.",
    )),
    ("U2", lambda it: it.unit and it.unit.offset_size == 8, Cause(
        "limit",
        "The unit is in the 64-bit format of DWARF.",
        "Compile with -gdwarf32, or without -gdwarf64. An assembler needs --gdwarf-5 without --64bit offsets.",
    )),
    ("U3", lambda it: is_by(it, "nasm", "yasm"), Cause(
        "compiler",
        "nasm writes version 3 of DWARF and yasm version 2, and no flag changes that.",
        "Assemble the source file that the unit is made of without -g.",
    )),
    ("U3", lambda it: is_by(it, "glasgow", "ghc"), Cause(
        "compiler",
        "ghc writes version 3 of DWARF, and no flag of ghc 9.0 changes that.",
        "Compile the modules without -g, or pass such faults by dwv-check --allow compiler.",
    )),
    ("U3", lambda it: is_by(it, "gnu as") and (it.unit_name or "").endswith((".ml", ".mlp")), Cause(
        "compiler",
        "ocamlopt -g leaves the unit to the assembler, which writes version 3 of DWARF for it. The units of OCaml's own"
        " library are so too, in each program that is linked with it.",
        "No flag of ocamlopt helps, because the library is there already: compile without -g, or pass such faults by"
        " dwv-check --allow compiler.",
    )),
    ("U3", lambda it: is_by(it, "gnu as") and it.unit and it.unit.version in (2, 3), Cause(
        "compiler",
        "The unit was written by the assembler for the lines of a source file, in version 3 of DWARF or an earlier"
        " one.",
        "Assemble with as --gdwarf-5 (gcc -Wa,--gdwarf-5), or compile this source file without -g.",
    )),
    ("U3", lambda it: it.unit and it.unit.version in (2, 3), Cause(
        "limit",
        "The unit has version 2 or 3 of DWARF.",
        "Compile with -gdwarf-4 or -gdwarf-5. For assembler files: as --gdwarf-5.",
    )),
    ("E2", None, lambda it: no_elf(it.file)),
    ("E1", None, Cause("limit", "The file is larger than dwv reads.", "Split the program, or use less -g (-g1).")),
    ("E9", None, without_info),
    ("E10", None, Cause(
        "file",
        "A tool such as strip or objcopy took the bytes of a section with debugging information, and left its header.",
        "Check the file before that tool ran, or its .debug file.",
    )),
    ("U7", None, Cause(
        "file",
        "The unit has a header and no entry, so it describes nothing. gcc, clang, GNU as, llvm-mc, nasm and yasm write"
        " no such unit, not even for a source file without code.",
        "Compile the source file that the unit is made of without -g, or leave it out of the program.",
    )),
]

# For all other faults.
UNKNOWN = Cause(
    "file",
    "No compiler is known to write this. The file was damaged, or the last tool that wrote it (compiler, linker, strip,"
    " objcopy, dwz, ..) has a fault.",
    "Build it anew. If the fault stays, check the file as the linker wrote it, before any other tool. If that has the"
    " fault too, report it to the makers of the compiler, with these lines.",
)


def cause(place):
    """The cause of a fault, as far as it is known."""
    for rules, fits, known in KNOWN:
        if place.rule in rules.split() and (fits is None or fits(place)):
            return known(place) if callable(known) else known
    return UNKNOWN
