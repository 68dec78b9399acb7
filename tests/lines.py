#!/usr/bin/env python3
"""Compares the rows that dw_lines makes of line programs with those of llvm-dwarfdump and of pyelftools.

`crates/line_rows` prints the rows, the directories and the files. The rows must be those of the two readers, row by row
and field by field, on programs that compilers make. Directories and files must be those of llvm-dwarfdump, and so must
the rows of some programs made by hand, whose instructions have several operations. Small sections are cut at each byte,
and each byte of them is changed: there must be rows, and then at most one fault that has a code. With --all there are
more programs, and the files of this machine that have line programs. It prints a line a file and ends with 'N passed,
N failed, N skipped'.
"""
import importlib.util
import itertools
import os
import pathlib
import re
import shutil
import struct
import subprocess
import sys

sys.dont_write_bytecode = True
import common
import generate
from common import LINE_ROWS

RULES = set(re.findall(r'"([LM]\d+)"', (common.TOP / "crates/dw_lines/src/rule.rt").read_text()))
FLAGS = ("is_stmt", "basic_block", "prologue_end", "epilogue_begin", "end_sequence")
FIELDS = ("line", "column", "file", "isa", "discriminator", "op_index")
WORDS = ("-O0", "-O2", "-gdwarf-2 -gstrict-dwarf", "-gdwarf-3", "-gdwarf-4", "-gdwarf-5",
         "-O2 -ffunction-sections -Wl,--gc-sections", "-O2 -flto -rdynamic", "-O2 -gdwarf-4 -gno-column-info",
         "-ffunction-sections -fuse-ld=lld -Wl,--gc-sections,-z,dead-reloc-in-nonalloc=.debug_line=0xffffffffffffffff")
# Rows from here on are of code that the linker left out. Each reader prints others of them, or none.
TOMBSTONE = 2**64 - 2
OLD = re.compile(r"(?m)^Address .* Discriminator Flags$")
# A directory or a file by its number, as line_rows and as llvm-dwarfdump print it, and the MD5 sum of a file.
OWN_TABLES = re.compile(r'(?m)^(?:directory (\d+) "(.*)"|file (\d+) (\d+) "(.*?)"(?: (\w{32}))?)$')
LLVM_TABLES = re.compile(
    r'(?m)^(?:include_directories\[ *(\d+)\] = "(.*)"|file_names\[ *(\d+)\]:\n +name: "(.*)"\n +dir_index: (\d+)'
    r'(?:\n +md5_checksum: (\w{32}))?)$')
tally = common.Tally(22)
total = dict.fromkeys(("dw_lines", "llvm-dwarfdump", "pyelftools"), 0)


def programs_of(text):
    """The rows of each program by its offset, each row as a list of words, and the fault after them or None."""
    found = {}
    for part in re.split(r"(?m)^debug_line\[", text)[1:]:
        rows = [line.split() for line in part.splitlines() if line.startswith("0x") and line[18:19] == " "]
        rows = [row for row in rows if int(row[0], 16) < TOMBSTONE]
        fault = re.search(r"(?m)^fault (.*)$", part)
        found[int(part[:10], 16)] = rows, fault and fault[1]
    return found


def tables_of(text, pattern):
    """The directories and the files of each program by its offset."""
    parts = re.split(r"(?m)^debug_line\[", text)[1:]
    return {int(part[:10], 16): [sorted(filter(None, it)) for it in pattern.findall(part)] for part in parts}


def printed(*words):
    """What line_rows prints of files, one after another."""
    status, text, errors = common.run(LINE_ROWS, *words, timeout=600, text=True, errors="replace")
    if status or errors:
        raise common.Failed(f"line_rows ends with status {status}: {errors[-200:]}")
    return text


def llvm_programs(tool, path):
    """The programs as llvm-dwarfdump prints them, their tables, and whether its rows have op_index."""
    text = common.run(tool, "--debug-line", path, timeout=600, text=True, errors="replace")[1]
    rows = {at: rows for at, (rows, _) in programs_of(text).items()}
    return rows, tables_of(text, LLVM_TABLES), not OLD.search(text)


def elftools_programs(path):
    """The programs of units as pyelftools reads them."""
    from elftools.construct import StaticField
    from elftools.elf.elffile import ELFFile
    found = {}
    with open(path, "rb") as file:
        dwarf = ELFFile(file).get_dwarf_info()
        for unit in dwarf.iter_CUs():
            at = unit.get_top_DIE().attributes.get("DW_AT_stmt_list")
            if at and at.value not in found:
                # Some versions of pyelftools lack this form, which clang gives checksums.
                unit.structs.Dwarf_dw_form.setdefault("DW_FORM_data16", StaticField("", 16))
                entries = dwarf.line_program_for_CU(unit).get_entries()
                found[at.value] = [words_of(it.state) for it in entries if it.state and it.state.address < TOMBSTONE]
    return found


def words_of(state):
    """The words of a row of pyelftools."""
    flags = [name for name in FLAGS if getattr(state, name)]
    return [f"0x{state.address:016x}", *(str(getattr(state, name)) for name in FIELDS), *flags]


def without_is_stmt(row):
    """A row without what means nothing at the end of a sequence: pyelftools clears is_stmt there."""
    return [it for it in row if it != "is_stmt"] if row[-1] == "end_sequence" else row


def unlike(reader, ours, theirs, change):
    """What is not the same in two readers."""
    for at, rows in theirs.items():
        own, fault = ours.get(at, ([], "not read"))
        total[reader] += len(own)
        own = [change(row) for row in own]
        if fault:
            yield f"0x{at:x}: {fault}, {reader} has {len(rows)} rows"
        elif own != rows:
            k = next((k for k, pair in enumerate(zip(own, rows)) if pair[0] != pair[1]), min(len(own), len(rows)))
            yield f"0x{at:x}: row {k} is {own[k:k + 1]}, that of {reader} {rows[k:k + 1]}"


def compare(title, path, tool, has_elftools):
    """The rows of a file must be those of both readers, and its directories and files those of llvm-dwarfdump."""
    text = printed("--tables", path)
    ours, wrong = programs_of(text), []
    count = sum(len(rows) for rows, _ in ours.values())
    total["dw_lines"] += count
    if tool:
        theirs, tables, has_operations = llvm_programs(tool, path)
        own = tables_of(text, OWN_TABLES)
        wrong += [f"0x{at:x}: tables {own.get(at)}, those of llvm-dwarfdump {it}" for at, it in tables.items()
                  if own.get(at) != it]
        wrong += unlike("llvm-dwarfdump", ours, theirs, lambda row: row if has_operations else row[:6] + row[7:])
        if ours.keys() != theirs.keys():
            wrong.append(f"{len(ours)} programs, llvm-dwarfdump has {len(theirs)}")
    if has_elftools:
        theirs = {at: list(map(without_is_stmt, rows)) for at, rows in elftools_programs(path).items()}
        wrong += unlike("pyelftools", ours, theirs, without_is_stmt)
    wrong += [] if count else ["there is no row"]
    tally.add(title, "; ".join(wrong[:3]), f"{len(ours)} programs, {count} rows")


def compiled(folder, is_all):
    """Programs of the compilers, each with its title. Those of C++ take half a minute in the gate."""
    plans = {"c": (0.03, WORDS), "cpp": (0.3, WORDS[:2])}
    if is_all:
        plans = {"c": (0.3, WORDS), "cpp": (1, WORDS), "rs": (1, common.RUST_WORDS)}
    for language, (megabytes, words) in plans.items():
        yield from common.programs(tally, folder, language, generate.sources(language, megabytes), words)


def by_hand(folder):
    """Programs whose instructions have several operations, for llvm-dwarfdump from version 19 on."""
    counts = bytes((0, 1, 1, 1, 1, 0, 0, 0, 1, 0, 0, 1))
    address = bytes.fromhex("00 09 02 00 10 00 00 00 00 00 00")
    opcodes = address + bytes.fromhex("01  02 03  01  20  7b  08  ff  01  02 ff 7f  01  09 34 12  33  00 01 01")
    opcodes += address + bytes.fromhex("05 03  0a  4c  02 0b  fd  06  0c 02  e7  00 01 01")
    for version, least, most in itertools.product((4, 5), (1, 4), (2, 3, 255)):
        fields = bytes((least, most, 1, 0xfb, 14, 13)) + counts
        start, tables = struct.pack("<H", version), b"dir\0\0a.c\0\1\0\0\0"
        if version == 5:
            start, tables = start + b"\x08\0", b"\1\1\x08\1dir\0" + b"\2\1\x08\2\x0b\2a.c\0\0b.c\0\0"
        content = start + struct.pack("<I", len(fields + tables)) + fields + tables + opcodes
        path = folder / "program"
        sections = [(".debug_info", 1, b""), (".debug_line", 1, struct.pack("<I", len(content)) + content)]
        path.write_bytes(common.elf(sections))
        yield f"version {version}, {least} bytes and {most} operations", path


def installed(folder):
    """The files of this machine that have line programs, decompressed."""
    for path in sorted({*pathlib.Path("/usr/bin").glob("*"), *pathlib.Path("/usr/lib/debug").rglob("*")}):
        if path.is_file() and not path.is_symlink():
            listed = common.run("readelf", "-SW", path, text=True, errors="replace")[1]
            copy = folder / "installed"
            if " .debug_line " in listed and common.run("objcopy", "--decompress-debug-sections", path, copy)[0] == 0:
                yield str(path), copy


def changed(section):
    """Each prefix of a section, and the section with each byte changed to three other values."""
    for end in range(len(section)):
        yield section[:end]
        for byte in (section[end] ^ 1, section[end] ^ 0x80, 255 - section[end]):
            yield section[:end] + bytes([byte]) + section[end + 1:]


def broken(folder, title, path):
    """Rows, and then at most one fault of a program that has a code, on each changed section."""
    part = folder / "section"
    subprocess.run(["objcopy", "-O", "binary", "--only-section=.debug_line", "--set-section-flags",
                    ".debug_line=alloc", path, part], check=True)
    section, original, paths = part.read_bytes(), path.read_bytes(), []
    at = original.index(section)
    for k, it in enumerate(changed(section)):
        # A prefix is all that is left: the header of the section says its size.
        paths.append(folder / f"changed{k}")
        paths[-1].write_bytes(with_section(original, at, len(section), it))
    texts = re.split(r"(?m)^/\S+:$", printed(*paths))[1:]
    wrong, faults = [] if len(texts) == len(paths) else [f"{len(texts)} of {len(paths)} files are read"], 0
    for text in texts:
        for program in re.split(r"(?m)^debug_line\[0x[0-9a-f]{8}\]$", text)[1:]:
            rows = program.strip("\n").splitlines()
            found = rows and re.fullmatch(r"fault ([LM]\d+) \w+ at 0x[0-9a-f]{8}", rows[-1])
            rows, faults = rows[:-1] if found else rows, faults + bool(found)
            if found and found[1] not in RULES or not all(line.startswith("0x") for line in rows):
                wrong.append(program[:100])
    tally.add(title, "; ".join(wrong[:3]) or (None if faults else "no fault"), f"{len(paths)} files, {faults} faults")


def with_section(file, at, size, section):
    """A file with other bytes in a section, and its size in the section's header."""
    table, count = int.from_bytes(file[40:48], "little"), int.from_bytes(file[60:62], "little")
    made = bytearray(file)
    made[at:at + len(section)] = section
    for header in range(table, table + 64 * count, 64):
        if made[header + 24:header + 40] == at.to_bytes(8, "little") + size.to_bytes(8, "little"):
            made[header + 32:header + 40] = len(section).to_bytes(8, "little")
    return bytes(made)


def main():
    common.build_line_rows()
    is_all = "--all" in sys.argv[1:]
    tool = next(filter(shutil.which, ("llvm-dwarfdump-19", "llvm-dwarfdump", "llvm-dwarfdump-14")), None)
    if not tool:
        tally.skip("llvm-dwarfdump is not installed")
    with common.empty_folder() as folder:
        more = installed(folder) if is_all else ()
        for title, path in itertools.chain(compiled(folder, is_all), more):
            compare(title, path, tool, HAS_ELFTOOLS)
        if tool == "llvm-dwarfdump-19":
            for title, path in by_hand(folder):
                compare(title, path, tool, False)
        else:
            tally.skip("several operations: llvm-dwarfdump-19 is not installed")
        for version in (5, 4) if tally.has("objcopy") else ():
            path = folder / "small"
            words = f"gcc -gdwarf-{version} -nostdlib -static -Wl,--build-id=none -Wl,-e,twice -x c"
            (folder / "small.c").write_text("int twice(int x)\n{\n    return x * 2;\n}\n")
            if common.compiled(path, words, folder / "small.c"):
                broken(folder, f"version {version}, cut and changed", path)
    print(", ".join(f"{count} rows of {reader}" for reader, count in total.items()))
    return tally.end()


HAS_ELFTOOLS = importlib.util.find_spec("elftools") is not None
if __name__ == "__main__":
    if not HAS_ELFTOOLS:
        if common.PYTHON != sys.executable:
            os.execv(common.PYTHON, [common.PYTHON, *sys.argv])
        tally.lack("pyelftools is not installed")
    sys.exit(main())
