#!/usr/bin/env python3
"""Runs contrib/explain on the smallest file of each rule, on what compilers make, and on programs that are changed.

It also compares the names of tags and attributes with those of dw_forms, and the entries that it reads with those that
readelf lists. It prints one line a test and ends with 'N passed, N failed, N skipped'.
"""
import json
import random
import re
import shutil
import subprocess
import sys
import time

sys.dont_write_bytecode = True
import common
import compilers
import examples
from common import DWV, TOP
from dwv_tools import dwarf, explaining, finding, measured, names, running
from dwv_tools import lines as line_tables

CHANGES = 200
KEYS = "at attribute cycle name rule section sound".split()
# The flags that lead to a fault, its rule, and a word of what is said.
FLAGS = [
    ("gcc -gdwarf-3", compilers.C, "U3", "-gdwarf-5"),
    ("gcc -gdwarf-5 -gdwarf64", compilers.C, "U2", "-gdwarf32"),
    ("gcc -gdwarf-5 -gsplit-dwarf", compilers.C, "U4", "-gsplit-dwarf"),
    ("gcc -gdwarf-5", "sized.c", "Z1", "variable length"),
    ("gcc -gdwarf-5", "sized.c", "Z1", "declared sized.c:3"),
    ("gcc -gdwarf-4", "sized.c", "Z1", "declared sized.c:3"),
    ("gcc -gdwarf-5 -gz", "sized.c", "Z1", "declared sized.c:3"),
    ("gcc -gdwarf-5 -fdebug-types-section", "nested.c", "Z1", "-fdebug-types-section"),
    ("tcc -g", "named.c", "E9", "stabs"),
    ("gcc -gdwarf-4 -fdebug-types-section", "named.c", "R4", "-fdebug-types-section"),
    ("gcc -g -s", compilers.C, "E9", "strip"),
    ("clang -gdwarf-5", "plain.m", "Z3", "Objective-C"),
    ("g++ -gdwarf-5 -fdebug-types-section", "boxes.cpp", "Z1", "-fdebug-types-section"),
    ("rustc -g", "tails.rs", "Z3", "debuginfo=1"),
    ("nasm -f elf64 -g -F dwarf", "start.asm", "U3", "nasm"),
    ("yasm -f elf64 -g dwarf2", "start.asm", "U3", "yasm"),
    ("ghc -g", "areas.hs", "U3", "ghc writes version 3"),
    ("ocamlopt -g", "joined.ml", "U3", "ocamlopt -g leaves the unit to the assembler"),
    ("crystal build --debug", "colours.cr", "Z4", "without --debug"),
]
# What is changed in a program, and what is found then. The names of a function's parameters are folder and program.
HEAD = b"\x7fELF\x02\x01\x01".ljust(64, b"\0")
KINDS = [
    ("no byte", b"", "The file is empty."), ("a page", b"<!DOCTYPE html><html>", "HTML or XML"),
    ("an archive", b"!<arch>\n" + bytes(60), "an archive"),
    ("a file of macOS", b"\xcf\xfa\xed\xfe" + bytes(60), "Mach-O"),
    ("a file of gzip", b"\x1f\x8b" + bytes(60), "gzip"), ("a text", b"a text of any kind\n", "a text"),
    ("other bytes", bytes(range(64)), "the bytes 00 01 02 03 04 05 06 07"), ("a piece", HEAD[:40], "has 40 bytes"),
    ("32 bits", HEAD[:4] + b"\1\1\1" + HEAD[7:], "32-bit little-endian"),
    ("big-endian", HEAD[:5] + b"\2" + HEAD[6:], "64-bit big-endian"),
]
# Rules of which something is always found in their smallest files.
MEASURED = "E2 E3 E4 E6 A8 U3 U5 U6 G1 R1 R2 R3 S2 Y2 Z1 Z3 Z4".split()
tally = common.Tally(75)


def texts():
    code = (TOP / "crates/dw_forms/src/constants.rt").read_text()
    found = re.findall(r"pub const DW_([A-Z]+)_(\w+): \w+ = \w+\((0x[0-9a-f]+)\)", code)
    odd = [word for kind, word, number in found if names.name(kind, int(number, 16)) != f"DW_{kind}_{word}"]
    tally.same("the names are those of dw_forms", (len(found) > 70, odd), (True, []))


def explained(path):
    """Why a file is not explained as it must be, or None. And the rule of its fault."""
    try:
        verdict = running.check(str(DWV), path)
        if verdict.status != 1:
            return None if verdict.status == 0 else verdict.lines, verdict.what
        lines, fields = explaining.lines(verdict, path), json.loads(json.dumps(explaining.fields(verdict, path)))
        _, wanted, _ = common.run(DWV, "check", "--json", path)
        if lines[0] != verdict.lines[0]:
            return lines[0], verdict.what
        if {key: fields[key] for key in KEYS} != json.loads(wanted):
            return f"{fields}, wanted {wanted}", verdict.what
        return None, verdict.what
    except Exception as error:
        return repr(error), "none"


def every_rule(folder):
    """The smallest file of each rule, except that of E1, which has 1 GB."""
    table, parts = examples.read()
    path = folder / "file"
    for row in table:
        if row.name.startswith("E1 "):
            continue
        path.write_bytes(next(row.files(parts))[0])
        why, what = explained(path)
        if what.split()[0] in MEASURED and not why:
            verdict = running.check(str(DWV), path)
            why = None if measured.found(finding.Place(verdict, path)) else "nothing is found"
        wanted = "sound" if row.name.startswith("sound") else row.name.split(",")[0]
        tally.add(row.name, why or (None if what == wanted else what))


def changed(folder):
    """A program with bytes changed in its sections, at random: no change may stop the script."""
    program = compiled(folder, "gcc -gdwarf-5", "shapes.c calls.c")
    if program is None:
        return
    file, bytes_of, chance, seen = dwarf.File(program), program.read_bytes(), random.Random(1), set()
    path = folder / "changed"
    for number in range(CHANGES):
        section = file.section(chance.choice([".debug_info", ".debug_info", ".debug_abbrev"]))
        text = bytearray(bytes_of)
        byte = chance.choice([0, 1, 0x7F, 0x80, 0xFF, chance.randrange(256)])
        text[section.start + chance.randrange(section.size)] = byte
        path.write_bytes(text)
        why, what = explained(path)
        seen.add(what)
        if why:
            tally.add(f"changed program {number}", why)
    tally.add(f"{CHANGES} changed programs, {len(seen)} rules", None if len(seen) > 8 else seen)


def found(folder):
    """What is found in files of another kind, and in programs that are cut or lost a part."""
    path = folder / "file"
    for name, data, word in KINDS:
        path.write_bytes(data)
        line = [it for it in run(path)[1].splitlines() if it.startswith("Found: ")]
        tally.add(f"found: {name}", None if len(line) == 1 and word in line[0] else line)
    program = compilers.compiled(folder, "gcc -gdwarf-5", compilers.C) if shutil.which("gcc") else None
    if program is None or not shutil.which("objcopy"):
        tally.skip("gcc or objcopy is not installed")
        return
    data, info = program.read_bytes(), dwarf.File(program).info
    start = info.start + 300
    for name, text, word in (("cut", data[:9000], f"{len(data) - 9000} are missing"),
                             ("a lost block", data[:start] + bytes(200) + data[start + 200 :], "may have been lost")):
        path.write_bytes(text)
        said = " ".join(run(path)[1].split())
        tally.add(f"found: {name}", None if f" {word}" in said else said)
    # A line table of 2^56 folders without a name: their count follows that of the formats, at 30.
    table = dwarf.File(program).section(".debug_line").start + 30
    path.write_bytes(data[:table] + b"\0" + b"\xff" * 7 + b"\x7f" + data[table + 9 :])
    begin, limits = time.monotonic(), running.Limits(seconds=1)
    said = line_tables.place_of(str(path), 0, 1, 2, limits), time.monotonic() - begin < 5
    tally.same("a line table without an end", said, ("line 2, of this file or of one that it includes", True))
    subprocess.run(["objcopy", "-R", ".debug_str", program, path])
    tally.add("found: no strings", None if "there is no section .debug_str." in run(path)[1] else run(path)[1])
    subprocess.run(["objcopy", "--strip-all", program, path])
    text = run(path)[1]
    tally.add("a path is in one line", None if re.search(r"\s/usr/lib/debug/\.build-id/\S+\.debug\.\n", text) else text)


def entries(path):
    """The entries of a file: the offset, the tag and the attributes of each."""
    file = dwarf.File(path)
    for unit in map(file.unit, file.starts()):
        at = unit.first
        while at < unit.end:
            entry = unit.entry(at)
            if entry:
                yield at, names.name("TAG", entry.tag), [names.name("AT", it.code) for it in entry.attributes]
            at = entry.end if entry else at + 1


def listed(path):
    """The same as readelf lists it."""
    found = common.readelf_entries(path)
    return [(it.at, f"DW_TAG_{it.tag}", [f"DW_AT_{name}" for name in it.attributes]) for it in found]


def run(*words):
    """The exit status of a run of the script, and what it writes."""
    return common.script("explain", *words)


def has_pyelftools():
    return common.run(common.PYTHON, "-c", "import elftools")[0] == 0


def compiled(folder, command, sources):
    """The program that a command makes of sources, or None after a line that says why."""
    tool = command.split()[0]
    if not tally.has(tool):
        return None
    program = compilers.compiled(folder, command, sources)
    if program is None:
        (tally.lack if tool in common.NEEDED else tally.skip)(f"{command} {sources} does not compile")
    return program


def compilers_write(folder):
    """What compilers make."""
    for command, sources, rule, word in FLAGS:
        path = compiled(folder, command, sources)
        if path is None:
            continue
        if word.startswith("declared") and not has_pyelftools():
            tally.lack("pyelftools is not installed")
            continue
        status, text, errors = run(path)
        is_right = text.startswith(f"fault {rule} ") and word in " ".join(text.split()) and status == 1
        tally.add(f"{command} {sources}: {rule}", None if is_right else text + errors)
        # What refers to a type unit that was left out is doubtful.
        if "A habit of your compiler" in text and "types-section" not in command:
            status, text, errors = common.script("check", "--allow", "compiler", path)
            tally.add(f"{command} {sources}: allowed", None if status == 0 else text + errors)
    for command in ("gcc -gdwarf-5", "gcc -gdwarf-4", "clang -gdwarf-5", "clang -gdwarf-4"):
        path = compiled(folder, command, "shapes.c calls.c")
        if path and tally.has("readelf"):
            tally.same(f"{command}: entries as readelf lists them", list(entries(path)), listed(path))


def words(folder):
    """The words of the command line, and what is written where."""
    sound = "sound: 1 units, 2 entries, 1 types"
    tally.same("a sound file", run(common.SAMPLE), (0, f"{sound}\n", ""))
    status, text, _ = run("--json", common.SAMPLE)
    tally.same("a sound file, --json", (status, json.loads(text)["sound"]), (0, True))
    absent = folder / "none"
    tally.same("no file", run(absent), (3, "", f"explain: {absent}: No such file or directory\n"))
    tally.same("no words", run()[:2], (2, ""))
    program = compiled(folder, "gcc -g", compilers.C)
    if program and tally.has("objcopy") and has_pyelftools():
        packed = folder / "packed"
        subprocess.run(["objcopy", "--compress-debug-sections", program, packed])
        status, text, _ = run(packed)
        is_right = text.startswith("sound: ") and "(decompressed)" in text and "Note: " in text
        tally.add("a compressed file", None if is_right and status == 0 else text)


def main():
    common.build()
    with common.empty_folder() as folder:
        for source, text in compilers.SOURCES.items():
            (folder / source).write_text(text)
        texts()
        every_rule(folder)
        compilers_write(folder)
        changed(folder)
        found(folder)
        words(folder)
    return tally.end()


if __name__ == "__main__":
    sys.exit(main())
