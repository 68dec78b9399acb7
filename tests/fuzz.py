#!/usr/bin/env python3
"""Runs `dwv check` on broken programs: fuzz.py [SECONDS] [SEED] [PROGRAM..].

It takes these PROGRAMs, or compiles those of tests/programs with gcc and clang in versions 4 and 5. It changes each
copy in one to three steps, inside the six sections: 1 to 8 bytes are changed, or a range is cut, copied over another or
swapped with another. Every other file has many small units, most of them sound, some with a fault of any group of rules
or with a byte changed. They share tables or do not, and refer to entries of their own and of one another. Of each file:

- `dwv check` ends within the time limit, with a line of docs/REPORTS.md and the exit status that belongs to it;
- a second run writes the same bytes, and `check --json` has the same exit status;
- the second reader (crates/slow_reader) finds the same fault of the rules E, A, U and G, or none;
- the answer is the same when its units are verified batch after batch and all at once: with strings that end without a
  zero byte, and by `dwv size` if there is a fault.

It prints how often each rule was found, and ends with 'N files agreed, M did not'. A file that does not agree is kept
in the folder of temporary files, with its name printed.
"""
import collections
import itertools
import pathlib
import random
import re
import shutil
import struct
import subprocess
import sys
import tempfile
import time

sys.dont_write_bytecode = True
import common
from common import DWV, TOP

SLOW = TOP / "crates/slow_check/out/slow_check"
# The sources of each program.
SOURCES = (["library.c"], ["shapes.c"], ["shapes.c", "calls.c"])
SECTIONS = {".debug_abbrev", ".debug_info", ".debug_str", ".debug_line_str", ".debug_str_offsets", ".debug_addr"}
# Seconds that a run of dwv may take at most, far above what it takes.
LIMIT = 20
# Files that the second reader gets in one run.
BATCH = 50
COUNTS = re.compile(r"sound: \d+ units, \d+ entries, \d+ types\n")
FAULT = re.compile(
    r"fault ([A-Z]\d+ \w+) at (section \d+|\.debug_(abbrev|info)\+0x[0-9a-f]{8} attribute 0x[0-9a-f]+)\n"
    r"(cycle( 0x[0-9a-f]{8})+\n)?"
)
# Tables for small units, each there twice: one without references to other units, and one with them. And a table that
# has a code twice.
TABLE = bytes.fromhex(
    "0111010000 0224000b0b0000 03160049130000 0424000b080000 053400030e0000 0601010000 0724000000 0941010000 00")
BY_INFO = TABLE[:-1] + bytes.fromhex("08340049100000 00")
TWICE = bytes.fromhex("0111010000 0224000b0b0000 0216000000 00")
# Zero bytes after the tables. With them there is room for the tables of all batches, which are then verified alone.
TABLES = TABLE * 2 + BY_INFO * 2 + TWICE + bytes(1024)
STARTS = (0, len(TABLE), 2 * len(TABLE), 2 * len(TABLE) + len(BY_INFO))
# Entries that are sound: base types and a variable; and a variable whose type is in any unit, which is filled in. And
# entries with a fault: a class, a string, a reference, an array without a type, a typedef of itself, if it is the first
# of its unit, a base type without a size, and an undeclared code.
SOUND = (b"\2\4", b"\2\10", b"\5\0\0\0\0")
ANYWHERE = b"\x08\0\0\0\0"
FAULTY = (b"\4a\0", b"\5\xff\0\0\0", b"\3\x0e\0\0\0", b"\6\0", b"\3\x0d\0\0\0", b"\7", b"\x0a")
# Where the first child of a unit's first entry starts.
FIRST = 13
# The rules that the second reader knows.
READ = ("E", "A", "U", "G")


def built(folder, levels=("-O0",)):
    """Programs of the compilers that are installed, as bytes, compiled at these levels."""
    programs, out = [], folder / "program"
    compilers = filter(common.has, ("gcc", "clang"))
    choices = itertools.product(compilers, (5, 4), levels, ("", "-fdebug-types-section"), SOURCES)
    for compiler, version, level, more, sources in choices:
        if common.compiled(out, f"{compiler} -gdwarf-{version} {level} -fPIC -shared {more}", *sources):
            programs.append(out.read_bytes())
    return programs


def ranges(program, sections=SECTIONS):
    """The place of the header, the offset and the size of each of these sections that the program has, if not empty."""
    table, = struct.unpack_from("<Q", program, 40)
    count, names = struct.unpack_from("<HH", program, 60)
    headers = [struct.unpack_from("<IIQQQQ", program, table + 64 * k) for k in range(count)]
    found = []
    for k, (name, _, _, _, offset, size) in enumerate(headers):
        at = headers[names][4] + name
        text = program[at:program.index(b"\0", at)].decode()
        if text in sections and size > 0:
            found.append((table + 64 * k, offset, size))
    return found


def changed(program, chance):
    """The program with one to three changes inside its sections."""
    file = bytearray(program)
    sections = ranges(program)
    for _ in range(chance.randint(1, 3)):
        header, offset, size = chance.choice(sections)
        size, = struct.unpack_from("<Q", file, header + 32)
        if size == 0:
            continue
        step = chance.choice(["bytes", "bytes", "bytes", "cut", "copy", "swap"])
        if step == "bytes":
            for _ in range(chance.randint(1, 8)):
                old = file[offset + (at := chance.randrange(size))]
                changed = old ^ 1 << chance.randrange(8)
                file[offset + at] = chance.choice([chance.randrange(256), changed, 0, 0x7f, 0x80, 0xff])
            continue
        length = chance.randint(1, min(size, 64))
        one, two = chance.randint(0, size - length), chance.randint(0, size - length)
        if step == "cut":
            file[offset + one:offset + size] = file[offset + one + length:offset + size] + bytes(length)
            struct.pack_into("<Q", file, header + 32, size - length)
        elif step == "copy":
            file[offset + two:offset + two + length] = file[offset + one:offset + one + length]
        elif abs(one - two) >= length:
            part = file[offset + one:offset + one + length]
            file[offset + one:offset + one + length] = file[offset + two:offset + two + length]
            file[offset + two:offset + two + length] = part
    return bytes(file)


def small_units(chance):
    """Small units, of which some have a fault: at most one of trees, and of two kinds of the later groups. Up to four
    that follow one another have one table and may refer to one another; few refer to any unit.
    """
    info, types, references = bytearray(), [], []
    rare, far, faulty = chance.choice([0, 0.02, 0.1, 0.5]), chance.choice([0, 0, 0.05]), chance.sample(FAULTY[:-1], 2)
    for kind in chance.choices(range(4), k=chance.randint(1, 12)):
        own = []
        for _ in range(chance.randint(1 + kind // 2, 4)):
            items = b""
            for _ in range(chance.randint(0, 3)):
                item = chance.choice(faulty if chance.random() < rare else SOUND + (ANYWHERE,) * (kind // 2))
                if item == ANYWHERE:
                    references.append((len(info) + FIRST + len(items) + 1, own))
                items += item
            own.append(len(info) + FIRST + len(items))
            info += common.unit(b"\1" + items + SOUND[0] + b"\0", table=STARTS[kind])
        types.append(own)
    for at, own in references:
        target = chance.choice(own if chance.random() >= far else chance.choice(types))
        struct.pack_into("<I", info, at, chance.randint(0, len(info)) if chance.random() < rare else target)
    some = chance.random()
    if some < 0.1:
        info += common.unit(b"\1" + FAULTY[-1] + b"\0")
    elif some < 0.2:
        info += common.unit(b"\1\2\4\0", table=TABLES.index(TWICE)) * 2
    elif some < 0.3:
        info += common.unit(b"\x09" + SOUND[0] + b"\0", 2, struct.pack("<QI", 1, 0x19))
    elif some < 0.6:
        info[chance.randrange(len(info))] = chance.randrange(256)
    return bytes(info)


def small_file(info):
    """A file with these units, whose strings are one empty string."""
    return common.elf([(".debug_abbrev", 1, TABLES), (".debug_info", 1, info), (".debug_str", 1, b"\0")])


def at_once(file):
    """The file, and after its strings a byte that is not zero: then its units are verified all at once."""
    file = bytearray(file)
    for header, offset, size in ranges(file, {".debug_str"}):
        struct.pack_into("<QQ", file, header + 24, len(file), size + 1)
        file += file[offset:offset + size] + b"\1"
    return bytes(file)


def ran(words, file, program=DWV, more=()):
    """The exit status and the text of a run of dwv, or the reason why there is none."""
    try:
        status, text, errors = common.run(program, *words, file, *more, timeout=LIMIT, text=True)
    except subprocess.TimeoutExpired:
        return None, f"no answer within {LIMIT} s"
    return status, errors or text


def judged(file):
    """The line of a file, and what is wrong with how it is answered, if anything is."""
    status, text = ran(["check"], file)
    if status is None:
        return text, text
    if ran(["check"], file) != (status, text):
        return text, "two runs differ"
    if status != (0 if COUNTS.fullmatch(text) else 1 if FAULT.fullmatch(text) else None):
        return text, f"status {status} with {text!r}"
    if ran(["check", "--json"], file)[0] != status:
        return text, "another status with --json"
    other = ran(["size"], file, more=["0x0"])
    if other != (status, text) and (status, other[0]) != (0, 2):
        return text, f"{other[1]!r} by size"
    whole = file.with_suffix(".whole")
    whole.write_bytes(at_once(file.read_bytes()))
    other = ran(["check"], whole)
    if other != (status, text):
        return text, f"{other[1]!r} all at once"
    return text, None


def rule_of(text):
    """The rule of a line, `sound`, or `no line` of docs/REPORTS.md."""
    fault = FAULT.fullmatch(text)
    return fault.group(1) if fault else "sound" if COUNTS.fullmatch(text) else "no line"


def agreed(files):
    """Which of these files, each with its line, the second reader reads otherwise."""
    ran = subprocess.run([SLOW, *[file for file, _ in files]], capture_output=True, text=True, check=True)
    said = ran.stdout.splitlines()
    wrong = []
    for (file, text), other in zip(files, said, strict=True):
        first = text.split("\n")[0] if rule_of(text).startswith(READ) else "fine"
        if other != first:
            wrong.append((file, f"dwv: {text!r}, the second reader: {other!r}"))
    return wrong


def main():
    seconds = float(sys.argv[1]) if len(sys.argv) > 1 else 60
    seed = int(sys.argv[2]) if len(sys.argv) > 2 else random.randrange(2**32)
    chance = random.Random(seed)
    print(f"{seconds:g} seconds, seed {seed}")
    met = collections.Counter()
    wrong = []
    count = 0
    with common.empty_folder() as folder:
        programs = [pathlib.Path(word).read_bytes() for word in sys.argv[3:]] or built(folder)
        if not programs:
            print("0 files agreed, 0 did not")
            return 0
        end = time.monotonic() + seconds
        while time.monotonic() < end:
            files = []
            for k in range(BATCH):
                file = folder / f"{k}"
                small = k % 2 == 0
                file.write_bytes(small_file(small_units(chance)) if small else changed(chance.choice(programs), chance))
                text, bad = judged(file)
                met[rule_of(text) if bad is None else "no line"] += 1
                if bad is not None:
                    wrong.append((kept(file), bad))
                else:
                    files.append((file, text))
            wrong += [(kept(file), bad) for file, bad in agreed(files)]
            count += BATCH
    for rule, times in sorted(met.items()):
        print(f"{times:8} {rule}")
    for file, bad in wrong:
        print(f"FAILED {file}: {bad}")
    print(f"{count - len(wrong)} files agreed, {len(wrong)} did not")
    return 1 if wrong else 0


def kept(file):
    """A copy of a file that stays."""
    copy = tempfile.mktemp(prefix="dwv-fuzz-")
    shutil.copy(file, copy)
    return copy


if __name__ == "__main__":
    sys.exit(main())
