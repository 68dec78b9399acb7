#!/usr/bin/env python3
"""Runs contrib/check on files that it prepares: compressed, shared by dwz, objects, stripped ones, pipes, large ones.

What is prepared has the counts of the file as the linker wrote it, and a file that is changed keeps its fault. It
prints one line a test and ends with 'N passed, N failed, N skipped'.
"""
import contextlib
import importlib.util
import io
import os
import random
import re
import shutil
import socket
import struct
import subprocess
import sys
import threading
import time
import urllib.request
import zlib

sys.dont_write_bytecode = True
import common
from dwv_tools import dwarf, relocating

CHANGES = 30
# Bytes of notes in a file, and tables of relocations that are applied in two ways.
MANY_NOTES, TABLES_TRIED = 640_000, 2_000
COUNTS = "{} files with debugging information, {} ELF files without, {} other files"
TYPES = "-gdwarf-5 -fdebug-types-section"
SOURCE = """struct point { int x, y; struct point *next; }; __thread int many[3];
union both { struct point p; long l; } both; enum colour { RED, GREEN = 300 } colour;
typedef int (*call)(struct point *, ...); call called;
int sum(struct point *p) { static struct point last; last = *p; return p->x + p->y + many[1]; }
"""
tally = common.Tally(69)


def run(*words, **env):
    return common.script("check", *words, **env)


def line(path):
    """What the script says of a file: the line of `dwv`, and the note in parentheses or nothing."""
    text = run(path)[1].rstrip("\n").removeprefix(f"{path}: ")
    found = re.fullmatch(r"(.*?)(?: \((.*)\))?", text)
    return found[1], found[2] or ""


def dwv(path):
    """The line of `dwv` itself."""
    return common.run(common.DWV, "check", path, text=True)[1].split("\n")[0]


def objcopy(*words):
    return subprocess.run(["objcopy", *words], capture_output=True).returncode == 0


def same(name, path, wanted, note):
    tally.same(name, line(path), (wanted, note))


def places(path, names=(".debug_info", ".debug_abbrev", ".debug_str", ".debug_line_str")):
    """The offset in a file and the size of each section."""
    file = dwarf.File(path)
    return {name: (file.section(name).start, file.section(name).size) for name in names if file.section(name).size}


def change(path, out, at, data):
    """Writes a copy of a file with other bytes at an offset."""
    text = bytearray(path.read_bytes())
    text[at : at + len(data)] = data
    out.write_bytes(text)
    return out


def changes(path, seed, barred=()):
    """Changes at random, the same for a seed: a section, an offset in it and a byte."""
    chance = random.Random(seed)
    found = places(path)
    while True:
        name = chance.choice([".debug_info", ".debug_info", *found])
        at = chance.randrange(found[name][1])
        byte = chance.choice([0, 1, 0x7F, 0x80, 0xFF, chance.randrange(256)])
        if (name, at) not in barred:
            yield name, at, bytes([byte])


def compressed(folder):
    """Compressed sections of each kind, and such as can't be decompressed."""
    program = folder / "program"
    common.compiled(program, "gcc -gdwarf-5", "shapes.c", "calls.c")
    wanted = dwv(program)
    for kind in ("zlib", "zlib-gnu", "zstd"):
        packed = folder / f"packed-{kind}"
        if not objcopy(f"--compress-debug-sections={kind}", program, packed):
            tally.skip(f"objcopy does not know {kind}")
            continue
        same(f"sections compressed by {kind}", packed, wanted, "decompressed")
        same("a copy is written", run("-o", folder / "plain", packed) and folder / "plain", wanted, "")
        tally.same(f"--unprepared, {kind}", run("--unprepared", packed)[1].split()[1:4:2], ["fault", "Compressed"])
    packed = folder / "packed-zlib"
    info, _ = places_of_compressed(packed)
    for name, at, data, why in (
        ("a size of 2^40 bytes", info + 8, struct.pack("<Q", 2**40), "would have 1099511627776 bytes"),
        ("a size that is one too small", info + 8, struct.pack("<Q", size_of(packed, info) - 1), "does not have the"),
        ("a size that is one too great", info + 8, struct.pack("<Q", size_of(packed, info) + 1), "does not have the"),
        ("an unknown method", info, struct.pack("<I", 7), "unknown method 7"),
        ("bytes of something else", info + 24, b"\xff" * 16, "can't be decompressed"),
    ):
        said, note = line(change(packed, folder / "bad", at, data))
        is_right = said.startswith("fault E7 ") and note.startswith("not prepared: .debug_info") and why in note
        tally.add(name, None if is_right else (said, note))
    wrong = []
    for number, (name, at, data) in zip(range(CHANGES), changes(program, 1)):
        changed = change(program, folder / "changed", places(program)[name][0] + at, data)
        objcopy("--compress-debug-sections=zlib", changed, folder / "packed")
        if line(folder / "packed") != (dwv(changed), "decompressed"):
            wrong.append((number, line(folder / "packed"), dwv(changed)))
    tally.add(f"{CHANGES} changed programs, compressed", wrong)


def places_of_compressed(path):
    it = next(it for it in dwarf.File(path).sections if it.name == ".debug_info")
    return it.start, it.size


def size_of(path, at):
    return struct.unpack_from("<Q", path.read_bytes(), at + 8)[0]


def count(path):
    """How many entries readelf lists."""
    return len(common.readelf_entries(path))


def objects(folder):
    """Object files: what is said of them is what is said of the linked program."""
    source = folder / "object.c"
    source.write_text(SOURCE)
    for command in ("gcc -gdwarf-5", "gcc -gdwarf-4 -O2", "g++ -gdwarf-5", "clang -gdwarf-5", "clang -gdwarf-4",
                    f"clang++ {TYPES}", "gcc -gdwarf-5 -gz"):
        if not shutil.which(command.split()[0]):
            tally.skip(f"{command.split()[0]} is not installed")
            continue
        made, linked = folder / "object.o", folder / "linked"
        common.compiled(made, f"{command} -c", source)
        common.compiled(linked, f"{command} -shared -fPIC", source)
        said, note = line(made)
        more = ", 4 sections .debug_info joined" if TYPES in command else ""
        plain = dwv(linked) if "-gz" not in command else line(linked)[0]
        tally.same(f"an object, {command}", (said, note), (plain, f"relocations applied{more}"))
    if shutil.which("clang"):
        for machine in ("x86_64", "aarch64", "riscv64"):
            made = folder / f"{machine}.o"
            command = f"clang --target={machine}-linux-gnu -gdwarf-5 -c"
            if not common.compiled(made, command, source):
                tally.skip(f"clang does not compile for {machine}")
                continue
            said, note = line(made)
            found = re.fullmatch(r"sound: 1 units, (\d+) entries, \d+ types", said)
            is_right = found and note == "relocations applied" and int(found[1]) == count(made)
            tally.add(f"an object of {machine}", None if is_right else (said, note, count(made)))
    without = folder / "without.o"
    common.compiled(without, "gcc -c", source)
    said, note = line(without)
    tally.same("an object without -g", (said.split()[1], note),
               ("E3", "not prepared: it is an object file without a section .debug_info"))


def relocations(path, target=".debug_info"):
    """Where the relocations of a section are, and in which bytes of the section; where their types are."""
    it = next(it for it in dwarf.File(path).sections if it.name == f".rela{target}")
    rows = list(struct.iter_unpack("<QQq", path.read_bytes()[it.start : it.start + it.size]))
    return it.start, {(target, at + k) for at, _, _ in rows for k in range(8)}


def changed_objects(folder):
    """An object with bytes changed has the fault of the linked file with the same bytes changed."""
    made, copy = folder / "changed.o", folder / "relocated"
    common.compiled(made, "gcc -gdwarf-5 -c", "shapes.c")
    run("-o", copy, made)
    start, barred = relocations(made)
    wrong, there, after = [], places(made), places(copy)
    for number, (name, at, data) in zip(range(CHANGES), changes(made, 2, barred)):
        changed = change(made, folder / "one", there[name][0] + at, data)
        wanted = dwv(change(copy, folder / "two", after[name][0] + at, data))
        if line(changed) != (wanted, "relocations applied"):
            wrong.append((number, line(changed), wanted))
    tally.add(f"{CHANGES} changed objects", wrong)
    for name, at, data, why in (
        ("an unknown relocation", start + 8, struct.pack("<I", 99), "has a relocation of the unknown type 99"),
        ("a relocation of no symbol", start + 12, struct.pack("<I", 9999), "outside the section, or of no symbol"),
        ("a relocation outside", start, struct.pack("<Q", 2**40), "outside the section, or of no symbol"),
        ("a relocation that is too great", start + 16, struct.pack("<q", 2**40), "does not fit into 4 bytes"),
    ):
        said, note = line(change(made, folder / "bad", at, data))
        tally.same(name, (said.split()[1], why in note), ("E3", True))
    # The first relocation of .debug_info is of the table's offset.
    said, note = line(change(made, folder / "bad", start + 16, struct.pack("<q", 10**6)))
    tally.same("an offset that is wrong in the object", (said.split()[1], note), ("U6", "relocations applied"))


def by_dwz(folder):
    """Files that dwz took entries from."""
    for words, title in ((["-m"], "dwz"), (["--dwarf-5", "-m"], "dwz --dwarf-5")):
        one, two, shared = folder / "one", folder / "two", folder / "shared"
        common.compiled(one, "gcc -gdwarf-5", "shapes.c", "calls.c")
        shutil.copy(one, two)
        ran = subprocess.run(["dwz", *words, shared, one, two], capture_output=True)
        if ran.returncode or not shared.exists():
            tally.skip(f"{title} makes no shared file")
            continue
        tally.same(f"{title}: dwv refuses it", dwv(one).split()[1], "A7")
        wanted = count(one) + count(shared)
        for path in (one, two):
            said, note = line(path)
            found = re.fullmatch(r"sound: \d+ units, (\d+) entries, \d+ types", said)
            is_right = found and note.startswith(f"joined with {shared} from 0x")
            tally.add(f"{title}: {path.name}", None if is_right else (said, note))
            if found and path == one:
                tally.same(f"{title}: the entries of both", int(found[1]), wanted)
        tally.same(f"{title}: the shared file", line(shared)[0].split(":")[0], "sound")
        changed_by_dwz(folder, title, one, shared)
        objcopy("--compress-debug-sections", one, folder / "packed")
        said, note = line(folder / "packed")
        tally.add(f"{title}, and compressed", None if note.startswith("decompressed, joined with") else (said, note))
        moved = folder / "moved"
        shared.rename(moved)
        wanted = "not prepared: the shared file of dwz is "
        tally.same(f"{title}: no shared file", line(one)[1], f"{wanted}not here: {shared}")
        common.compiled(shared, "gcc -g", "shapes.c", "calls.c")
        tally.same(f"{title}: another one", line(one)[1], f"{wanted}of another build: {shared}")
        for path in (one, two, shared, moved):
            path.unlink()


def changed_by_dwz(folder, title, one, shared):
    """A change that is a fault in the joined file is one before it is joined."""
    copy = folder / "joined"
    run("-o", copy, one)
    there, after, wrong, same = places(one), places(copy), [], 0
    for number, (name, at, data) in zip(range(CHANGES), changes(one, 3)):
        changed = change(one, folder / "changed", there[name][0] + at, data)
        said, wanted = line(changed)[0], dwv(change(copy, folder / "two", after[name][0] + at, data))
        same += said == wanted
        if wanted.startswith("fault") and not said.startswith("fault"):
            wrong.append((number, name, at, said, wanted))
    tally.add(f"{title}: {CHANGES} changed files", wrong or (same < CHANGES // 2 and same))
    # What is outside of the file itself may not become something in the shared file.
    for name, at, size, value in outside(one):
        said, note = line(change(one, folder / "changed", at, value.to_bytes(size, "little")))
        tally.add(f"{title}: {name}", None if said.startswith("fault") else (said, note))


def outside(path):
    """Changes of a file by which it refers to what follows its own sections."""
    file = dwarf.File(path)
    names = {0x0E: ("a string", ".debug_str"), 0x1F: ("a string of lines", ".debug_line_str"),
             0x10: ("an entry", ".debug_info")}
    for unit in map(file.unit, file.starts()):
        entry = unit.entry(unit.first)
        for it in entry.attributes:
            if it.form in names:
                title, section = names.pop(it.form)
                yield f"{title} outside {section}", file.info.start + it.at, 4, file.section(section).size + 1
    unit = file.unit(0)
    yield "a table outside", file.info.start + 8, 4, file.abbrev.size
    last = file.unit(file.starts()[-1])
    yield "a unit that is too long", file.info.start + last.at, 4, last.length + 40
    strings = file.section(".debug_str")
    if strings.size:
        yield "a last string without an end", strings.start + strings.size - 1, 1, 65


def links(folder):
    """Stripped files whose debugging information is in another file."""
    full, stripped, apart = folder / "full", folder / "usr/bin/stripped", folder / "usr/bin/apart.debug"
    stripped.parent.mkdir(parents=True)
    common.compiled(full, "gcc -gdwarf-5 -Wl,--build-id", "shapes.c", "calls.c")
    objcopy("--only-keep-debug", full, apart)
    objcopy("--strip-all", f"--add-gnu-debuglink={apart}", full, stripped)
    wanted = dwv(full)
    same("a file beside it, by .gnu_debuglink", stripped, wanted, f"its debug file {apart}")
    (stripped.parent / ".debug").mkdir()
    apart.rename(stripped.parent / ".debug/apart.debug")
    same("in the folder .debug", stripped, wanted, f"its debug file {stripped.parent}/.debug/apart.debug")
    objcopy("--compress-debug-sections", stripped.parent / ".debug/apart.debug", apart)
    (stripped.parent / ".debug/apart.debug").unlink()
    tally.same("a file with another checksum", line(stripped)[0].split()[1], "E9")
    number = number_of(full)
    by_id = folder / f"usr/lib/debug/.build-id/{number[:2]}/{number[2:]}.debug"
    by_id.parent.mkdir(parents=True)
    apart.rename(by_id)
    same("by the build ID, and compressed", stripped, wanted, f"its debug file {by_id}, decompressed")
    _, text, _ = run("--summary", stripped, folder / "usr/bin")
    tally.same("in a folder", text.splitlines()[0].split(), ["1", "sound"])
    by_id.rename(folder / "served")
    tally.same("no debug file", line(stripped), ("fault E9 NoInfo at section 0", ""))
    tool = folder / "tools/debuginfod-find"
    tool.parent.mkdir()
    tool.write_text(f'#!/bin/sh\n[ "$*" = "debuginfo {number}" ] && echo "{folder}/served"\n')
    tool.chmod(0o755)
    env = {"PATH": f"{tool.parent}:{os.environ['PATH']}", "DEBUGINFOD_URLS": "http://127.0.0.1"}
    text = run("--debuginfod", stripped, **env)[1]
    tally.same("by debuginfod", text, f"{stripped}: {wanted} (its debug file {folder}/served, decompressed)\n")
    tally.same("debuginfod has none", run("--debuginfod", full.with_name("usr"), **env)[0], 0)
    common.compiled(folder / "served", "gcc -gdwarf-5 -O1 -Wl,--build-id", "shapes.c", "calls.c")
    why = f"not prepared: debuginfod-find has a file of another build ID: {folder}/served"
    tally.same("debuginfod has a file of another build", run("--debuginfod", stripped, **env)[1],
               f"{stripped}: fault E9 NoInfo at section 0 ({why})\n")
    tally.same("no server is named", run("--debuginfod", stripped, **env | {"DEBUGINFOD_URLS": ""})[1],
               f"{stripped}: fault E9 NoInfo at section 0 (not prepared: DEBUGINFOD_URLS names no server)\n")


def number_of(path):
    """The build ID of a file in hexadecimal."""
    note = dwarf.File(path).section(".note.gnu.build-id")
    return path.read_bytes()[note.start + 16 : note.start + note.size].hex()


@contextlib.contextmanager
def server(folder, numbers):
    """The address of debuginfod for the files of a folder, which it serves while the block runs; None if it does not
    have the debug files of these build IDs within a minute."""
    with socket.socket() as it:
        it.bind(("127.0.0.1", 0))
        port = it.getsockname()[1]
    address, words = f"http://127.0.0.1:{port}", ["-F", "-d", ":memory:", "-p", str(port), "-c", "1"]
    with open(folder.parent / "debuginfod.out", "wb") as out:
        process = subprocess.Popen(["debuginfod", *words, folder], stdout=out, stderr=out)
    try:
        end, left = time.monotonic() + 60, list(numbers)
        while left and time.monotonic() < end:
            try:
                urllib.request.build_opener(urllib.request.ProxyHandler({})).open(
                    f"{address}/buildid/{left[0]}/debuginfo", timeout=10).close()
                left.pop(0)
            except OSError:
                time.sleep(0.2)
        yield None if left else address
    finally:
        process.terminate()
        process.wait()


def served(folder):
    """A stripped file and one of dwz, whose other files a real debuginfod has."""
    if not all(map(shutil.which, ("debuginfod", "debuginfod-find"))):
        tally.skip("debuginfod is not installed")
        return
    place, here = folder / "served-files", folder / "here"
    place.mkdir(), here.mkdir()
    full, stripped = here / "full", here / "stripped"
    common.compiled(full, "gcc -gdwarf-5 -Wl,--build-id", "shapes.c", "calls.c")
    objcopy("--only-keep-debug", "--compress-debug-sections=zlib", full, place / "full.debug")
    objcopy("--strip-all", full, stripped)
    wanted, numbers, shared = dwv(full), [number_of(full)], here / "shared"
    if shutil.which("dwz"):
        one, two = here / "one", here / "two"
        common.compiled(one, "gcc -gdwarf-5 -Wl,--build-id", "shapes.c", "calls.c")
        shutil.copy(one, two)
        subprocess.run(["dwz", "-m", shared, one, two], capture_output=True)
    joined = line(one)[0] if shared.exists() else None
    if joined:
        numbers.append(number_of(shared))
        shared.rename(place / "shared.debug")
    with server(place, numbers) as address:
        if address is None:
            tally.add("debuginfod", (folder / "debuginfod.out").read_text(errors="replace")[-500:])
            return
        env = {"DEBUGINFOD_URLS": address, "DEBUGINFOD_CACHE_PATH": str(folder / "cache"), "no_proxy": "127.0.0.1"}
        cached = f"{folder}/cache/{number_of(full)}/debuginfo"
        tally.same("a stripped file, by a debuginfod that runs", run("--debuginfod", stripped, **env)[:2],
                   (0, f"{stripped}: {wanted} (its debug file {cached}, decompressed)\n"))
        tally.same("without --debuginfod", run(stripped, **env)[1], f"{stripped}: fault E9 NoInfo at section 0\n")
        tally.same("explain --debuginfod", common.script("explain", "--debuginfod", stripped, **env)[1].split(" (")[0],
                   wanted)
        if joined is None:
            tally.skip("dwz makes no shared file")
            return
        status, text, _ = run("--debuginfod", one, **env)
        cached = f"{folder}/cache/{numbers[1]}/debuginfo"
        is_right = text.startswith(f"{one}: {joined} (joined with {cached} from 0x") and status == 0
        tally.add("the shared file of dwz, by debuginfod", None if is_right and joined[:5] == "sound" else text)
        env["DEBUGINFOD_CACHE_PATH"] = str(folder / "other-cache")
        common.compiled(full, "gcc -gdwarf-5 -O1 -Wl,--build-id", "shapes.c", "calls.c")
        objcopy("--strip-all", full, stripped)
        why = "not prepared: debuginfod-find has no file of the build ID: "
        text = run("--debuginfod", stripped, **env)[1]
        is_right = text.startswith(f"{stripped}: fault E9 NoInfo at section 0 ({why}")
        tally.add("debuginfod that does not have it", None if is_right else text)


def sizes(folder):
    """Files that are not read: too large, a device, a FIFO, a socket. And pipes without a name, which are."""
    large = folder / "large"
    with open(large, "wb") as file:
        file.truncate(5 << 30)
    said = line(large)
    tally.same("a file of 5 GB", said, ("fault E1 TooLarge at section 0", "by its size: it is not read"))
    large.unlink()
    pipe, place = folder / "pipe", folder / "socket"
    os.mkfifo(pipe)
    with socket.socket(socket.AF_UNIX) as it:
        it.bind(str(place))
        for path, kind in (("/dev/zero", "a device"), (pipe, "a FIFO"), (place, "a socket"), (folder / "none", None)):
            why = f"not a regular file: {kind}" if kind else "No such file or directory"
            for script in ("check", "explain"):
                said = common.script(script, path)
                tally.same(f"{script}: {why}", said, (3, "", f"{script}: {path}: {why}\n"))
    sample = common.SAMPLE.read_bytes()
    for path in ("-", "/dev/stdin"):
        words = [common.PYTHON, common.TOP / "contrib/check", path]
        ran = subprocess.run(words, input=sample, capture_output=True, env={**os.environ, "DWV": common.DWV})
        wanted = f"{path}: sound: 1 units, 2 entries, 1 types\n".encode()
        tally.same(f"a pipe as {path}", (ran.stdout, ran.stderr), (wanted, b""))
    ours, theirs = os.pipe()
    ran = subprocess.run([*words[:2], "--seconds", "0.5", "-"], stdin=ours, capture_output=True, text=True,
                         env={**os.environ, "DWV": common.DWV})
    tally.same("a pipe that does not end", (ran.returncode, ran.stderr),
               (3, "check: -: its end did not come within 0.5 s\n"))
    os.close(ours), os.close(theirs)


# Seconds that preparing a file of these may take, far above what it takes.
SOON = 10


def soon(name, path, wanted, *words):
    """What the script says of a file, and that it is said soon."""
    before = time.monotonic()
    said = run(*words, path)[1].splitlines()[:1]
    took = time.monotonic() - before
    tally.add(name, None if said == [wanted] and took < SOON else (said, f"{took:.1f} s"), f"{took:.1f} s")


def costly(folder):
    """Files that are small and mean work for what prepares them."""
    path, without = folder / "costly/file", "fault E9 NoInfo at section 0"
    path.parent.mkdir()
    found = f"{COUNTS.format(0, 1, 0)}"
    # Notes of 12 bytes, of each type that pyelftools reads in a way of its own; one that is longer than the section.
    for kind in (1, 3, 4, 5, 0x46494C45):
        path.write_bytes(common.elf([(".note.gnu.build-id", 7, struct.pack("<III", 0, 0, kind) * (MANY_NOTES // 12))]))
        soon(f"{MANY_NOTES:,} bytes of notes of type {kind}", path, f"{path}: {without}")
        soon(f"{MANY_NOTES:,} bytes of notes of type {kind} in a folder", path.parent, found)
    path.write_bytes(common.elf([(".note.gnu.build-id", 7, struct.pack("<III", 2**32 - 1, 2**32 - 1, 3))]))
    soon("a note that passes the end", path, f"{path}: {without}")
    # Sections that share a long name, whose end is far.
    names = b"a" * (16 << 20) + b"\0"
    headers = [bytes(64)] + [common.section(0, 1, 64, 0)] * 20_000 + [common.section(0, 3, 64, len(names))]
    path.write_bytes(common.linked(names, headers))
    soon("20,000 sections with one name of 16 MB", path, f"{path}: {without}")
    # Streams of zlib of one byte each.
    data = zlib.compress(b"\0") * 200_000
    packed = b"ZLIB" + struct.pack(">Q", 200_000) + data
    path.write_bytes(common.elf([(".debug_info", 1, b""), (".zdebug_str", 1, packed)]))
    soon("200,000 streams of zlib", path, f"{path}: sound: 0 units, 0 entries, 0 types (decompressed)")
    status, text, _ = run("--seconds", "0.1", path)
    tally.same("a step that takes more than it may", (status, text),
               (1, f"{path}: fault E7 Compressed at section 2 (not prepared: it takes more than 0.1 s)\n"))
    status, text, _ = run("--memory", "1", path)
    tally.add("a step that has no memory", None if status == 3 or "not prepared" in text else text)


def interpreter(folder):
    """A Python without pyelftools: the reason names it, unless that of the system prepares in its place."""
    path = folder / "no-elftools"
    (path / "elftools").mkdir(parents=True)
    (path / "elftools/__init__.py").write_text("raise ImportError\n")
    packed = folder / "packed"
    packed.write_bytes(common.elf([(".debug_info", 1, b""), (".zdebug_str", 1, b"ZLIB" + bytes(8))]))
    text = run(packed, PYTHONPATH=str(path))[1]
    wanted = f"not prepared: the Python package pyelftools is not installed for {common.PYTHON}"
    tally.same("a Python without pyelftools", text, f"{packed}: fault E7 Compressed at section 2 ({wanted})\n")
    # An environment has no packages of its own at first.
    other = folder / "environment/bin/python3"
    other.parent.mkdir(parents=True)
    other.symlink_to(common.PYTHON)
    (folder / "environment/pyvenv.cfg").write_text(f"home = {os.path.dirname(common.PYTHON)}\n")
    if common.PYTHON != "/usr/bin/python3":
        tally.skip("the Python of the system has no pyelftools")
        return
    empty = b"ZLIB" + bytes(8) + zlib.compress(b"")
    packed.write_bytes(common.elf([(".debug_info", 1, b""), (".zdebug_str", 1, empty)]))
    text = common.run(other, common.TOP / "contrib/check", packed, text=True, env={**os.environ, "DWV": common.DWV})[1]
    tally.add("the Python of the system in its place", None if text.endswith(" (decompressed)\n") else text)


def applied(data, table, values, known, is_whole):
    """The bytes of a section after relocations, all at once or one after another, or why they are refused."""
    made, kept = bytearray(data), relocating.numpy
    relocating.numpy = kept if is_whole else None
    try:
        relocating.apply("it", made, table, values, known)
        return bytes(made)
    except relocating.Refused as error:
        return str(error), bytes(made)
    finally:
        relocating.numpy = kept


def at_once(folder):
    """Relocations that are applied all at once: as one after another, and as pyelftools applies them."""
    if relocating.numpy is None:
        tally.skip("numpy is not installed")
        return
    chance, wrong, taken = random.Random(3), [], 0
    ends = [0, 1, 2**31 - 1, 2**31, 2**32 - 1, 2**32, 2**63, 2**64 - 1]
    for turn in range(TABLES_TRIED):
        known, size = chance.choice(list(relocating.KNOWN.values())), chance.choice([16, 64, 200])
        is_wild = turn % 3 == 0
        data = chance.randbytes(size)
        values = [chance.choice(ends) if is_wild else chance.randrange(1000) for _ in range(5)]
        spots, table = chance.sample(range(0, size, 8), size // 8), b""
        for k in range(chance.randrange(1, 12)):
            kind = 99 if is_wild and chance.random() < 0.1 else chance.choice(list(known))
            end = size + 4 if is_wild else size - 8
            at = spots[k % len(spots)] if chance.random() < 0.9 else chance.randrange(end)
            if 35 in known and chance.random() < 0.5:
                kind, at = chance.choice([35, 39]), spots[0]
            addend = chance.choice([1, -1]) * chance.choice(ends[:-1]) if is_wild else chance.randrange(-50, 50)
            addend = max(-(2**63), min(2**63 - 1, addend))
            table += struct.pack("<QQq", at, kind | chance.randrange(5 + is_wild) << 32, addend)
        taken += relocating.apply_all(bytearray(data), table, values, known)
        one, other = (applied(data, table, values, known, it) for it in (True, False))
        if one != other:
            wrong.append((turn, one, other))
    tally.add(f"{TABLES_TRIED} tables of relocations, all at once and one after another", wrong or
              (None if taken > TABLES_TRIED // 4 else f"only {taken} all at once"), f"{taken} all at once")
    from elftools.elf.elffile import ELFFile
    from elftools.elf.relocation import RelocationHandler

    made, copy = folder / "beside.o", folder / "beside"
    common.compiled(made, "gcc -gdwarf-5 -O1 -c", "shapes.c")
    run("-o", copy, made)
    wrong, found = [], dwarf.File(copy)
    with open(made, "rb") as file:
        elf = ELFFile(file)
        handler = RelocationHandler(elf)
        for name in (".debug_info", ".debug_line", ".debug_str_offsets", ".debug_addr"):
            it = elf.get_section_by_name(name)
            if it is None:
                continue
            stream, table = io.BytesIO(it.data()), handler.find_relocations_for_section(it)
            if table:
                handler.apply_section_relocations(stream, table)
            own = found.section(name)
            if found.data[own.start : own.start + own.size] != stream.getvalue():
                wrong.append(name)
    tally.add("the bytes that pyelftools makes of an object", wrong)


def main():
    common.build()
    if not importlib.util.find_spec("elftools"):
        if common.PYTHON != sys.executable:
            os.execv(common.PYTHON, [common.PYTHON, *sys.argv])
        tally.lack("pyelftools is not installed")
        return tally.end()
    with common.empty_folder() as folder:
        sizes(folder)
        costly(folder)
        interpreter(folder)
        if common.has("gcc") and common.has("objcopy"):
            compressed(folder)
            if common.has("readelf"):
                objects(folder)
                changed_objects(folder)
                at_once(folder)
                if common.has("dwz"):
                    by_dwz(folder)
            links(folder)
            served(folder)
    return tally.end()


sys.exit(main())
