#!/usr/bin/env python3
"""Runs contrib/check on folders that have a file of each kind, on lists and logs, and compares what it prints.

It prints one line a run and ends with 'N passed, N failed, N skipped'.
"""
import json
import os
import pathlib
import re
import signal
import struct
import subprocess
import sys
from xml.etree import ElementTree

sys.dont_write_bytecode = True
import common

SOUND, COUNTS = common.SAMPLE.read_bytes(), "{} files with debugging information, {} ELF files without, {} other files"
G1 = "fault G1 UndeclaredCode at .debug_info+0x0000000f attribute 0x0"
tally = common.Tally(45)


def run(name, status, counts, table, listed, *words, last=None, **env):
    """A run with these words and variables must end with the status and print a text, and then the last line if given.

    The text has the table, with the count of each verdict; the listed files, each with its line; and the counts. In the
    last line the time is T and the rate R.
    """
    rows = [f"{count:8}  {verdict}" for verdict, count in table.items()]
    files = [f"\n{path}\n  {line}" for path, line in listed.items()]
    wanted = "\n".join([*rows, *files, *([""] if rows else []), COUNTS.format(*counts)])
    said, text, errors = common.script("check", "--summary", *words, **env)
    text, _, end = text.rstrip("\n").rpartition("\n")
    tally.same(name, (said, text, errors), (status, wanted, ""))
    if last:
        tally.same("the last line", re.sub(r"[0-9.]* s, [0-9.]* MB", "T s, R MB", end), last)


def in_folder(folder, name):
    """Makes a folder, in which the runs are from now on."""
    (folder / name).mkdir()
    os.chdir(folder / name)


def write(name, data):
    pathlib.Path(name).write_bytes(data)


def trees(folder):
    """Names of all kinds, and files that are left out: the program itself has no .debug_info."""
    write(folder / "X1", SOUND)
    write(folder / "broken", common.BROKEN)
    in_folder(folder, "empty")
    run("an empty folder", 0, (0, 0, 0), {}, {}, folder / "empty")
    in_folder(folder, "tree")
    os.mkdir("sub folder")
    for name in ("sub folder/a name\nof two lines", "not UTF-8 \udcff", "-o"):
        write(name, SOUND)
    write("no-information", common.DWV.read_bytes())
    write("text", b"text\n")
    write("nothing", b"")
    os.mkfifo("pipe")
    os.symlink(".", "loop")
    os.symlink(folder / "broken", "link")
    run("sound files", 0, (3, 1, 4), {"sound": 3}, {}, ".", last=f"{3 * len(SOUND)} bytes in T s, R MB/s")
    write("sub folder/b\n\udcff\\", common.BROKEN)
    write("cut", SOUND[:20])


def faults():
    """Files that are not sound, in the same folder."""
    cut, broken = {"./cut": "fault E2 NotElf64 at section 0"}, {r"./sub folder/b\x0a\xff\x5c": G1}
    table = {"sound": 3, "E2 NotElf64": 1, "G1 UndeclaredCode": 1}
    run("files that are not sound", 1, (5, 1, 4), table, cut | broken, ".")
    table = {"sound": 3, "E2 NotElf64 (ignored)": 1, "G1 UndeclaredCode": 1}
    run("a rule that is ignored", 1, (5, 1, 4), table, broken, "--ignore", "E2", ".")
    words = ("--ignore", "E2", "--ignore=G1", "cut")
    run("all rules that are ignored", 0, (1, 0, 0), {"E2 NotElf64 (ignored)": 1}, {}, *words)
    run("a link on the command line", 1, (1, 0, 0), {"G1 UndeclaredCode": 1}, {"link": G1}, "link")
    _, text, _ = common.script("check", "--summary", "--explain", "./-o", "link")
    wanted = f"link\n  {G1}\n\n    Rule:       The unit's table has no declaration with the code."
    tally.same("a fault that is explained", re.findall(r"(?ms)^link$.*?^    Rule: .*?$", text), [wanted])
    tally.same("what is not explained", text.count("\n    Rule: "), 1)


def unread(folder):
    """Files without a verdict. Reading a process's memory at 0 fails for every user, also for the superuser."""
    unread = {"/proc/self/mem": "Input/output error", "none": "No such file or directory"}
    run("what cannot be read", 3, (1, 0, 0), {"sound": 1, "not read": 2}, unread, "./-o", *unread)
    if os.getuid() == 0:
        tally.skip("the superuser may read every file")
    else:
        closed = [folder / "closed/file", folder / "closed/inner"]
        closed[1].mkdir(parents=True)
        write(closed[0], SOUND)
        for path in closed:
            path.chmod(0)
        unread = dict.fromkeys(closed, "Permission denied")
        run("what may not be read", 3, (0, 0, 0), {"not read": 2}, unread, folder / "closed")
    no_memory = folder / "no-memory"
    no_memory.write_text('#!/bin/sh\necho "dwv: out of memory" >&2\nexit 4\n')
    no_memory.chmod(0o755)
    unread = {"./-o": "dwv: out of memory"}
    run("a file without a verdict", 3, (1, 0, 0), {"not read": 1}, unread, "./-o", DWV=no_memory)


def others(folder):
    """ELF files of other kinds: dwv gets them only if they have debugging information."""
    in_folder(folder, "others")
    write(folder / "x.c", b"int x;\n")
    for name, machine in (("small", "i386"), ("big-endian", "powerpc64")):
        command = f"clang --target={machine}-linux-gnu -c"
        if not common.compiled(name, f"{command} -g", folder / "x.c"):
            tally.skip("clang is not installed for these machines")
            return
        common.compiled(f"{name}-without", command, folder / "x.c")
    run("other kinds of ELF files", 0, (2, 2, 0), {"E2 NotElf64 (ignored)": 2}, {}, "--ignore", "E2", ".")


def far():
    """X1, made longer, with other bytes at an offset: headers far past its end, and names that are given elsewhere."""
    for at, data in ((40, b"\xff" * 7 + b"\x7f"), (40, b"\xff" * 8), (62, b"\xff" * 2)):
        write("far", SOUND[:at] + data + SOUND[at + len(data) :].ljust((8 << 20) - at - len(data), b"\0"))
        name = f"section headers changed at {at}, " + "".join(rf"\x{byte:02x}" for byte in data)
        run(name, 1, (1, 0, 0), {"E4 SectionTable": 1}, {"far": "fault E4 SectionTable at section 0"}, "far")


def usage(folder):
    """Words that are wrong, no program, and a terminal."""
    for words in ("", "--jobs 0 .", "--jobs x .", "--other .", "--ignore ZZ .", "--ignore E99 .", "--resume .",
                  ". --merge log", "-o out . x", "--allow file ."):
        tally.same(f"bad usage: {words}", common.script("check", *words.split())[:2], (2, ""))
    status, _, errors = common.script("check", ".", DWV="none")
    wanted = "check: error: DWV names no program: none"
    tally.same("no program", (status, errors.splitlines()[-1]), (2, wanted))
    # On a terminal a line says how many files are done. In a pipe it is not there, as the runs above show.
    pty = (common.PYTHON, "-c", "import pty, sys; pty.spawn(sys.argv[1:])")
    words = (*pty, common.PYTHON, common.TOP / "contrib/check")
    env = {**os.environ, "DWV": common.DWV}
    _, text, _ = common.run(*words, "--summary", folder / "X1", stdin=subprocess.DEVNULL, env=env)
    tally.same("a terminal", re.split(rb"[\r\n]+", text).count(b"1 of 1 files, 0 s left"), 1)


def named():
    """Files that are named: a line for each, in their order, and the reason of each that can't be read."""
    status, text, errors = common.script("check", "./-o", "nothing", "link", "none", "no-information")
    sound = "sound: 1 units, 2 entries, 1 types"
    wanted = [f"./-o: {sound}", "nothing: fault E2 NotElf64 at section 0", f"link: {G1}",
              "no-information: fault E9 NoInfo at section 0"]
    tally.same("named files", (status, text.splitlines()), (3, wanted))
    tally.same("the reason", errors, "check: none: No such file or directory\n")
    rows = [json.loads(it) for it in common.script("check", "--json", "./-o", "link")[1].splitlines()]
    tally.same("--json", [(it["path"], it["sound"], it.get("rule")) for it in rows],
               [("./-o", True, None), ("link", False, "G1")])
    tally.same("--version", common.script("check", "--version")[1], f"check {(common.TOP / 'VERSION').read_text()}")
    tally.same("--help", common.script("check", "--help")[1].split()[:2], ["usage:", "check"])


def logs(folder):
    """Lists, logs, logs that are gone on with, and logs that are merged."""
    in_folder(folder, "logs")
    names = [f"file {number}" for number in range(6)]
    for name in names:
        write(name, common.BROKEN if name.endswith("3") else SOUND)
    write("text", b"text\n")
    write("lines", "\n".join([*names, "text"]).encode())
    write("zeros", b"".join(f"{it}\0".encode() for it in names))
    table = {"sound": 5, "G1 UndeclaredCode": 1}
    run("a list of lines", 1, (6, 0, 1), table, {"file 3": G1}, "--files-from", "lines", "--log", "log")
    run("a list with zero bytes", 1, (6, 0, 0), table, {"file 3": G1}, "--files-from", "zeros")
    rows = pathlib.Path("log").read_text().splitlines()
    tally.same("the log", sorted(json.loads(it)["path"] for it in rows), sorted([*names, "text"]))
    # A log that was cut in its third row, and a file that changed since.
    write("log", ("\n".join(rows[:2]) + "\n" + rows[2][:20]).encode())
    run("a run that goes on", 1, (6, 0, 1), table, {"file 3": G1}, "--files-from", "lines", "--log", "log", "--resume")
    counted = folder / "counted"
    counted.write_text(f'#!/bin/sh\necho >> {folder}/calls\nexec {common.DWV} "$@"\n')
    counted.chmod(0o755)
    write("file 1", SOUND)
    run("nothing is checked twice", 1, (6, 0, 1), table, {"file 3": G1}, "--files-from", "lines", "--log", "log",
        "--resume", DWV=counted)
    tally.same("but what changed", (folder / "calls").read_text(), "\n")
    for number, part in enumerate((names[:3], names[3:5])):
        common.script("check", "--log", f"{number}.jsonl", *part)
    parts = ("--merge", "0.jsonl", "1.jsonl")
    run("logs that are merged", 1, (5, 0, 0), {"sound": 4, "G1 UndeclaredCode": 1}, {"file 3": G1}, *parts)
    run("with a list of all files", 3, (5, 0, 0), table | {"sound": 4, "not read": 1},
        {"file 3": G1, "file 5": "no log has it"}, "--files-from", "zeros", *parts)


def limits(folder):
    """Limits of time and memory, and an interrupt, in the folder of the logs."""
    names, slow = [f"file {number}" for number in range(6)], folder / "slow"
    slow.write_text(f'#!/bin/sh\nsleep 0.3\nexec {common.DWV} "$@"\n')
    slow.chmod(0o755)
    run("a limit of time", 3, (1, 0, 0), {"not read": 1}, {"file 0": "no verdict within 0.1 s"}, "file 0", "--seconds",
        "0.1", DWV=slow)
    run("a limit of memory", 3, (1, 0, 0), {"not read": 1}, {"file 0": "dwv: out of memory"}, "file 0", "--memory",
        "64", DWV=no_memory(folder))
    words = [common.PYTHON, common.TOP / "contrib/check", "--jobs", "1", "--log", "cut", *names]
    # A shell starts what it runs in the background with this signal ignored.
    ran = subprocess.Popen(words, stdout=subprocess.PIPE, stderr=subprocess.PIPE, text=True,
                           env={**os.environ, "DWV": str(slow)},
                           preexec_fn=lambda: signal.signal(signal.SIGINT, signal.default_int_handler))
    ran.stdout.readline()
    ran.send_signal(signal.SIGINT)
    _, errors = ran.communicate()
    tally.same("an interrupt", (ran.returncode, errors), (130, "check: interrupted: not all files were checked\n"))
    tally.add("its log", None if 1 <= len(pathlib.Path("cut").read_text().splitlines()) < len(names) else "no rows")


def no_memory(folder):
    """A program that has no memory if it may have only 64 MB."""
    path = folder / "limited"
    path.write_text('#!/bin/sh\n[ "$(ulimit -v)" = 65536 ] && echo "dwv: out of memory" >&2\nexit 4\n')
    path.chmod(0o755)
    return path


def is_valid(schema, path):
    """Whether xmllint says that a file has a schema, or what it says."""
    words = ("xmllint", "--nonet", "--noout", "--schema", common.HERE / "schemas" / schema, path)
    status, _, errors = common.run(*words, text=True)
    return status == 0 or errors


def formats():
    """SARIF and JUnit, against their schemas; in the folder of the logs."""
    write("odd & <name>\n\udcff", common.BROKEN)
    words = ("--summary", "--explain", "--sarif", "out.sarif", "--junit", "out.xml", "--ignore", "E2")
    tally.same("--sarif and --junit", common.script("check", *words, ".", "none")[0], 3)
    found = json.loads(pathlib.Path("out.sarif").read_text())
    results = found["runs"][0]["results"]
    tally.same("the results of SARIF", [it["ruleId"] for it in results], ["unread", "G1", "G1"])
    places = [it["locations"][0]["physicalLocation"]["artifactLocation"]["uri"] for it in results]
    tally.same("names in URIs", sorted(places), ["file%203", "none", "odd%20%26%20%3Cname%3E%0A%FF"])
    suite = ElementTree.parse("out.xml").getroot()[0]
    counts = ("tests", "failures", "errors", "skipped")
    tally.same("the counts of JUnit", [suite.get(it) for it in counts], ["8", "2", "1", None])
    write("piece", SOUND[:20])
    common.script("check", "--sarif", "more.sarif", "--junit", "more.xml", "--ignore", "E2", "piece")
    common.script("check", "--sarif", "none.sarif", "--junit", "none.xml", "file 0")
    skipped = ElementTree.parse("more.xml").getroot()[0]
    tally.same("a rule that is ignored, in JUnit", [skipped.get(it) for it in counts], ["1", "0", "0", "1"])
    try:
        import jsonschema

        schema = json.loads((common.HERE / "schemas/sarif-2.1.0.json").read_text())
        for name in ("out", "more", "none"):
            found = json.loads(pathlib.Path(f"{name}.sarif").read_text())
            errors = jsonschema.Draft7Validator(schema).iter_errors(found)
            tally.same(f"SARIF by its schema, {name}.sarif", [it.message for it in errors], [])
    except ImportError:
        tally.skip("the Python package jsonschema is not installed")
    if tally.has("xmllint"):
        for name in ("out", "more", "none"):
            is_right = is_valid("junit-jenkins.xsd", f"{name}.xml")
            tally.same(f"JUnit by the schema of Jenkins, {name}.xml", is_right, True)
        for name in ("out", "none"):
            tally.same(f"JUnit by the schema of Ant, {name}.xml", is_valid("junit-ant.xsd", f"{name}.xml"), True)


def units(folder):
    """A file with a fault in several units: each is found, and known habits of compilers are allowed."""
    in_folder(folder, "units")
    table = b"\1\x11\1\x25\x08\0\0" + b"\2\x13\1\x0b\x0b\0\0" + b"\3\x0d\0\x49\x13\x38\x0b\0\0"
    table += b"\4\x24\0\x0b\x0b\0\0" + b"\5\x0f\0\x49\x10\0\0\0"

    def one(size, producer, more=b""):
        """A unit with a structure of one byte that has a member of so many."""
        at = 12 + 1 + len(producer) + 1
        items = b"\1" + producer + b"\0" + b"\2\1" + b"\3" + struct.pack("<I", at + 9) + b"\0" + b"\0"
        return common.unit(items + b"\4" + bytes([size]) + more + b"\0")

    def file(name, *units):
        write(name, common.elf([(".debug_info", 1, b"".join(units)), (".debug_abbrev", 1, table + b"\0")]))

    good, rust, other = one(1, b"rustc"), one(2, b"rustc"), one(2, b"a compiler")
    file("habits", good, rust, good, rust)
    file("others", rust, good, other)
    file("cut", rust, good + b"\xff\xff\0\0")
    pointer = one(1, b"rustc", b"\5" + struct.pack("<I", len(good) + 19))
    file("doubtful", good, rust, pointer)
    status, text, _ = common.script("check", "--every", "habits")
    tally.same("--every", (status, text.splitlines()[0].partition("; ")[2], text.count("a habit of the compiler")),
               (1, "2 of 4 units with a fault, the other 2 are sound", 2))
    status, text, _ = common.script("check", "--allow", "compiler", "habits")
    tally.same("--allow compiler", (status, text.splitlines()[0].endswith(" (allowed)")), (0, True))
    status, text, _ = common.script("check", "--allow", "compiler", "others")
    tally.same("a fault that is no habit", (status, "no known habit" in text), (1, True))
    status, text, _ = common.script("check", "--allow", "compiler", "cut")
    tally.same("units that can't be read", (status, "the others are not known" in text), (1, True))
    status, text, _ = common.script("check", "--allow", "compiler", "doubtful")
    tally.same("a reference to a unit that was left out", (status, text.count("doubtful: it refers to")), (1, 1))
    file("sound", good)
    wanted = {"sound": 1, "Z3 MemberOutside (allowed)": 1}
    run("the table", 0, (2, 0, 0), wanted, {}, "--allow", "compiler", "sound", "habits")


def main():
    common.build()
    with common.empty_folder() as folder:
        trees(folder)
        faults()
        unread(folder)
        named()
        logs(folder)
        limits(folder)
        formats()
        units(folder)
        if common.has("clang"):
            others(folder)
        far()
        usage(folder)
    return tally.end()


sys.exit(main())
