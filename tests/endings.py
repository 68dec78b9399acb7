#!/usr/bin/env python3
"""Runs the program with good and bad words, and compares its exit status, its standard output and its standard error.

It prints one line a run and ends with 'N passed, N failed, N skipped'.
"""
import shutil
import subprocess
import sys

sys.dont_write_bytecode = True
import common
import quick

SOUND = "sound: 1 units, 2 entries, 1 types"
COUNTS = '{"entries":2,"sound":true,"types":1,"units":1}'
FAULT = "fault G1 UndeclaredCode at .debug_info+0x0000000f attribute 0x0"
FAULT_JSON = ('{"at":15,"attribute":0,"cycle":[],"name":"UndeclaredCode","rule":"G1","section":".debug_info",'
              '"sound":false}')
NOT_ELF = "fault E2 NotElf64 at section 0"
# Words that are wrong: the file is not opened, and the words are read before the offset.
BAD_USAGE = ["", "check \udcff", "check", "show", "types", "size", "x", "raw x x", "check x x", "show x x", "types x x",
             "check --json --json x", "check --jso x", "check --json=1 x", "show --json x", "types --json x", "size x",
             "size x 0x0 x", "size --json x 0x0", "size x 10 --json", "help", *quick.ASKED]
IS_PROVED = not str(common.DWV).endswith("-unproved")
tally = common.Tally(58)


def ends(status, text, line, *words, how="plainly", program=common.DWV, out=subprocess.PIPE):
    """The program with these words must end so, with the text on standard output and the line on standard error."""
    ran = subprocess.run([program, *words], stdout=out, stderr=subprocess.PIPE, text=True, cwd=common.TOP)
    said = (ran.returncode, (ran.stdout or "").rstrip("\n"), ran.stderr.rstrip("\n"))
    shown = "status {}, text '{}', line '{}'".format(*said).replace("\n", " ")
    why = None if said == (status, text, line) else f"{shown}, wanted {(status, text, line)}"
    tally.add(f"{how} {' '.join(words)}", why, shown)


def verdicts(folder):
    """Sound files and others, in each command."""
    def file(name, *changes):
        text = common.SAMPLE.read_bytes()
        for old, new in changes:
            text = text.replace(old, new)
        (folder / name).write_bytes(text)
        return str(folder / name)

    sound, broken = str(common.SAMPLE.relative_to(common.TOP)), file("broken", (b"\2int", b"\3int"))
    # A structure in place of the base type; and a structure whose name is a keyword.
    in_place = b"\2\x24\0", b"\2\x13\0"
    structure, refused = file("structure", in_place, (b"\2int", b"\2cat")), file("refused", in_place)
    # The program under a name that is not UTF-8.
    other = shutil.copy(common.DWV, folder / "\udcff")
    ends(0, SOUND, "", "check", sound)
    ends(0, COUNTS, "", "check", "--json", sound)
    ends(0, '0x0000000c 0x0011 "a"\n0x0000000f   0x0024 "int" size 4', "", "show", sound)
    ends(0, "", "", "types", sound)
    ends(0, "struct cat { };", "", "types", structure)
    ends(0, "/* 0x0000000f P2 BadName */", "", "types", refused)
    ends(0, "size 4", "", "size", sound, "0x0F")
    ends(0, SOUND, "", "check", sound, how="under_another_name", program=other)
    ends(1, FAULT, "", "check", broken)
    ends(1, FAULT_JSON, "", "check", "--json", broken)
    ends(1, FAULT, "", "types", broken)
    for words in (("show", "/dev/null"), ("types", "/dev/null"), ("size", "/dev/null", "0x10")):
        ends(1, NOT_ELF, "", *words)
    ends(2, "not a type", "", "size", sound, "0x10")
    ends(0, SOUND, "", "check", "--", sound)
    ends(0, COUNTS, "", "check", sound, "--json")
    ends(0, "size 4", "", "size", sound, "0x0000000f")
    for offset in ("0xFf", "0xffffffff"):
        ends(2, "not a type", "", "size", sound, offset)
    with open("/dev/full", "w") as full:
        for words in (("check", sound), ("types", structure)):
            ends(3, "", "dwv: writing failed", *words, how="to_a_full_disk", out=full)


def main():
    # A word that is not UTF-8 is printed as it is.
    sys.stdout.reconfigure(errors="surrogateescape")
    with common.empty_folder() as folder:
        verdicts(folder)
    for words in BAD_USAGE:
        # The program of `make quick` says first that it is not proved.
        note = "" if IS_PROVED or words not in quick.ASKED else f"{quick.NOTE}\n"
        ends(2, "", f"{note}dwv: bad usage", *words.split())
    for offset in ("10", "0x", "0X10", "0x123456789", "0xg", "0x+1", ""):
        ends(2, "", "dwv: bad offset", "size", "x", offset)
    for words in (("size", "no-such-file", "0x10"), ("show", "no-such-file"), ("types", "no-such-file")):
        ends(3, "", "dwv: cannot open file", *words)
    ends(3, "", "dwv: reading failed", "show", ".")
    return tally.end()


sys.exit(main())
