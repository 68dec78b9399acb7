#!/usr/bin/env python3
"""Tries the words and the answers of `dwv-addr`, and compares its frames with those of llvm-symbolizer.

usage: addresses.py [--all] [FILE ..]

It compiles programs of C, C++ and Rust in several ways, and asks for random addresses of their code: 2,000 of each
program, with --all 100,000 in all over more programs, or of the named files alone. Functions, paths, lines and columns
must be the same, frame by frame. Paths are compared without `.` and `..`. llvm-symbolizer gets a copy of the file
without a table of symbols, since it would take names from there. The C library must find the frames that `dwv-addr`
prints. A program of four lines is asked by each form of the words. It prints a line a program or form, and ends with
'N passed, N failed, N skipped'.
"""
import itertools
import json
import os
import pathlib
import re
import select
import shutil
import subprocess
import sys

sys.dont_write_bytecode = True
import common
import generate
from common import BROKEN, DWV, DWV_ADDR, SAMPLE

# How many addresses of a program are asked for, and how many in all with --all.
EACH, IN_ALL = 2_000, 100_000
WORDS = ("-O0", "-O2", "-gdwarf-4", "-gdwarf-4 -O2", "-O2 -ffunction-sections -Wl,--gc-sections", "-O2 -flto")
tally = common.Tally(1 if set(sys.argv[1:]) - {"--all"} else 31)


def frames_in(text):
    """The frames for each address: pairs of a function and of a path, a line and a column."""
    found = []
    for part in text.rstrip("\n").split("\n\n"):
        lines = part.split("\n")
        places = [it.rsplit(":", 2) for it in lines[1::2]]
        found.append([(name, path if path == "??" else os.path.normpath(path), line, column)
                      for name, (path, line, column) in zip(lines[::2], places)])
    return found


def asked(words, addresses):
    """The frames that a program prints for addresses."""
    text = "".join(f"0x{it:x}\n" for it in addresses)
    status, said, errors = common.run(*words, timeout=600, text=True, errors="replace", input=text)
    if status:
        raise common.Failed(f"{words[0]} ends with status {status}: {(said + errors)[-200:]}")
    return frames_in(said)


def compare(title, path, tool, folder, count=EACH):
    """The frames of addresses of a file must be those of llvm-symbolizer."""
    file, copy = path.read_bytes(), folder / "without-symbols"
    copy.write_bytes(common.without_symbols(file))
    addresses = common.some_addresses(file, count)
    words = (tool, f"--obj={copy}", "--no-demangle", "--functions=linkage", "--output-style=LLVM")
    ours, theirs = asked((DWV_ADDR, "find", path), addresses), asked(words, addresses)
    wrong = [f"0x{at:x}: {a}, llvm-symbolizer has {b}" for at, a, b in zip(addresses, ours, theirs) if a != b]
    if not len(addresses) == len(ours) == len(theirs):
        wrong.insert(0, f"{len(addresses)} addresses, {len(ours)} answers, llvm-symbolizer has {len(theirs)}")
    inlined = sum(len(it) > 1 for it in ours)
    known = sum(it[0][0] != "??" for it in ours)
    tally.same(f"{title}, by the library", *by_library(path, addresses))
    tally.add(title, f"{len(wrong)} differ, {'; '.join(wrong[:2])}" if wrong else None,
              f"{len(addresses)} addresses, {known} in functions, {inlined} of them inlined")


def by_library(path, addresses):
    """The objects of addresses by the C library, and by `dwv-addr find --json`: the first that differ, or nothing."""
    text = common.run(DWV_ADDR, "find", "--json", path, timeout=600, text=True, input="".join(
        f"{it:x}\n" for it in addresses))[1]
    ours = [{"address": f"0x{address:x}", "frames": [
        {"column": it.column, "file": it.file and it.file.decode(), "function": it.function and it.function.decode(),
         "line": it.line} for it in frames]} for address, frames in zip(addresses, dwv.addresses(path).find(addresses))]
    theirs = list(map(json.loads, text.splitlines()))
    differ = [pair for pair in itertools.zip_longest(ours, theirs) if pair[0] != pair[1]]
    return differ[0] if differ else (None, None)


def compiled(folder, is_all):
    """Programs of the compilers, each with its title."""
    few = WORDS if is_all else WORDS[:4]
    plans = {"c": (0.3 if is_all else 0.03, few), "cpp": (0.3, few)}
    if is_all:
        plans["rs"] = (0.3, common.RUST_WORDS)
    for language, (megabytes, words) in plans.items():
        yield from common.programs(tally, folder, language, generate.sources(language, megabytes), words)


# A program of which it is known where the call of a function that is inlined is.
SMALL = """static volatile int seen;
static inline __attribute__((always_inline)) int twice(int x) { seen = x; return x * 2; }
int four(int x) { return twice(x) + twice(x); }
int main(void) { return four(1); }
"""
UNKNOWN = "??\n??:0:0\n\n"
SOUND = r"sound: (\d+) sequences, (\d+) rows, (\d+) ranges, (\d+) functions, (\d+) inlined, (\d+) dead\n"
COUNTS = "sequences rows ranges functions inlined dead".split()


def said(*words, text=""):
    """The status, the text and the line for standard error of dwv-addr."""
    return common.run(DWV_ADDR, *words, text=True, input=text)


def line_by_line(path, line, text):
    """Each line must be answered before the next one is written, and the last one, which has no end, at the end."""
    with subprocess.Popen([DWV_ADDR, "find", path], stdin=subprocess.PIPE, stdout=subprocess.PIPE) as ran:
        found = []
        for _ in range(3):
            os.write(ran.stdin.fileno(), f"{line}\n".encode())
            answer = b""
            while len(answer) < len(text) and select.select([ran.stdout], [], [], 60)[0]:
                answer += os.read(ran.stdout.fileno(), 65_536) or b"the end of the answers"
            found.append(answer.decode())
        tally.same("a line at a time", found, [text] * 3)
        last, _ = ran.communicate(line.encode())
        tally.same("a last line without its end", (ran.returncode, last.decode()), (0, text))
    many = said("find", path, text=f"{line}\n" * 100_000)
    tally.same("100,000 lines", (many[0], many[1] == text * 100_000, many[2]), (0, True, ""))


def by_words(folder):
    """The words of the program, and its answers for a program of four lines."""
    (folder / "small.c").write_text(SMALL)
    path = folder / "small"
    if not common.compiled(path, "gcc -g -O1 -no-pie", folder / "small.c"):
        return tally.skip("gcc -no-pie does not compile")
    counts = re.fullmatch(SOUND, said("check", path)[1])
    tally.same("functions that are inlined", counts and int(counts[5]) >= 1, True)
    found = {name: int(it) for name, it in zip(COUNTS, counts.groups())} | {"sound": True}
    tally.same("check --json", json.loads(said("check", "--json", path)[1]), found)
    symbols = common.run("nm", path, text=True)[1]
    four = re.search(r"(?m)^0*([0-9a-f]+) T four$", symbols)[1]
    status, text, errors = said("find", path, f"0x{four}")
    frames = [it for it in frames_in(text)[0]]
    tally.same("the last function", (status, frames[-1][0], errors), (0, "four", ""))
    tally.same("its file", {it[1] for it in frames}, {str(folder / "small.c")})
    for form in (four, four.upper(), f"0x{four.zfill(16)}"):
        tally.same(f"the address {form}", said("find", path, form)[1], text)
    tally.same("lines of standard input", said("find", path, text=f"0x{four}\n{four}\n"), (0, text * 2, ""))
    line_by_line(path, four, text)
    tally.same("an address that nothing has", said("find", path, "0x1"), (0, UNKNOWN, ""))
    wrong = (2, UNKNOWN + text, "dwv-addr: bad address\n")
    for word in ("", "0x", "f" * 17, "0x-1", "12 ", "main"):
        tally.same(f"{word!r} is no address", said("find", path, "--", word, four), wrong)
    tally.same("a line that is none", said("find", path, text=f"x\n{four}"), wrong)
    lines = said("find", "--json", path, four, "x", "1")[1].splitlines()
    name, file, line, column = frames[-1]
    last = {"column": int(column) or None, "file": file, "function": name, "line": int(line)}
    answers = [json.loads(it) for it in lines]
    tally.same("an object", (int(answers[0]["address"], 16), answers[0]["frames"][-1]), (int(four, 16), last))
    tally.same("objects of what is not known", answers[1:], [{"address": None, "frames": []},
                                                             {"address": "0x1", "frames": []}])
    broken = folder / "broken"
    broken.write_bytes(BROKEN)
    for words in (("check",), ("check", "--json")):
        theirs = common.run(DWV, *words, broken, text=True)
        tally.same(f"{' '.join(words)} of a file with a fault", said(*words, broken), theirs)
    tally.same("find in it", said("find", broken, "1"), common.run(DWV, "check", broken, text=True))
    for words in ((), ("find",), ("check",), ("check", path, "1"), ("show", path), ("find", "--all", path)):
        tally.same(f"the words {list(map(str, words[:2]))}", said(*words), (2, "", "dwv-addr: bad usage\n"))
    tally.same("no such file", said("find", folder / "none", "1"), (3, "", "dwv-addr: cannot open file\n"))
    tally.same("no lines", said("find", SAMPLE, "1"), (0, UNKNOWN, ""))


def main():
    words = sys.argv[1:]
    is_all = "--all" in words
    files = [it for it in words if it != "--all"]
    common.build_addr()
    with common.empty_folder() as folder:
        if tally.has("gcc") and not files:
            by_words(folder)
    tool = next(filter(shutil.which, ("llvm-symbolizer-19", "llvm-symbolizer")), None)
    if not tool:
        tally.skip("llvm-symbolizer is not installed")
        return tally.end()
    with common.empty_folder() as folder:
        programs = [(it, pathlib.Path(it)) for it in files] if files else compiled(folder, is_all)
        for title, path in programs:
            compare(title, path, tool, folder, IN_ALL // 20 if is_all else EACH)
    return tally.end()


if __name__ == "__main__":
    common.build_library()
    sys.path.append(str(common.TOP / "python"))
    import dwv
    sys.exit(main())
