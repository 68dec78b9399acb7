#!/usr/bin/env python3
"""Tests the pages of `contrib/explain --html`: on the smallest file of each rule, on programs that are changed, on
names with marks of HTML and on a large unit. If Chromium is installed, it shows one, and the place must be in sight.

It prints one line a test and ends with 'N passed, N failed, N skipped'.
"""
import random
import re
import shutil
import struct
import sys
import zlib
from xml.etree import ElementTree

sys.dont_write_bytecode = True
import common
import compilers
import examples
from common import DWV
from dwv_tools import dwarf, finding, page, running

CHANGES = 100
# The colour of a mark, as page.py has it. A screenshot has at least so many points of it.
MARK, LEAST = bytes.fromhex("ffd24d"), 200
# What would fetch or run something.
ACTIVE = re.compile(r"<script|<img|<link|\bsrc=|url\(|https?:|\son\w+=", re.IGNORECASE)
# A compile unit; base types without a size and with one, a structure: all with names.
TABLE = bytes.fromhex("01 11 01 03 08 00 00  02 24 00 03 08 00 00  03 24 00 03 08 0b 0b 00 00"
                      "04 13 01 03 08 0b 0b 00 00  00")
NAME = '<script>alert("&amp;")</script>'
tally = common.Tally(50)


def page_of(path):
    """The page on a file, and its verdict."""
    verdict = running.check(str(DWV), path)
    return page.page(verdict, path, str(path)), verdict


def wrong(text, verdict):
    """What is wrong with a page, or None."""
    try:
        top = ElementTree.fromstring(text.partition("\n")[2])
    except ElementTree.ParseError as error:
        return f"the page is malformed: {error}"
    if active := ACTIVE.search(text.replace("http-equiv", "")):
        return f"the page has {active[0]}"
    marks = len(list(top.iter("mark")))
    if verdict.status != 1:
        return f"{marks} marks" if marks else None
    place = re.search(r" at \.debug_info", verdict.lines[0]) and verdict.what.split()[0] not in finding.HEADER_RULES
    return f"{marks} marks" if marks != bool(place) else None


def every_rule(folder):
    """The smallest file of each rule, except that of E1, which has 1 GB."""
    table, parts = examples.read()
    path = folder / "file"
    for row in table:
        if not row.name.startswith("E1 "):
            path.write_bytes(next(row.files(parts))[0])
            tally.add(row.name, wrong(*page_of(path)))


def elf(info):
    return common.elf([(".debug_abbrev", 1, TABLE), (".debug_info", 1, common.unit(info))])


def texts(folder):
    """Names with marks of HTML, and a unit with 100,000 entries, of which few are shown."""
    path = folder / "<b>"
    path.write_bytes(elf(b"\1<i>\0\2" + NAME.encode() + b"\0\0"))
    text, verdict = page_of(path)
    tally.add("names with marks", wrong(text, verdict))
    tally.same("the name is escaped", text.count("&lt;script&gt;alert(&quot;&amp;amp;&quot;)&lt;/script&gt;") > 0, True)
    path.write_bytes(elf(b"\1a\0" + b"\3b\0\4" * 50000 + b"\2here\0" + b"\3b\0\4" * 50000 + b"\0"))
    text, verdict = page_of(path)
    tally.add("a large unit", wrong(text, verdict))
    tally.same("few of its entries are shown", (text.count("<li id="), len(text) < 50000), (2 * page.AROUND + 2, True))
    tally.same("and how many come before", "49980 more" in text, True)
    # In a chain of structures, of which each is in the one before.
    path.write_bytes(elf(b"\1a\0" + b"\4b\0\4" * 60 + b"\2here\0" + bytes(61)))
    text, verdict = page_of(path)
    tally.add("a deep entry", wrong(text, verdict))
    tally.same("which entries are not shown", text.count("deeper, below"), 1)


def changed(folder):
    """A program with bytes changed at random: each has a page."""
    program = compilers.compiled(folder, "gcc -gdwarf-5", "shapes.c calls.c") if tally.has("gcc") else None
    if program is None:
        return
    file, data, chance, path = dwarf.File(program), program.read_bytes(), random.Random(2), folder / "changed"
    for number in range(CHANGES):
        section = file.section(chance.choice([".debug_info", ".debug_info", ".debug_abbrev"]))
        text = bytearray(data)
        text[section.start + chance.randrange(section.size)] = chance.choice([0, 1, 0x7F, 0x80, 0xFF])
        path.write_bytes(text)
        try:
            why = wrong(*page_of(path))
        except Exception as error:
            why = repr(error)
        if why:
            tally.add(f"changed program {number}", why)
    tally.add(f"{CHANGES} changed programs", None)


def points(picture):
    """The red, green and blue bytes of each point of a picture in PNG, 8 bits deep and not interlaced."""
    width, height, _, kind = struct.unpack_from(">IIBB", picture, 16)
    size, at, packed = 4 if kind == 6 else 3, 8, b""
    while at < len(picture):
        length, what = struct.unpack_from(">I4s", picture, at)
        packed += picture[at + 8 : at + 8 + length] if what == b"IDAT" else b""
        at += length + 12
    data, above = zlib.decompress(packed), bytes(width * size)
    for row in range(height):
        start = row * (width * size + 1)
        how, line = data[start], bytearray(data[start + 1 : start + 1 + width * size])
        for k in range(len(line) if how else 0):
            left, up, corner = (line[k - size], above[k], above[k - size]) if k >= size else (0, above[k], 0)
            near = min((left, up, corner), key=lambda it: abs(left + up - corner - it))
            line[k] = (line[k] + (0, left, up, (left + up) // 2, near)[how]) % 256
        yield from (bytes(line[k : k + 3]) for k in range(0, len(line), size))
        above = line


def browser(folder):
    """What Chromium shows of a page: the place is in sight."""
    program = next(filter(None, map(shutil.which, ("chromium", "chromium-browser", "google-chrome"))), None)
    if program is None:
        tally.skip("chromium is not installed")
        return
    path, shot = folder / "file", folder / "shot.png"
    path.write_bytes(elf(b"\1a\0" + b"\3b\0\4" * 6 + b"\2here\0" + b"\3b\0\4" * 9 + b"\0"))
    status, text, errors = common.script("explain", "--html", path)
    tally.same("the script", (status, errors), (1, ""))
    (folder / "page.html").write_text(text)
    words = ["--headless", "--no-sandbox", "--disable-gpu", "--force-color-profile=srgb", "--window-size=600,800",
             f"--user-data-dir={folder}/home", f"--screenshot={shot}", f"file://{folder}/page.html"]
    common.run(program, *words, timeout=120)
    tally.same("the mark is in sight", sum(it == MARK for it in points(shot.read_bytes())) >= LEAST, True)


def main():
    common.build()
    with common.empty_folder() as folder:
        every_rule(folder)
        texts(folder)
        changed(folder)
        browser(folder)
    return tally.end()


if __name__ == "__main__":
    sys.exit(main())
