#!/usr/bin/env python3
"""Runs the program on the rows of tests/rows: small files made of named parts, and what it must print of each.

A part gives bytes a name. A row has the sections of a file, and below them the requests: the words, the exit status
and, after a bar each, the lines of standard output. Standard error must be empty. docs/TESTING.md says how rows are
written. It prints one line a row and ends with 'N passed, N failed, N skipped'.
"""
import os
import re
import struct
import sys

sys.dont_write_bytecode = True
import common
from common import DWV, DWV_ADDR, LINE_ROWS

SECTIONS = ("abbrev", "info", "str", "line_str", "str_offsets", "addr")
TOKEN = re.compile(r'\s*("[^"]*"|[0-9a-f]{2}\b|[A-Z]\w*|unit4?\(|type_unit\(|sized\(|\(|\)|\[[^\]]*\]|\*\d+)')
REQUEST = re.compile(r"(check --json|check|show|types|size 0x[0-9a-f]+|lines|addresses) ([0-4])(?: \| (.*))?$")


class Bytes:
    """Reads the bytes that a text gives, with parts by name."""

    def __init__(self, text, parts):
        self.text, self.parts, self.at = text, parts, 0

    def next(self):
        """The next word, or None at the end."""
        found = TOKEN.match(self.text, self.at)
        if found:
            self.at = found.end()
            return found[1]
        if self.text[self.at :].strip():
            raise ValueError(f"no bytes: {self.text[self.at :]}")
        return None

    def all(self, is_inner=False):
        """All that follows, up to the end or a closing parenthesis."""
        done, last = b"", b""
        while (word := self.next()) not in (None, ")"):
            if word[0] == "[":
                last = self.changed(last, word[1:-1])
            elif word[0] == "*":
                last *= int(word[1:])
            else:
                done, last = done + last, self.one(word)
        if is_inner != (word == ")"):
            raise ValueError("a parenthesis without its other one")
        return done + last

    def one(self, word):
        """The bytes of a word: a byte, a text, a part, or what stands in parentheses."""
        if word[0] == '"':
            return word[1:-1].encode()
        if word[0].isupper():
            return self.parts[word]
        if word[-1] == "(":
            return made(word[:-1], self.all(is_inner=True))
        return bytes.fromhex(word)

    def changed(self, old, change):
        """Bytes up to an offset, from an offset on, or with others in place of those at an offset."""
        if change.startswith(".."):
            return old[: int(change[2:], 16)]
        if change.endswith(".."):
            return old[int(change[:-2], 16) :]
        at, new = change.split("=")
        at, new = int(at, 16), Bytes(new, self.parts).all()
        if at + len(new) > len(old):
            raise ValueError(f"no byte to change: {change}")
        return old[:at] + new + old[at + len(new) :]


def made(kind, items):
    """Items as they are, after the count of their bytes, or as a unit with addresses of 8 bytes and the first table."""
    if kind == "sized":
        return struct.pack("<I", len(items)) + items
    if kind == "type_unit":
        return common.unit(items, 2, struct.pack("<QI", 1, 0x19))
    return common.unit(items, version=4 if kind == "unit4" else 5) if kind else items


def elf(sections, more=(), code=None):
    """A linked ELF64 file: code, the sections that are not empty, more sections, the name table. It has .debug_info."""
    kept = [(f".debug_{name}", 1, sections[name]) for name in SECTIONS if sections.get(name)] + list(more)
    if ".debug_info" not in [name for name, _, _ in kept]:
        kept.append((".debug_info", 1, b""))
    return common.elf(kept, code)


class Row:
    """A row: its name, its sections, in each of its cases the texts for `$1`, `$2` and so on, and its requests."""

    def __init__(self, name):
        self.name, self.sections, self.more, self.file, self.cases, self.asked = name, {}, [], "FILE", [], []
        self.code = None

    def add(self, line):
        """Takes a line below the row's first."""
        word, _, rest = line.partition(" ")
        if word == "|":
            self.asked[-1][2].append(rest)
        elif word in SECTIONS:
            self.sections[word] = rest
        elif word == "section":
            name, kind, *data = rest.split(" ", 2)
            self.more.append((name.strip('"'), int(kind, 16), "".join(data)))
        elif word == "code":
            self.code = tuple(int(number, 16) for number in rest.split())
        elif word == "file":
            self.file = rest
        elif word == "each":
            self.cases += [[f"{n:02x}"] for some in rest.split() for n in numbers(some)]
        elif word == "case":
            self.cases.append([text.strip() for text in rest.split(";")])
        elif found := REQUEST.match(line):
            self.asked.append((found[1].split(), int(found[2]), [] if found[3] is None else [found[3]]))
        else:
            raise ValueError(f"no line of a row: {line}")

    def files(self, parts):
        """The file of each case, and the case."""
        for case in self.cases or [[]]:
            def of(text, parts=parts):
                return Bytes(filled(text, case), parts).all()

            sections = {name: of(self.sections.get(name, "")) for name in SECTIONS}
            whole = elf(sections, [(name, kind, of(data)) for name, kind, data in self.more], self.code)
            yield of(self.file, {**parts, "FILE": whole}), case


def filled(text, case):
    """A text with those of a case in it."""
    return re.sub(r"\$(\d)", lambda found: case[int(found[1]) - 1], text)


def numbers(text):
    """A number, or all from one to another."""
    first, _, last = text.partition("..")
    return range(int(first, 16), int(last or first, 16) + 1)


def read(path, parts, lines=None):
    """The rows of a file, or of these lines of it. Its parts are added to the others."""
    rows, part = [], None
    for number, line in enumerate(path.read_text().splitlines() if lines is None else lines, 1):
        line = line if line.lstrip().startswith("|") else re.sub(r"(^|\s+)#.*", "", line)
        try:
            if line.startswith("part "):
                part = line.removeprefix("part ")
                parts[part] = b""
            elif line.startswith("row "):
                part = None
                rows.append(Row(line.removeprefix("row ")))
            elif line and part:
                parts[part] += Bytes(line, parts).all()
            elif line:
                rows[-1].add(line.strip())
        except (ValueError, KeyError, IndexError) as error:
            sys.exit(f"{path}:{number}: {error!r}")
    return rows


def wrong(row, parts, path):
    """How many runs a row has, and how the first of them that is wrong ends."""
    runs = 0
    for file, case in row.files(parts):
        path.write_bytes(file)
        for (command, *words), status, lines in row.asked:
            runs += 1
            said = OTHERS[command](path) if command in OTHERS else common.run(DWV, command, path, *words)
            if said != (status, "".join(f"{filled(line, case)}\n" for line in lines).encode(), b""):
                asked = " ".join([command, *words, *(f"({text})" for text in case)])
                return runs, f"{asked}: {' '.join(map(str, said))}"
    return runs, None if runs else "nothing is asked"


def lines_of(path):
    """What line_rows prints of the first line program of a file, without the name of the file and the program's offset.
    """
    if "DWV" not in os.environ:
        common.build_line_rows()
    status, text, errors = common.run(LINE_ROWS, path)
    text = text.partition(b"\n")[2].removeprefix(b"debug_line[0x00000000]\n")
    return status, text.partition(b"debug_line[")[0], errors


def verdict_of(path):
    """What `dwv-addr check` prints of a file."""
    if "DWV" not in os.environ:
        common.build_addr()
    return common.run(DWV_ADDR, "check", path)


# What is asked of other programs.
OTHERS = {"lines": lines_of, "addresses": verdict_of}


def has_lines(row):
    """Whether a row is one of line programs."""
    return any(command in OTHERS for (command, *_), *_ in row.asked)


def tried(rows, least=1):
    """A count of the rows, each with the name of its table and its parts, after all their runs. `least` as in Tally."""
    tally = common.Tally(least)
    common.build()
    with common.empty_folder() as folder:
        for table, row, parts in rows:
            if has_lines(row) and "DWV" in os.environ and not (LINE_ROWS.exists() and DWV_ADDR.exists()):
                tally.skip(f"{table}: {row.name}: line_rows or dwv-addr is not built")
                continue
            try:
                runs, why = wrong(row, parts, folder / "file")
            except (ValueError, KeyError, IndexError) as error:
                runs, why = 0, f"the file cannot be made: {error!r}"
            tally.add(f"{table}: {row.name}", why, f"{runs} runs")
    return tally


def all_rows():
    """Each row of tests/rows, with the name of its table and its parts."""
    parts = {}
    for table in sorted((common.HERE / "rows").glob("*.txt"), key=lambda it: (it.name != "parts.txt", it.name)):
        own = dict(parts)
        for row in read(table, parts if table.name == "parts.txt" else own):
            yield table.stem, row, own


if __name__ == "__main__":
    sys.exit(tried(all_rows(), 300).end())
