#!/usr/bin/env python3
"""Runs `dwv` on programs that compilers make, and compares what it says with what readelf lists.

`check` must print the number of entries, and `show` the depth and the offset of each; `size` must print what `show`
says of a type. `types` must have one line for each structure, union, enumeration and typedef with a name that is not
only declared, and no others. Compilers must accept the lines of shapes.c as a C file, with an assertion for each type
that it has the size that `size` prints. The script prints one line a run and ends with
'N passed, N failed, N skipped'.
"""
import collections
import itertools
import re
import subprocess
import sys

sys.dont_write_bytecode = True
import common

WORDS = {"typedef": "typedef", "structure_type": "struct", "union_type": "union", "enumeration_type": "enum"}
QUALIFIERS = r"(?:(?:const|volatile|restrict|_Atomic) )*"
REFUSED = re.compile(r"/\* 0x([0-9a-f]{8}) P[1-6] [A-Za-z]+ \*/")
tally = common.Tally(64)


def dwv(*words):
    """What the program writes."""
    return common.run(common.DWV, *words, encoding="utf-8", errors="replace")[1]


def check(name, path, entries):
    """The program must be sound, with the number of these entries."""
    said = dwv("check", path).strip()
    is_right = entries and re.fullmatch(rf"sound: \d+ units, {len(entries)} entries, \d+ types", said)
    tally.add(name, None if is_right else f"readelf lists {len(entries)} entries, dwv says: {said}", said)


def show(name, path, entries):
    """Each entry must have a line, and `size` must say of the first type with a size what its line says.

    A space and two more for each depth are before the tag. The first entry is no type.
    """
    text = dwv("show", path)
    places = [(int(at, 16), (len(gap) - 1) / 2) for at, gap in re.findall(r"(?m)^(\w+)( +)", text)]
    is_right = entries and places == [(it.at, it.depth) for it in entries]
    tally.add(f"{name}: show, {len(places)} lines", None if is_right else "other entries than readelf's")
    found = re.search(r"(?m)^(\w+) .* size (\d+)$", text)
    at, size = found.groups() if found else ("0x0", None)
    said = ", ".join(dwv("size", path, offset).strip() for offset in (at, text[:10]))
    tally.add(f"{name}: size at {at}, {said}", None if said == f"size {size}, not a type" else f"{size} in show")


def named(entries):
    """The named types of a file: the offset of each, with its keyword and its name."""
    types = {}
    for it in entries:
        word, name = WORDS.get(it.tag), it.attributes.get("name")
        if word and name and (word == "typedef" or it.attributes.get("declaration") != "1"):
            types[it.at] = word, name
    return types


def declared(line):
    """The keyword and the name of what a line declares."""
    word, rest = line.split(" ", 1)
    if word != "typedef":
        return word, rest.split(" ", 1)[0]
    while "{" in rest:
        rest = re.sub(r"\{[^{}]*\}", "", rest)
    if found := re.match(rf"[^(\[;]*(?:\(\*{QUALIFIERS})+(\w+)", rest):
        return word, found[1]
    return word, re.match(r"[^(\[;]*\b(\w+) *[(\[;]", rest)[1]


def types(name, path, entries):
    """Each named type must be listed once, printed or refused."""
    lines = dwv("types", path).splitlines()
    refused = [int(found[1], 16) for line in lines if (found := REFUSED.fullmatch(line))]
    printed = collections.Counter(declared(line) for line in lines if not line.startswith("/*"))
    listed = named(entries)
    wanted = collections.Counter(of for at, of in listed.items() if at not in refused)
    wrong = [f"not listed: {' '.join(it)}" for it in wanted - printed]
    wrong += [f"no such type: {' '.join(it)}" for it in printed - wanted]
    wrong += [f"refused, and no such type: 0x{at:08x}" for at in refused if at not in listed]
    if refused != sorted(set(refused)) or len(refused) + printed.total() != len(lines):
        wrong.append("the lines of refused types are not in rising order")
    if not printed:
        wrong.append("no line is a type")
    tally.add(f"{name}: types, {printed.total()} printed, {len(refused)} refused", "; ".join(wrong[:3]))


def accepted(name, path, compiler):
    """The compiler must accept the listing, and give each type that it prints its size."""
    text, asserts = dwv("types", path), ""
    printed = {declared(line) for line in text.splitlines() if not line.startswith("/*")}
    for at, (word, type_name) in named(common.readelf_entries(path)).items():
        size = dwv("size", path, f"0x{at:x}").split()
        if (word, type_name) in printed and size[0] == "size":
            spelled = type_name if word == "typedef" else f"{word} {type_name}"
            asserts += f'_Static_assert(sizeof({spelled}) == {size[1]}, "{type_name}");\n'
    words = [compiler, "-std=gnu11", "-fsyntax-only", "-x", "c", "-"]
    ran = subprocess.run(words, input=text + asserts, capture_output=True, text=True)
    why = ran.stderr if ran.returncode else "" if asserts else "no size"
    count = asserts.count("\n")
    tally.add(f"{name}: types, {'not ' * bool(why)}accepted by {compiler}, {count} sizes", why)


def programs(folder, compilers):
    """The runs on what each compiler makes."""
    for compiler, version, level in itertools.product(compilers, (5, 4), ("-O0", "-O2")):
        program, command = f"{compiler}-dwarf{version}{level}", f"{compiler} -gdwarf-{version} {level}"
        for name, flags, sources, tests in (
            (program, "", ("shapes.c", "calls.c"), (check, show, types)),
            (f"{program}.so", "-fPIC -shared", ("library.c",), (check, types)),
        ):
            path = folder / name
            if common.compiled(path, f"{command} {flags}", *sources):
                entries = common.readelf_entries(path)
                for test in tests:
                    test(name, path, entries)
            else:
                tally.lack(f"{name} does not compile")
        shapes = folder / "shapes.so"
        if common.compiled(shapes, f"{command} -fPIC -shared", "shapes.c"):
            for other in compilers:
                accepted(f"{program}, shapes.c", shapes, other)


def main():
    if tally.has("readelf"):
        common.build()
        with common.empty_folder() as folder:
            programs(folder, list(filter(tally.has, ("gcc", "clang"))))
    return tally.end()


sys.exit(main())
