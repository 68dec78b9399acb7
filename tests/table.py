#!/usr/bin/env python3
"""Compares the table of dwv with other readers, on programs of each compiler: `tests/table.py [FILE..]`.

pyelftools reads each unit, entry and value of a program, and the value is resolved here by its form: each row of the
table must be that. The size of a type is computed from its values by the table of docs/RULES.md. pyelftools does not
read type units, so there readelf gives the entries, the names and the targets of references. The table of six sections
must be that of the file, but for where places are counted from. With FILEs, these are compared in place of the
programs. It prints a line a program, and ends with 'N passed, N failed, N skipped'.
"""
import functools
import importlib.util
import math
import os
import re
import subprocess
import sys

sys.dont_write_bytecode = True
import common

sys.path.append(str(common.TOP / "python"))
CPP = """namespace outer { enum class color : unsigned char { red, green = 200 };
struct base { virtual ~base() {} int a = 1; static const long shared = -5; };
template <typename T, int N> struct box : base { T values[N]; T &first() { return values[0]; } };
struct key { unsigned low : 3, high : 7; color shade; int base::*member; const key *next; };
inline int sum(box<int, 3> &of, int &&by) { int s = by; for (int it : of.values) s += it; return s; } }
using outer::key; key one; outer::box<key, 4> keys; outer::box<int, 3> numbers; __int128 wide = 1;
static int twice(int x) { return x * 2 + numbers.first(); } int main() { return outer::sum(numbers, twice(one.low)); }
"""
RUST = """use std::collections::HashMap; #[derive(Debug)] enum Shape { Dot, Line(u8, u64), Text { of: String } }
fn main() { let mut all = HashMap::new(); all.insert(1u8, Shape::Line(1, 2)); all.insert(2, Shape::Dot);
all.insert(3, Shape::Text { of: String::new() }); println!("{:?}", all); }
"""
NUMBERS = {f"DW_FORM_data{size}" for size in (1, 2, 4, 8)} | {"DW_FORM_udata"}
BLOCKS = {"DW_FORM_block", "DW_FORM_block1", "DW_FORM_block2", "DW_FORM_block4"}
OTHERS = {"DW_FORM_sec_offset": "section_offset", "DW_FORM_loclistx": "location_list", "DW_FORM_rnglistx": "range_list"}
INSIDE = {f"DW_FORM_ref{size}" for size in (1, 2, 4, 8, "_udata")}
UNIT_TYPES = {"DW_UT_compile": 1, "DW_UT_type": 2, "DW_UT_partial": 3}
# The types that have a size, by what says it (docs/RULES.md, Sizes of types).
ALIASES = set("typedef const_type volatile_type restrict_type atomic_type".split())
OWN_SIZED = set("""base_type structure_type union_type unspecified_type class_type reference_type string_type
    ptr_to_member_type set_type subrange_type file_type packed_type interface_type shared_type rvalue_reference_type
    template_alias coarray_type dynamic_type immutable_type""".split())
# Languages whose arrays begin at 0: C89, C, C++, C99, C++11, Rust, C11, C++14.
FROM_0 = (0x1, 0x2, 0x4, 0xc, 0x1a, 0x1c, 0x1d, 0x21)
SIX = ("info", "abbrev", "str", "line_str", "str_offsets", "addr")
tally = common.Tally(1 if sys.argv[1:] else 30)


class Reader:
    """What pyelftools says of a file, with the values resolved."""

    def __init__(self, elf):
        def section(name):
            found = elf.get_section_by_name(name)
            return found.data() if found else b""

        self.dwarf = elf.get_dwarf_info(relocate_dwarf_sections=False)
        self.parts, self.starts = {}, {}    # by the numbers of enum dwv_place
        for number, name in enumerate((".debug_info", ".debug_str", ".debug_line_str"), 1):
            found = elf.get_section_by_name(name)
            self.parts[number], self.starts[number] = section(name), found["sh_offset"] if found else None
        self.offsets, self.addresses = section(".debug_str_offsets"), section(".debug_addr")
        self.rows, self.entries, self.below = {}, [], {}
        for unit in self.dwarf.iter_CUs():
            above = []
            for entry in unit.iter_DIEs():
                if entry.is_null():
                    above.pop()
                    continue
                self.rows[entry.offset] = len(self.entries)
                self.entries.append((unit, entry, list(above)))
                self.below.setdefault(above[-1] if above else None, []).append(self.rows[entry.offset])
                if entry.has_children:
                    above.append(self.rows[entry.offset])

    def place(self, unit, attribute):
        """Where the bytes of a value are: the number of a section and an offset in it; None if it names no bytes."""
        form, value, at = attribute.form, attribute.raw_value, attribute.offset
        if form.startswith("DW_FORM_strx"):
            base = unit.get_top_DIE().attributes["DW_AT_str_offsets_base"].value
            return 2, int.from_bytes(self.offsets[base + 4 * value :][:4], "little")
        if form in ("DW_FORM_strp", "DW_FORM_line_strp"):
            return 2 if form == "DW_FORM_strp" else 3, value
        if form in ("DW_FORM_string", "DW_FORM_data16"):
            return 1, at
        if form in ("DW_FORM_block", "DW_FORM_exprloc"):
            while self.parts[1][at] >= 0x80:    # the bytes of the length but its last one
                at += 1
            return 1, at + 1
        return (1, at + int(form[-1])) if form in BLOCKS else None

    def text(self, unit, attribute):
        """The bytes of a text."""
        number, at = self.place(unit, attribute)
        return self.parts[number][at : self.parts[number].index(b"\0", at)]

    def meaning(self, unit, attribute):
        """What a value means: its kind, and what `Table.value` must return."""
        form, value = attribute.form, attribute.raw_value
        if form in NUMBERS:
            return "unsigned", value
        if form in ("DW_FORM_sdata", "DW_FORM_implicit_const"):
            return "signed", value
        if form in ("DW_FORM_flag", "DW_FORM_flag_present"):
            return "flag", form == "DW_FORM_flag_present" or value != 0
        if form == "DW_FORM_addr":
            return "address", value
        if form.startswith("DW_FORM_addrx"):
            size, base = unit["address_size"], unit.get_top_DIE().attributes["DW_AT_addr_base"].value
            return "address", int.from_bytes(self.addresses[base + size * value :][:size], "little")
        if form in ("DW_FORM_string", "DW_FORM_strp", "DW_FORM_line_strp") or form.startswith("DW_FORM_strx"):
            return "text", self.text(unit, attribute)
        if form in BLOCKS or form == "DW_FORM_exprloc":
            return "block" if form in BLOCKS else "expression", bytes(value)
        if form == "DW_FORM_data16":
            return "wide", int.from_bytes(bytes(value), "little")
        if form in INSIDE or form == "DW_FORM_ref_addr":
            return "reference", self.rows[value + unit.cu_offset * (form in INSIDE)]
        return OTHERS.get(form, form), value

    def value(self, row, name):
        """What a value of an entry means; None where the entry does not have it."""
        unit, entry, _ = self.entries[row]
        return self.meaning(unit, entry.attributes[name]) if name in entry.attributes else None

    def number(self, row, name, absent=None):
        """A number of 0 or more; None for any other value, and what is given for none."""
        found = self.value(row, name)
        return absent if found is None else found[1] if found[0] in ("unsigned", "signed") and found[1] >= 0 else None

    def bound(self, row, name, absent=None):
        """A bound, of which the greatest number of 64 bits is -1."""
        kind, value = self.value(row, name) or ("signed", absent)
        return None if kind not in ("unsigned", "signed") else -1 if value == (1 << 64) - 1 else value

    @functools.lru_cache(maxsize=None)
    def size(self, row):
        """The size of a type; None where it has none."""
        unit, entry, _ = self.entries[row]
        tag, of = str(entry.tag).replace("DW_TAG_", ""), self.value(row, "DW_AT_type")
        if tag in ("structure_type", "union_type", "enumeration_type") and self.value(row, "DW_AT_declaration"):
            return None    # without type units
        if tag == "pointer_type":
            return self.number(row, "DW_AT_byte_size", unit["address_size"])
        if tag in OWN_SIZED:
            return self.number(row, "DW_AT_byte_size")
        of_type = self.size(of[1]) if of and (tag in ALIASES or tag in ("enumeration_type", "array_type")) else None
        if tag == "array_type":
            return self.number(row, "DW_AT_byte_size", self.elements(row, of_type))
        return self.number(row, "DW_AT_byte_size", of_type) if tag == "enumeration_type" else of_type

    def elements(self, row, of_type):
        """How many bytes the elements of an array have, by the size of its type."""
        language = self.entries[row][0].get_top_DIE().attributes.get("DW_AT_language")
        factors = []
        for child in self.below.get(row, ()):
            tag = str(self.entries[child][1].tag)
            if tag == "DW_TAG_subrange_type":
                count = self.number(child, "DW_AT_count")
                upper, lower = self.bound(child, "DW_AT_upper_bound"), self.bound(child, "DW_AT_lower_bound", 0)
                if not self.value(child, "DW_AT_count") and (not language or language.value in FROM_0):
                    count = None if upper is None or lower is None else upper - lower + 1
                has_stride = any(self.value(child, f"DW_AT_{it}_stride") for it in ("bit", "byte"))
                factors.append(None if has_stride else count)
            elif tag in ("DW_TAG_enumeration_type", "DW_TAG_generic_subrange"):
                return None
        stride = self.number(row, "DW_AT_byte_stride", of_type)
        if self.value(row, "DW_AT_bit_stride") or not factors or None in factors or stride is None:
            return None
        return stride * math.prod(factors)


def unlike_sections(path, table):
    """What the table of the six sections of a file says otherwise than that of the file."""
    from elftools.elf.elffile import ELFFile
    with open(path, "rb") as file:
        found = {it: ELFFile(file).get_section_by_name(f".debug_{it}") for it in SIX}
        starts = [0, *(found[it]["sh_offset"] if found[it] else 0 for it in ("info", "str", "line_str"))]
        other = dwv.table_sections(**{it: section.data() for it, section in found.items() if section})
    for part, fields in table.columns.items():
        place, section = {"entries": ("name", "name_section"), "values": ("number", "section")}.get(part, (None, None))
        for field, column in fields.items():
            wanted = list(column)
            if field == place:
                wanted = [number - starts[where] for number, where in zip(wanted, fields[section])]
            if wanted != list(other.columns[part][field]):
                yield f"by sections: {field} of {part}"


def differences(path):
    """What pyelftools and the table say otherwise, and how many values were compared."""
    from elftools.dwarf import enums
    from elftools.elf.elffile import ELFFile
    with open(path, "rb") as file:
        found, table = Reader(ELFFile(file)), dwv.table(path)
        units, entries, values = (table.columns[it] for it in ("units", "entries", "values"))
        wrong, value, last, starts = [], 0, {}, {}
        for row, (unit, entry, above) in enumerate(found.entries):
            number = starts.setdefault(unit.cu_offset, len(starts))
            tag = enums.ENUM_DW_TAG.get(entry.tag, entry.tag)
            said = tuple(entries[it][row] for it in ("offset", "tag", "depth", "unit", "first_value", "values"))
            if said != (entry.offset, tag, len(above), number, value, len(entry.attributes)):
                wrong.append(f"entry {row}: {said}")
            parent = above[-1] if above else None
            if table.parent(row) != parent or entries["next_sibling"][row] != NONE and row + 1 == len(table):
                wrong.append(f"entry {row}: its parent, {table.parent(row)}")
            if (number, parent) in last and entries["next_sibling"][last[number, parent]] != row:
                wrong.append(f"entry {row}: it is not the next sibling")
            last[number, parent] = row
            if table.size(row) != found.size(row):
                wrong.append(f"entry {row}: its size, {table.size(row)}, wanted {found.size(row)}")
            for name, attribute in entry.attributes.items():
                code = enums.ENUM_DW_AT.get(name, name)
                place = found.place(unit, attribute)
                wanted = (row, code, *found.meaning(unit, attribute), *(place or (0,)))
                said = (values["entry"][value], values["attribute"][value], table.kind(value), table.value(value),
                        values["section"][value])
                if place:
                    said += (values["number"][value] - found.starts[place[0]],)
                if said != wanted:
                    wrong.append(f"value {value}, {attribute.form}: {said}, wanted {wanted}")
                end = values["number"][value] + values["length"][value]
                if wanted[2] == "text" and table.parts[values["section"][value]][end] != 0:
                    wrong.append(f"value {value}: no zero byte ends the text")
                if name == "DW_AT_name":
                    said = tuple(entries[it][row] for it in ("name", "name_length", "name_section"))
                    if said != tuple(values[it][value] for it in ("number", "length", "section")):
                        wrong.append(f"entry {row}: its name, {said}")
                value += 1
        wrong += [f"entry {row}: the last one has a sibling" for row in last.values() if
                  entries["next_sibling"][row] != NONE]
        for number, unit in enumerate(found.dwarf.iter_CUs()):
            rows = [row for row in range(units["first"][number], units["first"][number] + units["entries"][number])]
            language = unit.get_top_DIE().attributes.get("DW_AT_language")
            said = tuple(units[it][number] for it in ("offset", "version", "address_size", "language"))
            if said != (unit.cu_offset, unit["version"], unit["address_size"], language.value if language else 0):
                wrong.append(f"unit {number}: {said}")
            top = unit.get_top_DIE()
            bases = [getattr(top.attributes.get(f"DW_AT_{it}"), "value", 0) for it in ("rnglists_base", "loclists_base")]
            kind = 3 if top.tag == "DW_TAG_partial_unit" else 1
            code = unit["unit_type"] if unit["version"] == 5 else kind    # a number by an older pyelftools
            wanted = [UNIT_TYPES.get(code, code), *bases]
            said = [units[it][number] for it in ("unit_type", "rnglists_base", "loclists_base")]
            if said != wanted:
                wrong.append(f"unit {number}: its type and bases, {said}, wanted {wanted}")
            if {entries["unit"][row] for row in rows} != {number}:
                wrong.append(f"unit {number}: its entries")
        if (len(found.entries), value, len(starts)) != (len(table), len(values["entry"]), len(units["offset"])):
            wrong.append(f"{len(found.entries)} entries, {value} values, and {table}")
    return [*wrong, *unlike_sections(path, table)], value


def typed_differences(path):
    """The same by readelf: offsets, depths and tags of all entries, and names and references by DW_AT_type."""
    table, found, types, unit = dwv.table(path), common.readelf_entries(path), {}, {}
    header = subprocess.run(["readelf", "--debug-dump=info", path], capture_output=True, text=True).stdout
    start, signature = 0, None
    for line in header.splitlines():
        if it := re.match(r" *Compilation Unit @ offset (?:0x)?([0-9a-f]+)", line):
            start = int(it[1], 16)
        elif it := re.match(r" *Signature: +0x([0-9a-f]+)", line):
            signature = int(it[1], 16)
        elif it := re.match(r" *Type Offset: +0x([0-9a-f]+)", line):
            types[signature] = start + int(it[1], 16)
    wrong, count, entries = [], 0, table.columns["entries"]
    if len(found) != len(table):
        return [f"{len(found)} entries by readelf, {len(table)} in the table"], 0
    for row, entry in enumerate(found):
        # readelf cuts some names short.
        said, is_tag = (entries["offset"][row], entries["depth"][row]), table.tag(row).startswith(f"DW_TAG_{entry.tag}")
        if said != (entry.at, entry.depth) or not is_tag:
            wrong.append(f"entry {row}: {said} {table.tag(row)}, wanted {entry}")
        for name, text in entry.attributes.items():
            value = table.attribute(row, f"DW_AT_{name}")
            if it := re.fullmatch(r"(?:\(\w+\) )?<0x([0-9a-f]+)>", text):
                said, wanted = entries["offset"][value], int(it[1], 16)
            elif it := re.fullmatch(r"(?:\(\w+\) )?signature: (?:0x)?([0-9a-f]+)", text):
                said, wanted = entries["offset"][value], types[int(it[1], 16)]
            elif name == "name" and entry.depth:    # before the base of a unit, readelf does not know its texts
                said, wanted = value.decode(), text
            else:
                continue
            count += 1
            if said != wanted:
                wrong.append(f"entry {row}, {name}: {said}, wanted {wanted}")
    kinds = [UNIT_TYPES[it] for it in re.findall(r"Unit Type: +(DW_UT_\w+)", header)]
    if list(table.columns["units"]["unit_type"]) != kinds:
        wrong.append(f"types of units: {list(table.columns['units']['unit_type'])}, wanted {kinds}")
    return [*wrong, *unlike_sections(path, table)], count


def programs(folder):
    """The programs: a title, the path, and whether it has type units."""
    (folder / "types.cc").write_text(CPP)
    (folder / "main.rs").write_text(RUST)
    path = folder / "program"
    plans = [(f"{compiler} -gdwarf-{version} {more} -shared -fPIC", source)
             for compiler in ("gcc", "clang") for version in (4, 5) for more in ("-O0", "-O2")
             for source in ("shapes.c", "calls.c", "library.c")]
    plans += [(f"{compiler} -gdwarf-{version} {more}", folder / "types.cc")
              for compiler in ("g++", "clang++") for version in (4, 5) for more in ("-O0", "-O2")]
    plans += [(f"clang++ -gdwarf-5 -fdebug-types-section {more}", folder / "types.cc") for more in ("-O0", "-O2")]
    plans += [(f"rustc -g --cap-lints allow -C opt-level={level}", folder / "main.rs") for level in (0, 2)]
    for command, source in plans:
        if tally.has(command.split()[0]):
            title = f"{command} {source if isinstance(source, str) else source.name}"
            words = [*command.split(), *([] if command.startswith("rustc") else ["-w"]), "-o", path]
            if subprocess.run([*words, common.PROGRAMS / source], capture_output=True).returncode == 0:
                yield title, path, "types-section" in command
            else:
                tally.lack(f"{title} does not compile")


def compare(title, path, has_types):
    try:
        wrong, count = typed_differences(path) if has_types else differences(path)
    except dwv.NotSound as error:
        # The compilers write some files that are not sound; docs/COMPILERS.md has their faults.
        tally.skip(f"{title}: {error}")
        return
    tally.add(title, "; ".join(wrong[:5]) or (None if count else "nothing was compared"), f"{count} values")


def main():
    with common.empty_folder() as folder:
        for title, path, has_types in ((it, it, False) for it in sys.argv[1:]) if sys.argv[1:] else programs(folder):
            compare(title, path, has_types)
    return tally.end()


if __name__ == "__main__":
    common.build_library()
    if not importlib.util.find_spec("elftools"):
        if common.PYTHON != sys.executable:
            os.execv(common.PYTHON, [common.PYTHON, *sys.argv])
        tally.lack("pyelftools is not installed")
        sys.exit(tally.end())
    import dwv
    from dwv.tables import NONE
    sys.exit(main())
