"""What is found at the place of a fault, in numbers, beside what the rule requires: one sentence, or None."""
from dwv_tools import entries, names, reading

# How a file of another kind begins, and what it is.
KINDS = [
    (b"!<arch>\n", "an archive of object files (.a): check the program that is linked with it"),
    (b"!<thin>\n", "a thin archive of object files"),
    (b"MZ", "a Windows program (PE)"),
    (b"\xcf\xfa\xed\xfe", "a Mach-O file (macOS)"), (b"\xce\xfa\xed\xfe", "a Mach-O file of 32 bits (macOS)"),
    (b"\xca\xfe\xba\xbe", "a Mach-O universal file, or a Java class"),
    (b"BC\xc0\xde", "LLVM bitcode: link it first"), (b"\0asm", "WebAssembly"),
    (b"\x1f\x8b", "compressed by gzip: unpack it first"), (b"\xfd7zXZ", "compressed by xz: unpack it first"),
    (b"(\xb5/\xfd", "compressed by zstd: unpack it first"), (b"BZh", "compressed by bzip2: unpack it first"),
    (b"PK\x03\x04", "a zip archive"), (b"#!", "a script"), (b"%PDF", "a PDF file"),
]
PAGES = (b"<!doctype", b"<html", b"<?xml")
STRINGS = {reading.STRP: ".debug_str", reading.LINE_STRP: ".debug_line_str"}
LOWER, UPPER, COUNT = 0x22, 0x2F, 0x37
# So many zero bytes before a place say that a block was lost.
BLOCK = 64
LOST = f"The {BLOCK} bytes before it are zero: a block of the file may have been lost."


def number(data, at, size):
    return int.from_bytes(data[at : at + size], "little")


def of_kind(place):
    """What a file is that is no ELF64 file."""
    data = place.file.data
    head = bytes(data[:64])
    if not head:
        return "The file is empty."
    if head[:4] != b"\x7fELF":
        if any(head.lower().lstrip().startswith(it) for it in PAGES):
            return "The file is a text of HTML or XML: was it downloaded whole?"
        kind = next((text for magic, text in KINDS if head.startswith(magic)), None)
        is_text = all(9 <= it < 127 for it in head)
        return f"The file is {kind}." if kind else "The file is a text." if is_text else (
            f"No ELF file begins with the bytes {head[:8].hex(' ')}.")
    if len(head) < 64:
        return f"The file has {len(data)} bytes, and the header of an ELF file has 64. It was probably cut."
    bits, order = {1: "32-bit", 2: "64-bit"}.get(head[4]), {1: "little-endian", 2: "big-endian"}.get(head[5])
    return f"The file is a {bits} {order} ELF file." if bits and order else "The header of the file is malformed."


def of_type(place):
    kinds = {0: "of no type", 1: "an object file", 4: "a core dump"}
    return f"The type is {place.file.type}: {kinds.get(place.file.type, 'of the system')}."


def of_headers(place):
    data = place.file.data
    at, each, count, names_at = number(data, 40, 8), number(data, 58, 2), number(data, 60, 2), number(data, 62, 2)
    end = at + each * count
    if end > len(data):
        return (f"The section headers end at {end}, and the file has {len(data)} bytes: {end - len(data)} are missing"
                " at its end. It was probably cut: copy or download it again.")
    if at == 0 or count == 0:
        return "The file has no section headers (as after sstrip or UPX)."
    return f"There are {count} headers of {each} bytes at {at}; the number of the section of names is {names_at}."


def of_range(place):
    it = place.file.sections[place.at]
    end = it.start + it.size
    size = len(place.file.data)
    return f"{it.name} ends at {end}, and the file has {size} bytes." if end > size else None


def of_large(place):
    it = place.file.sections[place.at] if place.at else None
    return f"{it.name} has {it.size} bytes." if it else None


def of_section(name, file):
    return f"{name} has {file.section(name).size} bytes" if file.has_section(name) else f"there is no section {name}"


def attribute_of(place):
    return next((it for it in place.entry.attributes if it.code == place.attribute), None) if place.entry else None


def of_string(place):
    it = attribute_of(place)
    name = STRINGS.get(it.form) if it else None
    if name is None:
        return None
    return f"The offset is {it.value} (0x{it.value:x}), and {of_section(name, place.file)}."


def of_index(place):
    it = attribute_of(place)
    return f"The index is {it.value}." if it else None


def of_reference(place):
    it = attribute_of(place)
    at = it.value if it.form == reading.REF_ADDR else place.unit.at + it.value
    inside = place.file.info.size if it.form == reading.REF_ADDR else place.unit.end
    if at >= inside:
        what = ".debug_info" if it.form == reading.REF_ADDR else "the unit"
        return f"The target is 0x{at:08x}, and {what} ends at 0x{inside:08x}."
    return f"The target is 0x{at:08x}, where no entry starts."


def of_kind_of_target(place):
    target = entries.target_of(place.entry, place.attribute)
    return f"The target is a {names.name('TAG', target.tag)}." if target else None


def of_member(place):
    parent, entry = place.above[-1], place.entry
    size = entries.number_of(parent, reading.BYTE_SIZE)
    bits, start = entries.number_of(entry, reading.BIT_SIZE), entries.number_of(entry, reading.BIT_POSITION)
    if bits is not None and start is not None:
        return f"The member ends at bit {start + bits}, and the structure has {8 * size}."
    at, of = entries.number_of(entry, reading.MEMBER_LOCATION) or 0, entries.target_of(entry, reading.TYPE)
    kind = entries.size_of(of) if of else None
    return None if kind is None else f"{at} + {kind} = {at + kind} bytes, and the structure has {size}."


def of_size(place):
    size = entries.number_of(place.entry, reading.BYTE_SIZE)
    return "There is no DW_AT_byte_size." if size is None else f"DW_AT_byte_size is {size}."


def of_enum(place):
    own, of = entries.number_of(place.entry, reading.BYTE_SIZE), entries.target_of(place.entry, reading.TYPE)
    kind = entries.size_of(of) if of else None
    if own is None or kind is None:
        return "There is neither a DW_AT_byte_size nor a DW_AT_type." if of is None else None
    return f"DW_AT_byte_size is {own}, and the type has {kind} bytes."


def of_sibling(place):
    children = place.entry.unit.children(place.above[-1]) if place.above else ()
    following = next((it.at for it in children if it.at > place.at), None)
    to = place.entry.unit.target(attribute_of(place))[1]
    return f"The target is 0x{to:08x}, and " + (
        "the entry is the last child." if following is None else f"the next sibling is at 0x{following:08x}.")


def of_dimension(place):
    lower = entries.number_of(place.entry, LOWER) or 0
    upper, count = entries.number_of(place.entry, UPPER), entries.number_of(place.entry, COUNT)
    return f"DW_AT_count is {count}." if count is not None else f"{upper} - {lower} + 1 = {upper - lower + 1}."


def of_twice(place):
    seen = [code for *_, what, code in place.declaration or [] if what == "attribute"]
    return f"The declaration has {names.name('AT', place.attribute)} {seen.count(place.attribute)} times."


def of_version(place):
    return f"The version is {place.unit.version}."


def of_address_size(place):
    return f"The size is {place.unit.address_size}."


def of_table(place):
    return f"The offset is {place.unit.table}, and {of_section('.debug_abbrev', place.file)}."


def is_after_zeros(place):
    start = place.file.info.start + place.at
    return place.at >= BLOCK and place.file.data[start - BLOCK : start] == bytes(BLOCK)


def of_code(place):
    code = reading.Cursor(place.file.data, place.file.info, place.at).leb()
    return f"The code is {code}.{f' {LOST}' if is_after_zeros(place) else ''}"


def of_unit(place):
    length = number(place.file.data, place.file.info.start + place.at, 4)
    left = place.file.info.size - place.at - 4
    return f"The length is {length}, and {left} bytes of .debug_info are left." if length > left else None


def of_left(place):
    return LOST if is_after_zeros(place) else None


FOUND = {
    "E1": of_large, "E2": of_kind, "E3": of_type, "E4": of_headers, "E6": of_range, "A8": of_twice, "U1": of_unit,
    "U3": of_version, "U5": of_address_size, "U6": of_table, "U9": of_left, "G1": of_code, "S2": of_index,
    "S3": of_string, "S5": of_index, "R1": of_reference, "R2": of_kind_of_target, "R3": of_sibling, "Y2": of_dimension,
    "Z1": of_size, "Z3": of_member, "Z4": of_enum,
}


def found(place):
    """A sentence, or None if nothing can be said."""
    try:
        return FOUND[place.rule](place) if place.rule in FOUND else None
    except (reading.Unreadable, AttributeError, IndexError, TypeError, KeyError):
        return None
