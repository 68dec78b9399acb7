"""Explains a fault: as lines for a person, or as an object for a tool."""
import pathlib
import textwrap

from dwv_tools import causes, entries, finding, measured, names, reading, running
from dwv_tools import lines as line_tables
from dwv_tools.finding import MOST
from dwv_tools.running import plain

RULES = pathlib.Path(__file__).parent / "rules.txt"
KINDS = {
    "compiler": "A habit of your compiler; the file is not damaged.",
    "limit": "dwv does not read such files; the file itself may be fine.",
    "file": "The file is not what the standard says.",
}
# How many bytes of a block are shown.
BYTES = 16
BYTE_RULES = "AUG"


def rules():
    """From each rule to what violates it, and to how a valid file has it."""
    lines = RULES.read_text().splitlines()
    rows = [line.split(" | ") for line in lines if not line.startswith("#")]
    return {title.split()[0]: (text, required) for title, text, required in rows}


def described(entry):
    """The tag of an entry, its name, and the size of a type."""
    name, size = entries.name_of(entry), entries.size_of(entry)
    text = names.name("TAG", entry.tag) + (f' "{plain(name)}"' if name is not None else "")
    return text + (f", {size} bytes" if size is not None else "")


def value_text(entry, attribute, is_entry=True):
    """The value of an attribute. A reference that is not to an entry is told by the rule R1."""
    unit, value = entry.unit, attribute.value
    text = entries.text_of(unit, attribute)
    if text is not None:
        return f'"{plain(text)}"'
    if isinstance(value, bytes):
        return f"{len(value)} bytes: {value[:BYTES].hex(' ')}{' ..' if len(value) > BYTES else ''}"
    if attribute.code == reading.LANGUAGE:
        return names.name("LANG", value)
    try:
        found = unit.target(attribute)
    except reading.Unreadable as error:
        return f"0x{value:x}: {error}"
    if found:
        target = entries.target_of(entry, attribute.code) if is_entry else None
        return f"0x{found[1]:08x}{f' {described(target)}' if target else ', where no entry starts'}"
    name = names.name("FORM", attribute.form)
    return hex(value) if any(word in name for word in ("addr", "sec_offset", "strp", "alt", "strx")) else str(value)


def entry_lines(place):
    """The entry at the place of a fault with its attributes, and those above it."""
    lines = []
    for depth, entry in enumerate(place.above):
        lines.append(f"0x{entry.at:08x} {'  ' * depth}{described(entry)}")
    if place.entry:
        depth = "  " * len(place.above)
        arrow = "" if place.attribute else "   <-- here"
        lines.append(f"0x{place.entry.at:08x} {depth}{described(place.entry)}{arrow}")
        for attribute in place.entry.attributes[:MOST]:
            name, form = names.name("AT", attribute.code), names.name("FORM", attribute.form)
            is_here = attribute.code == place.attribute
            value = value_text(place.entry, attribute, not (is_here and place.rule == "R1"))
            line = f"{' ' * 13}{depth}{name}{f' ({form})' if is_here else ''}  {value}"
            lines.append(f"{line}{'   <-- here' if is_here else ''}")
        if len(place.entry.attributes) > MOST:
            lines.append(f"{' ' * 13}{depth}and {len(place.entry.attributes) - MOST} attributes more")
    return lines


def field_lines(file, section, fields, at, following="what follows"):
    """The bytes of fields in hexadecimal, each with what it is, and some that follow the last."""
    last = fields[-1][1] if fields else at
    stop = min(last + BYTES, section.size)
    rows = [*fields[-MOST:], *([(last, stop, following, None)] if stop > last else [])]
    lines = []
    for start, stop, what, number in rows:
        bytes_of = file.data[section.start + start : section.start + min(stop, start + BYTES)].hex(" ")
        lines.append(f"0x{start:08x}  {bytes_of:<{3 * BYTES}} {what}{'' if number is None else f' {number}'}")
    return lines


def declaration_fields(place):
    """The parts of a declaration with their names."""
    kinds = {"tag": "TAG", "attribute": "AT", "form": "FORM"}
    for start, end, what, number in place.declaration or []:
        yield start, end, *((what, names.name(kinds[what], number)) if what in kinds else (what, number))


def entry_fields(place):
    """The code and the attributes of an entry, as far as they can be read."""
    if place.entry is None:
        return []
    first = place.entry.attributes[0].at if place.entry.attributes else place.entry.end or place.at + 1
    fields = [(place.at, first, f"the code of {names.name('TAG', place.entry.tag)}", None)]
    for it in place.entry.attributes[-MOST:]:
        if it.end > it.at:
            fields.append((it.at, it.end, names.name("AT", it.code), value_text(place.entry, it)))
    return fields


def byte_lines(place):
    """The bytes at the place of a fault of the rules A, U and G, which are about bytes."""
    file = place.file
    if place.section == ".debug_abbrev":
        return field_lines(file, file.abbrev, list(declaration_fields(place)), place.at)
    if place.rule in finding.HEADER_RULES:
        return field_lines(file, file.info, place.unit.fields if place.unit else [], place.at)
    is_cut = place.entry is None or place.entry.end is None
    what = names.name("AT", place.attribute) if place.attribute else "the code of an entry"
    following = f"{what} should be here" if is_cut and place.rule != "U9" else "what follows"
    return field_lines(file, file.info, entry_fields(place), place.at, following)


def header_lines(place):
    """The section header of a fault of the rules E."""
    if not 0 < place.at < len(place.file.sections):
        return []
    it = place.file.sections[place.at]
    about = f'"{plain(it.name)}", type {it.type}, flags 0x{it.flags:x}, offset 0x{it.start:x}, {it.size} bytes'
    return [f"section header {place.at}: {about} (the file has {len(place.file.data)})"]


def cycle_lines(place):
    lines = []
    for at in place.cycle[:MOST]:
        entry = entries.readable(place.file.unit_of(at), at)
        lines.append(f"0x{at:08x} {described(entry) if entry else ''}")
    return lines


def unit_lines(place):
    """The unit of a fault."""
    if place.unit is None:
        return []
    rows = [("name", place.unit_name), ("producer", place.producer), ("language", place.language)]
    if place.declared:
        rows.append(("declared", line_tables.place_of(place.line_table, place.unit.at, *place.declared, place.limits)))
    version = f"version {place.unit.version}" if place.unit.version is not None else "a part of a header"
    return [f"Unit at 0x{place.unit.at:08x}, {version}", *(f"  {what:<9} {plain(text)}" for what, text in rows if text)]


def folded(title, text):
    """A text of several lines with a title."""
    return textwrap.wrap(text, 100, initial_indent=f"{title + ':':<12}", subsequent_indent=" " * 12,
                         break_on_hyphens=False, break_long_words=False)


def lines(verdict, path, limits=running.Limits()):
    """The explanation of a fault in lines of text, the line of `dwv` first."""
    place = finding.Place(verdict, path, limits)
    text, required = rules()[place.rule]
    cause, found = causes.cause(place), measured.found(place)
    blocks = [
        [f"{place.lines[0]}{place.note}", *place.lines[1:]],
        [*folded("Rule", text), *folded("Required", required), *(folded("Found", found) if found else [])],
        [*folded("Cause", f"{KINDS[cause.kind]} {cause.text}"), *folded("What to do", cause.remedy)],
        unit_lines(place),
        header_lines(place) if place.section == "file" else entry_lines(place) if place.rule[0] not in "AU" else [],
        byte_lines(place) if place.rule[0] in BYTE_RULES else [],
        cycle_lines(place),
        [f"Not shown: {place.trouble}"] if place.trouble and place.rule[0] not in BYTE_RULES else [],
    ]
    return "\n\n".join("\n".join(block) for block in blocks if block).split("\n")


def sound(verdict):
    """What is said of a sound file in lines."""
    if not verdict.note:
        return verdict.lines
    said = "dwv itself does not read the file as it is. The line is true of what was prepared from it."
    return [verdict.lines[0] + verdict.note, "", *folded("Note", said)]


def shown(entry):
    """An entry as an object, without its attributes."""
    tag = names.name("TAG", entry.tag)
    return {"at": entry.at, "tag": tag, "name": entries.name_of(entry), "size": entries.size_of(entry)}


def fields(verdict, path):
    """The explanation of a fault as an object: what `dwv check --json` prints, and the keys that are added."""
    place = finding.Place(verdict, path)
    text, required = rules()[place.rule]
    entry, unit, cause = None, None, causes.cause(place)
    if place.entry:
        attributes = [{"name": names.name("AT", it.code), "form": names.name("FORM", it.form),
                       "value": value_text(place.entry, it)} for it in place.entry.attributes[:MOST]]
        entry = {**shown(place.entry), "attributes": attributes, "above": [shown(it) for it in place.above]}
    if place.unit:
        unit = {"at": place.unit.at, "version": place.unit.version, "name": place.unit_name, "language": place.language}
    return {
        "at": place.at, "attribute": place.attribute, "cycle": place.cycle, "name": place.name, "rule": place.rule,
        "section": place.section, "sound": False, "rule_text": f"{text} Required: {required}", "entry": entry,
        "unit": unit, "producer": place.producer,
        "found": measured.found(place),
        "hint": {"kind": cause.kind, "cause": cause.text, "remedy": cause.remedy}, "note": place.note.strip(" ()"),
    }
