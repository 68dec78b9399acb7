"""Reads the layout of a structure or union from the entries of a sound file."""
from dwv_tools.c_file import (
    ALIGNMENT, ARRAY, BIT_OFFSET, BIT_POSITION, BIT_SIZE, BYTE_SIZE, DECLARATION, MEMBER_LOCATION, SAME_SIZE,
)
from dwv_tools.c_layout import Shape
from dwv_tools.c_types import Body, Enum, Vector, innermost

MEMBER, STRUCTURES = 0x0D, {0x13, 0x17, 0x02}
# What leads from a type to its innermost one: arrays, pointers, functions, qualifiers.
LEADING = {0x01, 0x0F, 0x15, 0x26, 0x35, 0x37, 0x47}


def innermost_entry(entry):
    """The type of an entry without pointers, arrays, functions and qualifiers."""
    entry = entry.type()
    while entry and entry.tag in LEADING:
        entry = entry.type()
    return entry


def start_of(entry):
    """The bit at which a member starts, or None if it is no number."""
    position = entry.number(BIT_POSITION)
    at = entry.number(MEMBER_LOCATION) if entry.has(MEMBER_LOCATION) else 0
    if position is not None or at is None:
        return position
    before, bits = entry.number(BIT_OFFSET), entry.number(BIT_SIZE)
    if before is None or bits is None:
        return 8 * at
    # A bit field of a packed structure may pass its storage, and then clang writes a negative number.
    before -= 2**64 if before >= 2**63 else 0
    storage = entry.number(BYTE_SIZE)
    if storage is None:
        of = entry.type()
        while of and of.number(BYTE_SIZE) is None:
            of = of.type()
        storage = of.number(BYTE_SIZE) if of else None
    return None if storage is None else 8 * (at + storage) - before - bits


def own_alignment(entry):
    """The alignment that a member itself asks for, or 1. clang also writes that of its type, which packing takes away.
    """
    found = entry.number(ALIGNMENT) or 1
    of = entry.type() if found > 1 else None
    while of and of.number(ALIGNMENT) is None and of.tag in {ARRAY, *SAME_SIZE}:
        of = of.type()
    return 1 if of and of.number(ALIGNMENT) == found else found


def shape_of(body, entry):
    """The shape of a body by its entry, or None if the entry has other members."""
    size = entry.number(BYTE_SIZE) if entry else None
    if size is None or entry.tag not in STRUCTURES:
        return None
    found = [it for it in entry.children() if it.tag == MEMBER and not it.number(DECLARATION)]
    if [it.name for it in body.members] != [it.name() or None for it in found]:
        return None
    starts, sizes, inner, least = [], [], [], 1
    for member, it in zip(body.members, found):
        starts.append(start_of(it))
        kind, of = it.type(), innermost(member.type)
        if kind and kind.is_vector() and type(of) is not Vector:
            return None
        sizes.append(kind and kind.size())
        inner.append(inner_of(of, innermost_entry(it)) if type(of) in (Body, Enum) else None)
        if starts[-1] is None or type(of) is Body and inner[-1] is None:
            return None
        own = own_alignment(it)
        least = max(least, own if starts[-1] % (8 * own) == size % own == 0 else 1)
    alignment = entry.number(ALIGNMENT)
    # clang writes what the attribute of a structure says, also if a member has more.
    alignment = alignment and max(alignment, least)
    return Shape(size, alignment, least, starts, sizes, inner)


def inner_of(of, entry):
    """The shape of a body, or the size of an enumeration."""
    return shape_of(of, entry) if type(of) is Body else entry.number(BYTE_SIZE) if entry else None


def shape_at(file, declaration, at):
    """What the file says of the body of a declaration, whose entry is at an offset, or None."""
    of = innermost(declaration.type)
    if type(of) not in (Body, Enum):
        return None
    entry = file.at(at)
    if declaration.kind == "typedef":
        entry = innermost_entry(entry)
        entry = entry if entry and entry.name() is None else None
    return inner_of(of, entry)
