"""What the attributes of an entry say, as far as they can be read."""
from dwv_tools import dwarf, reading

# A type has the size of its type, if it is one of these: typedef, const, volatile, restrict, atomic.
SAME_SIZE = {0x16, 0x26, 0x35, 0x37, 0x47}
POINTER = 0x0F


def readable(unit, at):
    """The entry at an offset, or as much of it as can be read."""
    try:
        return unit.entry(at)
    except reading.Unreadable as error:
        return error.entry


def text_of(unit, attribute):
    """The text of an attribute, or None if it can't be read."""
    try:
        text = unit.text(attribute)
    except reading.Unreadable:
        return None
    return None if text is None else text.decode(errors="backslashreplace")


def name_of(entry):
    """The name of an entry, or None."""
    attribute = dwarf.find(entry, reading.NAME)
    return text_of(entry.unit, attribute) if attribute else None


def number_of(entry, code):
    """The number that an attribute of an entry has, or None."""
    attribute = dwarf.find(entry, code)
    return attribute.value if attribute and isinstance(attribute.value, int) else None


def target_of(entry, code):
    """The entry that an attribute of an entry refers to, or None."""
    attribute = dwarf.find(entry, code)
    try:
        found = attribute and entry.unit.target(attribute)
        return found[0].entry(found[1]) if found else None
    except reading.Unreadable:
        return None


def size_of(entry):
    """The size of a type, if it is easy to see, or None."""
    for _ in range(64):
        size = number_of(entry, reading.BYTE_SIZE)
        if size is not None:
            return size
        if entry.tag == POINTER:
            return entry.unit.address_size
        entry = target_of(entry, reading.TYPE) if entry.tag in SAME_SIZE else None
        if entry is None:
            return None
    return None
