"""Applies the relocations of an object file or a kernel module to its debugging sections, in a copy.

pyelftools applies relocations too, but not those of RISC-V, not to several sections of one name, and one at a time.
Where numpy is installed, those of a section are applied all at once, in a quarter of the time.
"""
import struct

try:
    import numpy
except ImportError:
    numpy = None

from dwv_tools.copying import READ, SIX, Refused, content, plain_name

SYMBOLS = "SHT_SYMTAB"
# Of each machine the relocations that debugging sections have: the bytes of the value, how it is made of the sum of the
# symbol and the addend, and of what is there. ELF's supplements for the processors name them.
SET, ADD, SUBTRACT, NOTHING = "set", "add", "subtract", "nothing"
KNOWN = {
    62: {0: (0, NOTHING), 1: (8, SET), 10: (4, SET), 11: (4, SET), 12: (2, SET), 14: (1, SET), 17: (8, SET),
         21: (4, SET)},
    183: {0: (0, NOTHING), 256: (0, NOTHING), 257: (8, SET), 258: (4, SET), 259: (2, SET), 1029: (8, SET)},
    243: {0: (0, NOTHING), 1: (4, SET), 2: (8, SET), 8: (4, SET), 9: (8, SET), 33: (1, ADD), 34: (2, ADD), 35: (4, ADD),
          36: (8, ADD), 37: (1, SUBTRACT), 38: (2, SUBTRACT), 39: (4, SUBTRACT), 40: (8, SUBTRACT), 51: (0, NOTHING),
          54: (1, SET), 55: (2, SET), 56: (4, SET)},
}
MACHINES = {"EM_X86_64": 62, "EM_AARCH64": 183, "EM_RISCV": 243}
# A symbol has 24 bytes; its section and its value are these. The number 0xffff says that the section is elsewhere.
SYMBOL, ELSEWHERE = struct.Struct("<IBBHQQ"), 0xFFFF
SYMBOL_ROW = [("name", "<u4"), ("info", "u1"), ("other", "u1"), ("section", "<u2"), ("value", "<u8"), ("size", "<u8")]
RELOCATION_ROW = [("at", "<u8"), ("kind", "<u4"), ("symbol", "<u4"), ("addend", "<i8")]


def symbols(copy, number, bases):
    """The values of the symbols in a table. A symbol of a joined section is moved with it."""
    table = copy.sections[number] if number < len(copy.sections) else None
    if table is None or table["sh_type"] != SYMBOLS:
        raise Refused("it has relocations without a table of symbols")
    values, data = [], content(table)
    if numpy and not bases and len(data) % SYMBOL.size == 0:
        return numpy.frombuffer(data, SYMBOL_ROW)["value"].copy()
    for *_, section, value, _ in SYMBOL.iter_unpack(data):
        if section == ELSEWHERE and bases:
            raise Refused("it has too many sections")
        values.append(value + bases.get(section, 0))
    return values


def apply(name, data, relocations, values, known):
    """Applies relocations to the bytes of a section."""
    if not (numpy and apply_all(data, relocations, values, known)):
        apply_each(name, data, relocations, values if isinstance(values, list) else values.tolist(), known)


def apply_all(data, relocations, values, known):
    """Applies relocations at once, if each can be applied and none depends on another one. Returns whether it did.

    All sums are of numbers of 64 bits. Of a sum the true value is known by whether it passed an end.
    """
    try:
        values = numpy.asarray(values, "<u8")
    except OverflowError:
        return False
    rows = numpy.frombuffer(relocations, RELOCATION_ROW)
    kinds, numbers = numpy.unique(rows["kind"], return_inverse=True)
    if not all(int(kind) in known for kind in kinds):
        return False
    sizes, hows = zip(*(known[int(kind)] for kind in kinds)) if len(kinds) else ((), ())
    is_taken = numpy.array([how is not NOTHING for how in hows], bool)[numbers]
    rows, numbers = rows[is_taken], numbers[is_taken]
    size, places = numpy.array(sizes, "<u8")[numbers], rows["at"]
    if not len(rows):
        return True
    if places.max() > len(data) or (places + size).max() > len(data) or rows["symbol"].max() >= len(values):
        return False
    value, addend = values[rows["symbol"]], rows["addend"]
    sums = value + addend.view("<u8")
    is_below, is_above = (addend < 0) & (sums > value), (addend >= 0) & (sums < value)
    is_set = numpy.array([how is SET for how in hows], bool)[numbers]
    bits = 8 * numpy.minimum(size, 7)
    one = numpy.uint64(1)
    fits = numpy.where(is_below, sums >= -(one << bits - one), sums < one << bits) & ~is_above
    if not (fits | ~is_set | (size == 8)).all() or not are_apart(places, size, is_set):
        return False
    is_minus = numpy.array([how is SUBTRACT for how in hows], bool)[numbers]
    sums[is_minus] = -sums[is_minus]
    target = numpy.frombuffer(data, "u1")
    for width in {it for it, how in zip(sizes, hows) if how is not NOTHING}:
        some = is_set & (size == width)
        write(target, places[some], sums[some], width)
        some = ~is_set & (size == width)
        at, which = numpy.unique(places[some], return_inverse=True)
        total = numpy.zeros(len(at), "<u8")
        for byte in range(width):
            total |= target[at + numpy.uint64(byte)].astype("<u8") << numpy.uint64(8 * byte)
        numpy.add.at(total, which, sums[some])
        write(target, at, total, width)
    return True


def are_apart(places, size, is_set):
    """Whether no byte is of two relocations, but of those that add to one number."""
    order = numpy.argsort(places, kind="stable")
    at, size, is_set = places[order], size[order], is_set[order]
    is_same = (at[1:] == at[:-1]) & (size[1:] == size[:-1]) & ~is_set[1:] & ~is_set[:-1]
    return bool(((at[1:] >= at[:-1] + size[:-1]) | is_same).all())


def write(target, at, numbers, width):
    """Writes numbers of so many bytes to places."""
    for byte in range(width):
        target[at + numpy.uint64(byte)] = (numbers >> numpy.uint64(8 * byte)).astype("u1")


def apply_each(name, data, relocations, values, known):
    """Applies relocations one after another."""
    for at, info, addend in struct.iter_unpack("<QQq", relocations):
        kind, symbol = info & 0xFFFFFFFF, info >> 32
        if kind not in known:
            raise Refused(f"{name} has a relocation of the unknown type {kind}")
        size, how = known[kind]
        if how is NOTHING:
            continue
        if at + size > len(data) or symbol >= len(values):
            raise Refused(f"{name} has a relocation at {at}, outside the section, or of no symbol")
        number, bits = values[symbol] + addend, 8 * size
        if how is SET:
            if not -(2 ** (bits - 1)) <= number < 2**bits and size < 8:
                raise Refused(f"{name} has a relocation at {at} that does not fit into {size} bytes")
        else:
            number = int.from_bytes(data[at : at + size], "little") + (number if how is ADD else -number)
        data[at : at + size] = (number % 2**bits).to_bytes(size, "little")


def bases_of(copy):
    """Where each section .debug_info is in the section that has them all, if there are several."""
    found, bases, at = [], {}, 0
    for number, it in enumerate(copy.sections):
        if plain_name(it.name) == ".debug_info":
            found.append(number)
            bases[number], at = at, at + it.data_size if not it.name.startswith(".z") else at + len(content(it))
    return bases if len(found) > 1 else {}


def relocated(copy):
    """The sections that are read, by their numbers, decompressed and relocated."""
    known, bases = KNOWN.get(MACHINES.get(copy.elf["e_machine"])), bases_of(copy)
    if known is None:
        raise Refused(f"relocations of the machine {copy.elf['e_machine']} are not known")
    targets = {number: bytearray(content(it)) for number, it in enumerate(copy.sections) if plain_name(it.name) in READ}
    tables, count = {}, 0
    for it in copy.sections:
        if it["sh_type"] not in ("SHT_RELA", "SHT_REL") or it["sh_info"] not in targets:
            continue
        name, relocations, link = copy.sections[it["sh_info"]].name, content(it), it["sh_link"]
        if it["sh_type"] == "SHT_REL" or len(relocations) % 24:
            raise Refused(f"{name} has relocations without addends, or a part of one")
        if link not in tables:
            tables[link] = symbols(copy, link, bases)
        try:
            apply(name, targets[it["sh_info"]], relocations, tables[link], known)
            count += len(relocations) // 24
        except Refused:
            if plain_name(name) in SIX:
                raise
    return targets, bases, count


def relocate(copy):
    """Makes a linked file of an object file. Returns what was done."""
    if not any(plain_name(it.name) == ".debug_info" for it in copy.sections):
        raise Refused("it is an object file without a section .debug_info")
    targets, bases, count = relocated(copy)
    copy.decompress_names()
    if bases:
        first = min(bases)
        targets[first] = bytearray().join(targets[number] for number in sorted(bases))
        for number in sorted(bases)[1:]:
            del targets[number]
            copy.names[number] = "joined.debug_info"
    for number, data in targets.items():
        copy.replace(number, bytes(data))
    copy.set_linked()
    notes = ["relocations applied" if count else "an object file without relocations"]
    return notes + ([f"{len(bases)} sections .debug_info joined"] if bases else [])
