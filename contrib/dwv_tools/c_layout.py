"""Sizes and places as gcc and clang give them on 64-bit machines, and the padding and attributes that give others."""
import collections

from dwv_tools.c_types import (
    Array, Basic, Body, Enum, Member, Name, Pointer, Qualified, Tag, Vector, innermost, with_innermost,
)

BASIC = {"__int128": 16, "char": 1, "short": 2, "_Bool": 1, "float": 4, "double": 8, "long": 8}
BYTE = Basic(("unsigned", "char"))
MODES = {1: "QI", 2: "HI", 4: "SI", 8: "DI"}
LARGEST_ALIGNMENT = 4096

# What a file says of the body of a structure or union: its size, its alignment or None, the largest alignment of a
# member or 1, the bit at which each member starts, the size of its type or None, and the shape of a body in it, or the
# size of an enumeration without a name.
Shape = collections.namedtuple("Shape", "size alignment least starts sizes inner")
# What a body or a type takes: its size and its alignment.
Extent = collections.namedtuple("Extent", "size alignment")


class Misfit(Exception):
    """A body can't have the shape that the file says."""


def rounded(number, step):
    return -(-number // step) * step


def basic_extent(words):
    size = 16 if {"long", "double"} <= set(words) else next((BASIC[word] for word in BASIC if word in words), 4)
    return Extent(2 * size if "_Complex" in words else size, size)


def enum_extent(constants, is_packed=False):
    """What an enumeration takes: without an attribute, at least what an int does."""
    low, high = min(value for _, value in constants), max(value for _, value in constants)
    sizes = (1, 2, 4, 8) if is_packed else (4, 8)
    bits = max(high.bit_length() + (low < 0), (-low - 1).bit_length() + 1 if low < 0 else 0)
    size = next((it for it in sizes if bits <= 8 * it), 8)
    return Extent(size, size)


def sized_enum(found, size):
    """An enumeration with the attribute that gives it a size."""
    if size in (None, enum_extent(found.constants).size):
        return found
    packed = enum_extent(found.constants, True)
    if size == packed.size:
        return found._replace(attribute=" __attribute__((packed))")
    if size in MODES and packed.size < size:
        return found._replace(attribute=f" __attribute__((mode({MODES[size]})))")
    raise Misfit(f"the file has {size} bytes for an enumeration")


class Layouts:
    """What each type takes that is declared so far."""

    def __init__(self):
        self.of = {}        # from a node (the kind and the name) to its extent
        self.enums = {}     # from the constants of an enumeration that got a tag to its size
        self.pads = 0       # how many members of padding the declaration has

    def extent(self, t):
        """What a type takes, or None if that is not known."""
        if type(t) is Pointer:
            return Extent(8, 8)
        if type(t) is Qualified:
            return self.extent(t.of)
        if type(t) is Array:
            element = self.extent(t.of)
            return element and Extent((t.count or 0) * element.size, element.alignment)
        if type(t) is Basic:
            return basic_extent(t.words)
        if type(t) is Vector:
            return Extent(t.size, t.alignment or t.size)
        if type(t) is Name:
            return self.of.get(("typedef", t.name))
        if type(t) is Tag:
            return self.of.get((t.kind, t.name))
        if type(t) is Enum:
            size = self.enums.get(t.constants)
            return Extent(size, size) if size else enum_extent(t.constants)
        return self.placed(t, None)[1] if type(t) is Body else None

    def typed(self, t, inner):
        """A type with the shape that the file says of its innermost body or enumeration, and what it takes."""
        found = innermost(t)
        if type(found) is Body:
            body, extent = self.fitted(found, inner)
        elif type(found) is Enum:
            size = self.enums.get(found.constants, inner)
            if inner not in (None, size):
                raise Misfit(f"the file has {inner} bytes for an enumeration, and {size} elsewhere")
            body = found if found.constants in self.enums else sized_enum(found, size)
            extent = Extent(size, size) if size else enum_extent(found.constants)
        else:
            return t, self.extent(t)
        t = with_innermost(t, body)
        return t, self.wrapped(t, extent)

    def wrapped(self, t, extent):
        """What a type takes whose innermost one takes this."""
        if type(t) is Pointer:
            return Extent(8, 8)
        if type(t) is Array:
            element = self.wrapped(t.of, extent)
            return element and Extent((t.count or 0) * element.size, element.alignment)
        return self.wrapped(t.of, extent) if type(t) is Qualified else extent if type(t) in (Body, Enum) else None

    def fitted(self, body, shape):
        """A body with the padding and the attributes that give it a shape, and what it takes."""
        pads = self.pads
        try:
            found = self.placed(body, shape)
            if shape is None or shape.alignment in (None, found[1].alignment):
                return found
        except Misfit:
            pass
        # A packed type may also have less alignment than its members.
        self.pads = pads
        return self.placed(body, shape, is_packed=True)

    def placed(self, body, shape, is_packed=False):
        """A body whose members are placed one after the other, packed or not."""
        at, end, alignment, members = 0, 0, 1, []
        for k, member in enumerate(body.members):
            t, extent = self.typed(member.type, shape.inner[k] if shape else None)
            if extent is None:
                if shape:
                    raise Misfit(f"the size of the member {member.name} is not known")
                return body, None
            if shape and shape.sizes[k] not in (None, extent.size):
                raise Misfit(f"the member {member.name} has {shape.sizes[k]} bytes in the file, and {extent.size} here")
            step = 1 if is_packed else extent.alignment
            start = shape.starts[k] if shape else None
            at = 0 if body.kind == "union" else at
            natural = next_place(at, member.bits, extent.size, step, is_packed)
            if start is not None and start != natural:
                fill = self.padding(at, start)
                if body.kind == "union" or next_place(start, member.bits, extent.size, step, is_packed) != start:
                    raise Misfit(f"the file has the member {member.name} at bit {start}")
                members += fill
                natural = start
            at = natural + (8 * extent.size if member.bits is None else member.bits)
            end, alignment = max(end, at), max(alignment, step)
            members.append(member if t is member.type else Member(member.name, t, member.bits))
        return self.closed(Body(body.kind, tuple(members)), -(-end // 8), alignment, shape, is_packed)

    def pad(self, count):
        """A member of so many bytes."""
        self.pads += 1
        return Member(f"___pad{self.pads}", Array(count, BYTE), None)

    def padding(self, at, start):
        """Members that take the bits between two places."""
        if start < at:
            raise Misfit(f"the file has a member at bit {start}, before the end of the one before")
        first, last = rounded(at, 8), start // 8 * 8
        if first > last:
            return [Member(None, BYTE, start - at)]
        fill = [Member(None, BYTE, first - at)] if first > at else []
        fill += [self.pad((last - first) // 8)] if last > first else []
        return [*fill, Member(None, BYTE, start - last)] if start > last else fill

    def closed(self, body, end, alignment, shape, is_packed):
        """A body with what is needed at its end, and what it takes. `end` is that of its last member, in bytes."""
        words = ["packed"] if is_packed else []
        size = rounded(end, alignment)
        if shape:
            wanted = shape.alignment or shape.least
            if wanted > alignment and shape.size % wanted == 0:
                words, alignment, size = [*words, f"aligned({wanted})"], wanted, rounded(end, wanted)
            if size > shape.size or shape.size % alignment:
                raise Misfit(f"the file has {shape.size} bytes")
            if not body.members and shape.size == 0:
                # In C++ a structure without members has a byte.
                body = body._replace(members=(self.pad(0),))
            is_open = body.members and type(body.members[-1].type) is Array and body.members[-1].type.count is None
            if size < shape.size and is_open:
                while size < shape.size and alignment < LARGEST_ALIGNMENT:
                    alignment *= 2
                    size = rounded(end, alignment)
                if size != shape.size:
                    raise Misfit(f"the file has {shape.size} bytes")
                words = [*words[: is_packed], f"aligned({alignment})"]
            elif size < shape.size:
                count = shape.size if body.kind == "union" else shape.size - end
                body = body._replace(members=(*body.members, self.pad(count)))
                size = shape.size
        attribute = f" __attribute__(({', '.join(words)}))" if words else ""
        return Body(body.kind, body.members, attribute), Extent(size, alignment)


def next_place(at, bits, size, step, is_packed):
    """The bit at which the next member starts after this one."""
    if bits is None:
        return rounded(at, 8 * step)
    unit = 8 * size
    return at if is_packed or not unit or at // unit == (at + bits - 1) // unit else rounded(at, unit)
