"""C declarations of types by their entries: of those that `dwv types` refuses, or does not say as they are.

These are arrays of const elements as gcc describes them (a const type over an array), `unsigned __int128`, `_Complex`
types, which clang gives one name, and vectors, which `dwv types` prints as arrays. The lines are like those of `dwv
types`, and a vector has its attribute.
"""
import re

from dwv_tools import c_types, c_writing, names
from dwv_tools.c_file import ALIGNMENT, ARRAY, BIT_SIZE, BYTE_SIZE, DECLARATION, POINTER, SUBRANGE
from dwv_tools.c_types import (
    Array, Basic, Body, Declaration, Enum, Function, Member, Name, Pointer, Qualified, Tag, Vector, Void, bare,
)

KINDS = {0x13: "struct", 0x17: "union", 0x04: "enum"}
QUALIFIERS = {0x26: "const", 0x35: "volatile", 0x37: "restrict", 0x47: "_Atomic"}
FUNCTION, TYPEDEF, BASE, MEMBER, ENUMERATOR, PARAMETER, UNSPECIFIED = 0x15, 0x16, 0x24, 0x0D, 0x28, 0x05, 0x18
ENCODING, CONSTANT, PROTOTYPED = 0x3E, 0x1C, 0x27
# Encodings: complex numbers of floating-point numbers, and of integers as gcc and clang have them.
COMPLEX_FLOAT, COMPLEX_INTEGER = 0x03, {0x80, 0x81}
FLOATS, INTEGERS = {8: "float", 16: "double", 32: "long double"}, {2: "char", 4: "short", 8: "int", 16: "long"}
# The languages that are C, in versions 4 and 5.
C = {"DW_LANG_C", "DW_LANG_C89", "DW_LANG_C99", "DW_LANG_C11", "DW_LANG_C17"}
RESERVED = c_types.WORDS | c_types.QUALIFIERS | c_types.TAGS | set(
    "auto break case continue default do else extern for goto if inline register return sizeof static switch typedef"
    " void while".split())
# So deep are types in one another at most.
DEPTH = 60


class Unsaid(Exception):
    """C can't say this type, or the script does not."""


def identifier(entry):
    name = entry.name()
    if name is None or not re.fullmatch(r"[A-Za-z_]\w*", name, re.ASCII) or name in RESERVED:
        raise Unsaid("a name that C does not have")
    return name


def base_type(entry):
    """A base type by its encoding and its size, or by its name."""
    name, size, encoding = entry.name() or "", entry.number(BYTE_SIZE), entry.number(ENCODING)
    if encoding == COMPLEX_FLOAT and size in FLOATS:
        return Basic(("_Complex", *FLOATS[size].split()))
    if encoding in COMPLEX_INTEGER and "complex" in name and size in INTEGERS:
        return Basic(("_Complex", *INTEGERS[size].split()))
    words = tuple(name.split())
    if words and set(words) <= c_types.WORDS:
        return Basic(tuple(sorted(words, key=lambda it: it == "__int128")))
    return Name(identifier(entry))


def array(entry, depth):
    found = said(entry.type(), depth)
    if entry.is_vector():
        size = entry.size()
        if type(found) not in (Basic, Name) or not size:
            raise Unsaid("a vector of elements without a size")
        return Vector(size, None, found)
    for dimension in reversed([it for it in entry.children() if it.tag == SUBRANGE]):
        found = Array(dimension.count(), found)
    return found


def qualified(word, t):
    """A type with one qualifier more. That of an array is one of its elements."""
    if type(t) is Array:
        return t._replace(of=qualified(word, t.of))
    if type(t) in (Pointer, Qualified):
        return t if word in t.qualifiers else t._replace(qualifiers=(*t.qualifiers, word))
    return Qualified((word,), t)


def function(entry, depth):
    children = list(entry.children())
    found = tuple(said(it.type(), depth) for it in children if it.tag == PARAMETER)
    is_variadic = any(it.tag == UNSPECIFIED for it in children)
    has_prototype = found or entry.number(PROTOTYPED)
    return Function(said(entry.type(), depth), found if has_prototype else None,
                    bool(is_variadic and found))


def said(entry, depth=0):
    """The type of an entry, as it is said in another one."""
    if depth > DEPTH:
        raise Unsaid("it is too deep")
    if entry is None:
        return Void()
    if entry.tag in KINDS:
        return Tag(KINDS[entry.tag], identifier(entry)) if entry.name() is not None else body(entry, depth + 1)
    if entry.tag == BASE:
        return base_type(entry)
    if entry.tag == TYPEDEF:
        return Name(identifier(entry))
    if entry.tag == ARRAY:
        return array(entry, depth + 1)
    if entry.tag == FUNCTION:
        return function(entry, depth + 1)
    if entry.tag == POINTER or entry.tag in QUALIFIERS:
        of = said(entry.type(), depth + 1)
        return Pointer((), of) if entry.tag == POINTER else qualified(QUALIFIERS[entry.tag], of)
    raise Unsaid("a type that C does not have")


def body(entry, depth):
    """What is in the braces of a structure, a union or an enumeration."""
    children = list(entry.children())
    if KINDS[entry.tag] == "enum":
        constants = tuple((identifier(it), it.number(CONSTANT)) for it in children if it.tag == ENUMERATOR)
        if not constants or None in (value for _, value in constants):
            raise Unsaid("an enumeration without values")
        return Enum(constants)
    members = []
    for it in (it for it in children if it.tag == MEMBER):
        name = identifier(it) if it.name() is not None else None
        t = said(it.type(), depth)
        if name is None and type(bare(t)) is not Body:
            raise Unsaid("a member without a name")
        members.append(Member(name, t, it.number(BIT_SIZE)))
    return Body(KINDS[entry.tag], tuple(members))


def declaration_at(file, at):
    """The declaration of the named type whose entry is at an offset."""
    entry = file.at(at)
    if entry.tag == TYPEDEF:
        t, alignment = said(entry.type()), entry.number(ALIGNMENT)
        is_aligned = type(t) is Vector and alignment not in (None, t.size)
        return Declaration("typedef", identifier(entry), t._replace(alignment=alignment) if is_aligned else t)
    if entry.tag in KINDS and not entry.number(DECLARATION):
        return Declaration(KINDS[entry.tag], identifier(entry), body(entry, 0))
    raise Unsaid("no named type")


def line_at(file, at):
    """The declaration of the named type whose entry is at an offset, as a line of `dwv types`, or None."""
    try:
        found = declaration_at(file, at)
        line = c_writing.Writer(True).declaration(found)
        return line if c_types.read(line) == found else None
    except (Unsaid, c_types.Malformed, RecursionError):
        return None


def line_of(file, at):
    """The same for an entry of a unit in C."""
    return line_at(file, at) if names.name("LANG", file.at(at).language()) in C else None
