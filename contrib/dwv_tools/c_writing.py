"""Writes types as C declarations: of one line, as `dwv types` prints them, or with a line for each member."""
from dwv_tools.c_types import Array, Body, Enum, Function, Name, Pointer, Qualified, Tag, Vector, Void

# Words that C does not have, but gcc and clang do unless -std=c11 is given.
GNU_WORDS = {"asm", "typeof"}


def plain_name(name):
    return f"{name}_" if name in GNU_WORDS else name


def value_text(value):
    """The value of an enumerator as C has it."""
    return "-9223372036854775807 - 1" if value == -(2**63) else f"{value}U" if value >= 2**63 else str(value)


def is_flexible(body, place):
    """Whether C allows an array of unknown count as this member."""
    return body.kind == "struct" and place == len(body.members) - 1 and any(it.name for it in body.members[:-1])


class Writer:
    """Writes declarations. With `is_line` each is one line, and every name is as it was read."""

    def __init__(self, is_line=False):
        self.is_line = is_line
        self.tags, self.constants, self.hoisted = {}, {}, {}

    def plain(self, name):
        return name if self.is_line else plain_name(name)

    def tag(self, kind, name):
        return self.tags.get((kind, name), name)

    def declaration(self, declaration):
        kind, name, t = declaration
        if kind == "typedef":
            return f"typedef {self.spelled(t, self.plain(name))};"
        return f"{kind} {self.plain(self.tag(kind, name))} {self.body(t, 0)};"

    def body(self, t, depth):
        """The braces of a type with what is in them."""
        tabs = "" if self.is_line else "\t" * (depth + 1)
        if type(t) is Enum:
            texts = [f"{tabs}{self.constants.get(name, name)} = {value if self.is_line else value_text(value)}"
                     for name, value in t.constants]
            if self.is_line:
                return f"{{ {', '.join(texts)} }}"
            lines = "".join(f"{it},\n" for it in texts)
        else:
            texts = [f"{tabs}{self.member(t, k, depth + 1)};" for k in range(len(t.members))]
            if self.is_line:
                return f"{{ {''.join(f'{it} ' for it in texts)}}}"
            lines = "".join(f"{it}\n" for it in texts)
        return f"{{\n{lines}{tabs[1:]}}}{t.attribute}"

    def member(self, body, place, depth):
        name, t, bits = body.members[place]
        if type(t) is Array and t.count is None and not self.is_line and not is_flexible(body, place):
            t = t._replace(count=0)
        text = self.spelled(t, self.plain(name or ""), depth)
        return text if bits is None else f"{text} : {bits}"

    def spelled(self, t, name, depth=0):
        """A type around a declarator."""
        before = ""
        while True:
            if type(t) is Pointer:
                name = "*" + " ".join([*t.qualifiers, *([name] if name else [])])
                t = t.of
                name = f"({name})" if type(t) in (Array, Function) else name
            elif type(t) is Array:
                name, t = f"{name}[{'' if t.count is None else t.count}]", t.of
            elif type(t) is Function:
                inside = [self.spelled(it, "", depth) for it in t.parameters or ()] + ["..."] * t.is_variadic
                none = "void" if t.parameters == () else ""
                name, t = f"{name}({', '.join(inside) or none})", t.of
            elif type(t) is Qualified:
                before, t = " ".join(t.qualifiers) + " ", t.of
            else:
                return before + self.core(t, depth) + (f" {name}" if name else "")

    def core(self, t, depth):
        """A type that has no other below it."""
        if type(t) is Void:
            return "void"
        if type(t) is Name:
            return self.plain(t.name)
        if type(t) is Vector:
            aligned = "" if t.alignment is None else f", aligned({t.alignment})"
            return f"{self.core(t.of, depth)} __attribute__((vector_size({t.size}){aligned}))"
        if type(t) is Tag:
            return f"{t.kind} {self.plain(self.tag(t.kind, t.name))}"
        if type(t) is Body:
            return f"{t.kind} {self.body(t, depth)}"
        if type(t) is Enum:
            return f"enum {self.hoisted.get(t.constants) or self.body(t, depth)}"
        return " ".join(t.words)
