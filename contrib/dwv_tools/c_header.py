"""Orders the declarations of a listing so that a compiler accepts them, and writes them.

A *node* is what a declaration declares: a kind ("struct", "union", "enum", "typedef") and a name. A declaration needs
other nodes before it: typedefs that it names, and complete types of its members and of the elements of arrays. A node
with several texts gets the first that can be written.
"""
import collections
import itertools
import re

from dwv_tools import c_types
from dwv_tools.c_layout import Extent, Layouts, Misfit, enum_extent, sized_enum
from dwv_tools.c_names import ALIASES, GCC_ONLY, KNOWN
from dwv_tools.c_types import (
    Array, Body, Declaration, Enum, Function, Name, Pointer, Qualified, Tag, Vector, Void, bare, innermost,
)
from dwv_tools.c_writing import Writer, plain_name

MACROS = re.compile(r"\b(?:linux|unix)\b")


class Text(collections.namedtuple("Text", "line needs")):
    """A text of a node: its line, and what it needs."""

    __slots__ = ()

    @property
    def declaration(self):
        return c_types.read(self.line)


class Needs:
    """What a declaration needs: `before`, nodes that come before it; `tags`, which it names; `enums`, the enumerations
    without a name that it has; `value`, what must be complete where a typedef is used by value, or None if that is not
    possible; `bad`, why it can't be written."""

    __slots__ = ("before", "tags", "enums", "value", "bad")

    def __init__(self, declaration):
        self.before, self.tags, self.enums, self.value, self.bad = {}, {}, [], [], None
        self.visit(declaration.type, declaration.kind != "typedef", False)
        t = bare(declaration.type)
        if type(t) is Name:
            self.value = [("complete", t.name)]
        elif type(t) is Tag:
            self.value = [(t.kind, t.name)]
        elif type(t) in (Void, Function):
            self.value = None
        if declaration.kind == "enum":
            self.enums = []
        self.before, self.tags, self.enums = tuple(self.before), tuple(self.tags), tuple(self.enums)

    def names(self, body, found):
        for name, t, _ in body.members:
            if name in found:
                self.bad = f"it has two members named {name}"
            elif name:
                found.add(name)
            elif type(bare(t)) is Body:
                self.names(bare(t), found)

    def visit(self, t, is_whole, is_parameter):
        while type(t) in (Pointer, Array, Qualified, Function):
            for parameter in t.parameters or () if type(t) is Function else ():
                self.visit(parameter, False, True)
            is_whole = type(t) is Array or is_whole and type(t) is Qualified
            t = t.of
        if type(t) is Vector:
            t, is_whole = t.of, True
        if type(t) is Name:
            self.before[("typedef", t.name)] = True
            if is_whole:
                self.before[("complete", t.name)] = True
        elif type(t) is Tag:
            (self.before if is_whole else self.tags)[(t.kind, t.name)] = True
        elif type(t) is Body:
            self.names(t, set())
            for member in t.members:
                self.visit(member.type, True, is_parameter)
        elif type(t) is Enum and not is_parameter:
            self.enums.append(t.constants)


class Header:
    """The declarations of a header. `shapes` gives what the file says of a declaration: Shapes, or sizes. With
    `declared`, the nodes of the listing, each further text of a node gets a name of its own. `has_asserts` says whether
    `assertions` is called."""

    def __init__(self, shapes, declared, has_asserts):
        self.shapes, self.declared, self.has_asserts = shapes, declared, has_asserts
        self.texts = {}             # from a node to its texts, in the order of the listing
        self.state, self.chosen = {}, {}
        self.parts, self.forward, self.left_out, self.others, self.guessed = [], {}, [], 0, 0
        self.layouts, self.writer = Layouts(), Writer()
        self.kinds, self.constants, self.macros = {}, set(), set()
        self.enum_uses, self.numbers = collections.Counter(), collections.defaultdict(lambda: 1)
        self.asserted = []

    # Reading

    def add(self, line):
        """Adds the declaration of a line."""
        declaration = c_types.read(line)
        node = declaration[:2]
        while self.declared and node in self.texts:
            self.numbers[declaration[:2]] += 1
            node = (node[0], f"{declaration.name}___{self.numbers[declaration[:2]]}")
            node = node if node not in self.declared else declaration[:2]
        needs = Needs(declaration)
        self.texts.setdefault(node, []).append(Text(line, needs))
        if node[0] != "typedef" and self.kinds.setdefault(node[1], node[0]) != node[0]:
            self.writer.tags[node] = f"{node[1]}___{node[0]}"
        self.enum_uses.update(needs.enums)
        self.macros.update(MACROS.findall(line))

    # Order

    def called(self, node):
        return node[1] if node[0] in ("typedef", "complete") else f"{node[0]} {node[1]}"

    def needs_of(self, node, number):
        """What the text of a node needs, each with whether it can do without; or why there is no such text."""
        kind, name = node
        if kind == "complete":
            found = self.chosen.get(("typedef", name))
            value = found.needs.value if found else []
            return "which is void or a function" if value is None else [(it, False) for it in value]
        texts = self.texts.get(node, ())
        if kind == "typedef" and (name in KNOWN or name in GCC_ONLY or not texts and name in ALIASES):
            return []
        if number == len(texts):
            return "which has no declaration in the listing"
        needs = texts[number].needs
        return [*((it, False) for it in needs.before), *((it, True) for it in needs.tags if it[0] == "enum")]

    def visit(self, root):
        """Writes what a node needs, each before it, then the node. Depth first, with a stack of its own."""
        if root in self.state:
            return
        self.state[root] = "open"
        stack = [[root, 0, None, 0, None]]     # a node, the number of a text, its needs, that of a need, why it failed
        while stack:
            frame = stack[-1]
            node, number, needs, place, reason = frame
            if needs is None:
                needs = frame[2] = self.needs_of(node, number)
            if isinstance(needs, str):
                self.state[node] = reason or needs
                stack.pop()
                continue
            texts = self.texts.get(node, ())
            failed = texts[number].needs.bad if node[0] != "complete" and number < len(texts) else None
            while not failed and place < len(needs) and (state := self.state.get(needs[place][0])):
                if state != "done" and not needs[place][1]:
                    failed = self.failure(node, needs[place][0], state)
                place += 1
            frame[3] = place
            if failed and node[0] == "complete":
                self.state[node] = failed
                stack.pop()
            elif failed:
                self.left_out.append((texts[number].line, failed))
                frame[1:] = number + 1, None, 0, reason or failed
            elif place < len(needs):
                self.state[needs[place][0]] = "open"
                stack.append([needs[place][0], 0, None, 0, None])
            else:
                if node[0] != "complete":
                    self.emit(node, number)
                else:
                    self.complete(node[1])
                self.state[node] = "done"
                stack.pop()

    def failure(self, node, need, state):
        if state == "open":
            return "it contains itself" if need == node else f"{self.called(need)} needs it"
        has_text = (need[0] if need[0] != "complete" else "typedef", need[1]) in self.texts
        return f"it needs {self.called(need)}, {'which is left out' if has_text else state}"

    def order(self):
        """Writes all nodes."""
        for texts in self.texts.values():
            texts.sort(key=lambda it: it.needs.value is None)    # void and functions have no size
        for node in list(self.texts):
            self.visit(node)
        for kind, name in list(self.texts):
            if kind == "typedef":
                self.visit(("complete", name))

    # Writing

    def complete(self, name):
        """Notes what a typedef takes, once the type that it stands for is complete."""
        node = ("typedef", name)
        if node in self.chosen and node not in self.layouts.of:
            self.layouts.of[node] = self.layouts.extent(self.chosen[node].declaration.type)

    def emit(self, node, number):
        """Writes a text of a node. What it needs is written."""
        kind, name = node
        if kind == "typedef" and name in KNOWN:
            self.layouts.of[node] = KNOWN[name]
        elif kind == "typedef" and name in GCC_ONLY:
            size, text = GCC_ONLY[name]
            self.layouts.of[node] = Extent(size, size)
            self.parts.append(f"#ifdef __clang__\n{text}\n#endif\n")
        elif node not in self.texts:
            size, text, condition = ALIASES[name]
            self.layouts.of[node] = Extent(size, size)
            self.parts.append(f"#if {condition}\ntypedef {text} {name};\n#endif\n")
        else:
            self.emit_text(node, number)

    def emit_text(self, node, number):
        found = self.texts[node][number]
        self.chosen[node] = found
        for tag in found.needs.tags:
            if tag != node and self.state.get(tag) != "done":
                self.forward[tag] = True
        declaration = found.declaration
        shapes = self.shapes(declaration)
        first = next(shapes, None)
        sizes = dict(enum_sizes(declaration.type, first and first[1])) if found.needs.enums else {}
        for constants in found.needs.enums:
            if self.enum_uses[constants] > 1 and constants not in self.writer.hoisted:
                self.hoist(constants, sizes.get(constants))
        enums = [it for it in found.needs.enums if it not in self.writer.hoisted]
        enums += [declaration.type.constants] if node[0] == "enum" else []
        self.claim([constant for constants in enums for constant in constants])
        shapes = shapes if first is None else itertools.chain([first], shapes)
        declaration, note = self.fitted(node, declaration, shapes)
        text = self.writer.declaration(Declaration(declaration.kind, node[1], declaration.type))
        if node[0] == "typedef" and node[1] in ALIASES:
            text = f"#if {ALIASES[node[1]][2]}\n{text}\n#endif"
        others = [self.other(node, it, first) for it in self.texts[node][number + 1 :]]
        self.others += len(others)
        self.parts.append("\n".join([*note, *others, text, ""]))

    def other(self, node, text, first):
        """A comment with a text of a node that is not written, and where its entry is, if its members show it."""
        places = (at for at, _ in self.shapes(text.declaration) if first is None or at != first[0])
        at = next(places, None)
        return f"/* another text of {self.called(node)}{'' if at is None else f' at 0x{at:08x}'}: {text.line} */"

    def claim(self, constants):
        """Gives each enumerator a name that nothing else has."""
        self.writer.constants = {}
        for name, _ in constants:
            new = plain_name(name)
            while new in self.constants or ("typedef", new) in self.texts or new in KNOWN:
                self.numbers[name] += 1
                new = f"{name}___{self.numbers[name]}"
            self.constants.add(new)
            if new != name:
                self.writer.constants[name] = new

    def hoist(self, constants, size):
        """Writes an enumeration without a name that is used more than once, with a name."""
        name = f"of_{constants[0][0]}"
        while name in self.kinds:
            self.numbers[name] += 1
            name = f"of_{constants[0][0]}___{self.numbers[name]}"
        self.kinds[name] = "enum"
        self.claim(constants)
        found = Enum(constants)
        try:
            found = sized_enum(found, size)
        except Misfit:
            size = None
        self.layouts.enums[constants] = size or enum_extent(constants).size
        self.parts.append(f"enum {name} {self.writer.body(found, 0)};\n")
        self.writer.hoisted[constants] = name

    def fitted(self, node, declaration, shapes):
        """The declaration with padding and attributes that give it the layout of the file, and comments on it."""
        if type(innermost(declaration.type)) not in (Body, Enum):
            if extent := self.layouts.extent(declaration.type):
                self.layouts.of[node] = extent
            return declaration, []
        reason = "the file has no entry with these members, and a size"
        for _, shape in shapes:
            try:
                self.layouts.pads = 0
                t, extent = self.layouts.typed(declaration.type, shape)
                self.layouts.of[node] = extent
                if self.has_asserts:
                    self.asserted.append((node, t, shape))
                return Declaration(*declaration[:2], t), []
            except Misfit as error:
                reason = str(error)
        self.guessed += 1
        extent = self.layouts.extent(declaration.type)
        if extent:
            self.layouts.of[node] = extent
        return declaration, [f"/* guessed: the layout of {self.called(node)}; {reason} */"]

    def assertions(self):
        """Assertions of the sizes and alignments of types whose layout is that of the file, and of members' offsets."""
        for node, t, shape in self.asserted:
            body = bare(t)
            if self.state.get(node) != "done" or type(body) not in (Body, Enum):
                continue
            name = plain_name(self.writer.tag(*node))
            name = name if node[0] == "typedef" else f"{node[0]} {name}"
            size = shape if type(body) is Enum else shape.size
            if size is not None and not (type(body) is Enum and body.constants in self.writer.hoisted):
                yield f'_Static_assert(sizeof({name}) == {size}, "{name}");'
            if type(body) is Body:
                # gcc gives a structure with a larger vector the alignment that the flags of the processor allow.
                alignment = shape.alignment or self.layouts.of[node].alignment
                if shape.alignment or alignment <= 16:
                    yield f'_Static_assert(_Alignof({name}) == {alignment}, "{name}, alignment");'
                yield from offsets(name, body, shape)


def is_padding(member):
    """Whether a member is not of the file. There, bit fields without a name have no entry."""
    return member.name.startswith("___pad") if member.name else member.bits is not None


def offsets(name, body, shape):
    """Assertions of the offsets of members that have a name and are no bit fields."""
    for member, start in zip([it for it in body.members if not is_padding(it)], shape.starts):
        if member.name and member.bits is None:
            text = f"{name}.{member.name}"
            yield f'_Static_assert(__builtin_offsetof({name}, {plain_name(member.name)}) == {start // 8}, "{text}");'


def enum_sizes(t, inner):
    """The enumerations without a name in a type, each with the size that the file says."""
    t = innermost(t)
    if type(t) is Enum:
        yield t.constants, inner
    elif type(t) is Body and inner:
        for member, one in zip(t.members, inner.inner):
            yield from enum_sizes(member.type, one)
