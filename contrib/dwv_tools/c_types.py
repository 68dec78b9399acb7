"""C declarations as `dwv types` prints them, read into types (docs/REPORTS.md has their grammar)."""
import collections
import re
import string
import sys

# A type is one of these, and `Void()`. `of` is the type that a pointer, an array, a function or a qualifier is of, and
# that of a vector's elements. The alignment of a vector is None if it is that of its size.
Void = collections.namedtuple("Void", "")
Name = collections.namedtuple("Name", "name")
Basic = collections.namedtuple("Basic", "words")
Vector = collections.namedtuple("Vector", "size alignment of")
Tag = collections.namedtuple("Tag", "kind name")
Body = collections.namedtuple("Body", "kind members attribute", defaults=("",))
Enum = collections.namedtuple("Enum", "constants attribute", defaults=("",))
Qualified = collections.namedtuple("Qualified", "qualifiers of")
Pointer = collections.namedtuple("Pointer", "qualifiers of")
Array = collections.namedtuple("Array", "count of")
# The parameters are None without a prototype.
Function = collections.namedtuple("Function", "of parameters is_variadic")
Member = collections.namedtuple("Member", "name type bits")
# The kind is "typedef", or "struct", "union" or "enum", whose type is the body.
Declaration = collections.namedtuple("Declaration", "kind name type")

TOKEN = re.compile(r"[A-Za-z_]\w*|\d+|\.\.\.|[-*(){}\[\];:,=]")
LETTERS = {*string.ascii_letters, "_"}
QUALIFIERS = {"const", "volatile", "restrict", "_Atomic"}
WORDS = {"__int128", "char", "short", "int", "long", "signed", "unsigned", "float", "double", "_Bool", "_Complex"}
TAGS = {"struct", "union", "enum"}
# The first declarations that were read, by their lines, the first members and lists of parameters by their tokens, and
# how many of each are kept. Many types have the same.
DECLARATIONS, MEMBERS, PARAMETERS, KEPT = {}, {}, {}, 2**17


class Malformed(Exception):
    """A line that `dwv types` does not print."""


def bare(t):
    """A type without qualifiers over it."""
    while type(t) is Qualified:
        t = t.of
    return t


def innermost(t):
    """What a type is made of by pointers, arrays, functions and qualifiers."""
    while type(t) in (Qualified, Pointer, Array, Function):
        t = t.of
    return t


def with_innermost(t, new):
    """A type with another innermost one."""
    return t._replace(of=with_innermost(t.of, new)) if type(t) in (Qualified, Pointer, Array, Function) else new


def is_same(t, other):
    """Whether two types or declarations are the same, if the vectors of the other one were arrays."""
    if type(other) is Vector and type(t) is Array:
        return t.of == other.of
    if type(t) is not type(other) or not isinstance(t, tuple):
        return t == other
    return len(t) == len(other) and all(map(is_same, t, other))


class Reader:
    """Reads the tokens of a line."""

    def __init__(self, line):
        # A name is kept once, however many declarations have it.
        self.tokens, self.at = [*map(sys.intern, TOKEN.findall(line)), ""], 0
        if "".join(self.tokens) != line.replace(" ", ""):
            raise Malformed("there are letters that no declaration has")

    def take(self, wanted=None):
        token = self.tokens[self.at]
        if not token or wanted not in (None, token):
            raise Malformed(f"{wanted or 'more'} expected at token {self.at}")
        self.at += 1
        return token

    def has(self, token):
        """Takes this token, if it is next."""
        if self.tokens[self.at] != token:
            return False
        self.at += 1
        return True

    def has_all(self, *tokens):
        """Takes these tokens, if they are next."""
        if self.tokens[self.at : self.at + len(tokens)] != [*tokens]:
            return False
        self.at += len(tokens)
        return True

    def run(self, words):
        """Takes all words of a set that are next."""
        if self.tokens[self.at] not in words:
            return ()
        start = self.at
        while self.tokens[self.at] in words:
            self.at += 1
        return tuple(self.tokens[start : self.at])

    def is_identifier(self):
        return self.tokens[self.at][:1] in LETTERS

    def identifier(self):
        if not self.is_identifier():
            raise Malformed(f"a name expected at token {self.at}")
        return self.take()

    def base(self):
        """A type up to its declarator."""
        qualifiers = self.run(QUALIFIERS)
        words = self.run(WORDS)
        if words:
            found = Basic(words)
        elif self.has("void"):
            found = Void()
        elif self.tokens[self.at] in TAGS:
            kind = self.take()
            found = self.body(kind) if self.tokens[self.at] == "{" else Tag(kind, self.identifier())
        else:
            found = Name(self.identifier())
        if self.tokens[self.at] == "__attribute__" and self.has_all("__attribute__", "(", "(", "vector_size", "("):
            found = Vector(int(self.take()), self.alignment(), found)
        return Qualified(qualifiers, found) if qualifiers else found

    def alignment(self):
        """The alignment in the attribute of a vector, after its size, or None."""
        self.take(")")
        found = None
        if self.has_all(",", "aligned", "("):
            found = int(self.take())
            self.take(")")
        self.take(")")
        self.take(")")
        return found

    def body(self, kind):
        self.take("{")
        if kind == "enum":
            constants = [self.constant()]
            while self.has(","):
                constants.append(self.constant())
            self.take("}")
            return Enum(tuple(constants))
        members = []
        while not self.has("}"):
            members.append(self.kept(MEMBERS, self.member, ";", "{"))
        return Body(kind, tuple(members))

    def kept(self, found, read, last, deeper):
        """What `read` reads of the tokens up to `last`. It is kept by them, unless `deeper` is among them: then they
        may go on."""
        try:
            end = self.tokens.index(last, self.at) + 1
        except ValueError:
            return read()
        tokens = tuple(self.tokens[self.at : end])
        if tokens in found:
            self.at = end
            return found[tokens]
        it = read()
        if deeper not in tokens and len(found) < KEPT:
            found[tokens] = it
        return it

    def member(self):
        name, t = self.declared()
        found = Member(name, t, int(self.take()) if self.has(":") else None)
        self.take(";")
        return found

    def constant(self):
        name = self.identifier()
        self.take("=")
        return name, -int(self.take()) if self.has("-") else int(self.take())

    def declared(self):
        """The name, or None, and the type of a declaration."""
        base = self.base()
        name, parts = self.declarator()
        for make, *fields in reversed(parts):
            base = make(base, *fields) if make is Function else make(*fields, base)
        return name, base

    def declarator(self):
        """The name, or None, and the parts of the type from the name outward."""
        stars = []
        while self.has("*"):
            stars.append((Pointer, self.run(QUALIFIERS)))
        if self.tokens[self.at : self.at + 2] == ["(", "*"]:
            self.take()
            name, parts = self.declarator()
            self.take(")")
        else:
            name, parts = (self.take() if self.is_identifier() else None), []
        while True:
            if self.has("["):
                parts.append((Array, None if self.has("]") else int(self.take())))
                if parts[-1][1] is not None:
                    self.take("]")
            elif self.has("("):
                parts.append((Function, *self.kept(PARAMETERS, self.parameters, ")", "(")))
            else:
                return name, parts + stars[::-1]

    def parameters(self):
        """The parameters of a function, and whether more follow."""
        if self.has(")"):
            return None, False
        if self.has_all("void", ")"):
            return (), False
        found = []
        while not self.has_all("...", ")"):
            found.append(self.declared()[1])
            if self.has(")"):
                return tuple(found), False
            self.take(",")
        return tuple(found), True


def read(line):
    """The declaration of a line."""
    found = DECLARATIONS.get(line)
    if found is None:
        found = read_anew(line)
        if len(DECLARATIONS) < KEPT:
            DECLARATIONS[line] = found
    return found


def read_anew(line):
    reader = Reader(line)
    if reader.has("typedef"):
        declaration = Declaration("typedef", *reader.declared())
    else:
        kind = reader.take()
        declaration = Declaration(kind, reader.identifier(), reader.body(kind) if kind in TAGS else None)
    reader.take(";")
    if reader.tokens[reader.at] or not declaration.name or declaration.type is None:
        raise Malformed("more follows, or a name is missing")
    return declaration
