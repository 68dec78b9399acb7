#!/usr/bin/env python3
"""Finds the lemmas, definitions, constants and functions of the crates that nothing uses.

A name is used if used text cites it. Always used are: what a library exports, the answers to goals, tests, `main`, the
methods of traits, and all text outside of definitions. Comments, imports and edits cite nothing. It prints a
line for each name that is not used, with its file and line, and ends with 'N passed, N failed, N skipped'.
"""
import re
import sys

sys.dont_write_bytecode = True
from common import TOP, tell

IMPORT = re.compile(r"\buse ([\w«»+-]+(?:(?:\.|::)[\w«»+-]+)*)(?:(?:\.|::)\{([^}]*)\})?(?: as ([\w-]+))?")
COMMENT = {".rt": re.compile(r"//.*"), ".antt": re.compile(r"(?m)(?:^|(?<=\s))--(?:\s.*)?$")}
GROUP = re.compile(r" *(?:abbrev |pub )*(?:module|mutual)\b")
LEMMA = re.compile(r" *(?:abbrev |unfoldable |pub )*(?:(?:record|data|class) ([^ :]+)|([^ :]+) :)")
IMPL = re.compile(r"impl(?:<[^{]*?>)? (?P<trait>[\w:]+(?:<.*>)? for )?(?P<type>\w+)")
KINDS = "fn|const|static|struct|enum|type|trait"
ITEM = re.compile(rf"( *)(?P<pub>pub )?(?:pub\(crate\) )?(?:const |unsafe )*(?:{KINDS}) (?P<name>\w+)")
ENDS = ("}", "{}", "};", "];", ");")
WORD = re.compile(r"[A-Za-z_]\w*|[<>=+*&|-]+")
PROOF_WORD = re.compile(r"[^\s()\[\]{},;.:\"\\&|!?*<>=/#@^~$λ→◌]+")
PATH = re.compile(r"(\w+)(?:::|\.)([\w'-]+)")


class Item:
    """A definition with its text, or the text of a file outside of all definitions."""

    def __init__(self, name, line, is_root=False, owner=None, is_public=False):
        self.name, self.line, self.is_root, self.owner, self.is_public = name, line, is_root, owner, is_public
        self.text, self.is_used = [], False


class File:
    """The definitions of a file, and from which module each imported name comes."""

    def __init__(self, path):
        self.path, self.stem, self.is_rust = path, path.stem, path.suffix == ".rt"
        self.imports, self.modules = {}, {}
        text = COMMENT[path.suffix].sub("", path.read_text())
        self.items = [Item("", 0, is_root=True)]
        self.split(IMPORT.sub(self.take_import, text).split("\n"))

    def take_import(self, found):
        parts = re.split(r"\.|::", found[1])
        if found[2] is None:
            alias = found[3] or parts[-1]
            self.modules[alias] = parts[-1]
            self.imports.setdefault(alias, set()).add((parts[-2] if len(parts) > 1 else "", parts[-1]))
        for part in (found[2] or "").split(","):
            name, _, alias = part.strip().partition(" as ")
            self.imports.setdefault(alias or name, set()).add((parts[-1], name))
        return "\n" * found[0].count("\n")

    def split(self, lines):
        split = self.split_rust if self.is_rust else self.split_lemmas
        split(lines)

    def split_lemmas(self, lines):
        """A definition goes up to the next one. In a module or a mutual group it is indented by two columns more."""
        answers = len(self.path.relative_to(TOP).parts) > 4
        groups, item = [], self.items[0]
        for number, line in enumerate(lines, 1):
            indent = len(line) - len(line.lstrip())
            while line.strip() and groups and indent <= groups[-1]:
                groups.pop()
            if line.strip() and indent == (groups[-1] + 2 if groups else 0):
                if GROUP.match(line):
                    groups.append(indent)
                    item = self.items[0]
                elif found := LEMMA.match(line):
                    # The type of a long name stands in the next line.
                    head = line + "".join(lines[number : number + 1])
                    item = Item(found[1] or found[2], number, is_root=answers and "goal." in head)
                    self.items.append(item)
                    line = line[found.end() :]
            item.text.append(line)

    def split_rust(self, lines):
        """An item goes from its head to the brace that is indented like it. The methods of traits are no items."""
        item, ends, owner, is_trait, above = self.items[0], None, None, False, ""
        for number, line in enumerate(lines, 1):
            if ends is None:
                if found := IMPL.match(line):
                    owner, is_trait = found["type"], found["trait"] is not None
                elif line.startswith("}"):
                    owner, is_trait = None, False
                found = ITEM.match(line)
                if found and not (found[1] and is_trait) and "trait " not in line[: found.end()]:
                    is_root = "#[test]" in above or found["name"] == "main"
                    item = Item(found["name"], number, is_root, found[1] and owner, found["pub"] is not None)
                    item.text.append(above)
                    self.items.append(item)
                    line = line[found.end() :]
                    ends = tuple(found[1] + end for end in ENDS)
                above = above + line if line.strip().startswith("#[") else ""
            item.text.append(line)
            if ends and (line.rstrip() in ends or number == item.line and line.rstrip().endswith((";", "{}"))):
                item, ends = self.items[0], None


def exports(crate, files):
    """The names that a library exports: by `pub use`, in a `pub mod`, and those of lib.rt itself."""
    root = crate / "src/lib.rt"
    text = root.read_text() if root.exists() else ""
    names = set()
    for found in re.finditer(r"pub use [\w:]+?::(?:\{([^}]*)\}|(\w+));", text):
        names |= {name.strip() for name in (found[1] or found[2]).split(",")}
    open_modules = set(re.findall(r"pub mod (\w+);", text))
    for file in files:
        parts = file.path.relative_to(crate).with_suffix("").parts
        if file.path == root or open_modules & set(parts[1:]):
            names |= {item.name for item in file.items}
    return names


def read_files():
    """All files of the crates, with what is exported made a root."""
    folders = [path for part in ("src", "specs", "proofs") for path in TOP.glob(f"crates/*/{part}")]
    paths = [path for folder in folders for path in folder.rglob("*") if path.suffix in (".rt", ".antt")]
    files = [File(path) for path in sorted(paths)]
    crates = {}
    for file in files:
        crates.setdefault(TOP.joinpath(*file.path.relative_to(TOP).parts[:2]), []).append(file)
    for crate, inside in crates.items():
        names = exports(crate, inside)
        for file in inside:
            for item in file.items:
                item.is_root |= item.is_public and (item.owner or item.name) in names
    return files


def mark_used(files):
    """Marks what the roots cite, and what that cites."""
    lemmas, code, pieces = {}, {}, {}
    for file in files:
        for item in file.items[1:]:
            (code if file.is_rust else lemmas).setdefault(item.name, []).append((file, item))
            for piece in item.name.split("◌") if not file.is_rust else []:
                pieces.setdefault(piece, set()).add(item.name)
    todo = []

    def use(file, item):
        if not item.is_used:
            item.is_used = True
            todo.append((file, item))

    def use_of(stem, name):
        for file, item in lemmas.get(name, []):
            if file.stem == stem:
                use(file, item)

    for file in files:
        for item in file.items:
            if item.is_root:
                use(file, item)
    while todo:
        file, item = todo.pop()
        text = "\n".join(item.text)
        for word in {*WORD.findall(text), *PROOF_WORD.findall(text)}:
            for found in code.get(word, []) if file.is_rust else []:
                use(*found)
            for name in {word} | pieces.get(word, set()):
                for other, inner in lemmas.get(name, []):
                    if other is file:
                        use(other, inner)
                for imported in file.imports.get(name, set()):
                    use_of(*imported)
        for module, name in set(PATH.findall(text)):
            use_of(file.modules.get(module, module), name)


def main():
    files = read_files()
    mark_used(files)
    items = [(file, item) for file in files for item in file.items]
    unused = [f"{file.path.relative_to(TOP)}:{item.line}: {item.name}" for file, item in items if not item.is_used]
    return tell(unused, len(items), 6000)


sys.exit(main())
