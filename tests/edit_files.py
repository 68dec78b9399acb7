"""The edits that the prover must refuse, and the controls: what their files say, and what is wrong without a proof."""
import collections
import re

FOLDERS = ("must-fail", "more-edits")
AT_MOST = 70  # edits in must-fail/, of all crates
IMPL = r"impl(?:<.*?>)? (?:(?P<trait>[\w:]+)(?:<.*?>)? for )?(?P<type>[\w:]+)"
BLOCK = re.compile(rf"(?:pub )?(?:{IMPL}|trait (?P<name>\w+))")
FUNCTION = re.compile(r'( *)(?:pub )?(?:pub\(crate\) )?(?:const )?(?:extern "C" )?fn (\w+)')
Function = collections.namedtuple("Function", "path first last")


class Edit:
    """An edit or its control: the pairs of an old and a new text, by file, and the functions that they change."""

    def __init__(self, path, is_control=False):
        self.path, self.crate, self.folder, self.name = path, path.parent.parent, path.parent.name, path.stem
        self.label = f"{self.crate.name}/{self.name}"
        self.is_control, self.has_control = is_control, False
        self.pairs, self.why, self.functions = [], None, set()
        file = old = None
        for line in path.read_text().split("\n"):
            word, _, rest = line.partition(":")
            if word == "file":
                file = rest.strip()
            elif word == "old":
                old = rest.removeprefix(" ")
            elif word == "new" and file and old:
                self.pairs.append((file, old, rest.removeprefix(" ")))
            elif word == "# right" and self.pairs:
                self.has_control = True
                if is_control:
                    self.pairs[-1] = (file, old, rest.removeprefix(" "))
        self.locate()

    @property
    def kind(self):
        return "controls" if self.is_control else self.folder

    def locate(self):
        """Finds the functions that are changed, or says why the edit can't be applied."""
        self.why = None if self.pairs else "it has no pair of an old and a new text"
        for file, old, new in self.pairs:
            path = self.crate / file
            text = path.read_text() if path.is_file() else ""
            if text.count(old) != 1:
                self.why = f"the text is {text.count(old)} times in {file}, and not once: {old.strip()}"
                return
            line = text[: text.index(old)].count("\n")
            inside = [it.path for it in functions_of(self.crate, file, text) if it.first <= line <= it.last]
            self.functions.add(inside[0] if inside else None)
        if old == new and len(self.pairs) == 1:
            self.why = "it changes nothing"

    def is_alone(self):
        return None in self.functions or len({file for file, _, _ in self.pairs}) > 1

    def apply(self, texts):
        for file, old, new in self.pairs:
            text = texts.get(file) or (self.crate / file).read_text()
            if text.count(old) != 1:
                return False
            texts[file] = text.replace(old, new)
        return True


def edits_in(top):
    """Lists the edits of all crates, each with its control behind it, if it has one."""
    edits = [Edit(path) for path in sorted(it for name in FOLDERS for it in top.glob(f"crates/*/{name}/*.edit"))]
    return [it for edit in edits for it in [edit, *[Edit(edit.path, True)] * edit.has_control]]


def functions_of(crate, file, text):
    """Lists the functions of a file that is laid out by `rt fmt`, each with its path and its lines."""
    module = file.removeprefix("src/").removesuffix(".rt").split("/")
    module = [] if module[-1] in ("lib", "main") else module
    found, block, open_at, free = [], "", None, 0
    for number, line in enumerate(text.split("\n")):
        head, function = BLOCK.match(line), FUNCTION.match(line)
        if head:
            block = head["name"] or head["type"].split("::")[-1] + (head["trait"] or "").split("::")[-1]
        elif line == "}":
            block = block if open_at else ""
        if function and not open_at:
            indent, name = function.groups()
            open_at, has_body, depth = True, line.endswith("{"), 0
        elif not open_at and (not line or line.endswith(("{", "}", ";"))):
            free = number + 1  # the line of the comment and the attributes of what follows
        if open_at:
            has_body = has_body or line == indent + "{"
            depth += line.count("{") - line.count("}")
            is_end = line.startswith((indent + "}", indent + "{}")) or line.endswith("{}") and not has_body
            if is_end or line.endswith(";") and not has_body and not depth:
                owner = [block] if indent else []
                found.append(Function(short("::".join([crate.name, *module, *owner, name])), free, number))
                open_at, free = None, number + 1
    return found


def short(path):
    """Shortens the path of a method to its crate, its type and its name: a type's methods may be in several modules."""
    parts = path.split("::")
    return "::".join([parts[0], *parts[-2:]]) if len(parts) > 2 and parts[-2][0].isupper() else path


def misplaced(edits):
    """Lists what is wrong with the edits without a proof: texts, names and counts."""
    for edit in edits:
        if edit.why:
            yield f"{edit.label}: it can't be applied: {edit.why}"
    names = collections.Counter(it.label for it in edits if not it.is_control)
    yield from (f"{label}: two edits have this name" for label, count in names.items() if count > 1)
    kept = [it for it in edits if it.kind == "must-fail"]
    if len(kept) > AT_MOST:
        yield f"must-fail/ has {len(kept)} edits, and should have at most {AT_MOST}: move some to more-edits/"
    with_none = {it.crate.name for it in edits} - {it.crate.name for it in kept}
    yield from (f"{name}: no edit in must-fail/" for name in sorted(with_none))


def count(edits):
    """Prints how many edits and controls each crate has."""
    counts = collections.Counter((it.crate.name, it.kind) for it in edits)
    for name in sorted({it.crate.name for it in edits}):
        print(f"{name:<12}" + "".join(f"{counts[name, kind]:>4} {kind}" for kind in (*FOLDERS, "controls")))
