"""Reads what `dwv types` prints of a file: each line once; and where the entries of its types are."""
import array
import re
import subprocess

from dwv_tools import members
from dwv_tools.running import show_progress

REFUSED = re.compile(rb"/\* 0x([0-9a-f]{8}) (P\d \w+) \*/")
KINDS = {0x13: "struct", 0x17: "union", 0x04: "enum", 0x16: "typedef"}
BLOCK = 2**20
# How many entries of a name are kept: enough for the different types that have it.
MOST = 8


class Failed(Exception):
    """`dwv` ended with another status than 0."""


def output(dwv, command, path):
    """What a command of `dwv` prints, in blocks of whole lines."""
    with subprocess.Popen([dwv, command, path], stdout=subprocess.PIPE) as process:
        rest = b""
        while block := process.stdout.read(BLOCK):
            block = rest + block
            cut = block.rfind(b"\n") + 1
            rest = block[cut:]
            yield block[:cut]
    if process.returncode != 0:
        raise Failed(f"dwv {command} ended with status {process.returncode}")


class Listing:
    """The distinct declarations in their order, the refused types by their offsets, and how many lines there are."""

    def __init__(self, dwv, path):
        self.lines, self.refused, self.count = {}, {}, 0
        for block in output(dwv, "types", path):
            for line in block.splitlines():
                self.count += 1
                if line not in self.lines:
                    if found := REFUSED.fullmatch(line):
                        self.refused[int(found[1], 16)] = found[2].decode()
                    else:
                        self.lines[line] = None
            show_progress(f"{self.count} lines, {len(self.lines)} distinct")


class Places:
    """Where the entries of named types are, and the names of the refused ones."""

    def __init__(self, file, wanted, refused):
        self.file, self.names = file, {}
        self.at = {node: array.array("Q") for node in wanted}
        table, offsets, tags = file.table, file.offsets, file.tags
        for row in file.named(KINDS):
            kind, name = KINDS[tags[row]], table.name(row).decode("ascii", "replace")
            found = self.at.get((kind, name))
            if found is not None and len(found) < MOST and (kind == "typedef" or table.size(row) is not None):
                found.append(offsets[row])
            if offsets[row] in refused:
                self.names[offsets[row]] = f"{kind} {name}"

    def shapes(self, declaration):
        """What the file says of the layouts that a declaration may have, each once, after the offset of its entry."""
        seen = []
        for at in self.at.get(declaration[:2], ()):
            shape = members.shape_at(self.file, declaration, at)
            if shape is not None and shape not in seen:
                seen.append(shape)
                yield at, shape
