"""The first fault of each unit, and not only that of the file.

A unit with a fault is blanked in a copy, and the copy is checked again, until it is sound. A blanked unit keeps its
place and its length: it becomes a compile unit without attributes, and zero bytes. So all other offsets stay. A later
fault that a blanked unit may have brought, a reference to what it had, is marked doubtful.
"""
import collections
import os
import shutil
import struct
import tempfile

from dwv_tools import causes, dwarf, finding, reading, running
from dwv_tools.running import plain

# A table of one declaration: the code 1 is that of a compile unit without children and attributes.
TABLE = b"\x01\x11\x00\x00\x00\x00"
MOST = 1000

# A fault: the line of `dwv`, the rule and its name, the offset and the name of the unit, the kind of its cause, and
# whether it is doubtful.
Fault = collections.namedtuple("Fault", "line what at unit kind is_doubtful")
# The faults of a file; how many units there are, or None if that is not known; and why the rest is not known, or "".
Every = collections.namedtuple("Every", "faults units rest")


class Blanking:
    """A copy of a file in which units are blanked."""

    def __init__(self, path, copy):
        shutil.copyfile(path, copy)
        self.path, self.table, self.blanked, self.signatures = copy, None, [], set()

    def _add_table(self, out, file):
        """Moves .debug_abbrev to the end of the file, with one table more."""
        abbrev = file.abbrev
        number = next((k for k, it in enumerate(file.sections) if it.name == ".debug_abbrev"), None)
        if number is None:
            return False
        start, = struct.unpack_from("<Q", file.data, 40)
        out.seek(start + 64 * number + 24)
        end = len(file.data)
        out.write(struct.pack("<QQ", end, abbrev.size + len(TABLE)))
        out.seek(end)
        out.write(file.data[abbrev.start : abbrev.start + abbrev.size] + TABLE)
        self.table = abbrev.size
        return True

    def blank(self, place):
        """Blanks the unit of a fault. Returns whether that is possible."""
        unit, file = place.unit, place.file
        if unit is None or unit.end is None or unit.end > file.info.size or unit.version is None:
            return False
        length = unit.end - unit.at - 4
        with open(self.path, "r+b") as out:
            if length < 8 or length >= 0xFFFFFFF0 or self.table is None and not self._add_table(out, file):
                return False
            body = struct.pack("<IHIB", length, 4, self.table, 8) + b"\x01"
            out.seek(file.info.start + unit.at)
            out.write(body + bytes(4 + length - len(body)))
        self.blanked.append((unit.at, unit.end))
        self.signatures.add(unit.signature)
        return True

    def is_doubtful(self, place):
        """Whether the fault is a reference to what a blanked unit had."""
        it = dwarf.find(place.entry, place.attribute)
        if place.rule not in ("R1", "R2", "R4") or it is None:
            return False
        if it.form == reading.REF_SIG8:
            return it.value in self.signatures
        return it.form == reading.REF_ADDR and any(at <= it.value < end for at, end in self.blanked)


def faults(dwv, path, limits=running.Limits()):
    """The first fault of each unit of a file that is not sound."""
    found = []
    with tempfile.TemporaryDirectory(prefix="dwv-") as folder:
        copy = Blanking(path, os.path.join(folder, "blanked"))
        while True:
            verdict = running.check(dwv, copy.path, limits)
            if verdict.status == 0:
                return Every(found, int(running.SOUND.fullmatch(verdict.lines[0])[1]), "")
            if verdict.status != 1:
                return Every(found, None, verdict.lines[0])
            place = finding.Place(verdict, copy.path)
            at = place.unit.at if place.unit else None
            kind = causes.cause(place).kind
            found.append(Fault(verdict.lines[0], verdict.what, at, place.unit_name, kind, copy.is_doubtful(place)))
            if len(found) == MOST or not copy.blank(place):
                why = f"after {MOST} faults" if len(found) == MOST else "the fault is of no unit that can be left out"
                return Every(found, None, why)


def is_allowed(every, kinds):
    """Whether all faults of a file have such a cause."""
    return every.rest == "" and all(it.kind in kinds and not it.is_doubtful for it in every.faults)


def told(every):
    """What is said of the units of a file, in one line."""
    count = len(every.faults)
    if every.units is None:
        return f"{count} units with a fault, the others are not known: {every.rest}"
    return f"{count} of {every.units} units with a fault, the other {every.units - count} are sound"


def lines(every):
    """A line for each fault."""
    kinds = {"compiler": "a habit of the compiler", "limit": "not read by dwv", "file": "no known habit"}
    for it in every.faults:
        where = "no unit" if it.at is None else f"unit 0x{it.at:08x}" + (f" {plain(it.unit)}" if it.unit else "")
        doubt = ", doubtful: it refers to a unit that was left out" if it.is_doubtful else ""
        yield f"{where}: {it.line.removeprefix('fault ')} ({kinds[it.kind]}{doubt})"
