"""Tests of the Python package dwv, over the library that `make lib` built."""
import concurrent.futures
import doctest
import json
import mmap
import os
import re
import runpy
import sqlite3
import struct
import sys

import addresses
import common
import examples
import pytest
from common import BROKEN, FOUR, SAMPLE

LEAST = 20
if "DWV_LIBRARY" not in os.environ and not common.LIBRARY.exists():
    common.lack("the C library is not built (make lib)", allow_module_level=True)
os.environ.setdefault("DWV_LIBRARY", str(common.LIBRARY))
import dwv

SOUND = dwv.Counts(units=1, entries=2, types=1)
FAULT = dwv.Fault(rule="G1", name="UndeclaredCode", section=".debug_info", at=15, attribute=0)


def test_verdicts():
    assert dwv.check(SAMPLE) == SOUND
    assert dwv.check(str(SAMPLE)) == SOUND
    assert dwv.check(SAMPLE.read_bytes()) == SOUND
    assert dwv.check(BROKEN) == FAULT


def test_buffers():
    for kind in (bytearray, memoryview):
        assert dwv.check(kind(SAMPLE.read_bytes())) == SOUND
    with SAMPLE.open("rb") as opened, mmap.mmap(opened.fileno(), 0, access=mmap.ACCESS_READ) as mapped:
        assert dwv.check(mapped) == SOUND


def test_conditions():
    assert dwv.check(SAMPLE)
    assert not dwv.check(BROKEN)
    assert dwv.verify(SAMPLE) == SOUND
    with pytest.raises(dwv.NotSound) as raised:
        dwv.verify(BROKEN)
    assert raised.value.fault == FAULT


def test_lines():
    for data in (SAMPLE.read_bytes(), BROKEN, b""):
        assert f"{dwv.check(data)}\n".encode() == dwv.report(data)[1]


def sections_of_sample():
    file, found = SAMPLE.read_bytes(), {}
    for name, header in (("abbrev", 1), ("info", 2)):
        start, length = struct.unpack_from("<QQ", file, struct.unpack_from("<Q", file, 40)[0] + 64 * header + 24)
        found[name] = file[start : start + length]
    return found


def test_sections():
    found = sections_of_sample()
    assert dwv.check_sections(**found) == SOUND
    assert dwv.check_sections() == dwv.Counts(0, 0, 0)
    assert dwv.check_sections(info=found["info"]).rule == "U6"


def test_elf():
    elffile = pytest.importorskip("elftools.elf.elffile")
    from dwv import elf
    with SAMPLE.open("rb") as opened:
        assert elf.check(elffile.ELFFile(opened)) == SOUND


def test_entries():
    unit = dwv.Entry(offset=12, depth=0, tag=0x11, size=None, name=b"a")
    number = dwv.Entry(offset=15, depth=1, tag=0x24, size=4, name=b"int")
    assert dwv.entries(SAMPLE) == [unit, number]
    assert dwv.entries(BROKEN) == FAULT


def test_table():
    table = dwv.table(SAMPLE)
    assert repr(table) == "Table(1 units, 2 entries, 4 values)"
    assert [table.tag(it) for it in range(len(table))] == ["DW_TAG_compile_unit", "DW_TAG_base_type"]
    assert (table.name(1), table.size(1), table.size(0), table.parent(1), table.parent(0)) == (b"int", 4, None, 0, None)
    assert table.attributes(1) == {"DW_AT_name": b"int", "DW_AT_byte_size": 4, "DW_AT_encoding": 5}
    assert table.attribute(1, 0x0B) == table.attribute(1, "DW_AT_byte_size") == 4
    assert table.attribute(1, "DW_AT_type") is None
    assert (list(table.children(0)), list(table.children(1))) == ([1], [])
    assert len(dwv.table(SAMPLE, limit=4)) == 2
    with pytest.raises(MemoryError, match="^4 values, and the limit is 3$"):
        dwv.table(SAMPLE, limit=3)
    # Without a limit there may be a value for each byte and a million more: here there are two million.
    many = b"\x01\x11\x01\0\0\x02\x34\0" + b"".join(bytes([0x80 | k & 127, 0x40 + (k >> 7), 0x19]) for k in range(200))
    info = common.unit(b"\x01" + b"\x02" * 10_000 + b"\0")
    with pytest.raises(MemoryError, match="^2000000 values, and the limit is 1010014$"):
        dwv.table_sections(info=info, abbrev=many + b"\0\0\0")
    with pytest.raises(dwv.NotSound) as raised:
        dwv.table(BROKEN)
    assert raised.value.fault == FAULT


def test_table_of_sections():
    sections = sections_of_sample()
    table = dwv.table_sections(**sections)
    assert table.attributes(1) == dwv.table(SAMPLE).attributes(1)
    assert table.columns["entries"]["name"].tolist() == [sections["info"].index(it) for it in (b"a\0", b"int\0")]


def test_rooms_of_a_table(monkeypatch):
    """It takes one call; two if it has more values than compilers write, or if there is no memory for these."""
    statuses, write, reserve = [], dwv._library.dwv_table_sections, mmap.mmap

    def counted(*words):
        statuses.append(write(*words))
        return statuses[-1]

    def reserved(number, length, *flags):
        if length >= 40 * 32:
            raise OSError
        return reserve(number, length, *flags)

    def said(count):
        statuses.clear()
        flags = b"".join(bytes([0x80 | code, 0x40, 0x19]) for code in range(count))
        info = bytes.fromhex("09000000050001080000000001")
        table = dwv.table_sections(abbrev=b"\1\x11\0" + flags + bytes(3), info=info)
        assert table.columns["values"]["attribute"].tolist() == list(range(0x2000, 0x2000 + count))
        return statuses

    monkeypatch.setattr(dwv._library, "dwv_table_sections", counted)
    assert said(40) == [0]
    assert said(41) == [5, 0]
    monkeypatch.setattr(mmap, "mmap", reserved)
    assert said(39) == [5, 0]
    with pytest.raises(MemoryError):
        said(41)


# The frames at 0x1006 of FOUR: `twice` is inlined in `four`.
INNER = dwv.frames.Frame(b"twice", b"/src/four.c", 1, 33, 3, 0)
OUTER = dwv.frames.Frame(b"four", b"/src/four.c", 2, 22, 2, 0)


def test_addresses():
    four = dwv.addresses(FOUR)
    assert four.frames(0x1006) == [INNER, OUTER]
    assert four.frames(0x2000) == []
    found = four.find([0x2000, 0x1006, 0x1000])
    assert repr(found) == "Found(3 addresses, 3 frames)"
    assert [len(it) for it in found] == [0, 2, 1] and found[1] == [INNER, OUTER]
    assert found.columns["located"]["first"].tolist() == [0, 0, 2]
    assert str(found[2][0]) == "four at /src/four.c:2:5"
    assert str(dwv.frames.Frame(None, b"a\xff", None, None, None, 0)) == "?? at a\\xff:0:0"
    assert dwv.table(FOUR).tag(INNER.entry) == "DW_TAG_inlined_subroutine"
    assert len(four.find([])) == 0 and dwv.addresses(SAMPLE).frames(0) == []


def test_faults_of_lines_and_ranges():
    for place, byte, rule in ((0xE1, 6, "L4"), (0xA4, 0x0F, "X9")):  # a version, the size of the unit
        file = bytearray(FOUR.read_bytes())
        file[place] = byte
        assert dwv.check(file)
        with pytest.raises(dwv.NotSound) as raised:
            dwv.addresses(file)
        assert raised.value.fault.rule == rule
    for wrong in (-1, 1 << 64):
        with pytest.raises(OverflowError):
            dwv.addresses(FOUR).frames(wrong)


def test_rooms_of_addresses(monkeypatch):
    """A look-up takes one call; two if there are more frames than compilers mostly make, and than there were before."""
    statuses, write, four = [], dwv._library.dwv_frames, dwv.addresses(FOUR)

    def counted(*words):
        statuses.append(write(*words))
        return statuses[-1]

    def said(found):
        statuses.clear()
        return [len(it) for it in found()], statuses

    monkeypatch.setattr(dwv._library, "dwv_frames", counted)
    assert said(lambda: four.find([0x1006, 0x1000])) == ([2, 1], [0])
    monkeypatch.setattr(dwv.frames, "GUESS", (1, 16))
    fresh = dwv.addresses(FOUR)
    assert said(lambda: fresh.find([0x1006])) == ([2], [5, 0])
    assert said(lambda: fresh.find([0x1000])) == ([1], [0])


def test_arrays_of_frames():
    numpy, pandas = pytest.importorskip("numpy"), pytest.importorskip("pandas")
    found = dwv.addresses(FOUR).find(numpy.array([0x1006, 0x2000, 0x1000]))
    assert found.arrays.located["frames"].tolist() == [2, 0, 1]
    assert found.arrays.frames["line"].tolist() == [1, 2, 2]
    assert numpy.shares_memory(found.arrays.frames, numpy.frombuffer(found.columns["frames"]["line"].obj, "u1"))
    frame = found.to_pandas()
    assert frame["address"].tolist() == [0x1006, 0x1006, 0x1000] and frame["depth"].tolist() == [0, 1, 0]
    assert frame["function"].tolist() == ["twice", "four", "four"] and frame["function"].dtype == "category"
    assert frame["line"].tolist() == [1, 2, 2] and frame["entry"].tolist() == [3, 2, 2]
    assert isinstance(frame, pandas.DataFrame)


def test_frames():
    numpy, pandas = pytest.importorskip("numpy"), pytest.importorskip("pandas")
    table = dwv.table(SAMPLE)
    assert table.arrays.entries["tag"].tolist() == [0x11, 0x24]
    memory = numpy.frombuffer(table.columns["entries"]["tag"].obj, "u1")
    assert numpy.shares_memory(table.arrays.entries, memory)
    entries, values = table.entries(), table.values()
    assert entries["name"].tolist() == ["a", "int"]
    assert entries["tag"].dtype == "category" and entries["size"][1] == 4
    assert entries["parent"].isna().tolist() == [True, False]
    assert values["attribute"].tolist()[2:] == ["DW_AT_byte_size", "DW_AT_encoding"]
    assert values["kind"].tolist() == ["text", "text", "unsigned", "unsigned"]
    assert len(table.units()) == 1 and isinstance(values, pandas.DataFrame)


def test_arrow():
    pytest.importorskip("pyarrow")
    assert dwv.table(SAMPLE).to_arrow()["entries"].num_rows == 2


def test_saving(tmp_path):
    from dwv import saving
    database, folder = tmp_path / "a.db", tmp_path / "a"
    assert saving.main(["--sqlite", "-o", str(database), str(SAMPLE)]) == 0
    wanted = [("DW_TAG_compile_unit", "a", None), ("DW_TAG_base_type", "int", 4)]
    assert sqlite3.connect(database).execute("SELECT tag, name, size FROM entries").fetchall() == wanted
    assert saving.main(["--csv", "-o", str(folder), str(SAMPLE)]) == 0
    assert (folder / "attributes.csv").read_text().splitlines()[3] == "2,1,DW_AT_byte_size,unsigned,4,0,"
    (tmp_path / "broken").write_bytes(BROKEN)
    assert saving.main(["--csv", "-o", str(folder), str(tmp_path / "broken")]) == 1
    assert saving.main(["--csv", "-o", str(tmp_path / "no/folder"), str(SAMPLE)]) == 3
    assert saving.main(["--csv", "--limit", "3", "-o", str(tmp_path / "few"), str(SAMPLE)]) == 4
    assert not (tmp_path / "few").exists()
    numpy = pytest.importorskip("numpy")
    assert saving.main(["-o", str(tmp_path / "a.npz"), str(SAMPLE)]) == 0
    assert len(numpy.load(tmp_path / "a.npz")["values"]) == 4


@pytest.mark.parametrize("has_offsets", (False, True))
def test_folded_stacks(tmp_path, has_offsets):
    """The example that folds stacks, on a text as `perf script` writes it, of a program that is loaded somewhere: with
    addresses, or as newer perfs write it with the offsets in the file."""
    common.needs("gcc", "nm")
    path, script = tmp_path / "small", common.TOP / "contrib/integrations/examples/folded.py"
    (tmp_path / "small.c").write_text(addresses.SMALL)
    assert common.compiled(path, "gcc -g", tmp_path / "small.c")
    symbols = {name: (int(start, 16), int(size, 16)) for start, size, name in
               re.findall(r"(?m)^(\w+) (\w+) T (\w+)$", common.run("nm", "-S", path, text=True)[1])}
    start, size = symbols["four"]
    frames = dwv.addresses(path).find(range(start, start + size))
    inner = next(start + k for k, it in enumerate(frames) if len(it) == 2)
    base, text = 0x7F0000000000, ""
    loaded = list(runpy.run_path(script)["segments"](path.read_bytes()))

    def written(at):
        offsets = [offset + at - low for offset, length, low in loaded if low <= at < low + length]
        return f"{offsets[0] if has_offsets else base + at:16x}"

    for offset, length, at in loaded:
        at, offset = base + at & -4096, offset & -4096
        text += f"small 7 1.0: PERF_RECORD_MMAP2 7/7: [{at:#x}({length:#x}) @ {offset:#x} 08:01 2 3]: r-xp {path}\n"
    for top in (inner, inner, start):
        text += f"small 7 1.1: 1 cycles:\n\t{written(top)} four+0x1 ({path})\n"
        text += f"\t{written(symbols['main'][0] + 1)} main+0x1 ({path})\n\t{4096:16x} outer+0x9 (/lib/libc.so.6)\n\n"
    env = {**os.environ, "PYTHONPATH": str(common.TOP / "python")}
    said = common.run(sys.executable, script, path, text=True, input=text, env=env)
    assert said == (0, "outer;main;four 1\nouter;main;four;twice 2\n", "")


def test_reports():
    assert dwv.report(SAMPLE) == (0, b"sound: 1 units, 2 entries, 1 types\n")
    assert dwv.report(SAMPLE, dwv.SIZE, 15) == (0, b"size 4\n")
    assert dwv.report(SAMPLE, dwv.SIZE, 12) == (2, b"not a type\n")
    assert dwv.report(SAMPLE, dwv.TYPES) == (0, b"")
    assert dwv.report(BROKEN)[0] == 1


def test_bad_arguments():
    with pytest.raises(ValueError):
        dwv.report(SAMPLE, 5)
    with pytest.raises(ValueError):
        dwv.report(SAMPLE, dwv.SIZE, 1 << 32)
    with pytest.raises(TypeError):
        dwv.check(None)
    with pytest.raises(TypeError):
        dwv.check(3)
    with pytest.raises(OSError):
        dwv.check("/no such file")


def test_threads():
    with concurrent.futures.ThreadPoolExecutor(8) as pool:
        assert set(pool.map(dwv.check, [SAMPLE.read_bytes()] * 1000)) == {SOUND}


def test_examples():
    assert doctest.testmod(dwv).failed == 0


def object_of(verdict):
    """What `check --json` prints of a verdict, but the offsets of a cycle."""
    return {"sound": isinstance(verdict, dwv.Counts), **verdict._asdict()}


def test_same_answers(tmp_path):
    """Of the files of all rows: `check --json`, and one of the other commands in turn if the file is not large."""
    common.build()
    others = [("check", dwv.CHECK), ("show", dwv.SHOW), ("types", dwv.TYPES), ("size", dwv.SIZE)]
    path = tmp_path / "file"
    for number, (file, _) in enumerate(examples.files()):
        path.write_bytes(file)
        said = common.run(common.DWV, "check", "--json", path)
        assert (*dwv.report(file, dwv.CHECK_JSON), b"") == said
        printed = json.loads(said[1])
        printed.pop("cycle", None)
        assert object_of(dwv.check(file)) == printed
        if len(file) <= 1 << 16:
            command, request = others[number % len(others)]
            words = ["0x0f"] if command == "size" else []
            # A listing is too long to be shown, and `show` of 100,000 entries in one another takes 10 GB.
            is_same = (*dwv.report(file, request, 0x0F), b"") == common.run(common.DWV, command, path, *words)
            assert is_same, f"{command} of file {number}"
