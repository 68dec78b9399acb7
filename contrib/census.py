#!/usr/bin/env python3
"""Tables the types of many files by Dask: census.py --store FOLDER [--sqlite DATABASE] [--picture IMAGE] FILE..

Each file is a task: it is prepared and verified as dwv-check does it, its table is read, and the types that it defines
are written to a part of their own in the store. A file that has a part, and did not change since, is not read again.
Then three questions are asked of all parts, and the results are tables of the database: which structures have one name
and several layouts, how many types each compiler wrote, and what `dwv types` refuses and why. Standard error says how
many files were read, how many the store had, and how long that and each question took.

With --scheduler the tasks run on the workers of that Dask scheduler, which must see the same files and the same store,
and have dwv, its Python package and this folder (in PYTHONPATH); else on workers of this machine. It needs
python3-distributed and python3-dask.
"""
import argparse
import collections
import csv
import hashlib
import os
import pathlib
import re
import sqlite3
import sys
import time

sys.dont_write_bytecode = True
HERE = pathlib.Path(__file__).resolve().parent
sys.path[:0] = [str(HERE), str(HERE.parent / "python")]
from dwv_tools import running

KINDS = {0x13: "struct", 0x17: "union", 0x04: "enum", 0x02: "class"}
# A row of a part. A file that is not sound has one row, of the kind "fault", and a type that `dwv types` refuses one of
# the kind "refused". `digest` is that of the size and the members.
COLUMNS = "file compiler kind name size members digest reason count".split()
COMPILER = re.compile(r"GNU \S+ [\d.]+|\w*[Cc]lang version [\d.]+|rustc version [\d.]+")
REFUSED = re.compile(rb"/\* 0x([0-9a-f]{8}) (P\d \w+) \*/")


def compilers_of(file):
    """The compiler of each unit, without its options."""
    units, found = file.table.columns["units"], []
    for first in units["first"]:
        producer = file.table.attribute(first, "DW_AT_producer") or b""
        short = COMPILER.search(producer.decode(errors="replace"))
        found.append(short[0] if short else producer.decode(errors="replace"))
    return found


def members_of(entry):
    """The members of a type: where each starts in bits, its name, its size in bytes or bits, and the name of its type.
    Of an enumeration, the enumerators and their values."""
    from dwv_tools import c_file, members
    found = []
    for it in entry.children():
        if it.tag == 0x28:
            found.append(f"{it.name()}={it.number(0x1C)}")
        elif it.tag == 0x0D and not it.number(c_file.DECLARATION):
            of, bits = it.type(), it.number(c_file.BIT_SIZE)
            size = f"{bits} bits" if bits is not None else of and of.size()
            found.append(f"{members.start_of(it)} {it.name() or ''}: {of and of.name() or ''} {size}")
    return "; ".join(found)


def rows_of(path, plain):
    """The rows of a sound file, each once with its count."""
    import dwv
    from dwv_tools import c_file
    file, found = c_file.File(plain), collections.Counter()
    by = compilers_of(file)
    for row, tag in enumerate(file.tags):
        if tag in KINDS:
            entry = file.entry(row)
            if not entry.number(c_file.DECLARATION):
                text, size = members_of(entry), entry.size()
                digest = hashlib.sha256(f"{KINDS[tag]} {size} {text}".encode()).hexdigest()[:16]
                found[path, by[file.units[row]], KINDS[tag], entry.name(), size, text, digest, None] += 1
    for line in dwv.report(plain, dwv.TYPES)[1].splitlines():
        if it := REFUSED.fullmatch(line):
            entry = file.at(int(it[1], 16))
            tag = file.table.tag(entry.row)
            found[path, by[file.units[entry.row]], "refused", entry.name(), None, tag, None, it[2].decode()] += 1
    return [(*row, count) for row, count in found.items()]


def part_of(path, store, dwv):
    """Writes the part of a file, if the store does not have it. Returns its name, and whether it was written."""
    from dwv_tools import preparing
    stat = os.stat(path)
    key = hashlib.sha256(f"{os.path.abspath(path)} {stat.st_size} {stat.st_mtime_ns}".encode()).hexdigest()[:24]
    part = pathlib.Path(store) / f"{key}.csv"
    if is_new := not part.exists():
        with preparing.checked(dwv, path) as (verdict, plain):
            rows = rows_of(path, plain) if verdict.status == 0 else [
                (path, None, "fault", None, None, None, None, verdict.what, 1)]
        with open(part.with_suffix(".new"), "w", newline="", errors="backslashreplace") as out:
            csv.writer(out).writerows([COLUMNS, *rows])
        part.with_suffix(".new").replace(part)
    return str(part), is_new


def rows_in(parts):
    """The rows of all parts, as a frame of Dask."""
    import dask.dataframe
    texts = {name: "object" for name in COLUMNS if name not in ("size", "count")}
    return dask.dataframe.read_csv(parts, dtype={**texts, "size": "float64", "count": "int64"}, keep_default_na=False,
                                   na_values={name: [""] for name in COLUMNS}, blocksize=None)


def layouts(rows):
    """How many layouts the structures, unions and classes of one name have, if more than one, and in how many files."""
    types = rows[rows.kind.isin(["struct", "union", "class"])]
    named = types[~types.name.isna()]
    found, files = (named[["kind", "name", it]].drop_duplicates().groupby(["kind", "name"]).size().compute()
                    for it in ("digest", "file"))
    found = found[found > 1].rename("layouts").to_frame().join(files.rename("files")).reset_index()
    return found.sort_values(["layouts", "files", "name"], ascending=[False, False, True])


def compilers(rows):
    """How many types of each kind each compiler wrote. The units that dwz moved types to name none."""
    written = rows[~rows.kind.isin(["fault", "refused"])].fillna({"compiler": "none named"})
    found = written.groupby(["compiler", "kind"])["count"].sum().compute().reset_index()
    return found.sort_values("count", ascending=False)


def refusals(rows):
    """How many files are not sound, by their faults, and how many types are refused, by the reason and the tag."""
    refused = rows[rows.kind.isin(["fault", "refused"])].fillna({"members": ""})
    found = refused.groupby(["kind", "reason", "members"])["count"].sum().compute().reset_index()
    return found.rename(columns={"members": "tag"}).sort_values("count", ascending=False)


def timed(what, call, *words):
    """What a call returns. How long it took is told."""
    start = time.monotonic()
    found = call(*words)
    print(f"{what}: {time.monotonic() - start:.1f} s", file=sys.stderr)
    return found


def draw(found, image):
    """Draws how many types each compiler wrote, and what is refused."""
    import matplotlib
    matplotlib.use("Agg")
    matplotlib.rcParams["svg.fonttype"] = "none"
    from matplotlib import pyplot
    figure, (left, right) = pyplot.subplots(1, 2, figsize=(11, 3.2), constrained_layout=True)
    counts = found["compilers"].pivot_table(index="compiler", columns="kind", values="count", fill_value=0)
    counts.loc[counts.sum(axis=1).sort_values().index[-8:]].plot.barh(stacked=True, ax=left, xlabel="", ylabel="")
    left.set_title("types by compiler")
    reasons = found["refusals"].assign(what=lambda it: it.reason + " " + it.tag.str.replace("DW_TAG_", "", regex=False))
    reasons.groupby("what")["count"].sum().sort_values()[-8:].plot.barh(ax=right, xlabel="", ylabel="")
    right.set_title("what is refused")
    figure.savefig(image)


def main():
    parser = running.parser_of(__doc__)
    parser.add_argument("files", metavar="FILE", nargs="*", help="ELF files, or folders of .debug files")
    parser.add_argument("--store", metavar="FOLDER", required=True, help="where the parts are")
    parser.add_argument("--sqlite", metavar="DATABASE", help="where the results are written")
    parser.add_argument("--picture", metavar="IMAGE", help="a picture of the results (needs python3-matplotlib)")
    parser.add_argument("--scheduler", metavar="ADDRESS", help="the address of a Dask scheduler")
    parser.add_argument("--workers", metavar="N", type=int, default=os.cpu_count(), help="workers of this machine")
    words = parser.parse_args()
    dwv = running.find_dwv(parser)
    folders = [sorted(map(str, pathlib.Path(it).rglob("*.debug"))) if os.path.isdir(it) else [it] for it in words.files]
    files = [os.path.abspath(file) for folder in folders for file in folder if not os.path.islink(file)]
    pathlib.Path(words.store).mkdir(parents=True, exist_ok=True)
    os.environ["PYTHONPATH"] = os.pathsep.join(sys.path[:2])
    from dask.distributed import Client
    here = dict(n_workers=words.workers, threads_per_worker=1, dashboard_address=None)
    with Client(words.scheduler) if words.scheduler else Client(**here) as client:
        tasks = client.map(part_of, files, store=os.path.abspath(words.store), dwv=dwv, retries=1)
        parts = dict(timed("the parts", client.gather, tasks, "skip"))
        written = sum(parts.values())
        print(f"{written} files were read, the store had {len(parts) - written}", file=sys.stderr)
        for file, task in zip(files, tasks):
            if task.status == "error":
                print(f"not read: {running.plain(file)}: {task.exception()}", file=sys.stderr)
        rows = rows_in(sorted(parts))
        found = {it.__name__: timed(it.__name__, it, rows) for it in (layouts, compilers, refusals)}
    for name, frame in found.items():
        print(f"{name}\n{frame.head(12).to_string(index=False)}\n")
    if words.sqlite:
        with sqlite3.connect(words.sqlite) as database:
            for name, frame in found.items():
                frame.to_sql(name, database, if_exists="replace", index=False)
    if words.picture:
        draw(found, words.picture)
    return 0 if len(parts) == len(files) else 3


if __name__ == "__main__":
    sys.exit(main())
