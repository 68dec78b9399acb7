"""Writes the units, entries and values of a sound file: dwv-table [--csv | --sqlite] [--limit N] -o OUT FILE

OUT is a file of numpy with three structured arrays, units, entries and values; with --sqlite a database with the tables
units, entries and attributes, where tags, attributes, kinds, names and texts are text; with --csv a folder with the
same as three files. The rows of each are numbered from 0.

A small file can have very many values, which take 32 bytes of memory each. With more than --limit of them nothing is
written; the limit is else a value for each byte of FILE and a million more, which is more than compilers write.

The exit status is 0 if OUT is written, 1 if FILE is not sound, 2 after bad usage, 3 if something could not be read or
written, 4 if memory ran out or FILE has more values than the limit. --csv and --sqlite need no other module.
"""
import argparse
import csv
import os
import pathlib
import sqlite3
import sys
from typing import Iterator, List

import dwv
from dwv.tables import KINDS, NONE, TEXT, Table, name_of

# The columns of each table, with their types in SQLite.
COLUMNS = {
    "units": "unit INTEGER PRIMARY KEY, offset INTEGER, version INTEGER, unit_type INTEGER, address_size INTEGER,"
             " language TEXT, first_entry INTEGER, entries INTEGER, rnglists_base INTEGER, loclists_base INTEGER",
    "entries": "entry INTEGER PRIMARY KEY, unit INTEGER, offset INTEGER, depth INTEGER, tag TEXT, name TEXT,"
               " size INTEGER, parent INTEGER, next_sibling INTEGER, first_value INTEGER, value_count INTEGER",
    "attributes": "value INTEGER PRIMARY KEY, entry INTEGER, attribute TEXT, kind TEXT, number INTEGER,"
                  " length INTEGER, text TEXT",
}


def units(table: Table) -> Iterator[tuple]:
    columns = table.columns["units"]
    languages = (name_of("LANG", it) if it else None for it in columns["language"])
    names = ("offset", "version", "unit_type", "address_size")
    more = ("first", "entries", "rnglists_base", "loclists_base")
    return zip(range(len(columns["offset"])), *(columns[it] for it in names), languages, *(columns[it] for it in more))


def entries(table: Table) -> Iterator[tuple]:
    columns, names = table.columns["entries"], _Texts(table)
    texts = map(names.read, columns["name_section"], columns["name"], columns["name_length"])
    sizes = (_signed(size) if has else None for size, has in zip(columns["size"], columns["has_size"]))
    tags = {code: name_of("TAG", code) for code in set(columns["tag"].tolist())}
    links = ((None if it == NONE else it for it in columns[name]) for name in ("parent", "next_sibling"))
    return zip(range(len(table)), columns["unit"], columns["offset"], columns["depth"], map(tags.get, columns["tag"]),
               texts, sizes, *links, columns["first_value"], columns["values"])


def attributes(table: Table) -> Iterator[tuple]:
    columns, texts = table.columns["values"], _Texts(table)
    names = {code: name_of("AT", code) for code in set(columns["attribute"].tolist())}
    found = (texts.read(section, number, length) if kind == TEXT else None for section, number, length, kind
             in zip(columns["section"], columns["number"], columns["length"], columns["kind"]))
    return zip(range(len(columns["number"])), columns["entry"], map(names.get, columns["attribute"]),
               (KINDS[it] for it in columns["kind"]), map(_signed, columns["number"]), columns["length"], found)


class _Texts:
    """Reads texts, each place once."""

    def __init__(self, table: Table) -> None:
        self.parts, self.found = table.parts, {}

    def read(self, section: int, start: int, length: int):
        if not section:
            return None
        text = self.found.get((section, start))
        if text is None:
            text = self.parts[section][start : start + length].decode(errors="backslashreplace")
            self.found[section, start] = text
        return text


def _signed(number: int) -> int:
    """The same 64 bits with a sign, as SQLite has them."""
    return number - (number >> 63 << 64)


ROWS = {"units": units, "entries": entries, "attributes": attributes}


def save_sqlite(table: Table, out: str) -> None:
    """Writes a database. A file that is there is replaced once the new one is whole."""
    part = f"{out}.part"
    pathlib.Path(part).unlink(missing_ok=True)
    database = sqlite3.connect(part)
    with database:
        for name, columns in COLUMNS.items():
            database.execute(f"CREATE TABLE {name} ({columns})")
            places = ", ".join("?" * (columns.count(",") + 1))
            database.executemany(f"INSERT INTO {name} VALUES ({places})", ROWS[name](table))
        database.execute("CREATE INDEX by_entry ON attributes (entry, attribute)")
        database.execute("CREATE INDEX by_name ON entries (name)")
    database.close()
    os.replace(part, out)


def save_csv(table: Table, out: str) -> None:
    """Writes a folder with a file of comma-separated values for each table."""
    pathlib.Path(out).mkdir(exist_ok=True)
    for name, columns in COLUMNS.items():
        with open(pathlib.Path(out) / f"{name}.csv", "w", newline="", errors="backslashreplace") as file:
            writer = csv.writer(file)
            writer.writerow([it.split()[0] for it in columns.split(", ")])
            writer.writerows(ROWS[name](table))


def save_arrays(table: Table, out: str) -> None:
    """Writes the arrays of numpy. Places count from the start of the file."""
    import numpy
    with open(out, "wb") as file:
        numpy.savez(file, **table.arrays._asdict())


def main(words: List[str]) -> int:
    about, _, more = (__doc__ or "").partition("\n\n")
    parser = argparse.ArgumentParser(prog="dwv-table", description=about.partition(":")[0] + ".", epilog=more,
                                     formatter_class=argparse.RawDescriptionHelpFormatter)
    parser.add_argument("file", metavar="FILE", help="a sound ELF file")
    parser.add_argument("-o", dest="out", metavar="OUT", required=True, help="what is written")
    form = parser.add_mutually_exclusive_group()
    form.add_argument("--csv", dest="save", action="store_const", const=save_csv, help="write a folder of CSV files")
    form.add_argument("--sqlite", dest="save", action="store_const", const=save_sqlite, help="write an SQLite database")
    parser.add_argument("--limit", type=int, metavar="N", help="the most values that FILE may have")
    given = parser.parse_args(words)
    try:
        (given.save or save_arrays)(dwv.table(given.file, given.limit), given.out)
        return 0
    except dwv.NotSound as error:
        status, why = 1, str(error)
    except MemoryError as error:
        status, why = 4, str(error) or "out of memory"
    except OSError as error:
        status, why = 3, f"{error.filename or given.out}: {error.strerror}"
    except (sqlite3.Error, ImportError) as error:
        status, why = 3, str(error)
    print(f"dwv-table: {why}", file=sys.stderr)
    return status
