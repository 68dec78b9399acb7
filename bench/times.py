#!/usr/bin/env python3
"""Measures how long `make quick`, `make`, `make check` and `make test` take from nothing, on all processors and on two.

usage: times.py [--processors N] [COMMAND ..]

Each command is run in a clone of the last commit, which has nothing that was proved or built before. Nothing else
should run on the machine: all takes several hours. It prints a table, and writes it into bench/out/times.md.
"""
import argparse
import datetime
import os
import pathlib
import resource
import subprocess
import sys
import tempfile
import time

sys.dont_write_bytecode = True
TOP = pathlib.Path(__file__).resolve().parent.parent
OUT = TOP / "bench/out/times.md"
COMMANDS = "make quick", "make", "make check", "make test"


def minutes(seconds):
    return f"{seconds / 60:.1f}"


def spent():
    """The processor time of all that ended, in seconds."""
    used = resource.getrusage(resource.RUSAGE_CHILDREN)
    return used.ru_utime + used.ru_stime


def measured(command, processors):
    """The minutes of wall time and of processor time of a command in a new clone, or its exit status if that is not 0.
    """
    with tempfile.TemporaryDirectory(prefix="dwv-times-") as folder:
        subprocess.run(["git", "clone", "-q", TOP, folder], check=True)
        begin, before = time.monotonic(), spent()
        with open(OUT.with_name("times.log"), "ab") as log:
            status = subprocess.run(command, shell=True, cwd=folder, stdout=log, stderr=log,
                                    preexec_fn=lambda: os.sched_setaffinity(0, processors)).returncode
        times = minutes(time.monotonic() - begin), minutes(spent() - before)
        return (f"status {status}", "") if status else times


def main():
    parser = argparse.ArgumentParser(description="Measures how long the commands of this repository take.")
    parser.add_argument("--processors", type=int, action="append", help="how many there are (default: all, and two)")
    parser.add_argument("commands", metavar="COMMAND", nargs="*", default=COMMANDS)
    words = parser.parse_args()
    every = sorted(os.sched_getaffinity(0))
    numbers = words.processors or [len(every), 2]
    heads = [head for number in numbers for head in (f"minutes on {number} processors", "processor time")]
    OUT.parent.mkdir(exist_ok=True)
    lines = [f"{datetime.date.today()}, from nothing:", "", f"| Command | {' | '.join(heads)} |",
             "|---" * (1 + len(heads)) + "|"]
    for command in words.commands:
        cells = [cell for number in numbers for cell in measured(command, set(every[:number]))]
        lines.append(f"| `{command}` | {' | '.join(cells)} |")
        OUT.write_text("".join(f"{line}\n" for line in lines))
    print(OUT.read_text(), end="")


if __name__ == "__main__":
    main()
