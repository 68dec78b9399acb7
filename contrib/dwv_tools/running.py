"""Runs `dwv check` on a file, and what the scripts share: their words, what they print, and how far they are."""
import argparse
import collections
import os
import pathlib
import re
import resource
import shutil
import signal
import subprocess
import sys

from . import VERSION

SOUND = re.compile(r"sound: (\d+) units, (\d+) entries, (\d+) types")
FAULT = re.compile(r"fault ([A-Z]\d+ \w+) at .*")
# The most bytes of a file and of a section that `dwv` accepts.
LARGEST, LARGEST_SECTION = 2**32, 2**30
# Where `make` builds the program, and where `make install` puts it, as seen from this folder.
BESIDE = ("../../crates/dwv/out/dwv", "../../../bin/dwv")

# What `dwv` says of a file: a rule and its name, or one of the two words below; its lines; what was prepared, in
# parentheses; the bytes that were checked; the exit status.
Verdict = collections.namedtuple("Verdict", "what lines note size status")
IS_SOUND, UNREAD = "sound", "not read"
# How long each step may take for a file, in seconds, and how much memory, in bytes: a run of `dwv`, a preparation, or
# finding out what a file is. None is no limit. By default it is ten minutes, and three quarters of the memory there is.
SECONDS, MEMORY = 600.0, os.sysconf("SC_PHYS_PAGES") * os.sysconf("SC_PAGE_SIZE") * 3 // 4
Limits = collections.namedtuple("Limits", "seconds memory", defaults=(SECONDS, MEMORY))


def parser_of(text):
    """What parses the words of a script. Its help is the text of the script: what it does, and after a line more."""
    about, _, more = text.partition("\n\n")
    parser = argparse.ArgumentParser(description=about.partition(":")[0] + ".", epilog=more,
                                     formatter_class=argparse.RawDescriptionHelpFormatter)
    parser.add_argument("--version", action="version", version=f"%(prog)s {VERSION}")
    return parser


def find_dwv(parser):
    """The path of `dwv`: the one that DWV names, or the one beside the scripts, or that on PATH."""
    named = os.environ.get("DWV")
    here = pathlib.Path(__file__).resolve().parent
    beside = [str((here / place).resolve()) for place in BESIDE]
    found = next(filter(None, map(shutil.which, [named] if named else [*beside, "dwv"])), None)
    if found is None:
        missing = "there is no program dwv, beside the script or on PATH: run make, or set DWV to its path"
        parser.error(f"DWV names no program: {named}" if named else missing)
    return found


def prepare():
    """Sets how a script writes, and how large a file it may write."""
    # The reader of the output may end first, and the output may not have every letter of a name.
    signal.signal(signal.SIGPIPE, signal.SIG_DFL)
    sys.stdout.reconfigure(errors="backslashreplace")
    # A small file may hold compressed sections that would fill the disk.
    _, most = resource.getrlimit(resource.RLIMIT_FSIZE)
    if most == resource.RLIM_INFINITY or most > LARGEST:
        resource.setrlimit(resource.RLIMIT_FSIZE, (LARGEST, most))


def limited(words, limits):
    """The words of a command that has a limit of memory."""
    # The script's own limit of memory may be lower. It can't be raised, and holds for what it runs.
    _, most = resource.getrlimit(resource.RLIMIT_AS)
    if limits.memory is None or resource.RLIM_INFINITY != most <= limits.memory:
        return words
    return ["sh", "-c", 'ulimit -v "$0" && exec "$@"', str(limits.memory // 1024), *words]


def check(dwv, path, limits=Limits()):
    """The verdict of `dwv` on a file."""
    # The file is standard input, since its name may be no UTF-8.
    with open(path, "rb") as file:
        size = os.fstat(file.fileno()).st_size
        if size > LARGEST:
            return Verdict("E1 TooLarge", ["fault E1 TooLarge at section 0"], " (by its size: it is not read)", size, 1)
        words = limited([dwv, "check", "/dev/stdin"], limits)
        try:
            ran = subprocess.run(words, stdin=file, capture_output=True, text=True, errors="replace",
                                 timeout=limits.seconds)
        except subprocess.TimeoutExpired:
            return Verdict(UNREAD, [f"no verdict within {limits.seconds} s"], "", size, 3)
    lines = ran.stdout.splitlines()
    if ran.returncode == 0 and lines and SOUND.fullmatch(lines[0]):
        return Verdict(IS_SOUND, lines, "", size, 0)
    if ran.returncode == 1 and lines and (fault := FAULT.fullmatch(lines[0])):
        return Verdict(fault[1], lines, "", size, 1)
    if ran.returncode < 0:
        return Verdict(UNREAD, [f"dwv was ended by the signal {-ran.returncode}"], "", size, 3)
    status = ran.returncode if ran.returncode in (3, 4) else 3
    return Verdict(UNREAD, [ran.stderr.strip() or f"dwv ended with status {ran.returncode}"], "", size, status)


def plain(text):
    """A text in one line: backslashes, and the bytes of what is not printable, as \\x and two digits."""

    def escaped(letter):
        return "".join(f"\\x{byte:02x}" for byte in os.fsencode(letter))

    return "".join(it if it.isprintable() and it != "\\" else escaped(it) for it in text)


def show_progress(text):
    """Shows a text in one line of a terminal, in place of the one before."""
    if sys.stderr.isatty():
        print(f"\r\033[K\r{text}", end="", file=sys.stderr, flush=True)
