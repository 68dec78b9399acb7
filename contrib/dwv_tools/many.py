"""Finds the files to check in folders and lists, and checks them, several at once."""
import concurrent.futures
import os
import stat
import struct
import sys
import time

from dwv_tools import preparing, results
from dwv_tools.results import OTHER, WITHOUT
from dwv_tools.running import show_progress

# By the class of an ELF file, 32 or 64 bits: the letter of an offset for `struct`, where the file header has the offset
# of the section headers and where it has their size and number, and where a section header has the section's offset.
LAYOUTS = {1: ("I", 32, 46, 16), 2: ("Q", 40, 58, 24)}
# The most bytes of section names that are read, and an offset past the end of every file.
NAMES, FAR = 2**26, 2**62
# How often the progress is shown, in seconds.
OFTEN = 0.2


def has_info(path):
    """Whether an ELF file names a section .debug_info or .zdebug_info, or None if it is no ELF file.

    Where the names can't be read it is True, and then `dwv` decides. It takes a hundredth of what pyelftools takes.
    """
    file = os.open(path, os.O_RDONLY | os.O_NONBLOCK)
    try:
        head = os.pread(file, 64, 0)
        if not head.startswith(b"\x7fELF"):
            return None
        letter, table_at, sizes_at, section_at = LAYOUTS[head[4]]
        order = {1: "<", 2: ">"}[head[5]]
        table, = struct.unpack_from(order + letter, head, table_at)
        each, _, number = struct.unpack_from(order + "HHH", head, sizes_at)
        if table == 0:
            return False
        section = os.pread(file, 64, min(table + each * number, FAR))
        offset, size = struct.unpack_from(order + 2 * letter, section, section_at)
        names = os.pread(file, min(size, NAMES), min(offset, FAR))
        # The number 0xffff says that the section of names is given elsewhere.
        return b"debug_info" in names or len(names) < size or number == 0xFFFF
    except (KeyError, IndexError, struct.error):
        return True
    finally:
        os.close(file)


def listed(path):
    """The paths of a list: one a line, or each with a zero byte after it. `-` is standard input."""
    with open(path, "rb") if path != "-" else sys.stdin.buffer as file:
        data = file.read()
    return [os.fsdecode(it) for it in data.split(b"\0" if b"\0" in data else b"\n") if it]


def paths_of(words, fails):
    """The files in folders and below them, and the files that are named. Then how each is looked at: a symbolic link
    is followed only if it is named."""
    for word in words:
        if os.path.isdir(word):
            for place, _, names in os.walk(word, onerror=fails):
                yield from ((os.path.join(place, name), os.lstat) for name in sorted(names))
        else:
            yield word, os.stat


def found(words, is_filtered):
    """The files to check, and the rows of those that are not checked. Without a filter each named file is checked."""
    files, rows = {}, {}

    def fails(error):
        rows[error.filename] = results.unread(error.filename, error.strerror)

    for path, look in paths_of(words, fails):
        try:
            if not is_filtered or path == "-":
                files[path] = True
            elif not stat.S_ISREG(look(path).st_mode) or (has := has_info(path)) is None:
                rows[path] = results.left_out(path, OTHER)
            else:
                files[path] = has
        except OSError as error:
            rows[path] = results.unread(path, error.strerror)
    return files, rows


class Stripped:
    """Leaves files out that have no debugging information, here or in a file of their own."""

    def __init__(self, checker, files, use_debuginfod, limits):
        self.checker, self.files, self.use_debuginfod, self.limits = checker, files, use_debuginfod, limits

    def __call__(self, path):
        # A malformed file has no debug file either, nor has any file if pyelftools is not installed.
        try:
            words = ("E9", path, path, "", self.use_debuginfod, self.limits)
            if not self.files[path] and preparing.asked(*words)[0] is None:
                return results.left_out(path, WITHOUT)
        except preparing.Lost as error:
            return results.unread(path, f"whether it has a debug file is not known: {error}")
        return self.checker(path)


def rest_of(seconds):
    """A time in words."""
    minutes, seconds = divmod(round(seconds), 60)
    return f"{minutes} min {seconds} s" if minutes else f"{seconds} s"


def checked(checker, files, jobs):
    """The rows of files, each as soon as all before it are there. On a terminal a line shows how many are done."""
    begin, shown, count = time.monotonic(), 0.0, 0
    with concurrent.futures.ThreadPoolExecutor(jobs) as pool:
        futures = [pool.submit(checker, path) for path in files]
        try:
            for future in concurrent.futures.as_completed(futures):
                yield future.result()
                count, now = count + 1, time.monotonic()
                if now - shown > OFTEN or count == len(files):
                    shown, rest = now, (now - begin) / count * (len(files) - count)
                    show_progress(f"{count} of {len(files)} files, {rest_of(rest)} left")
        finally:
            pool.shutdown(cancel_futures=True)
            show_progress("")
