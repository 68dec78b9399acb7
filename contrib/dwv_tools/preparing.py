"""Prepares what `dwv` does not read: a copy is made that it reads, or the file is found that has what is looked for.

A step is only taken if `dwv` refuses the file for the rule that the step is for, and it is told in the note. It runs in
a program of its own, so that limits of time and memory hold for it, and several files are prepared at once. Each thread
has such a program, which takes one step after another until it passes a limit.
"""
import contextlib
import functools
import gc
import importlib.util
import json
import os
import pathlib
import select
import signal
import socket
import stat
import subprocess
import sys
import tempfile
import threading
import time

sys.dont_write_bytecode = True
if __name__ == "__main__":
    sys.path[0] = str(pathlib.Path(__file__).resolve().parent.parent)
from dwv_tools import running
from dwv_tools.copying import Copy, Refused, open_elf


def decompressed(path, original, out, use_debuginfod):
    """A copy with decompressed sections."""
    copy = Copy(path, out)
    copy.decompress()
    copy.close()
    return out, ["decompressed"]


def linked(path, original, out, use_debuginfod):
    """A copy of an object file with applied relocations."""
    from dwv_tools import relocating

    if open_elf(path)["e_type"] != "ET_REL":
        raise Refused("it is a core dump, or of an unknown type")
    copy = Copy(path, out)
    notes = relocating.relocate(copy)
    copy.close()
    return out, notes


def joined(path, original, out, use_debuginfod):
    """A copy that is joined with the shared file of dwz."""
    from dwv_tools import debug_files, joining

    if not debug_files.has_link(open_elf(path)):
        return None, []
    copy = Copy(path, out)
    shared = debug_files.shared_file(copy.elf, original, use_debuginfod)
    start = joining.join(copy, open_elf(shared))
    copy.close()
    return out, [f"joined with {shared} from 0x{start:08x} on"]


def found(path, original, out, use_debuginfod):
    """The file that has the debugging information."""
    from dwv_tools import debug_files

    place = debug_files.debug_file(original, use_debuginfod)
    return place, [f"its debug file {place}"] if place else []


def source(path, at, number, use_debuginfod):
    """The name of the source file with a number in the line table of the unit at an offset, or None."""
    from dwv_tools import lines

    return lines.source_of(path, int(at), int(number)), []


# The interpreter for which the packages of the distribution install modules.
SYSTEM = "/usr/bin/python3"
# For each rule the step that is taken if `dwv` refuses a file for it. No step is taken twice for one file. And what is
# read of a file of which nothing is known.
STEPS = {"E7": decompressed, "E3": linked, "A7": joined, "E9": found}
READERS = {"source": source}


# What is said of a file that is none with bytes in a folder.
KINDS = ((stat.S_ISDIR, "a folder"), (stat.S_ISFIFO, "a FIFO"), (stat.S_ISSOCK, "a socket"), (stat.S_ISCHR, "a device"),
         (stat.S_ISBLK, "a device"))


def is_pipe(path):
    """Whether a path, as /dev/fd/63, is that of a pipe without a name, which a program here writes."""
    return os.path.basename(os.path.realpath(path)).startswith("pipe:[")


def spooled(path, folder, limits):
    """The path of a file whose size is known: the file, or a copy of a pipe. `-` is standard input."""
    if path != "-":
        mode = os.stat(path).st_mode
        if stat.S_ISREG(mode):
            return path
        if not is_pipe(path):
            kind = next((text for is_kind, text in KINDS if is_kind(mode)), "of an unknown kind")
            raise OSError(0, f"not a regular file: {kind}", path)
    at, left = os.path.join(folder, "input"), running.LARGEST
    file = sys.stdin.buffer.raw if path == "-" else open(path, "rb", buffering=0)
    with contextlib.nullcontext() if path == "-" else file, open(at, "wb") as out:
        for block in blocks_of(file, limits.seconds):
            left -= len(block)
            if left < 0:
                raise OSError(0, "larger than dwv reads", path)
            out.write(block)
    return at


def blocks_of(file, seconds):
    """The bytes of a pipe in blocks. Its end must come within so many seconds, if that is not None."""
    end = None if seconds is None else time.monotonic() + seconds
    while True:
        if end is not None and not select.select([file], [], [], max(end - time.monotonic(), 0))[0]:
            raise OSError(0, f"its end did not come within {seconds:g} s", file.name)
        block = file.read(2**20)
        if not block:
            return
        yield block


@functools.lru_cache(None)
def interpreter():
    """The interpreter that takes steps: that of the script, or that of the system if only that one has pyelftools."""
    if importlib.util.find_spec("elftools") is None and os.path.exists(SYSTEM):
        if subprocess.run([SYSTEM, "-c", "import elftools"], stderr=subprocess.DEVNULL).returncode == 0:
            return SYSTEM
    return sys.executable


class Lost(Exception):
    """A step takes more than it may; the text says of what."""


class Helper:
    """A program that takes steps within limits, one after another."""

    def __init__(self, limits):
        self.limits = limits
        # A script ends when nobody reads what it writes into a pipe. Nothing happens to it by a socket.
        self.socket, other = socket.socketpair()
        with other:
            self.process = subprocess.Popen(running.limited([interpreter(), __file__], limits), stdin=other,
                                            stdout=other, stderr=subprocess.PIPE)

    def ask(self, words):
        """What a step with these words makes: the path and the notes."""
        seconds, answer = self.limits.seconds, b""
        end = None if seconds is None else time.monotonic() + seconds
        try:
            self.socket.sendall(json.dumps(words).encode() + b"\n", socket.MSG_NOSIGNAL)
            while not answer.endswith(b"\n"):
                self.socket.settimeout(end and max(end - time.monotonic(), 0.001))
                block = self.socket.recv(2**16)
                if not block:
                    raise ConnectionError
                answer += block
        except TimeoutError:
            raise Lost(f"it takes more than {seconds:g} s") from None
        except ConnectionError:
            said = self.process.stderr.read().decode(errors="replace").splitlines()
            raise Lost(said[-1] if said else "its program was ended") from None
        return tuple(json.loads(answer))

    def end(self):
        self.process.kill()
        self.process.communicate()
        self.socket.close()


# The helpers of each thread, by their limits.
HELPERS = threading.local()


def asked(code, path, original, out, use_debuginfod, limits):
    """What a step makes, in a program of its own: the path and the notes, or None and why there is none."""
    helpers = HELPERS.__dict__.setdefault("helpers", {})
    helper = helpers[limits] = helpers.get(limits) or Helper(limits)
    try:
        return helper.ask([code, *map(os.fspath, (path, original, out)), use_debuginfod])
    except Lost:
        helper.end()
        del helpers[limits]
        raise


def step(code, path, original, out, use_debuginfod, limits):
    """What a step makes. If it takes more than it may, that is why there is none."""
    try:
        return asked(code, path, original, out, use_debuginfod, limits)
    except Lost as error:
        return None, [f"not prepared: {error}"]


@contextlib.contextmanager
def checked(dwv, path, use_debuginfod=False, limits=running.Limits(), is_prepared=True):
    """The verdict on a file, and the path of what was checked: the file, or what was prepared in its place."""
    with tempfile.TemporaryDirectory(prefix="dwv-") as folder:
        at = original = spooled(path, folder, limits)
        notes, done = [], set()
        while True:
            verdict = running.check(dwv, at, limits)
            code = verdict.what.split()[0]
            # A debug file may have to be prepared as the file might.
            if not is_prepared or verdict.status != 1 or code not in STEPS or code in done or verdict.note:
                break
            made, more = step(code, at, original, os.path.join(folder, f"copy{len(done)}"), use_debuginfod, limits)
            notes, done = [*notes, *more], {"E9"} if made and code == "E9" else {*done, code}
            if made is None:
                break
            at, original = made, made if code == "E9" else original
        yield verdict._replace(note=verdict.note or (f" ({', '.join(notes)})" if notes else "")), at


def taken(code, path, original, out, use_debuginfod):
    """What a step makes, or why it makes nothing."""
    try:
        return (STEPS | READERS)[code](path, original, out, use_debuginfod)
    except Refused as error:
        return None, [f"not prepared: {error}"]
    except MemoryError:
        return None, ["not prepared: it takes more memory than it may"]
    except Exception as error:    # pyelftools raises what it meets in a malformed file
        return None, [f"not prepared: {type(error).__name__}: {error}"]


def main():
    """Takes a step for each line of standard input, which has its words, until that ends."""
    # An interrupt is for the script.
    signal.signal(signal.SIGINT, signal.SIG_DFL)
    running.prepare()
    for line in sys.stdin:
        print(json.dumps(taken(*json.loads(line))), flush=True)
        # Files that pyelftools opened are closed.
        gc.collect()


if __name__ == "__main__":
    main()
