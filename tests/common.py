"""What the scripts of tests/ and bench/ share: where things are, runs with limits, programs that compilers make, what
readelf lists, files made of bytes, and counts of tests."""
import collections
import contextlib
import itertools
import os
import pathlib
import random
import re
import resource
import shutil
import struct
import subprocess
import sys
import tempfile

HERE = pathlib.Path(__file__).resolve().parent
TOP = HERE.parent
CRATE = TOP / "crates/dwv"
PROGRAMS = HERE / "programs"
# A sound file, one with functions and their lines, and the bytes of one with a code that its table does not declare.
SAMPLE = CRATE / "data/X1"
FOUR = TOP / "crates/dwv_addr/data/four"
BROKEN = SAMPLE.read_bytes().replace(b"\x02int", b"\x03int")
# The program: that of the variable DWV, or the one that `make` built.
DWV = pathlib.Path(os.environ.get("DWV", CRATE / "out/dwv")).absolute()
# The program that prints the rows of line programs: that of the variable LINE_ROWS, or the one that was built.
LINE_ROWS = pathlib.Path(os.environ.get("LINE_ROWS", TOP / "crates/line_rows/out/line_rows")).absolute()
# The program that looks addresses up: that of the variable DWV_ADDR, or the one that was built.
DWV_ADDR = pathlib.Path(os.environ.get("DWV_ADDR", TOP / "crates/dwv_addr/out/dwv_addr")).absolute()
# The library that `make lib` built.
LIBRARY = TOP / "out/lib/libdwv.so.0"
# The flags of a section of code, and the types of sections that have symbols.
CODE, SYMBOLS = 6, (2, 11)
sys.path[:0] = [str(TOP / folder) for folder in ("contrib", "bench")]

# What the tests need besides make, python3 and the toolchain: .ci/run installs it. If CI is set, as CI services do, a
# test fails that lacks one of these. Otherwise it is skipped, as are tests that lack any other tool.
NEEDED = "ar bash clang g++ gcc git ld nm objcopy pkg-config readelf valgrind".split()
IS_CI = bool(os.environ.get("CI"))
# How many instructions a run may have for each second of its limit, where other work makes it take longer than that.
INSTRUCTIONS = 2_000_000_000

# What readelf prints before a value: its form, and where a text is that is not in the entry itself.
BEFORE = re.compile(r"(?:\((?:str|line_str|flag|offset|index|indirect|alt)[^)]*\):? *)*")
# An entry as readelf lists it: its attributes are texts by their names, without DW_AT_.
Entry = collections.namedtuple("Entry", "depth at tag attributes")


def build_at(place, words, folder):
    """Proves and builds what belongs at a place, if it is not there. That takes minutes, so it says so."""
    if not place.exists():
        print(f"proving and building {place}, which takes minutes", file=sys.stderr, flush=True)
        subprocess.run(words, cwd=folder, check=True, stdout=subprocess.DEVNULL)


def build():
    """Proves and builds the program, if there is none."""
    build_at(DWV, ["rt", "run", "--", "check", "data/X1"], CRATE)


def build_line_rows():
    """Proves and builds the program that prints the rows of line programs, if there is none."""
    build_at(LINE_ROWS, ["rt", "run", "--", "data/X1"], TOP / "crates/line_rows")


def build_addr():
    """Proves and builds the program that looks addresses up, if there is none."""
    build_at(DWV_ADDR, ["rt", "run", "--", "check", "data/four"], TOP / "crates/dwv_addr")


def build_library():
    """Proves and builds the C library, if there is none."""
    if "DWV_LIBRARY" not in os.environ:
        build_at(LIBRARY, ["make", "--no-print-directory", "lib"], TOP)


def has(tool):
    """Whether a tool is installed. If not, it prints so."""
    if not shutil.which(tool):
        print(f"skipped: {tool} is not installed")
    return shutil.which(tool) is not None


@contextlib.contextmanager
def empty_folder():
    """A folder that is removed in the end."""
    with tempfile.TemporaryDirectory() as name:
        yield pathlib.Path(name)


def tell(wrong, tried, least):
    """Prints what is wrong of so many things that were tried, and returns the exit status of the script."""
    print("".join(f"{line}\n" for line in wrong), end="")
    tally = Tally(least)
    tally.passed, tally.failed = max(tried - len(wrong), 0), len(wrong)
    return tally.end()


class Tally:
    """Counts tests that passed, failed or were skipped, and prints a line on each.

    If no tool is missing that they need, there must be `least` tests. A script that does less fails.
    """

    def __init__(self, least=1):
        self.passed = self.failed = self.skipped = 0
        self.least, self.lacks_a_tool = least, False

    def skip(self, what):
        """A test that can't be run here."""
        self.skipped += 1
        print(f"skipped: {what}", flush=True)

    def lack(self, what):
        """A test that can't be run because what it needs is missing or does not work: it fails in CI."""
        self.lacks_a_tool = True
        if IS_CI:
            self.add("what the tests need", what)
        else:
            self.skip(what)

    def has(self, tool):
        """Whether a tool is installed. If not, a test of it fails or is skipped."""
        if shutil.which(tool):
            return True
        (self.lack if tool in NEEDED else self.skip)(f"{tool} is not installed")
        return False

    def add(self, name, why, more=""):
        """A test that failed for a reason, or passed if that is None or empty. `more` follows the name."""
        self.passed, self.failed = self.passed + (not why), self.failed + bool(why)
        said = f": {why}"[:1000] if why else more and f": {more}"
        print(f"{'FAILED' if why else 'passed'} {name}{said}", flush=True)

    def same(self, name, said, wanted):
        """A test that passed if the two are equal."""
        self.add(name, None if said == wanted else f"{said!r}, wanted {wanted!r}")

    def end(self):
        """Prints the counts, and returns the exit status of the script."""
        if self.passed + self.failed < self.least and not self.lacks_a_tool:
            self.add("the count of tests", f"{self.passed + self.failed}, and there are at least {self.least}")
        print(f"{self.passed} passed, {self.failed} failed, {self.skipped} skipped")
        return 1 if self.failed else 0


def lack(what, **more):
    """Ends a test of pytest that lacks what it needs: it fails in CI."""
    import pytest
    if IS_CI:
        pytest.fail(what)
    pytest.skip(f"lacking: {what}", **more)


def needs(*tools):
    """Ends a test of pytest if a tool is not installed. It fails in CI if NEEDED has the tool, and is else skipped."""
    import pytest
    for tool in tools:
        if not shutil.which(tool):
            (lack if tool in NEEDED else pytest.skip)(f"{tool} is not installed")


def run(*words, memory=None, seconds=None, timeout=60, **more):
    """The exit status of a program, and both texts: bytes, unless `more` has `text`, as for subprocess.run.

    It may take so many bytes of memory and seconds of processor time.
    """
    limits = [(what, most) for what, most in ((resource.RLIMIT_AS, memory), (resource.RLIMIT_CPU, seconds)) if most]

    def limit():
        for what, most in limits:
            resource.setrlimit(what, (most, most))

    ran = subprocess.run(words, capture_output=True, timeout=timeout, preexec_fn=limit if limits else None, **more)
    return ran.returncode, ran.stdout, ran.stderr


def counted(*words, env=None):
    """The text of a run, and how many instructions it takes, which valgrind counts."""
    with tempfile.NamedTemporaryFile("r") as log:
        ran = subprocess.run(["valgrind", "--tool=cachegrind", "--cache-sim=no", "--cachegrind-out-file=/dev/null",
                              f"--log-file={log.name}", *words], stdout=subprocess.PIPE, stderr=subprocess.DEVNULL,
                             timeout=300, env={**(env or os.environ), "PYTHONHASHSEED": "0"})
        told = re.search(r"I\s+refs: +(\S+)", log.read())
    return ran.stdout.decode(errors="replace"), int(told[1].replace(",", ""))


def too_long(took, seconds, *words, env=None):
    """What a run took, if its seconds of processor time are more than these and its instructions are too, else None.

    Other work on the machine makes a time several times as long, and changes no instruction.
    """
    if took <= seconds:
        return None
    instructions = counted(*words, env=env)[1] if shutil.which("valgrind") else None
    if instructions and instructions <= seconds * INSTRUCTIONS:
        return None
    return f"{took:.1f} seconds, {instructions or 'unknown'} instructions\n"


class Failed(Exception):
    """A run was ended by a signal, or by a limit; the text says how."""


def spent(*words, memory=None, seconds=None):
    """What a run of the program takes: its seconds of processor time, bytes of text, and bytes of memory.

    It may take so many bytes of memory and seconds of processor time.
    """
    with subprocess.Popen([DWV, *words], stdout=subprocess.PIPE, stderr=subprocess.DEVNULL) as ran:
        for what, most in ((resource.RLIMIT_AS, memory), (resource.RLIMIT_CPU, seconds)):
            if most:
                with contextlib.suppress(ProcessLookupError):
                    resource.prlimit(ran.pid, what, (int(most), int(most)))
        text = 0
        while block := ran.stdout.read(1 << 20):
            text += len(block)
        _, status, used = os.wait4(ran.pid, 0)
        ran.returncode = os.waitstatus_to_exitcode(status)
    took = used.ru_utime + used.ru_stime
    if ran.returncode not in (0, 1, 2):
        how = f"the signal {-ran.returncode}" if ran.returncode < 0 else f"status {ran.returncode}"
        raise Failed(f"ended with {how} after {took:.1f} s")
    return took, text, used.ru_maxrss << 10


def python():
    """A Python that has pyelftools: the one that runs this, or that of the system. If none has it, the one that runs.
    """
    words = ("-c", "import elftools")
    return next((it for it in (sys.executable, "/usr/bin/python3") if os.path.exists(it) and run(it, *words)[0] == 0),
                sys.executable)


def script(name, *words, **env):
    """The exit status of a script of contrib/ that runs `dwv`, and both texts. It has more variables of `env`."""
    env = {**os.environ, "DWV": DWV, **env}
    return run(PYTHON, TOP / "contrib" / name, *words, timeout=None, text=True, errors="replace", env=env)


PYTHON = python()


def make(folder, *words):
    """The exit status of `make` with these words alone, and what it prints.

    A `rt` in the folder fails, and makes a file `called` there.
    """
    stand_in = folder / "bin/rt"
    stand_in.parent.mkdir(exist_ok=True)
    stand_in.write_text(f"#!/bin/sh\ntouch '{folder}/called'\nexit 1\n")
    stand_in.chmod(0o755)
    env = {name: text for name, text in os.environ.items() if name not in ("MAKEFLAGS", "MAKELEVEL", "DESTDIR")}
    env["PATH"] = f"{stand_in.parent}:{env['PATH']}"
    status, text, errors = run("make", "--no-print-directory", *words, text=True, cwd=TOP, env=env)
    return status, text + errors


def compiled(out, command, *sources):
    """Whether a command makes a file of sources, which are in tests/programs if they have no other path."""
    words = [*command.split(), "-w", "-o", out, *(PROGRAMS / source for source in sources)]
    return subprocess.run(words, capture_output=True).returncode == 0


# The compilers of each language of bench/generate.py, and the words that each of them gets.
COMPILERS = {"c": (("gcc", "clang"), "-g -w"), "cpp": (("g++", "clang++"), "-g -w -std=c++17"),
             "rs": (("rustc",), "-g -A warnings")}
RUST_WORDS = ("", "-O", "-C dwarf-version=5")


def programs(tally, folder, language, sources, plans):
    """What the compilers of a language make of sources in a folder, by the words of each plan: a title, and the path.
    Sources have their texts by their names. What is not installed or does not compile is skipped."""
    compilers, always = COMPILERS[language]
    for name, text in sources.items():
        (folder / name).write_text(text)
    paths, out = [folder / name for name in sources], folder / "program"
    for compiler, words in itertools.product(filter(tally.has, compilers), plans):
        title = f"{compiler} -g {words}".rstrip()
        if run(compiler, *always.split(), *words.split(), "-o", out, *paths, timeout=600)[0] == 0:
            yield title, out
        else:
            tally.skip(f"{title} does not compile")


def readelf_entries(path):
    """The entries of a file, as readelf lists them. A null has no tag."""
    found = []
    words = ("readelf", "--wide", "--debug-dump=info,no-follow-links", path)
    for line in run(*words, encoding="utf-8", errors="replace")[1].splitlines():
        if it := re.match(r" *<(\d+)><([0-9a-f]+)>: Abbrev Number: \d+(?: \(DW_TAG_(\w+)\))?", line):
            found.append(Entry(int(it[1]), int(it[2], 16), it[3], {}))
        elif it := re.match(r" *<[0-9a-f]+> +DW_AT_(\w+) *: ?(.*)", line):
            found[-1].attributes[it[1]] = BEFORE.sub("", it[2], count=1).strip()
    return [it for it in found if it.tag]


def made_part(page):
    """The text of a page before, in and after the part that a script of bench/ makes."""
    return re.fullmatch(r"(?s)(.*<!-- made by \S+ -->\n)(.*)(<!-- end -->\n.*)", page.read_text()).groups()


def rewrite(page, lines):
    """Puts lines in place of the part of a page that a script makes, and prints them."""
    before, _, after = made_part(page)
    text = "".join(f"{line}\n" for line in lines)
    page.write_text(f"{before}\n{text}\n{after}")
    print(text)


def section(name, kind, start, size, flags=0, low=0):
    """A section header: where its name begins, its type, its flags, its address, where its bytes begin, and its size.
    """
    return struct.pack("<IIQQQQIIQQ", name, kind, flags, low, start, size, 0, 0, 0, 0)


def linked(body, headers):
    """A linked ELF64 file: the bytes after its header, and the section headers, the last that of the name table."""
    ident, body = b"\x7fELF\x02\x01\x01" + bytes(9), body + bytes(-len(body) % 8)
    start, count = 64 + len(body), len(headers)
    head = struct.pack("<HHIQQQIHHHHHH", 2, 62, 1, 0, 0, start, 0, 64, 0, 0, 64, count, count - 1)
    return b"".join([ident, head, body, *headers])


def elf(sections, code=None):
    """A linked ELF64 file with these sections, each with its name, its type and its bytes, and the name table. Before
    them it has code, if that is given by its first address and its size: a section of which the file has no bytes."""
    names, headers, body = b"\0", [bytes(64)], bytearray()
    if code:
        headers.append(section(len(names), 8, 64, code[1], CODE, code[0]))
        names += b".text\0"
    for name, kind, data in [*sections, (".shstrtab", 3, None)]:
        at, names = len(names), names + name.encode() + b"\0"
        data = names if data is None else data
        headers.append(section(at, kind, 64 + len(body), len(data)))
        body += data
    return linked(bytes(body), headers)


def sections_of(file):
    """The section headers of a file: where each starts, and its numbers."""
    start, count = struct.unpack_from("<Q", file, 40)[0], struct.unpack_from("<H", file, 60)[0]
    return [(at, *struct.unpack_from("<IIQQQQ", file, at)) for at in range(start, start + 64 * count, 64)]


def without_symbols(file):
    """A file whose tables of symbols are no such tables any more."""
    made = bytearray(file)
    for at, _, kind, *_ in sections_of(file):
        if kind in SYMBOLS:
            struct.pack_into("<I", made, at + 4, 1)
    return bytes(made)


def some_addresses(file, count):
    """So many random addresses of the code of a file, or all if it has no more."""
    code = [(low, low + size) for _, _, kind, flags, low, _, size in sections_of(file) if flags & CODE == CODE and size]
    every = list(itertools.chain(*(range(*it) for it in code)))
    return sorted(random.Random(1).sample(every, min(count, len(every))))


def unit(items, kind=1, more=b"", table=0, version=5):
    """A unit with addresses of 8 bytes: its header with the offset of its table, and its items."""
    head = struct.pack("<HBBI", 5, kind, 8, table) if version == 5 else struct.pack("<HIB", version, table, 8)
    return struct.pack("<I", len(head + more + items)) + head + more + items


def uleb(number):
    """The number in the least bytes."""
    out = bytearray()
    while number >= 128:
        out.append(number % 128 + 128)
        number //= 128
    return bytes(out) + bytes([number])
