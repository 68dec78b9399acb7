#!/usr/bin/env python3
"""Measures `dwv check` and `dwv types` beside the peers that are installed, on programs that it generates.

usage: bench.py [WORD ..]      only the programs whose names have one of the words, as "Rust" or "1 MB"

All tools are measured in one run. On each program they take turns several times, and the least processor time counts.
The tables are Markdown; docs/PERFORMANCE.md has them joined into one. gnuplot draws the first into
docs/performance.svg, if it is installed. The walks with gimli are built by cargo from Debian's librust-gimli-dev and
librust-object-dev; DEBIAN_CARGO is the folder of such packages, if it is another. So is the walk by the table of dwv,
if `make lib` built the C library.
"""
import datetime
import multiprocessing
import os
import pathlib
import re
import resource
import shutil
import signal
import subprocess
import sys

sys.dont_write_bytecode = True
import generate

HERE = pathlib.Path(__file__).resolve().parent
DWV = HERE.parent / "crates/dwv/out/dwv"
LINE_ROWS = HERE.parent / "crates/line_rows/out/line_rows"
OUT = HERE / "out"
LIBRARY = HERE.parent / "out/lib"
PICTURE = HERE.parent / "docs/performance.svg"
# How often a tool is run on a program; no further run starts when these took so many seconds of processor time.
ROUNDS, ENOUGH = 9, 20
# The seconds of processor time after which a run is stopped.
LIMIT = 60
# How many times a file with the sections of lines alone has its line programs.
REPEATED = 16

# The programs by name: the language, the megabytes of .debug_info, and the words that compile it.
GCC, CLANG = ["gcc", "-gdwarf-5", "-O0", "-w"], ["clang", "-gdwarf-5", "-O0", "-w"]
PROGRAMS = {
    "C, gcc, 1 MB": ("c", 1, GCC),
    "C, gcc, 10 MB": ("c", 10, GCC),
    "C, gcc, 50 MB": ("c", 50, GCC),
    "C, clang, 10 MB": ("c", 10, CLANG),
    "C++, g++, 10 MB": ("cpp", 10, ["g++", "-std=c++17", "-gdwarf-5", "-O0", "-w"]),
    "Rust, rustc, 10 MB": ("rs", 10, ["rustc", "-C", "debuginfo=2", "-C", "dwarf-version=5", "-A", "warnings"]),
}
SMALL, MIDDLE, LARGE = list(PROGRAMS)[:3]

CHECK, TYPES = "dwv check", "dwv types"
WALK, RESOLVE, TABLE = "gimli, plain walk", "gimli, resolving walk", "dwv::Table, resolved walk"
VERIFY, DWARFDUMP, PAHOLE = "llvm-dwarfdump --verify", "dwarfdump -ka", "pahole"
# The tools in the order of the table, the words of the peers, and what is compared with what in the second table.
TOOLS = (CHECK, WALK, RESOLVE, TABLE, VERIFY, DWARFDUMP, TYPES, PAHOLE)
RATIOS = ((CHECK, WALK), (CHECK, RESOLVE), (TABLE, RESOLVE), (CHECK, VERIFY), (TYPES, PAHOLE))

# Debian's packages of Rust's libraries, among them librust-gimli-dev.
CRATES = pathlib.Path(os.environ.get("DEBIAN_CARGO", "/usr/share/cargo/registry"))

# What draws the picture, before the times of each tool and the command that plots them.
AXES = """set terminal svg size 1000,520 background rgb "white"
set output "{picture}"
set title "{title}" noenhanced
set ylabel "processor time, ns an entry"
set style data histogram
set style histogram cluster gap 2
set style fill solid
set boxwidth 0.9
set logscale y
set grid ytics
set xrange [-0.5:*]
set bmargin 4
set datafile missing "-"
set key outside top center horizontal noenhanced
$times << END
"""


def build(name):
    """The program of this name, compiled once and kept, or None if its compiler is not installed."""
    language, megabytes, compiler = PROGRAMS[name]
    folder = OUT / re.sub(r"[^\w+]+", "-", name)
    program = folder / "program"
    if not shutil.which(compiler[0]):
        return None
    if not program.exists():
        folder.mkdir(parents=True, exist_ok=True)
        paths, jobs = [], []
        for file, text in generate.sources(language, megabytes).items():
            paths.append(folder / file)
            paths[-1].write_text(text)
        if language == "rs":
            subprocess.run([*compiler, "-o", program, *paths], check=True)
            return program
        for path in paths:
            if len(jobs) >= len(os.sched_getaffinity(0)):
                jobs.pop(0).wait()
            jobs.append(subprocess.Popen([*compiler, "-c", "-o", path.with_suffix(".o"), path]))
        for job in jobs:
            job.wait()
        objects = [path.with_suffix(".o") for path in paths]
        subprocess.run([compiler[0], "-o", program, *objects], check=True)
        for path in objects:
            path.unlink()
    return program


def has_library():
    return (LIBRARY / "libdwv.a").exists()


def walk():
    """The program that walks over all entries with gimli, or None if gimli or cargo is not installed."""
    if not shutil.which("cargo") or not all(list(CRATES.glob(name)) for name in ("gimli-0.27.*", "object-0.30.*")):
        return None
    folder = OUT / "gimli"
    shutil.copytree(HERE / "gimli", folder, dirs_exist_ok=True)
    settings = ('source.crates-io.replace-with="debian"', f'source.debian.directory="{CRATES}"')
    words = [word for setting in settings for word in ("--config", setting)]
    words += ["--features", "table"] if has_library() else []
    subprocess.run(["cargo", "build", "--quiet", "--offline", "--release", *words], cwd=folder, check=True,
                   env={**os.environ, "DWV_LIB_DIR": str(LIBRARY)})
    return folder / "target/release/walk"


def installed():
    """The words of each tool that is installed, to which the program's path is added."""
    found = {CHECK: [DWV, "check"], TYPES: [DWV, "types"]}
    if gimli := walk():
        found |= {WALK: [gimli], RESOLVE: [gimli, "--resolve"]}
        found |= {TABLE: [gimli, "--table"]} if has_library() else {}
    for tool in (VERIFY, DWARFDUMP, PAHOLE):
        if shutil.which(tool.split()[0]):
            found[tool] = tool.split()
    return found


def info(program):
    """Where .debug_info begins in the file, and its size."""
    words = ["readelf", "--wide", "--section-headers", program]
    said = subprocess.run(words, capture_output=True, text=True, check=True)
    row = re.search(r"\.debug_info\s+\S+\s+\S+\s+(\S+)\s+([0-9a-f]+)", said.stdout)
    return int(row[1], 16), int(row[2], 16)


def entries(program):
    """The entries of a sound program."""
    said = subprocess.run([DWV, "check", program], capture_output=True, text=True).stdout
    if not said.startswith("sound"):
        sys.exit(f"bench: {program}: {said}")
    return int(re.search(r"(\d+) entries", said)[1])


def run(words, given=os.devnull):
    """Processor seconds and peak megabytes of one run, and the seconds without those of the system, or None if it is
    stopped at the limit. It reads a file."""
    with open(given) as opened:
        child = subprocess.Popen(words, stdin=opened, stdout=subprocess.DEVNULL, stderr=subprocess.DEVNULL)
    resource.prlimit(child.pid, resource.RLIMIT_CPU, (LIMIT, LIMIT + 1))
    _, status, used = os.wait4(child.pid, 0)
    if os.WIFSIGNALED(status):
        if os.WTERMSIG(status) != signal.SIGXCPU:
            print(f"bench: {' '.join(map(str, words))} crashed", file=sys.stderr)
        return None
    return used.ru_utime + used.ru_stime, used.ru_maxrss / 1024, used.ru_utime


def measure(commands, given=os.devnull):
    """The best run of each command, or None if a run is stopped at the limit. They take turns, and read a file."""
    best, spent = {}, dict.fromkeys(commands, 0)
    for _ in range(ROUNDS):
        for name, words in commands.items():
            if spent[name] > ENOUGH:
                continue
            row = run(words, given)
            best[name] = row and min(best.get(name, row), row)
            spent[name] += row[0] if row else LIMIT
    return best


def reading(tools, program):
    """The least milliseconds that reading all values takes by the table, once it is made. gimli has to read the same.
    """
    runs = [subprocess.run([*tools[TABLE], program], capture_output=True, text=True, check=True) for _ in range(ROUNDS)]
    by_gimli = subprocess.run([*tools[RESOLVE], program], capture_output=True, text=True, check=True).stdout
    if {run.stdout for run in runs} != {by_gimli}:
        sys.exit(f"bench: {program}: gimli reads {by_gimli.strip()}, and the table has {runs[0].stdout.strip()}")
    return min(int(run.stderr.split()[0]) for run in runs) / 1e3


def lines(tools, names, programs):
    """Prints how many rows of line programs dw_lines and gimli read in a second, without the time that the system takes
    to read the file. Both have to have the same rows."""
    print("| program | rows | dw_lines, million rows a second | gimli | dw_lines to gimli |")
    print("|---|---|---|---|---|")
    for name in names:
        alone = lines_alone(programs[name])
        commands = {"dw_lines": [LINE_ROWS, "--count", alone], "gimli": [tools[WALK][0], "--lines", alone]}
        count, other = (counted(words) for words in commands.values())
        if count != other:
            sys.exit(f"bench: {name}: dw_lines has {count} rows and sums of lines, and gimli {other}")
        rates = [count[0] / best[2] / 1e6 for best in measure(commands).values()]
        print(f"| {name} | {count[0]} | {rates[0]:.0f} | {rates[1]:.0f} | {rates[0] / rates[1]:.2f} |", flush=True)
    print()


def lines_alone(program):
    """A copy of a program with the sections of lines alone, and its line programs many times, so that little of the time
    goes into starting and into other bytes. Of .debug_info and .debug_str, which have to be there, it has a byte."""
    copy, byte, section = (program.with_name(name) for name in ("lines", "byte", "section"))
    byte.write_bytes(bytes(1))
    kept = [word for name in (".debug_line", ".debug_line_str") for word in ("-j", name)]
    added = [word for name in (".debug_info", ".debug_str") for word in ("--add-section", f"{name}={byte}")]
    dumped = ["-O", "binary", "-j", ".debug_line", "--set-section-flags", ".debug_line=alloc"]
    for words in ([*kept, program, copy], [*added, copy, copy], [*dumped, copy, section]):
        subprocess.run(["objcopy", *words], check=True, stderr=subprocess.DEVNULL)
    section.write_bytes(section.read_bytes() * REPEATED)
    words = ["--update-section", f".debug_line={section}", copy]
    subprocess.run(["objcopy", *words], check=True, stderr=subprocess.DEVNULL)
    return copy


def counted(words):
    """The rows that a tool counts, and the sum of their lines."""
    said = subprocess.run(words, capture_output=True, text=True, check=True).stdout
    found = re.findall(r"(?m)^(\d+) rows, lines (\d+)$", said)
    return sum(int(rows) for rows, _ in found), sum(int(lines) for _, lines in found)


def machine():
    """One line on the processor and the compilers."""
    model = re.search(r"model name\s*: (.*)", pathlib.Path("/proc/cpuinfo").read_text())
    text = f"{model[1] if model else 'unknown processor'}, {os.cpu_count()} processors"
    for compiler in ("gcc", "clang", "rustc"):
        if shutil.which(compiler):
            said = subprocess.run([compiler, "--version"], capture_output=True, text=True).stdout
            text += f", {compiler} {re.search(r'[0-9]+[.][0-9.]*[0-9]', said)[0]}"
    return text


def draw(times, counts, title):
    """Draws the processor time of each tool for an entry of each program."""
    tools = [tool for tool in TOOLS if any((name, tool) in times for name in counts)]
    text = AXES.format(picture=PICTURE, title=title)
    for name, count in counts.items():
        bests = [times.get((name, tool)) for tool in tools]
        label = name.replace(", ", r"\n", 1)
        text += f'"{label}"' + "".join(f" {best[0] / count * 1e9:.0f}" if best else " -" for best in bests) + "\n"
    lines = [f'$times using {k + 2}:xtic(1) title "{tool}"' for k, tool in enumerate(tools)]
    subprocess.run(["gnuplot"], input=f"{text}END\nplot {', '.join(lines)}\n", text=True, check=True)


def ratio(times, name, tool, other):
    """The time of a tool on a program to that of another one, as a cell of the table."""
    one, two = times.get((name, tool)), times.get((name, other))
    return f"{one[0] / two[0]:.2f}" if one and two else ""


def faults(program):
    """Copies of a program of gcc, each with one wrong byte near the end: the first rules see one, and sizes the other.

    In the first, the last entry has a code that is not declared. In the second, the last structure with members and a
    name has the size 1: its declaration has the name, an offset of 4 bytes, and then the size.
    """
    child = subprocess.Popen([DWV, "show", program], stdout=subprocess.PIPE, text=True)
    for line in child.stdout:
        last = int(line[:10], 16)
        if (row := re.search(r' 0x0013 ".*" size (\d+)$', line)) and 16 < int(row[1]) < 256:
            structure, size = last, int(row[1])
    child.wait()
    start, _ = info(program)
    for at, old, new in ((last, None, 0x7f), (structure + 5, size, 1)):
        file = bytearray(program.read_bytes())
        assert old in (None, file[start + at])
        file[start + at] = new
        copy = program.with_name("broken")
        copy.write_bytes(file)
        yield copy


def main():
    words = sys.argv[1:] or [""]
    if not DWV.exists():
        sys.exit(f"bench: {DWV} is not there: run `make` first")
    tools = installed()
    names = [name for name in PROGRAMS if any(word in name for word in words)]
    # Another process makes the programs: the peak of a run is not below that of the process that starts it.
    with multiprocessing.Pool(1) as maker:
        programs = dict(zip(names, maker.map(build, names)))
    title = f"{machine()}, {datetime.date.today()}"
    print(f"{title}\n")
    print("| program | .debug_info, MB | entries | tool | processor s | ns an entry | peak MB |")
    print("|---|---|---|---|---|---|---|")
    times, counts, over, taken = {}, {}, {}, {}
    for name, program in programs.items():
        if program is None:
            continue
        counts[name] = count = entries(program)
        measured = measure({tool: [*tools[tool], program] for tool in TOOLS if tool in tools})
        for tool, best in measured.items():
            times[name, tool] = best
            row = f"{best[0]:.3f} | {best[0] / count * 1e9:.0f} | {best[1]:.0f}" if best else f"over {LIMIT} | |"
            print(f"| {name.rsplit(',', 1)[0]} | {info(program)[1] / 1e6:.1f} | {count} | {tool} | {row} |", flush=True)
        if TABLE in tools:
            taken[name] = reading(tools, program)
        over[name] = (times[name, CHECK][1] * 2**20 - program.stat().st_size) / count
    print("\nThe ratios of times, and the memory of `dwv check` over the size of the file:\n")
    print(f"| program | {' | '.join(f'{tool} to {other}' for tool, other in RATIOS)} | bytes an entry |")
    print("|---" * (len(RATIOS) + 2) + "|")
    for name in counts:
        cells = [ratio(times, name, tool, other) for tool, other in RATIOS]
        print(f"| {name} | {' | '.join(cells)} | {over[name]:.1f} |")
    print()
    if SMALL in counts and LARGE in counts:
        more = counts[LARGE] / counts[SMALL]
        longer = [times[LARGE, tool][0] / times[SMALL, tool][0] for tool in (CHECK, TYPES)]
        print(f"{LARGE}, to {SMALL}: {more:.1f} times the entries; `dwv check` takes {longer[0]:.1f} times as long, "
              f"`dwv types` {longer[1]:.1f} times.")
    if MIDDLE in counts:
        for copy in faults(programs[MIDDLE]):
            said = subprocess.run([DWV, "check", copy], capture_output=True, text=True).stdout
            both = measure({"broken": [DWV, "check", copy], "sound": [DWV, "check", programs[MIDDLE]]})
            part = both["broken"][0] / both["sound"][0]
            print(f"{MIDDLE}, with `{said.strip()}`: `dwv check` takes {part:.2f} of the time of the sound file.")
            copy.unlink()
    for name, milliseconds in taken.items():
        print(f"{name}: of the walk by dwv::Table, reading all values takes {milliseconds:.1f} ms.")
    if WALK in tools and LINE_ROWS.exists():
        print("\nThe rows of the line programs:\n")
        lines(tools, counts, programs)
    absent = [tool for tool in TOOLS if tool not in tools]
    absent += [PROGRAMS[name][2][0] for name, program in programs.items() if program is None]
    if absent:
        print(f"Not installed: {', '.join(absent)}.")
    if shutil.which("gnuplot"):
        draw(times, counts, title)
    else:
        print(f"gnuplot is not installed: {PICTURE.name} is as it was.")


if __name__ == "__main__":
    main()
