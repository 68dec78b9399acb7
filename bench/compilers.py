#!/usr/bin/env python3
"""Runs `dwv check` and `dwv types` on what the installed compilers make of small programs, for docs/COMPILERS.md.

Each row of the table is a command that compiles a program of one of the languages below. If a tool is not installed,
its rows stay as they are. DWV is the path of `dwv`, if it is not the one that `make` built.
"""
import collections
import datetime
import pathlib
import re
import shutil
import subprocess
import sys
import textwrap

sys.dont_write_bytecode = True
sys.path.insert(0, str(pathlib.Path(__file__).resolve().parent.parent / "tests"))
import common
from dwv_tools import causes, finding, running

PAGE = common.TOP / "docs/COMPILERS.md"
SECONDS = 300

SOURCES = {
    "calls.c": (common.PROGRAMS / "calls.c").read_text(),
    "shapes.c": (common.PROGRAMS / "shapes.c").read_text(),
    "sized.c": """int f(int n)
{
    struct { int a[n]; int b; } s;
    s.b = n;
    return s.b + (int) sizeof s;
}
int main(int argc, char **argv) { return f(argc); }
""",
    "named.c": """struct point { int x, y; } at;
enum colour { RED, GREEN } c;
int main(void) { return at.x + c; }
""",
    "nested.c": """struct inner { int x; };
struct outer { struct inner one; struct inner *other; } out;
int main(void) { return out.one.x; }
""",
    "boxes.cpp": """#include <map>
#include <string>
#include <variant>
#include <vector>
struct box { std::map<std::string, std::vector<int>> all; std::variant<int, std::string> one; };
int main() { box b; b.all["a"].push_back(1); b.one = "b"; return (int) b.all.size(); }
""",
    "plain.m": "id some; int main(void) { return some != 0; }\n",
    "sums.f90": """program sums
  type point
    real :: x, y
  end type
  type(point), allocatable :: points(:)
  character(len=:), allocatable :: name
  allocate(points(3)); points%x = 1; points%y = 2; name = "a"
  print *, sum(points%x) + sum(points%y), name
end program
""",
    "rows.adb": """with Ada.Text_IO;
procedure Rows is
   type Row is array (Positive range <>) of Integer;
   type Named (Length : Natural) is record
      Name  : String (1 .. Length);
      Value : Integer;
   end record;
   R : Row (1 .. 3) := (1, 2, 3);
   N : Named := (3, "abc", R (2));
begin
   Ada.Text_IO.Put_Line (N.Name & Integer'Image (N.Value));
end Rows;
""",
    "pairs.adb": """with Ada.Text_IO; with Ada.Command_Line;
procedure Pairs is
   N : constant Integer := Ada.Command_Line.Argument_Count + 3;
   type Row is array (1 .. N) of Integer;
   type Pair is record
      Left, Right : Row;
      Value : Integer;
   end record;
   P : Pair := (Left => (others => 1), Right => (others => 2), Value => 3);
begin
   Ada.Text_IO.Put_Line (Integer'Image (P.Value));
end Pairs;
""",
    "closures.rs": """use std::collections::HashMap;
enum Shape { Circle(f64), Square { side: f64 }, Empty }
fn area(s: &Shape) -> f64 { match s { Shape::Circle(r) => r * r, Shape::Square { side } => side * side, _ => 0.0 } }
fn main() {
    let mut names: HashMap<String, Shape> = HashMap::new();
    names.insert("a".to_string(), Shape::Circle(1.0));
    names.insert("b".to_string(), Shape::Square { side: 2.0 });
    names.insert("c".to_string(), Shape::Empty);
    let factor = names.len() as f64;
    let scaled: Vec<f64> = names.values().map(|s| area(s) * factor).collect();
    println!("{:?}", scaled);
}
""",
    "tails.rs": """use std::sync::Arc;
struct Tail<T: ?Sized> { count: u32, rest: T }
fn sum(it: &Tail<[u8]>) -> usize { it.rest.len() + it.count as usize }
fn main() {
    let name: Arc<str> = Arc::from("abc");
    println!("{} {}", name.len(), sum(&Tail { count: 1, rest: [1, 2] }));
}
""",
    "list.go": """package main

import "fmt"

type node struct {
	next *node
	name string
}

func main() { fmt.Println((&node{nil, "a"}).name) }
""",
    "sets.pas": """program sets;
type
  colour = (red, green, blue);
  point = record x, y: integer; end;
var
  c: set of colour;
  p: array[1..3] of point;
  s: string;
begin
  c := [red, blue]; p[1].x := 1; s := 'a';
  writeln(s, p[1].x, red in c);
end.
""",
    "list.d": "import std.stdio;\nstruct S { int[] a; string b; }\nvoid main() { S s; s.a ~= 1; writeln(s); }\n",
    "areas.hs": """module Main where
data Shape = Circle Double | Square Double deriving Show
area :: Shape -> Double
area (Circle r) = r * r
area (Square s) = s * s
main :: IO ()
main = print (map area [Circle 1, Square 2])
""",
    "joined.ml": "let () = print_endline (String.concat \",\" (List.map string_of_int [1; 2]))\n",
    "colours.cr": "enum Colour\n  Red\n  Green\nend\nputs Colour::Red\n",
    "start.s": """        .globl _start
        .text
_start: mov $60, %eax
        xor %edi, %edi
        syscall
""",
    "start.asm": """        global _start
        section .text
_start: mov eax, 60
        xor edi, edi
        syscall
""",
}

# A language, the compiler with its flags, and its sources. `-o` and the name of the program follow.
C, TYPES = "calls.c shapes.c", "-fdebug-types-section"
COMPILED = [
    ("C", "gcc -gdwarf-5", C), ("C", "gcc -gdwarf-5 -O2 -flto", C), ("C", "gcc -gdwarf-4", C),
    ("C", "gcc -gdwarf-3", C),
    ("C", f"gcc -gdwarf-5 {TYPES}", "named.c"), ("C", f"gcc -gdwarf-4 {TYPES}", "named.c"),
    ("C, a structure of variable length", "gcc -gdwarf-5", "sized.c"),
    ("C", "gcc -gdwarf-5 -gdwarf64", C), ("C", "gcc -gdwarf-5 -gsplit-dwarf", C),
    ("C, a structure in another", f"gcc -gdwarf-5 {TYPES}", "nested.c"),
    ("C", "gcc -gdwarf-4 -gsplit-dwarf", C),
    ("C", "gcc -gdwarf-5 -gz", C), ("C", "gcc -g -s", C), ("C, an object file", "gcc -g -c", "named.c"),
    ("assembler", "gcc -g -nostdlib -static", "start.s"), ("assembler", "nasm -f elf64 -g -F dwarf", "start.asm"),
    ("assembler", "yasm -f elf64 -g dwarf2", "start.asm"),
    ("C", "clang -gdwarf-5", C), ("C", "clang -gdwarf-5 -O2", C), ("C", "clang -gdwarf-4", C),
    ("C", f"clang -gdwarf-5 {TYPES}", "named.c"), ("C", "clang -gdwarf-5 -gsplit-dwarf", C),
    ("C++", "g++ -gdwarf-5", "boxes.cpp"), ("C++", "g++ -gdwarf-4 -O2", "boxes.cpp"),
    ("C++", f"g++ -gdwarf-5 {TYPES}", "boxes.cpp"), ("C++", "clang++ -gdwarf-5 -std=c++17", "boxes.cpp"),
    ("Objective-C", "gcc -gdwarf-5", "plain.m"), ("Objective-C", "clang -gdwarf-5", "plain.m"),
    ("Fortran", "gfortran -gdwarf-5", "sums.f90"), ("Fortran", "gfortran -gdwarf-4 -O2", "sums.f90"),
    ("Ada", "gnatmake -q -g", "rows.adb"), ("Ada", "gnatmake -q -g -fgnat-encodings=all", "rows.adb"),
    ("Ada, a record of variable size", "gnatmake -q -g", "pairs.adb"),
    ("Rust", "rustc -g", "closures.rs"), ("Rust", "rustc -g -O", "closures.rs"),
    ("Rust, a structure that ends with a slice", "rustc -g", "tails.rs"),
    ("Rust, a structure that ends with a slice", "rustc -C debuginfo=1", "tails.rs"),
    ("Go", "go build", "list.go"), ("Go", "go build -ldflags=-compressdwarf=false", "list.go"),
    ("D", "gdc -gdwarf-5", "list.d"),
    ("Pascal", "fpc -v0 -gw4", "sets.pas"), ("Pascal", "fpc -v0 -gw3", "sets.pas"),
    ("C", "tcc -g", "named.c"), ("Haskell", "ghc -g", "areas.hs"), ("OCaml", "ocamlopt -g", "joined.ml"),
    ("Crystal", "crystal build", "colours.cr"), ("Crystal", "crystal build --debug", "colours.cr"),
]
# What is said of a refused type.
REFUSED = re.compile(r"/\* 0x[0-9a-f]{8} (P\d) \w+ \*/")


def compiled(folder, command, sources):
    """The program that a command makes of sources, or None."""
    out, words = folder / "program", command.split()
    out.unlink(missing_ok=True)
    quiet = ["-w"] if words[0] in ("gcc", "g++", "clang", "clang++") else []
    to = [f"-o{out}"] if words[0] == "fpc" else ["-o", out]
    ran = subprocess.run([*words, *quiet, *to, *sources.split()], cwd=folder, capture_output=True, timeout=SECONDS)
    if ran.returncode == 0 and words[0] in ("nasm", "yasm"):
        ran = subprocess.run(["ld", "-o", out, out.rename(folder / "object")], capture_output=True)
    return out if ran.returncode == 0 and out.exists() else None


def types_of(dwv, path):
    """How many types `dwv types` prints of a sound file, and how many it refuses for each reason."""
    text = subprocess.run([dwv, "types", path], capture_output=True, text=True).stdout.splitlines()
    refused = collections.Counter(found[1] for line in text if (found := REFUSED.fullmatch(line)))
    counts = ", ".join(f"{count} {rule}" for rule, count in sorted(refused.items()))
    return f"{len(text) - refused.total()} printed{f', refused: {counts}' if refused else ''}"


def row(dwv, language, command, path):
    """A row of the table on a program."""
    verdict = running.check(dwv, path)
    if verdict.what == running.IS_SOUND:
        return f"| {language} | `{command}` | sound | {types_of(dwv, path)} | |"
    place = finding.Place(verdict, path)
    cause = causes.cause(place)
    return f"| {language} | `{command}` | {verdict.what} | | {cause.text} {cause.remedy} |"


def shared(dwv, folder):
    """The row of a file that shares entries with another by dwz."""
    paths = [folder / "one", folder / "two"]
    for path in paths:
        shutil.copy(compiled(folder, "gcc -gdwarf-5", C), path)
    if subprocess.run(["dwz", "-m", folder / "shared", *paths], capture_output=True).returncode == 0:
        yield row(dwv, "C, two programs", "dwz -m shared one two", paths[0])


# A row with a reason: the cells before it, the command among them, and the reason.
REASONED = re.compile(r"(\| [^|]* \| (`[^`]*`) \| [^|]* \| \|) ([^|]+) \|")


def once(table):
    """The rows, in which a reason that a row above has is named by the command of that row."""
    said = {}
    for line in table:
        found = REASONED.fullmatch(line)
        above = said.setdefault(found[3], found[2]) if found else None
        yield f"{found[1]} as of {above} |" if found and above != found[2] else line


def whole(table):
    """The rows, in which a reason that is named by a command is that of the command's row."""
    said = {found[2]: found[3] for line in table if (found := REASONED.fullmatch(line))}
    for line in table:
        found = REASONED.fullmatch(line)
        named = found and re.fullmatch(r"as of (`[^`]*`)", found[3])
        yield f"{found[1]} {said[named[1]]} |" if named else line


def narrow(line):
    """A row without the spaces around its cells, as the page has it."""
    return "|".join(cell.strip() for cell in line.split("|"))


def wide(line):
    """A row of the page with spaces around its cells."""
    return "|".join(["", *(f" {cell} " if cell else " " for cell in line.split("|")[1:-1]), ""])


def known(text):
    """The rows of the table as it was, by their first two cells, and the versions of the tools above it."""
    rows = [wide(line) for line in text.splitlines() if line.startswith("|") and not line.startswith("|---")]
    kept = {tuple(line.split(" | ")[:2]): line for line in whole(rows)}
    return kept, dict(re.findall(r"(\S+)\s(\d+(?:\.\d+)+)", text.partition("|")[0]))


def main():
    dwv = common.DWV
    kept, old = known(common.made_part(PAGE)[1])
    table, versions, earlier, absent = [], {}, {}, set()

    def keep(language, command):
        """Keeps the row of a command that can't be run here."""
        tool = command.split()[0]
        if line := kept.get((f"| {language}", f"`{command}`")):
            table.append(line)
            earlier[tool] = old.get(tool, "")
        else:
            absent.add(f"{language} by {tool}")

    with common.empty_folder() as folder:
        for source, text in SOURCES.items():
            (folder / source).write_text(text)
        for language, command, sources in COMPILED:
            tool = command.split()[0]
            path = compiled(folder, command, sources) if shutil.which(tool) else None
            if path is None:
                keep(language, command)
                continue
            table.append(row(dwv, language, command, path))
            words = [tool, {"go": "version", "fpc": "-iV"}.get(tool, "--version")]
            said = subprocess.run(words, capture_output=True, text=True).stdout
            versions[tool] = re.search(r"\d+\.\d+(\.\d+)?", said)[0]
        if shutil.which("dwz"):
            table += shared(dwv, folder)
        else:
            keep("C, two programs", "dwz -m shared one two")
    about = f"{datetime.date.today()}: {', '.join(f'{tool} {version}' for tool, version in versions.items())}."
    if earlier := [f"{tool} {version}".strip() for tool, version in earlier.items() if tool not in versions]:
        about += f" Not run that day, but before: {', '.join(earlier)}."
    if absent:
        about += f" Not installed, or not able to: {', '.join(sorted(absent))}."
    head = ["| Language | Command | `dwv check` | `dwv types` | Why, and what to do |", "|---|---|---|---|---|"]
    lines = textwrap.wrap(about, 120, break_on_hyphens=False)
    common.rewrite(PAGE, [*lines, "", *map(narrow, [*head, *once(table)])])


if __name__ == "__main__":
    main()
