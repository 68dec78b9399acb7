#!/usr/bin/env python3
"""Runs contrib/c-header on listings that are written here, and on programs; compilers must accept each header.

A listing is given to the script by a stand-in for `dwv`. The headers of programs have an assertion of each size and
each offset. It prints one line a test and ends with 'N passed, N failed, N skipped'.
"""
import re
import resource
import subprocess
import sys

sys.dont_write_bytecode = True
import common
from dwv_tools import c_types, c_writing

STAND_IN = """#!/bin/sh
case $1 in
    check) echo "sound: 1 units, 1 entries, 1 types" ;;
    types) cat "$LISTING" ;;
esac
"""
# The most lines of a listing that must take less than SECONDS of processor time.
MANY, SECONDS = 20000, 20
tally = common.Tally(52)
COMPILERS = list(filter(tally.has, ("gcc", "clang")))

# A name, the lines of `dwv types`, texts that the header must have, and after a `!` such as it must not have.
LISTINGS = [
    ("nothing", "", []),
    ("equal lines", "typedef int t;\ntypedef int t;\n", ["2 lines, 1 of them different", "!another"]),
    ("a typedef behind a pointer", "typedef late *p;\ntypedef struct { int x; } late;\n", []),
    ("names in parameters", "typedef int (*f)(t *, u);\ntypedef int t;\ntypedef struct s u;\n", ["struct s;"]),
    ("structures that point to each other", "struct a { struct b *b; t *t; };\n"
     "struct b { struct a *a; struct a (*f)(struct b *, t); };\ntypedef struct a t;\n", ["struct b;"]),
    ("an order by value", "struct out { t x[2]; struct in y; };\nstruct in { int x; };\ntypedef u t;\n"
     "typedef struct deep u;\nstruct deep { struct out *o; };\n", []),
    ("arrays of structures that come later", "typedef struct s a[3];\nstruct s { int (*p)[3]; u (*q)[2]; };\n"
     "typedef struct v u;\nstruct v { int x; };\n", []),
    ("several texts of a name", "struct s { int x; };\nstruct s { char y; };\nstruct s { long int z; };\n",
     ["/* another text of struct s: struct s { char y; }; */"]),
    ("several texts, --all", "struct s { int x; };\nstruct s { char y; };\ntypedef int t;\ntypedef char t;\n",
     ["struct s___2 {", "typedef char t___2;", "!another"]),
    ("a first text that can't be written", "struct s { missing x; };\nstruct s { char y; };\n"
     "struct t { struct s s; };\n", ["left out, because it needs missing, which has no declaration", "\tchar y;"]),
    ("one name of all kinds", "struct x { int a; };\ntypedef int x;\nunion x { int b; };\nenum x { Q = 1 };\n"
     "struct user { union x *u; enum x e; x t; struct x s; };\n", ["union x___union", "enum x___enum"]),
    ("enumerators twice", "enum a { A = 0, B = 1 };\nenum b { A = 3, T = 4 };\ntypedef int T;\n"
     "struct s { enum { A = 7 } m; };\n", ["A___2 = 3", "A___3 = 7", "T___2 = 4"]),
    ("an enumeration in several places", "struct s { enum { A = 0 } x; enum { A = 0 } y; };\n"
     "typedef enum { A = 0 } t;\n", ["enum of_A {"]),
    ("refused types", "typedef gone *p;\nstruct s { p x; };\nstruct v { struct nobody *n; };\n"
     "/* 0x0000000f P2 BadName */\n", ["/* refused: 0x0000000f P2 BadName", "struct nobody;", "2 left out"]),
    ("an enumeration that is only named", "struct s { enum gone *x; };\n", ["enum gone;"]),
    ("names of the compiler", "typedef __builtin_va_list __gnuc_va_list;\n"
     "typedef struct __va_list_tag __builtin_va_list[1];\nstruct __va_list_tag { int x; };\n"
     "typedef float _Float32;\n"
     "struct s { _Float64 a; _Float128 b; __int128 c; _Float32 d; bool e; wchar_t f; char16_t g; _Decimal64 h; "
     "_Float64x i; };\n", ["#ifdef __clang__"]),
    ("arrays of unknown count", "struct a { int n; char x[]; };\nstruct b { char x[]; };\n"
     "struct c { char x[]; int n; };\nunion d { char x[]; int n; };\n", ["\tchar x[];", "\tchar x[0];"]),
    ("extreme values", "enum e { A = -9223372036854775808, B = 9223372036854775807 };\n"
     "enum f { C = 18446744073709551615 };\nenum g { D = 4294967295, E = -1 };\n", ["18446744073709551615U"]),
    ("words of gcc", "struct s { int asm; int typeof; int linux; int unix; };\n", ["asm_", "#undef linux"]),
    ("a cycle by value", "struct a { struct b x; };\nstruct b { struct a y; };\nstruct b { int z; };\n",
     ["struct b {"]),
    ("a cycle of typedefs", "typedef t u;\ntypedef u t;\nstruct s { u *x; };\nstruct k { int x; };\n", ["struct k {"]),
    ("a name that is void first", "typedef void t;\ntypedef struct { int x; } t;\nstruct s { t x; };\n"
     "typedef void v;\ntypedef v w;\nstruct k { w x; };\ntypedef w *p;\n", ["struct s {", "1 left out", "*p;"]),
    ("two members of one name", "struct s { int x; union { int x; }; };\n", ["it has two members named x"]),
    ("declarators", "typedef int (*(*f)(int, ...))[3];\n"
     "typedef const char *const (*g[4])(void (*)(int), const volatile void *restrict, ...);\ntypedef int h();\n"
     "typedef int k(void);\ntypedef void (*signal_t(int, void (*)(int)))(int);\n", []),
    ("a layout that is not known", "struct s { char a; int b; };\n", ["/* guessed: the layout of struct s;"]),
    ("a line of something else", "int x;\nstruct s { int x; };\n", ["1 left out", "struct s {"]),
    ("the end of a comment in a line", "typedef evil */ t;\n", ["!evil */ t", "evil * / t"]),
]
# Long listings. None may take time that grows faster than the listing.
LONG = {
    "a chain": "".join(f"typedef t{i + 1} t{i};\n" for i in range(MANY)) + f"typedef int t{MANY};\n",
    "texts of one name": "".join(f"struct s {{ int x{i}; }};\n" for i in range(MANY)),
    "one enumerator": "".join(f"enum e{i} {{ A = {i} }};\n" for i in range(MANY)),
    "a chain that ends nowhere": "".join(f"typedef t{i + 1} t{i};\n" for i in range(MANY)),
    "a cycle by value": "".join(f"struct s{i} {{ struct s{(i + 1) % MANY} x; }};\n" for i in range(MANY)),
}
LAYOUTS = """#include <stdalign.h>
#include <stdarg.h>
#include <stddef.h>
#include <stdint.h>
struct __attribute__((packed)) tight { char c; long l; short s; };
struct holds { struct tight a; int b; struct tight c[2]; } holds;
struct apart { char a; _Alignas(64) char b; char c; } apart;
struct wide { int x; } __attribute__((aligned(128))) wide;
struct later { int x; char a; _Alignas(2) char b; } later;
struct bits { unsigned a : 3, : 2, b : 7; unsigned long c : 40; char d; int e : 5; int : 0; int f : 5; } bits;
struct __attribute__((packed)) tight_bits { unsigned a : 3; unsigned long c : 61; char d; unsigned e : 30; } tight_bits;
struct open { struct open *next; unsigned f : 3, g : 7; int tail[]; } *open;
struct open_apart { long n; _Alignas(32) char tail[]; } *open_apart;
union mixed { struct __attribute__((packed)) { char a; long b; }; long c; char d[23]; } mixed;
typedef union { char a; int b; } __attribute__((aligned(32))) apart_union; apart_union au;
typedef struct { char a; struct __attribute__((packed)) { char b; int c; } d; } inner; inner in[2];
enum __attribute__((packed)) small { ONE = 1, TWO }; struct has_small { enum small a; enum small b; char c; } has_small;
struct unnamed { enum __attribute__((packed)) { P, Q } a; enum { R } b; int (*f)(struct unnamed *, enum small); } un;
typedef int vector __attribute__((vector_size(16))); struct has_vector { char a; vector b; } has_vector;
struct odd { long double a; __int128 b; _Bool c; max_align_t d; double _Complex e; } odd;
struct empty { } empty; struct after { struct empty e; int x; } after;
va_list *list; struct point { struct { short x, y; }; union { long l; double d; } u[2]; } *points(struct point *);
struct far { char a; _Alignas(4096) char b; } far;
typedef float wide_vector __attribute__((vector_size(32)));
struct has_wide { char a; wide_vector v; int k; } has_wide;
typedef int near_vector __attribute__((vector_size(16), aligned(1))); struct near { char a; near_vector v; } near;
struct bare_vector { char a; float __attribute__((vector_size(32))) v; int k;
    short __attribute__((vector_size(8))) w[3]; } bare_vector;
typedef int __attribute__((vector_size(16))) *to_vector; struct no_vector { char a; float v[8]; } no_vector;
to_vector some; struct constant { const int a[3]; const char *const names[4]; int n; } constant;
struct wide_numbers { __int128 a; unsigned __int128 b; } wide_numbers; typedef unsigned __int128 u128; u128 number;
struct complex { _Complex float f; _Complex double d; _Complex int i; _Complex long double l; } complex_numbers;
struct user { struct constant one[2]; struct wide_numbers *w; u128 x; struct complex *c; } user;
int main(void) { return points != 0; }
struct point *points(struct point *p) { return p; }
"""


# Types that `dwv types` refuses, or does not say as they are.
WRITTEN = ["struct constant {\n\tconst int a[3];\n\tconst char *const names[4];", "unsigned __int128 b;",
           "_Complex int i;", "_Complex long double l;",
           "typedef float __attribute__((vector_size(32))) wide_vector;",
           "\tfloat __attribute__((vector_size(32))) v;\n\tint k;", "\tfloat v[8];",
           " __attribute__((vector_size(8))) w[3];",
           "typedef int __attribute__((vector_size(16))) *to_vector;"]
# The alignment of a type is in version 5 alone.
ALIGNED = "typedef int __attribute__((vector_size(16), aligned(1))) near_vector;"
# Two types of one name with members of the same names.
ONE, OTHER = """typedef struct { int v[4]; } node; struct s { node items[64]; struct s *next; }; struct s one;
""", """struct s { int *items; struct s *next; }; struct s two; int main(void) { return 0; }
"""


def run(*words, **env):
    return common.script("c-header", *words, **env)


def refusals(text, languages=("c",)):
    """What the compilers say against a header that is included twice."""
    said = ""
    for compiler, language in ((compiler, language) for compiler in COMPILERS for language in languages):
        words = [compiler, "-w", "-fsyntax-only", "-x", language, "-"]
        for more in ("", "\n#undef DWV\n"):
            ran = subprocess.run(words, input=text + more + text, capture_output=True, text=True)
            said += "\n".join(ran.stderr.splitlines()[:3]) if ran.returncode else ""
    return said


def listings(folder):
    for name, text, wanted in LISTINGS:
        path = folder / "listing"
        path.write_text(text)
        words = ["--all"] if "--all" in name else []
        status, header, errors = run(*words, common.SAMPLE, DWV=folder / "dwv", LISTING=path)
        wrong = [it for it in wanted if it.startswith("!") == (it.removeprefix("!") in header)]
        tally.add(name, errors or wrong or status or refusals(header))
        for line in text.splitlines():
            try:
                said = c_writing.Writer(True).declaration(c_types.read(line))
            except c_types.Malformed:
                continue
            if said != line:
                tally.add(f"{name}: the line is written as it was read", said)
    for name, text in LONG.items():
        path = folder / "listing"
        path.write_text(text)
        before = resource.getrusage(resource.RUSAGE_CHILDREN).ru_utime
        status, _, errors = run(common.SAMPLE, DWV=folder / "dwv", LISTING=path)
        used = resource.getrusage(resource.RUSAGE_CHILDREN).ru_utime - before
        tally.add(f"{MANY} lines, {name}", errors or status or (used if used > SECONDS else ""))


def programs(folder):
    (folder / "layouts.c").write_text(LAYOUTS)
    sources = {"layouts": folder / "layouts.c", "shapes": "shapes.c", "calls": "calls.c", "library": "library.c"}
    for compiler in COMPILERS:
        for version in (5, 4):
            for name, source in sources.items():
                title, path = f"{name}, {compiler} -gdwarf-{version}", folder / name
                if not common.compiled(path, f"{compiler} -gdwarf-{version} -shared -fPIC", source):
                    tally.lack(f"{title} does not compile")
                    continue
                status, header, errors = run("--assert", path)
                guessed = [line for line in header.splitlines() if line.startswith("/* guessed")]
                wanted = [*(f"_Static_assert({it}" for it in ("sizeof", "_Alignof", "__builtin_offsetof")),
                          *(WRITTEN if name == "layouts" else []),
                          *([ALIGNED] if name == "layouts" and version == 5 else [])]
                lacking = [it for it in wanted if it not in header]
                tally.add(title, errors or status or guessed or refusals(header, ("c", "c++")) or lacking)


def two_of_a_name(folder):
    """Two types of one name, whose members have the same names: each has its own layout."""
    for compiler in COMPILERS:
        (folder / "one.c").write_text(ONE)
        (folder / "other.c").write_text(OTHER)
        for order in (("one.c", "other.c"), ("other.c", "one.c")):
            common.compiled(folder / "two", f"{compiler} -g", *(folder / it for it in order))
            status, header, errors = run("--all", "--assert", folder / "two")
            sizes = sorted(re.findall(r"sizeof\(struct s\w*\) == (\d+)", header))
            is_right = status == 0 and sizes == ["1032", "16"] and "___pad" not in header and not refusals(header)
            tally.add(f"two types of a name, {compiler} {' '.join(order)}", None if is_right else errors or header)


def words(folder):
    broken = folder / "broken"
    broken.write_bytes(common.BROKEN)
    line = f"c-header: {broken}: fault G1 UndeclaredCode at .debug_info+0x0000000f attribute 0x0\n"
    tally.same("a file that is not sound", run(broken), (1, "", line))
    absent = folder / "none"
    tally.same("no file", run(absent), (3, "", f"c-header: {absent}: No such file or directory\n"))
    line = "c-header: 4 values, and the limit is 3\n"
    tally.same("more values than the limit", run("--limit", "3", common.SAMPLE), (4, "", line))
    tally.same("a header that can't be written", run("-o", absent / "x.h", common.SAMPLE)[:2], (3, ""))
    tally.same("no words", run()[:2], (2, ""))


def main():
    common.build()
    common.build_library()
    with common.empty_folder() as folder:
        (folder / "dwv").write_text(STAND_IN)
        (folder / "dwv").chmod(0o755)
        listings(folder)
        programs(folder)
        two_of_a_name(folder)
        words(folder)
    return tally.end()


if __name__ == "__main__":
    sys.exit(main())
