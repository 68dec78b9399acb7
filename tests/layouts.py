#!/usr/bin/env python3
"""Runs contrib/c-header on structures that are made at random: packed, aligned, nested, with bit fields and arrays.

The compiler that made a program prints the size of each structure and the offset of each member. gcc and clang must
give the same ones by the header, and the alignments that the file has (it has none of a type that is only packed). It
prints one line a program and ends with 'N passed, N failed, N skipped'.
"""
import random
import re
import subprocess
import sys

sys.dont_write_bytecode = True
import common

PROGRAMS, TYPES = 4, 30
# Numbers that may be bit fields, with their bits, and other types. The place of the name is %s, or at the end.
NUMBERS = {"char": 8, "unsigned char": 8, "short": 16, "unsigned short": 16, "int": 32, "unsigned": 32, "long": 64,
           "unsigned long": 64, "long long": 64, "_Bool": 1}
OTHERS = ["signed char", "float", "double", "long double", "void *", "int (*%s)(int, char *)", "_Complex double",
          "__int128", "unsigned __int128", "enum plain", "enum small", "struct nobody *", "const char *",
          "volatile int", "_Atomic int", "const int *const", "vector"]
ATTRIBUTES = ["", "", "", " __attribute__((packed))", " __attribute__((aligned(32)))",
              " __attribute__((packed, aligned(2)))"]
HEAD = """enum plain { A = -1, B = 5 };
enum __attribute__((packed)) small { C, D = 200 };
struct nobody;
typedef float vector __attribute__((vector_size(16)));
"""
tally = common.Tally(2 * PROGRAMS)


def member(chance, place, types):
    """The text of a member, and what it can be asked by: its names, without those of bit fields."""
    t, name = chance.choice([*NUMBERS, *OTHERS, *types[-6:]]), f"m{place}"
    if "%s" in t:
        return f"{t % name};", [name]
    kind = chance.random()
    if kind < 0.15 and t in NUMBERS:
        more = f" {t} : {chance.randint(0, NUMBERS[t])};" if chance.random() < 0.3 else ""
        return f"{t} {name} : {chance.randint(1, NUMBERS[t])};{more}", []
    if kind < 0.3:
        more = f"[{chance.randint(1, 3)}]" if chance.random() < 0.3 else ""
        return f"{t} {name}[{chance.randint(1, 5)}]{more};", [name]
    if kind < 0.36:
        inner = f"int a; union {{ {t} u; char v[3]; }};"
        return f"struct {{ {inner} }} {name};", [name, f"{name}.u", f"{name}.v"]
    if kind < 0.42:
        return f"union {{ {t} p{place}; long q{place}; }};", [f"p{place}", f"q{place}"]
    if kind < 0.46:
        return f"{t} {name} __attribute__((aligned({chance.choice([2, 8, 16, 64])})));", [name]
    return f"{'const ' if kind < 0.5 else ''}{t} {name}{'[3]' if kind < 0.5 else ''};", [name]


def program(chance):
    """The text of a program with types, and the names of the members of each type."""
    text, types, names = HEAD, [], {}
    for number in range(TYPES):
        kind = chance.choice(["struct"] * 4 + ["union"])
        found = [member(chance, place, types) for place in range(chance.randint(1, 9))]
        is_open = kind == "struct" and chance.random() < 0.15
        body = " ".join([*(it for it, _ in found), *(["int tail[];"] if is_open else [])])
        name = f"{kind} s{number}"
        text += f"{name} {{ {body} }}{chance.choice(ATTRIBUTES)};\n{name} *g{number};\n"
        names[name] = [it for _, more in found for it in more]
        types += [] if is_open else [name]
    return text, names


def asserted(compiler, source, names):
    """The assertions that the compiler of a program prints."""
    calls = []
    for name, members in names.items():
        values = [f"sizeof({name})", *(f"__builtin_offsetof({name}, {it})" for it in members)]
        calls += [f'printf("_Static_assert({it} == %zu, \\"{it}\\");\\n", {it});' for it in values]
    path = source.with_name("prints.c")
    path.write_text(f"#include <stdio.h>\n{source.read_text()}int main(void) {{\n{chr(10).join(calls)}\nreturn 0; }}\n")
    if not common.compiled(path.with_suffix(""), compiler, path):
        return None
    return common.run(path.with_suffix(""), text=True)[1]


def wrong(compilers, compiler, version, source, names):
    """What is wrong of the header of a program, or None."""
    library, text = source.with_suffix(".so"), asserted(compiler, source, names)
    if text is None or not common.compiled(library, f"{compiler} -gdwarf-{version} -shared -fPIC", source):
        return "it does not compile"
    status, header, errors = common.script("c-header", "--assert", library)
    if status or "/* guessed" in header or "0 left out" not in header:
        return errors or re.findall(r"(?m)^/\* (?:guessed|left out|refused).*", header)[:3]
    for it in compilers:
        words = [it, "-w", "-std=gnu11", "-fsyntax-only", "-x", "c", "-"]
        ran = subprocess.run(words, input=header + text, capture_output=True, text=True)
        if ran.returncode:
            return [line for line in ran.stderr.splitlines() if "error" in line][:3]
    return None


def main():
    common.build()
    compilers = list(filter(tally.has, ("gcc", "clang")))
    chance = random.Random(7)
    with common.empty_folder() as folder:
        for number in range(PROGRAMS):
            text, names = program(chance)
            source = folder / f"made{number}.c"
            source.write_text(text)
            for compiler in compilers:
                version = 5 - number % 2
                why = wrong(compilers, compiler, version, source, names)
                tally.add(f"{TYPES} types, {compiler} -gdwarf-{version}, program {number}", why)
    return tally.end()


if __name__ == "__main__":
    sys.exit(main())
