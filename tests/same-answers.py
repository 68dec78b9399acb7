#!/usr/bin/env python3
"""Compares the answers of two programs `dwv`: same-answers.py OLD NEW [COUNT] [SEED].

Both run `check` and `types` on the programs of tests/programs, as gcc and clang compile them in versions 4 and 5, on
the files of tests/hostile_files.py, and on those of the rows of tests/rows and docs/RULES.md. They run `check` on
COUNT copies of the compiled programs (20,000 if it is not given) that are changed at random as tests/fuzz.py does, and
`types` on each tenth of them. Of each run the exit status, standard output and standard error must be the same.

It prints how often OLD found each rule, and the first difference, whose file is kept in the folder of temporary files.
The last line is 'N runs had the same answer, M did not'.
"""
import collections
import pathlib
import random
import sys

sys.dont_write_bytecode = True
import common
import examples
import fuzz
import hostile_files

COUNT = 20_000


def asked(folder, count, chance):
    """Each file as bytes, where it is from, and the commands that are run on it."""
    both = ("check", "types")
    programs = fuzz.built(folder, levels=("-O0", "-O2"))
    for file in programs:
        yield "compiled programs", file, both
    for _, file, *_ in hostile_files.runs():
        yield "hostile files", file, both
    for file, _ in examples.files():
        yield "rows", file, both
    for k in range(count if programs else 0):
        yield "changed programs", fuzz.changed(chance.choice(programs), chance), both if k % 10 == 0 else both[:1]


def shown(answer):
    """The status and the first bytes of an answer."""
    status, text = answer
    return f"status {status}, {text[:400]!r}"


def main():
    if len(sys.argv) < 3:
        sys.exit(__doc__)
    old, new = (pathlib.Path(word).resolve(strict=True) for word in sys.argv[1:3])
    count = int(sys.argv[3]) if len(sys.argv) > 3 else COUNT
    seed = int(sys.argv[4]) if len(sys.argv) > 4 else random.randrange(2**32)
    print(f"{old} and {new}, seed {seed}")
    sources, met, same, different, first = collections.Counter(), collections.Counter(), 0, 0, None
    with common.empty_folder() as folder:
        path = folder / "file"
        for source, file, commands in asked(folder, count, random.Random(seed)):
            path.write_bytes(file)
            sources[source] += 1
            for command in commands:
                one, two = fuzz.ran([command], path, old), fuzz.ran([command], path, new)
                if command == "check":
                    met[fuzz.rule_of(one[1])] += 1
                same, different = same + (one == two), different + (one != two)
                if one != two and first is None:
                    first = f"FAILED {source}, {command} {fuzz.kept(path)}\nOLD: {shown(one)}\nNEW: {shown(two)}"
    for source, files in sources.items():
        print(f"{files:8} {source}")
    for rule, times in sorted(met.items()):
        print(f"{times:8} {rule}")
    if first:
        print(first)
    print(f"{same} runs had the same answer, {different} did not")
    return 1 if different else 0


sys.exit(main())
