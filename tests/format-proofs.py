#!/usr/bin/env python3
"""Breaks the lines of proof files that are longer than 120 columns. `rt fmt` breaks none, and indents what this broke.

usage: format-proofs.py [--check]     with --check: lists such lines, changes nothing, and fails if there are any

A line is broken at a space outside all brackets, or else inside as few of them as possible, before an operator rather
than between two arguments. Imports stay on one line, and comments as they are.
"""
import pathlib
import sys

ROOT = pathlib.Path(__file__).resolve().parent.parent
LIMIT = 120
OPEN, CLOSE = "([{", ")]}"
# What a new line may begin with, the loosest first.
OPERATORS = ("→", "≡", "↔", "⊎", "×", "∙", "|", "∷", "++", "+", "≤", "<")
# What no line ends with.
GLUED = ("let", "λ", "elim", "record", "open", "as", "by")


def breaks(text):
    """The spaces at which a text may be broken: where, how many brackets are open there, and how well it reads."""
    depth, quoted, found = 0, False, []
    for at, letter in enumerate(text):
        if letter == '"':
            quoted = not quoted
        elif quoted:
            continue
        elif letter in OPEN:
            depth += 1
        elif letter in CLOSE:
            depth -= 1
        elif letter == " " and text[:at].strip() and text[at + 1 : at + 2].strip():
            before = text[:at].rsplit(None, 1)[-1].lstrip(OPEN)
            word = text[at + 1 :].split(None, 1)[0]
            if before in GLUED or before in OPERATORS and before != "|":
                continue
            ended = before == "in" or before.endswith(";")
            kind = 0 if ended else 1 + OPERATORS.index(word) if word in OPERATORS else 1 + len(OPERATORS)
            found.append((at, depth, kind))
    return found


def pieces(line):
    """The lines that a line becomes."""
    indent = len(line) - len(line.lstrip())
    deeper = indent + (0 if line.lstrip().split(None, 1)[0] in OPERATORS else 4)
    out = []
    head, equals, body = line.partition(" = ")
    if equals and all(head.count(a) == head.count(b) for a, b in zip(OPEN, CLOSE)) and "let " not in head:
        out.append(head + " =")
        line = " " * deeper + body
    while len(line) > LIMIT:
        least = (len(line) - len(line.lstrip())) + 30
        fitting = [(depth, kind, -at) for at, depth, kind in breaks(line) if least <= at <= LIMIT]
        if not fitting:
            break
        shallow = min(fitting)[0]
        # Among the breaks inside the fewest brackets: before the loosest operator, as far right as possible.
        at = -min((kind, where) for depth, kind, where in fitting if depth == shallow)[1]
        out.append(line[:at])
        line = " " * deeper + line[at + 1 :]
    return [*out, line]


def is_kept(line):
    return len(line) <= LIMIT or line.lstrip().startswith(("use ", "pub use ", "--"))


def main(words):
    long = 0
    for path in sorted(ROOT.glob("crates/*/proofs/**/*.antt")):
        old = path.read_text()
        lines = []
        for number, line in enumerate(old.split("\n"), 1):
            new = [line] if is_kept(line) else pieces(line)
            lines += new
            over = [part for part in new if not is_kept(part)]
            if words and not is_kept(line) or over:
                long += 1
                print(f"{path.relative_to(ROOT)}:{number}: {len(line)} columns")
        if not words and "\n".join(lines) != old:
            path.write_text("\n".join(lines))
    print(f"{long} lines of proofs are too long")
    return 1 if long else 0


if __name__ == "__main__":
    sys.exit(main(sys.argv[1:]))
