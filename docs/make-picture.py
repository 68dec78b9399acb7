#!/usr/bin/env python3
"""Draws docs/verdict.svg: how a verdict is reached, with the crates of crates.txt and what flows from each to the next.

A crate is below those that it uses. What it does is the cell of the table in ARCHITECTURE.md, and the rules that it
checks are those of docs/rules.tsv.
"""
import pathlib
import textwrap
from xml.sax.saxutils import escape

TOP = pathlib.Path(__file__).resolve().parent.parent
# What a crate gives to those below it, and the groups of rules that it checks.
FLOWS = {
    "dw_elf": "six sections: slices of the file",
    "dw_forms": "numbers, tables, values",
    "dw_entries": "the trees of all units",
    "dw_links": "targets, texts, addresses",
    "dw_types": "the order by value, the sizes",
    "dw_image": "the image of sound sections",
    "dw_units": "counts, or the fault",
    "dw_cprint": "C declarations",
    "dw_report": "one text and its status",
    "dwv": "standard output, an exit status",
    "dwv_c": "the caller's memory",
}
GROUPS = {"dw_elf": "E", "dw_entries": "AUG", "dw_links": "KSR", "dw_types": "YCZ"}
PROGRAMS = ("dwv", "dwv_c")
WIDTH, BOX, HIGH, STEP, TOP_ROW = 940, 296, 60, 112, 84
# The middle of a crate that is alone in its row, or of the two of a row; that of the rules and their width; and where
# faults go down.
ALONE, PAIR, RULES, RULE, RAIL = 326, (166, 486), 766, 220, 910
STYLE = """text { font-family: sans-serif; font-size: 13px; fill: #1a1a1a; text-anchor: middle }
.name { font-weight: bold; font-size: 15px } .flow { font-style: italic; text-anchor: start }
.crate { fill: #eef3fb; stroke: #3b5b8c } .rule { fill: #fdf1ec; stroke: #a4502f } .verdict { stroke-width: 3 }
path { fill: none; stroke: #3b5b8c; stroke-width: 1.5; marker-end: url(#to) } #to { fill: #3b5b8c }
.fault { stroke: #a4502f; marker-end: url(#fault) } #fault { fill: #a4502f }"""


def used():
    """The crates that each crate of the programs uses, as crates.txt lists them, of those that something flows from."""
    lines = (line.partition(":") for line in (TOP / "crates.txt").read_text().splitlines())
    uses = {before.split()[0]: after.split() for before, _, after in lines}
    found = set(PROGRAMS)
    while more := {it for crate in found for it in uses[crate] if it in FLOWS} - found:
        found |= more
    return {crate: [it for it in uses[crate] if it in found] for crate in uses if crate in found}


def nearest(uses, crate):
    """The crates that a crate uses and no other one of them uses."""
    def below(it):
        return set(uses[it]).union(*map(below, uses[it]))
    return [it for it in uses[crate] if not any(it in below(other) for other in uses[crate])]


def rows(uses):
    """The crates of each row: a crate is below all that it uses. Those that check rules are on the right."""
    def depth(crate):
        return max((depth(it) + 1 for it in uses[crate]), default=0)
    last = max(map(depth, uses))
    return [sorted((it for it in uses if depth(it) == row), key=lambda it: it in GROUPS) for row in range(1 + last)]


def purposes():
    """What each crate does, from the table in ARCHITECTURE.md."""
    lines = (TOP / "docs/ARCHITECTURE.md").read_text().splitlines()
    cells = [line.split(" | ") for line in lines if line.startswith("| `dw")]
    found = {}
    for name, purpose, *_ in cells:
        found.setdefault(name.strip("| `"), purpose.replace("`", "").rstrip("| "))
    return found


def rules(groups):
    """The rules of some groups, from the first of each to the last."""
    codes = [line.split("\t")[0] for line in (TOP / "docs/rules.tsv").read_text().splitlines()[1:]]
    found = [[code for code in codes if code[0] == group] for group in groups]
    return ", ".join(", ".join(codes) if len(codes) < 3 else f"{codes[0]} to {codes[-1]}" for codes in found)


def text(x, y, said, kind=""):
    return f'<text x="{x}" y="{y}"{kind and f" class={kind!r}"}>{escape(said)}</text>'


def box(x, y, kind, name, said, width=BOX):
    """A box with a name and what is said below it, in one line or two. Its upper edge is at y."""
    yield f'<rect x="{x - width // 2}" y="{y}" width="{width}" height="{HIGH}" rx="6" class="{kind}"/>'
    lines = textwrap.wrap(said, width // 7)
    yield text(x, y + (18 if lines[1:] else 25), name, "name")
    yield from (text(x, y + (35 if lines[1:] else 45) + 17 * k, line) for k, line in enumerate(lines))


def arrow(points, kind=""):
    path = "L".join(f"{x},{y}" for x, y in points)
    return f'<path d="M{path}"{kind and f" class={kind!r}"}/>'


def picture():
    """The text of the picture."""
    uses, does = used(), purposes()
    table = rows(uses)
    at = {crate: (ALONE if len(row) == 1 else PAIR[k], TOP_ROW + STEP * number)
          for number, row in enumerate(table) for k, crate in enumerate(row)}
    verdict = at["dw_image"][1]
    high = TOP_ROW + STEP * len(table) + 10
    yield (f'<svg xmlns="http://www.w3.org/2000/svg" width="{WIDTH}" height="{high}" viewBox="0 0 {WIDTH} {high}" '
           'role="img" aria-labelledby="title">')
    yield '<title id="title">How a verdict is reached: the crates of dwv, and what flows from each to the next</title>'
    yield f"<style>{STYLE}</style>"
    for kind in ("to", "fault"):
        yield (f'<marker id="{kind}" viewBox="0 0 8 8" refX="8" refY="4" markerWidth="8" markerHeight="8" '
               'orient="auto"><polygon points="0,0 8,4 0,8"/></marker>')
    yield f'<rect width="{WIDTH}" height="{high}" fill="white"/>'
    file = at["dw_elf"][0]
    yield from (text(file, 34, "the bytes of a file", "name"), arrow([(file, 44), (file, TOP_ROW)]))
    for crate, (x, y) in at.items():
        for other in nearest(uses, crate):
            from_x, from_y = at[other]
            turn = y - 20
            path = [(from_x, from_y + HIGH), (from_x, turn), (x, turn), (x, y)]
            yield arrow(path if from_x != x else [path[0], path[-1]])
        yield from box(x, y, "crate verdict" if crate == "dw_image" else "crate", crate, does[crate])
        if crate in PROGRAMS:
            yield arrow([(x, y + HIGH), (x, y + HIGH + 28)])
        yield text(x + 10, y + HIGH + 20, FLOWS[crate], "flow")
        if crate in GROUPS:
            yield arrow([(x + BOX // 2, y + HIGH // 2), (RULES - RULE // 2, y + HIGH // 2)], "fault")
            yield from box(RULES, y, "rule", "violates", rules(GROUPS[crate]), RULE)
            yield arrow([(RULES + RULE // 2, y + HIGH // 2), (RAIL, y + HIGH // 2), (RAIL, verdict + HIGH // 2),
                         (RULES + RULE // 2, verdict + HIGH // 2)], "fault")
    yield from box(RULES, verdict, "rule verdict", "fault", "the first rule violated, and where", RULE)
    x, y = at["dw_report"]
    yield arrow([(RULES, verdict + HIGH), (RULES, y + HIGH // 2), (x + BOX // 2, y + HIGH // 2)], "fault")
    yield "</svg>"


def made():
    """The picture, as other scripts of this folder give the files that they write."""
    yield "docs/verdict.svg", lambda old: "".join(f"{line}\n" for line in picture())


if __name__ == "__main__":
    for path, make in made():
        (TOP / path).write_text(make(None))
