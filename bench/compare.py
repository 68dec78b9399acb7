#!/usr/bin/env python3
"""Runs dwv and its peers on the smallest file of each rule, and writes which report it into docs/COMPARISON.md, and
there the list of the rules that none of them reports.

What each prints first is written into bench/out/reports.md.

A peer is left out if it is not installed. Eight nulls are added after the tree of each unit, because libdwarf passes
over a unit that is shorter; if dwv would report another rule, the file stays as docs/RULES.md has it. What a peer also
prints for the sound files of that page is no report.
"""
import datetime
import pathlib
import re
import shutil
import subprocess
import sys
import textwrap

sys.dont_write_bytecode = True
sys.path.insert(0, str(pathlib.Path(__file__).resolve().parent.parent / "tests"))
import common
import examples
import rows

PAGE, REPORTS = common.TOP / "docs/COMPARISON.md", common.TOP / "bench/out/reports.md"
SECONDS = 60

# A tool, the words for its version, and what is a report among the lines that it prints.
TOOLS = {
    "dwv check": (None, r"fault (.*)"),
    "llvm-dwarfdump --verify": ("--version", r"(?:error|warning|note): (?!Units\[)(.*)"),
    "dwarfdump -ka": ("-V", r"DWARF CHECK: (.*?) \*\*\*|ERROR:\s+(.*)"),
    "eu-elflint --gnu-ld": ("--version", r"^(?!No errors)(.+)"),
    "pahole": ("--version", r"^(?!libbpf:|struct|union|enum|\t|}|$)(.+)"),
}


def words_of(tool):
    """The program and its arguments."""
    program, *words = tool.split(" ")
    return [common.DWV if program == "dwv" else program, *words]


def version(tool):
    """The program, and the version that it prints."""
    program, *_ = words_of(tool)
    said = subprocess.run([program, TOOLS[tool][0]], capture_output=True, text=True)
    return f"{program} {re.search(r'(?:version |Version .|elfutils. |v)([0-9.]+)', said.stdout + said.stderr)[1]}"


def reports(tool, path):
    """The exit status of a tool on a file, or how it failed, and its reports."""
    try:
        ran = subprocess.run([*words_of(tool), path], capture_output=True, timeout=SECONDS)
    except subprocess.TimeoutExpired:
        return "no end", []
    if ran.returncode < 0:
        return "crash", []
    found = []
    for line in (ran.stdout + ran.stderr).decode(errors="replace").splitlines():
        if report := re.search(TOOLS[tool][1], line):
            found.append(next(group for group in report.groups() if group).strip().replace(str(path), "FILE"))
    return ran.returncode, found


def file_of(row, parts, nulls):
    """The file of a row, with so many nulls after the tree of each unit."""
    made = rows.made
    rows.made = lambda kind, items: made(kind, items + bytes(nulls) if kind else items)
    file, _ = next(row.files(parts))
    rows.made = made
    return file


def files():
    """Each row of docs/RULES.md with its file, padded if dwv reports the same rule of that. Sound rows come first."""
    table, parts = examples.read()
    with common.empty_folder() as folder:
        path = folder / "file"
        for row in sorted(table, key=lambda it: not it.name.startswith("sound")):
            wanted = [] if row.name.startswith("sound") else [row.name.split(",")[0]]
            padded = file_of(row, parts, 8)
            path.write_bytes(padded)
            _, found = reports("dwv check", path)
            yield row, padded if [it.split(" at ")[0] for it in found] == wanted else file_of(row, parts, 0)


def plain(report):
    """A report in a cell of a table, without the words that dwarfdump has around most."""
    report = re.sub(r"ERROR: Failure reading CU header or DIE, corrupt DWARF:|\.* Attempting to continue\.", "", report)
    return " ".join(re.sub(r"\bdwarf_init_path_dl fails exit dwarfdump:", "", report).replace("|", "/").split())


def compared(tools):
    """Two tables: which peer reports which rule, and the first report of each. Rules with one report share a row."""
    marks, said, counts = [], {}, dict.fromkeys(tools[1:], 0)
    usual_of = {tool: ({0}, set()) for tool in tools}
    with common.empty_folder() as folder:
        path = folder / "file"
        for row, file in files():
            path.write_bytes(file)
            rule, _, name = row.name.partition(" ")
            marks.append(f"|{rule}|{name}|")
            for tool in tools:
                status, found = reports(tool, path)
                statuses, usual = usual_of[tool]
                if rule.startswith("sound"):
                    statuses.add(status)
                    usual.update(found)
                    continue
                new = [report for report in found if report not in usual]
                if not new and status not in statuses:
                    new = [f"exit status {status}"] if isinstance(status, int) else []
                mark = status if isinstance(status, str) else "yes" if new else "no"
                if tool == "dwv check":
                    assert mark == "yes", row.name
                    continue
                counts[tool] += mark == "yes"
                marks[-1] += f"{mark}|"
                if new:
                    said.setdefault((tool.split(" ")[0], plain(new[0])), []).append(rule)
    marks = [mark for mark in marks if not mark.startswith("|sound")]
    return [
        f"|Rule|Name|{'|'.join(f'`{tool}`' for tool in tools[1:])}|",
        "|---|---|" + "---|" * len(tools[1:]),
        *marks,
        f"||yes, of {len(marks)} files|{'|'.join(map(str, counts.values()))}|",
    ], [
        "|Tool|What it prints|Rules|",
        "|---|---|---|",
        *(f"|`{tool}`|{text}|{', '.join(dict.fromkeys(rules))}|" for (tool, text), rules in said.items()),
    ]


def unreported(text):
    """The rules that no peer reports, by the page's table. A file is named if a peer reports another of its rule."""
    lines = [line.strip("|").split("|") for line in re.findall(r"(?m)^\|[A-Z]\d+\|.*$", text)]
    reported = {rule for rule, _, *marks in lines if "yes" in marks}
    names = dict.fromkeys(f"{rule} ({name.partition(', ')[2] or name})" if rule in reported else rule
                          for rule, name, *marks in lines if "yes" not in marks)
    runs = []
    for name in names:
        last = re.fullmatch(r"([A-Z])(\d+)", runs[-1][-1]) if runs else None
        if last and name == f"{last[1]}{int(last[2]) + 1}":
            runs[-1].append(name)
        else:
            runs.append([name])
    return ", ".join(f"{run[0]} to {run[-1]}" if run[2:] else ", ".join(run) for run in runs)


def with_list(text):
    """The page with its list of the rules that no peer reports."""
    begin, end = r"  <!-- list made by bench/compare.py -->\n", r"  <!-- end -->\n"
    lines = textwrap.wrap(f"{unreported(text)}.", 120, initial_indent="  ", subsequent_indent="  ")
    return re.sub(f"(?s)({begin}).*?({end})", lambda it: "\n".join([it[1] + lines[0], *lines[1:], it[2]]), text)


def main():
    common.build()
    tools = [tool for tool in TOOLS if tool == "dwv check" or shutil.which(tool.split(" ")[0])]
    absent = [tool.split(" ")[0] for tool in TOOLS if tool not in tools]
    about = f"{datetime.date.today()}: {', '.join(version(tool) for tool in tools if tool != 'dwv check')}."
    if absent:
        about += f" Not installed: {', '.join(absent)}."
    marks, said = compared(tools)
    common.rewrite(PAGE, [about, "", *marks])
    PAGE.write_text(with_list(PAGE.read_text()))
    REPORTS.parent.mkdir(exist_ok=True)
    REPORTS.write_text("".join(f"{line}\n" for line in [about, "", *said]))


if __name__ == "__main__":
    main()
