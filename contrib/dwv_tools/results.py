"""The results of many files: a row for each, the logs that keep them, and the table that is printed."""
import collections
import json
import os
import shutil
import time

from dwv_tools import every, explaining, finding, preparing
from dwv_tools.running import IS_SOUND, SOUND, UNREAD, plain

# What is said of a file that is not checked: it is an ELF file without debugging information, or another file.
WITHOUT, OTHER = "without debugging information", "another file"
NO_INFO = "E9 NoInfo"


def left_out(path, verdict):
    """The row of a file that is not checked."""
    return {"path": path, "verdict": verdict}


def unread(path, error, size=0):
    """The row of a file that could not be read, or on which there is no verdict."""
    return {"path": path, "verdict": UNREAD, "size": size, "sound": None, "line": error, "note": ""}


def row(path, verdict):
    """The row of a verdict: the keys of `dwv check --json`, and the path, the size, the line and what was prepared."""
    made = {"path": path, "verdict": verdict.what, "size": verdict.size, "sound": None,
            "line": "; ".join(verdict.lines), "note": verdict.note}
    if verdict.what == IS_SOUND:
        counts = map(int, SOUND.match(made["line"]).groups())
        made |= {"sound": True, **dict(zip(("units", "entries", "types"), counts))}
    elif verdict.status == 1:
        rule, name, number, section, at, attribute = finding.LINE.fullmatch(verdict.lines[0]).groups()
        place = ("file", int(number), 0) if number else (section, int(at, 16), int(attribute, 16))
        made |= {"sound": False, "rule": rule, "name": name}
        made |= dict(zip(("section", "at", "attribute"), place))
    return made


def changed(path):
    """What changes if a file is written: when that was."""
    try:
        return os.stat(path).st_mtime_ns
    except (OSError, ValueError):
        return None


class Checker:
    """Checks files as the words of the command line say."""

    def __init__(self, dwv, words, limits):
        self.dwv, self.words, self.limits = dwv, words, limits

    def __call__(self, path):
        """The row of a file."""
        words, begin = self.words, time.monotonic()
        try:
            prepared = preparing.checked(self.dwv, path, words.debuginfod, self.limits, not words.unprepared)
            with prepared as (verdict, at):
                made = row(path, verdict) | {"changed": changed(path)}
                if words.out:
                    shutil.copyfile(at, words.out)
                if verdict.status == 1:
                    if words.every or words.allow:
                        made |= self.units(at)
                    if words.explain:
                        made["explanation"] = explaining.lines(verdict, at, self.limits)[len(verdict.lines) :]
                return made | {"seconds": round(time.monotonic() - begin, 3)}
        except OSError as error:
            return unread(path, error.strerror or str(error))

    def units(self, at):
        """The faults of all units of what was checked."""
        found = every.faults(self.dwv, at, self.limits)
        faults = [it._asdict() for it in found.faults]
        is_allowed = every.is_allowed(found, self.words.allow)
        return {"faults": faults, "units": found.units, "told": every.told(found), "allowed": is_allowed,
                "lines": list(every.lines(found))}


def is_failure(it, ignored):
    """Whether a row makes a run fail."""
    return it.get("sound") is False and not it.get("allowed") and it["rule"] not in ignored


def status_of(rows, ignored):
    """The exit status of a run: that of the worst row."""
    if any(it["verdict"] == UNREAD for it in rows):
        return 3
    return 1 if any(is_failure(it, ignored) for it in rows) else 0


def lines(it):
    """The lines that are printed of a row."""
    more = f"; {it['told']}" if "told" in it else ""
    allowed = " (allowed)" if it.get("allowed") else ""
    yield f"{plain(it['path'])}: {plain(it['line'])}{plain(it['note'])}{more}{allowed}"
    yield from (f"    {line}".rstrip() for line in [*it.get("lines", []), *it.get("explanation", [])])


def table(rows, ignored):
    """The lines of a table of the verdicts, and of the files that are not sound."""
    checked = [it for it in rows if it["verdict"] not in (WITHOUT, OTHER, NO_INFO)]

    def title(it):
        allowed = "allowed" if it.get("allowed") else "ignored" if it.get("rule") in ignored else ""
        return f"{it['verdict']}{allowed and f' ({allowed})'}"

    counts = collections.Counter(map(title, checked))
    for what, count in sorted(counts.items(), key=lambda it: (it[0] != IS_SOUND, it[0] == UNREAD, -it[1], it[0])):
        yield f"{count:8}  {what}"
    listed = [it for it in checked if it["verdict"] == UNREAD or is_failure(it, ignored)]
    for it in sorted(listed, key=lambda it: it["path"]):
        yield f"\n{plain(it['path'])}\n  {plain(it['line'])}{plain(it['note'])}"
        yield from [f"  {it['told']}"] if "told" in it else []
        yield from (f"    {line}".rstrip() for line in [*it.get("lines", []), *it.get("explanation", [])])
    if counts:
        yield ""
    lacking = sum(it["verdict"] in (WITHOUT, NO_INFO) for it in rows)
    others = sum(it["verdict"] == OTHER for it in rows)
    count = sum("changed" in it for it in checked)
    yield f"{count} files with debugging information, {lacking} ELF files without, {others} other files"


def read_log(path):
    """The rows of a log by their paths. A line that is no row, as one that was cut, is left out."""
    rows = {}
    with open(path, encoding="utf-8", errors="replace") as log:
        for line in log:
            try:
                it = json.loads(line)
                is_checked = it["verdict"] not in (WITHOUT, OTHER)
                rows[it["path"]] = {"sound": None, **it, "line": it["line"]} if is_checked else it
            except (ValueError, KeyError, TypeError):
                continue
    return rows


class Log:
    """The log of a run: a row in JSON on each line, written as soon as it is there."""

    def __init__(self, path, is_resumed):
        self.file = open(path, "a+" if is_resumed else "w", encoding="utf-8") if path else None
        if is_resumed and self.file.tell():
            # The last line may have been cut.
            self.file.write("\n")

    def add(self, it):
        if self.file:
            print(json.dumps(it), file=self.file, flush=True)
