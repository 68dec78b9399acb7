"""The commands of this package: `dwv` by the library, and the scripts, which `make wheel` puts beside this file."""
import os
import pathlib
import re
import runpy
import sys
from typing import List

import dwv

SCRIPTS = pathlib.Path(__file__).parent / "scripts"
REQUESTS = {"check": dwv.CHECK, "show": dwv.SHOW, "types": dwv.TYPES, "size": dwv.SIZE}


def program() -> int:
    """Does what the program does. It returns the exit status."""
    try:
        status, text = _answer(sys.argv[1:])
        sys.stdout.buffer.write(text)
        sys.stdout.flush()
        return status
    except MemoryError:
        return _ended(4, "out of memory")
    except OSError:
        os.dup2(os.open(os.devnull, os.O_WRONLY), sys.stdout.fileno())
        return _ended(3, "writing failed")


def check() -> None:
    """dwv-check"""
    _script("check")


def explain() -> None:
    """dwv-explain"""
    _script("explain")


def c_header() -> None:
    """dwv-c-header"""
    _script("c-header")


def table() -> int:
    """dwv-table"""
    from dwv import saving
    return saving.main(sys.argv[1:])


def _answer(words: List[str]):
    """The exit status and the output for the words of a command line."""
    command, *rest = words or [""]
    ends = rest.index("--") if "--" in rest else len(rest)
    options = [word for word in rest[:ends] if word.startswith("-") and word != "-"]
    names = [word for word in rest[:ends] if word not in options] + rest[ends + 1 :]
    known = ([], ["--json"]) if command == "check" else ([],)
    is_text = not re.search("[\udc80-\udcff]", "".join(rest))
    if command not in REQUESTS or len(names) != 1 + (command == "size") or options not in known or not is_text:
        return _ended(2, "bad usage"), b""
    if command == "size" and not re.fullmatch("0x[0-9a-fA-F]{1,8}", names[1]):
        return _ended(2, "bad offset"), b""
    try:
        descriptor = os.open(names[0], os.O_RDONLY)
    except OSError:
        return _ended(3, "cannot open file"), b""
    try:
        with open(descriptor, "rb") as opened:
            file = opened.read()
    except OSError:
        return _ended(3, "reading failed"), b""
    request = dwv.CHECK_JSON if options else REQUESTS[command]
    return dwv.report(file, request, int(names[1], 16) if command == "size" else 0)


def _ended(status: int, line: str) -> int:
    print(f"dwv: {line}", file=sys.stderr)
    return status


def _script(name: str) -> None:
    """Runs a script with this package's `dwv`, if the variable DWV names no other."""
    if not SCRIPTS.exists():
        sys.exit("this package was made without the scripts: install the wheel that `make wheel` makes")
    os.environ.setdefault("DWV", str(pathlib.Path(sys.argv[0]).absolute().with_name("dwv")))
    runpy.run_path(str(SCRIPTS / name), run_name="__main__")
