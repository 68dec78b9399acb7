#!/usr/bin/env python3
"""Compares the code on the pages crates/*/CALLING.md with the code that the tests compile.

Each part of a block of code, up to an empty line, must be in `src/` of a crate, most of them in `calling.rt` of
`dw_tests`.
It prints each part that is not, and ends with 'N passed, N failed, N skipped'.
"""
import re
import sys

sys.dont_write_bytecode = True
from common import TOP, tell

CRATES = TOP / "crates"
code = "\n".join(source.read_text() for source in CRATES.glob("*/src/**/*.rt"))
found, tried = [], 0
for page in sorted(CRATES.glob("*/CALLING.md")):
    blocks = re.findall(r"^```rust\n(.*?)^```$", page.read_text(), re.S | re.M)
    parts = [part.strip("\n") for block in blocks for part in block.split("\n\n")]
    tried += len(parts)
    for part in parts:
        if f"\n{part}\n" not in code:
            found.append(f"{page.relative_to(CRATES)}: this is in no source:\n{part}\n")
    if not parts:
        found.append(f"{page.relative_to(CRATES)}: no code")
sys.exit(tell(found, tried, 12))
