"""The names of tags, attributes, forms and languages, from `names.txt`."""
import pathlib
import re


def _read():
    tables = {kind: {} for kind in ("TAG", "AT", "FORM", "LANG")}
    for line in (pathlib.Path(__file__).parent / "names.txt").read_text().splitlines():
        if found := re.match(r"([0-9a-f]{4}) (DW_([A-Z]+)_\w+)$", line):
            tables[found[3]][int(found[1], 16)] = found[2]
    return tables


_TABLES = _read()


def name(kind, code):
    """The name of a code, or the code if it has none: name("TAG", 0x24) is DW_TAG_base_type."""
    return _TABLES[kind].get(code) or f"DW_{kind}_0x{code:x}"
