"""Compares the version in each file that has one with the file VERSION."""
import re

import pytest
from common import TOP

LEAST = 11
VERSION = (TOP / "VERSION").read_text().strip()
PLACES = [
    ("include/dwv.h", r'#define DWV_VERSION "(.*)"'),
    ("contrib/dwv.pc", r"(?m)^Version: (.*)$"),
    ("contrib/dwv_tools/__init__.py", r'VERSION = "(.*)"'),
    ("python/dwv/__init__.py", r'__version__ = "(.*)"'),
    ("rust/dwv/Cargo.toml", r'(?m)^version = "(.*)"$'),
    ("rust/dwv/Cargo.lock", r'name = "dwv"\nversion = "(.*)"'),
    ("rust/gimli/Cargo.toml", r'(?m)^version = "(.*)"$'),
    ("docs/dwv.1", r'\.Os "dwv (.*)"'),
    ("docs/dwv-addr.1", r'\.Os "dwv (.*)"'),
    ("CHANGELOG.md", r"(?m)^## (\d.*)$"),
]


def found(path, pattern):
    return re.search(pattern, (TOP / path).read_text())[1]


@pytest.mark.parametrize("path, pattern", PLACES, ids=[path for path, _ in PLACES])
def test_version(path, pattern):
    assert found(path, pattern) == VERSION


@pytest.mark.parametrize("path, pattern", [
    ("Makefile", r"-soname,libdwv\.so\.(\d+)"),
    ("python/pyproject.toml", r'"libdwv\.so\.(\d+)"'),
])
def test_name_of_the_library(path, pattern):
    assert found(path, pattern) == VERSION.partition(".")[0]
