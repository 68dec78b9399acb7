"""Fails a run of pytest in which a file has too few tests: fewer than its line `LEAST = N` says.

This is not so for a file whose tests lack a tool that they need (`lack` in common.py).
"""
import collections
import pathlib
import re
import sys

import pytest

sys.dont_write_bytecode = True
import common

ran, lacking = collections.Counter(), set()


def pytest_collectreport(report):
    if report.skipped and "lacking: " in str(report.longrepr):
        lacking.add(report.nodeid.partition("::")[0])


def pytest_runtest_logreport(report):
    pytest_collectreport(report)
    ran[report.nodeid.partition("::")[0]] += report.failed or (report.passed and report.when == "call")


def pytest_sessionfinish(session):
    """Fails a run of whole files if one has too few tests."""
    words = session.config.args
    if hasattr(session.config, "workerinput") or session.config.option.keyword or any("::" in it for it in words):
        return
    for file in sorted({pathlib.Path(it).name for it in words} - lacking):
        least = re.search(r"(?m)^LEAST = (\d+)$", (common.HERE / file).read_text())
        if ran[file] < int(least[1]):
            print(f"FAILED {file}: {ran[file]} tests ran, and there are at least {least[1]}")
            session.exitstatus = 1
    # pytest has a status of its own for a run without a test.
    if session.exitstatus == pytest.ExitCode.NO_TESTS_COLLECTED and lacking:
        session.exitstatus = 0
