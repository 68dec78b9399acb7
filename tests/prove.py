#!/usr/bin/env python3
"""Runs `rt ci`, which here fails on edits of must-fail/ too that say nothing, and lets `make lib` take the libraries
that it proved.

`rt ci` leaves each library in out/ of its crate, but without the sum of the text that it was made from, so that
`rt lib` would prove all of them once more. This writes the sum where the text is the same as before the run. Libraries
that earlier runs left are removed first, unless they are all of this text: `rt ci` puts back what it found. No command
of `rt` does this, so the script takes the sum from the inside of `rt`.
"""
import importlib.machinery
import importlib.util
import os
import pathlib
import shutil
import subprocess
import sys

sys.dont_write_bytecode = True
from common import TOP


def loaded_rt():
    """Loads rt, whose functions list the crates and compute the sums."""
    path = shutil.which("rt") or sys.exit("rt is not installed")
    loader = importlib.machinery.SourceFileLoader("rt", os.path.realpath(path))
    module = importlib.util.module_from_spec(importlib.util.spec_from_loader("rt", loader))
    sys.modules["rt"] = module
    loader.exec_module(module)
    os.chdir(TOP)
    return module


def run_ci():
    """Runs `rt ci`, and returns its status: not 0 either where an edit of must-fail/ does not reach the prover."""
    command = ["rt", "ci", *sys.argv[1:]]
    with subprocess.Popen(command, stdout=subprocess.PIPE, stderr=subprocess.STDOUT, text=True, errors="replace") as it:
        bad = 0
        for line in it.stdout:
            print(line, end="", flush=True)
            bad += "bad must-fail edits" in line
    return it.returncode or bad


def main():
    rt = loaded_rt()
    libraries = [it for it in rt.rtlib.crates_below(str(TOP)) if not it.is_program and not it.is_static]
    before = {it.name: it.stamp() for it in libraries}
    if not all(it.is_built() for it in libraries):
        for it in libraries:
            shutil.rmtree(pathlib.Path(it.folder, "out/rlib"), ignore_errors=True)
    status = run_ci()
    for it in libraries:
        stamp = pathlib.Path(it.folder, "out/rlib/stamp")
        if status == 0 and os.path.isdir(it.rlib) and not stamp.exists() and it.stamp() == before[it.name]:
            stamp.write_text(before[it.name])
    return status


if __name__ == "__main__":
    sys.exit(main())
