"""Makes each package by packaging/package.py, and tries what is in it. `make lib` must have built the library."""
import hashlib
import os
import subprocess
import sys
import tarfile

import common
import pytest
from common import BROKEN, SAMPLE, TOP, run

LEAST = 2
SOUND = "sound: 1 units, 2 entries, 1 types\n"


@pytest.fixture(scope="module")
def made(tmp_path_factory):
    """The paths of the packages of a kind. The second run must give the same bytes as the first."""
    if not (TOP / "out/lib/libdwv.a").exists():
        common.lack("the C library is not built (make lib)")
    common.build()

    def make(kind):
        twice = []
        for _ in range(2):
            words = TOP / "packaging/package.py", kind, tmp_path_factory.mktemp("packages")
            said = subprocess.run(words, check=True, stdout=subprocess.PIPE, text=True).stdout
            twice.append([common.pathlib.Path(line) for line in said.splitlines()])
        for first, second in zip(*twice):
            assert first.read_bytes() == second.read_bytes(), f"{first.name} differs from one run to the next"
        return twice[0]
    return make


def sealed(base, build):
    """The checksums of BUILD are those of the files, and it names each file but itself."""
    lines = [line.split("  ") for line in build.read_text().partition("\n\n")[2].splitlines()]
    files = [str(it.relative_to(base)) for it in base.rglob("*") if it.is_file() and not it.is_symlink()]
    assert sorted(name for _, name in lines) == sorted(set(files) - {str(build.relative_to(base))})
    for wanted, name in lines:
        assert hashlib.sha256((base / name).read_bytes()).hexdigest() == wanted, name


def trial(base, folder):
    """The program and the scripts below a folder, with nothing else on PATH but Python."""
    (folder / "broken").write_bytes(BROKEN)
    env = {"PATH": f"{base}/bin:{os.path.dirname(sys.executable)}"}
    assert run(base / "bin/dwv", "check", SAMPLE, text=True, env=env) == (0, SOUND, "")
    for script in ("dwv-check", "dwv-explain"):
        assert run(base / "bin" / script, folder / "broken", env=env)[0] == 1


def test_tarball(made, tmp_path):
    path, = made("tarball")
    with tarfile.open(path) as tar:
        tar.extractall(tmp_path)
    base = tmp_path / path.name.removesuffix(".tar.xz")
    sealed(base, base / "share/doc/dwv/BUILD")
    trial(base, tmp_path)


def test_deb(made, tmp_path):
    common.needs("dpkg-deb")
    paths = made("deb")
    for path in paths:
        name = path.name.partition("_")[0]
        root = tmp_path / name
        assert run("dpkg-deb", "-x", path, root)[0] == 0
        sealed(root, root / "usr/share/doc" / name / "BUILD")
    trial(tmp_path / "dwv/usr", tmp_path)
    common.needs("lintian")
    assert run("lintian", "--allow-root", "--fail-on", "error,warning", *paths, text=True, timeout=600)[:2] == (0, "")


def test_wheel(made, tmp_path):
    for module in ("setuptools", "wheel", "ensurepip"):
        pytest.importorskip(module)
    path, = made("wheel")
    bin = tmp_path / "venv/bin"
    subprocess.run([sys.executable, "-m", "venv", bin.parent], check=True)
    subprocess.run([bin / "pip", "install", "-q", "--no-index", "--no-compile", path], check=True)
    package, = bin.parent.glob("lib/python3*/site-packages/dwv")
    sealed(package, package / "BUILD")
    trial(bin.parent, tmp_path)
    status, said, _ = run(TOP / "tests/endings.py", env={**os.environ, "DWV": f"{bin}/dwv"}, timeout=600)
    assert status == 0, said
    program = "import dwv, sys; print(dwv.check(sys.argv[1]))"
    assert run(bin / "python", "-c", program, SAMPLE, text=True, cwd=tmp_path)[1:] == (SOUND, "")
