"""Runs the integrations of contrib/integrations whose tools are installed, on a sound file and on a broken one."""
import glob
import json
import os
import re
import shutil
import socket
import subprocess
import time
import urllib.request

import common
import pytest
from common import BROKEN, DWV, SAMPLE, TOP, run

LEAST = 3
HERE = TOP / "contrib/integrations"
C = "struct point { int x, y; } at; int main(void) { return at.x; }\n"
G1 = "fault G1 UndeclaredCode at .debug_info+0x0000000f attribute 0x0"
EXPLAINED = "G1 UndeclaredCode"
both = pytest.mark.parametrize("is_sound", [True, False], ids=["sound", "broken"])


@pytest.fixture(scope="module", autouse=True)
def path(tmp_path_factory):
    """The program, the scripts and the Python that they need are first on PATH."""
    common.build()
    folder = tmp_path_factory.mktemp("bin")
    for name, to in (("dwv", DWV), ("dwv-check", TOP / "contrib/check"), ("dwv-explain", TOP / "contrib/explain"),
                     ("dh_dwv", HERE / "debian/dh_dwv"), ("python3", shutil.which(common.PYTHON))):
        (folder / name).symlink_to(to)
    with pytest.MonkeyPatch.context() as patch:
        patch.setenv("PATH", f"{folder}:{os.environ['PATH']}")
        yield


@pytest.fixture
def file(tmp_path, is_sound):
    """A shared library that gcc makes, or the broken sample."""
    path = tmp_path / "lib.so"
    if is_sound:
        (tmp_path / "lib.c").write_text(C)
        assert common.compiled(path, "gcc -g -shared -fPIC", tmp_path / "lib.c")
    else:
        path.write_bytes(BROKEN)
    return path


def ends(is_sound, status, *texts):
    """A build of a sound file passes; of the broken one it fails, and the explanation is in what is printed."""
    said = "".join(texts)
    assert (status == 0, EXPLAINED in said) == (is_sound, not is_sound), said


@pytest.fixture
def places(tmp_path):
    """The folders of a symbol server: for uploads, for what is served, and for what is rejected."""
    places = [tmp_path / name for name in ("incoming", "served", "rejected")]
    for place in places:
        place.mkdir()
    return places


def admit(places):
    for it in places[0].iterdir():
        os.utime(it, (1e9, 1e9))
    return run(HERE / "admit/dwv-admit", *places, text=True)


def test_admit(places):
    """A sound upload is served, and a broken one rejected with the reason."""
    shutil.copy(SAMPLE, places[0] / "sound")
    (places[0] / "broken").write_bytes(BROKEN)
    status, text, errors = admit(places)
    assert (status, sorted(text.splitlines()), errors) == (0, ["admitted sound", f"rejected broken: {G1}"], "")
    found = [sorted(it.name for it in place.iterdir() if not it.name.startswith(".")) for place in places]
    assert found == [[], ["sound"], ["broken", "broken.why"]]
    assert run(HERE / "admit/dwv-admit", text=True)[::2] == (2, "usage: dwv-admit INCOMING SERVED REJECTED\n")


def test_debuginfod(tmp_path, places):
    """debuginfod serves a sound upload by its build ID, and not one whose abbreviations are lost."""
    common.needs("debuginfod", "gcc", "objcopy")
    (tmp_path / "lib.c").write_text(C)
    for name, byte in (("sound", "01"), ("broken", "02")):
        flags = f"-g -shared -fPIC -Wl,--build-id=0x{byte * 20}"
        assert common.compiled(places[0] / name, f"gcc {flags}", tmp_path / "lib.c")
    run("objcopy", "--remove-section=.debug_abbrev", places[0] / "broken")
    assert sorted(it.split(":")[0] for it in admit(places)[1].splitlines()) == ["admitted sound", "rejected broken"]
    with socket.socket() as it:
        it.bind(("127.0.0.1", 0))
        port = it.getsockname()[1]

    def get(byte):
        """The file with a build ID, or the error."""
        try:
            with urllib.request.urlopen(f"http://127.0.0.1:{port}/buildid/{byte * 20}/debuginfo") as page:
                return page.read()
        except OSError as error:
            return str(error)

    words = ["debuginfod", "-F", "-p", str(port), "-d", ":memory:", "-t", "1", places[1]]
    with subprocess.Popen(words, stdout=subprocess.DEVNULL, stderr=subprocess.DEVNULL) as server:
        try:
            until = time.monotonic() + 120
            while isinstance(sound := get("01"), str) and time.monotonic() < until:
                time.sleep(0.2)
            broken = get("02")
        finally:
            server.terminate()
    is_same = sound == (places[1] / "sound").read_bytes()
    assert (is_same, broken) == (True, "HTTP Error 404: Not Found")


@both
def test_debhelper(tmp_path, file, is_sound):
    """A package of Debian that installs the file, by debhelper with the addon."""
    common.needs("dh", "gcc")
    debian, addon = tmp_path / "source/debian", tmp_path / "perl/Debian/Debhelper/Sequence"
    for folder in (debian, addon):
        folder.mkdir(parents=True)
    (addon / "dwv.pm").symlink_to(HERE / "debian/dwv.pm")
    shutil.copy(file, debian.parent)
    (debian / "control").write_text(
        "Source: sample\nMaintainer: nobody <nobody@localhost>\nBuild-Depends: debhelper-compat (= 13)\n"
        "Rules-Requires-Root: no\n\nPackage: sample\nArchitecture: any\nDescription: sample\n")
    (debian / "changelog").write_text(
        "sample (1) unstable; urgency=low\n\n  * First.\n\n"
        " -- nobody <nobody@localhost>  Thu, 26 Nov 2026 00:00:00 +0000\n")
    (debian / "sample.install").write_text("lib.so usr/lib/sample\n")
    (debian / "rules").write_text("#!/usr/bin/make -f\n%:\n\tdh $@ --with dwv\n")
    (debian / "rules").chmod(0o755)
    status, text, errors = run("debian/rules", "binary", text=True, timeout=600, cwd=debian.parent, env={
        **os.environ, "PERL5LIB": f"{tmp_path}/perl", "DWV": str(DWV)})
    ends(is_sound, status, text, errors)
    assert len(list(tmp_path.glob("sample_1_*.deb"))) == is_sound


@both
def test_rpm(tmp_path, file, is_sound):
    """A package of RPM that installs the file, and the script alone."""
    status, text, errors = run(HERE / "rpm/brp-dwv", text=True, env={**os.environ, "RPM_BUILD_ROOT": str(tmp_path)})
    ends(is_sound, status, text, errors)
    common.needs("rpmbuild")
    (tmp_path / "sample.spec").write_text(
        "Name: sample\nVersion: 1\nRelease: 1\nSummary: sample\nLicense: none\n%description\nsample\n"
        f"%global __os_install_post {HERE}/rpm/brp-dwv %{{__os_install_post}}\n"
        f"%install\nmkdir -p %{{buildroot}}/opt\ncp {file} %{{buildroot}}/opt\n%files\n/opt/lib.so\n")
    status, text, errors = run("rpmbuild", "-bb", "--define", f"_topdir {tmp_path}/rpm", tmp_path / "sample.spec",
                               text=True)
    ends(is_sound, status, text, errors)
    assert len(list(tmp_path.glob("rpm/RPMS/*/*.rpm"))) == is_sound


@both
def test_cmake(tmp_path, file, is_sound):
    """A build of a program. A script copies the broken file in its place."""
    common.needs("cmake", "gcc")
    (tmp_path / "main.c").write_text(C)
    breaks = "" if is_sound else f"add_custom_command(TARGET app POST_BUILD COMMAND cp {file} $<TARGET_FILE:app>)\n"
    (tmp_path / "CMakeLists.txt").write_text(
        f"cmake_minimum_required(VERSION 3.10)\nproject(p C)\nset(CMAKE_BUILD_TYPE Debug)\n"
        f"include({HERE}/cmake/DwvVerify.cmake)\nadd_executable(app main.c)\n{breaks}dwv_verify(app)\n")
    run("cmake", "-S", tmp_path, "-B", tmp_path / "build")
    ends(is_sound, *run("cmake", "--build", tmp_path / "build", text=True))


@both
def test_meson(tmp_path, file, is_sound):
    """A build of a program, or of a copy of the broken file."""
    common.needs("meson", "gcc")
    (tmp_path / "main.c").write_text(C)
    made = ("executable('app', 'main.c')" if is_sound else
            "custom_target('app', input: 'lib.so', output: 'app', command: ['cp', '@INPUT@', '@OUTPUT@'])")
    (tmp_path / "meson.build").write_text(
        f"project('p', 'c')\napp = {made}\n{(HERE / 'meson/meson.build').read_text()}")
    assert run("meson", "setup", tmp_path / "build", tmp_path)[0] == 0
    ends(is_sound, *run("meson", "compile", "-C", tmp_path / "build", text=True))


@both
def test_gdb(file, is_sound):
    common.needs("gdb", "gcc")
    words = ["gdb", "-q", "-batch", "-nx", "-x", HERE / "gdb/dwv-gdb.py"]
    said = "".join(run(*words, "-ex", f"dwv-file {file}", "-ex", "dwv-check", text=True)[1:])
    assert ("dwv: sound: " in said, f"{file}: sound: " in said, f"not loaded: {G1}" in said) == (
        is_sound, is_sound, not is_sound)
    said = "".join(run(*words, "-ex", "set dwv-auto on", "-ex", f"file {file}", text=True)[1:])
    assert (f"dwv: {file}: {G1}" in said) != is_sound


@both
def test_lldb(file, is_sound):
    common.needs("lldb", "gcc")
    # Debian's lldb does not find its own module.
    modules = glob.glob("/usr/lib/llvm-*/lib/python3*/*-packages")
    said = "".join(run("lldb", "-b", "-x", "-o", f"command script import {HERE}/gdb/dwv_lldb.py",
                       "-o", f"dwv-target {file}", "-o", "dwv-check", text=True,
                       env={**os.environ, "PYTHONPATH": ":".join(modules)})[1:])
    assert (f"{file}: sound: " in said, f"not loaded: {G1}" in said) == (is_sound, not is_sound), said


@both
def test_action(tmp_path, file, is_sound):
    """The step of the action, in the shell in which the runner of GitHub runs it."""
    text = (HERE / "ci/action.yml").read_text()
    step = re.search(r"(?m)^( +)run: \|\n((?:\1 .*\n)+)", text)[2]
    (tmp_path / "step.sh").write_text("".join(f"{line.strip()}\n" for line in step.splitlines()))
    env = {**os.environ, "PATHS": str(file), "OPTIONS": "--jobs 1", "GITHUB_STEP_SUMMARY": f"{tmp_path}/summary"}
    status, said, errors = run("bash", "--noprofile", "--norc", "-eo", "pipefail", "step.sh", text=True, cwd=tmp_path,
                               env=env)
    assert (status, errors) == (0 if is_sound else 1, "")
    assert (tmp_path / "summary").read_text() == said
    found = json.loads((tmp_path / "dwv.sarif").read_text())["runs"][0]["results"]
    assert [it["ruleId"] for it in found] == ([] if is_sound else ["G1"])
    assert ("<failure" in (tmp_path / "dwv.xml").read_text()) != is_sound


@both
def test_pre_commit(tmp_path, file, is_sound, monkeypatch):
    """A commit of the file, with the hook from a repository."""
    common.needs("pre-commit", "git", "gcc")
    for name in ("GIT_AUTHOR_NAME", "GIT_AUTHOR_EMAIL", "GIT_COMMITTER_NAME", "GIT_COMMITTER_EMAIL"):
        monkeypatch.setenv(name, "nobody")
    monkeypatch.setenv("PRE_COMMIT_HOME", str(tmp_path / "home"))
    hooks, project = tmp_path / "hooks", tmp_path / "project"
    for folder in (hooks, project):
        folder.mkdir()
        run("git", "init", "-q", folder)
    shutil.copy(HERE / "pre-commit/pre-commit-hooks.yaml", hooks / ".pre-commit-hooks.yaml")
    run("git", "add", ".", cwd=hooks)
    run("git", "commit", "-qm", "hooks", cwd=hooks)
    revision = run("git", "rev-parse", "HEAD", cwd=hooks, text=True)[1].strip()
    (project / ".pre-commit-config.yaml").write_text(
        f"repos:\n- repo: {hooks}\n  rev: {revision}\n  hooks:\n  - id: dwv\n    files: \\.so$\n")
    shutil.copy(file, project)
    run("git", "add", ".", cwd=project)
    status, said, errors = run("pre-commit", "run", text=True, cwd=project)
    assert (status == 0, "G1 " in said) == (is_sound, not is_sound), said + errors
