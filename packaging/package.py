#!/usr/bin/env python3
"""Makes packages of what `make` and `make lib` built: package.py tarball|deb|wheel FOLDER

A tarball has the program, both libraries, the header, the manual pages, the completions and the scripts, below one
folder that can be unpacked anywhere. For Debian and Ubuntu there are three files: dwv (the program and the scripts),
libdwv0 and libdwv-dev; they need `dpkg-deb`. A wheel is for `pip`, has the library in it, and needs the modules
setuptools and wheel. The same build gives the same bytes each time.

It prints the path of each package. It proves nothing: what is proved of the program is said in BUILD, which is in each
package with the toolchain, the commit and the checksums.
"""
import argparse
import email.utils
import gzip
import hashlib
import lzma
import os
import pathlib
import re
import shutil
import subprocess
import sys
import tarfile
import tempfile
import textwrap
import time

TOP = pathlib.Path(__file__).resolve().parents[1]
VERSION = (TOP / "VERSION").read_text().strip()
MAJOR = VERSION.partition(".")[0]
LIBRARY = TOP / f"out/lib/libdwv.so.{MAJOR}"
NEEDED = [TOP / "crates/dwv/out/dwv", LIBRARY, TOP / "out/lib/libdwv.a", TOP / "out/include/dwv.h"]
# The crates of the toolchain that are linked into the program.
PORTED = ("byteorder", "memchr", "indexmap", "serde_json", "clap", "thiserror", "ryu")


def said(*words, cwd=TOP):
    """What a command prints, or nothing if it fails."""
    ran = subprocess.run(words, cwd=cwd, stdout=subprocess.PIPE, stderr=subprocess.DEVNULL, text=True)
    return ran.stdout.strip() if ran.returncode == 0 else ""


def moment():
    """The time of the last commit in seconds, which is that of every file in a package."""
    return int(os.environ.get("SOURCE_DATE_EPOCH") or said("git", "log", "-1", "--format=%ct") or 0)


def staged(root, prefix):
    """Installs all into a folder as below a prefix, with the documents and the licences of what is linked."""
    subprocess.run(["make", "--no-print-directory", "install", f"DESTDIR={root}", f"PREFIX={prefix}"], cwd=TOP,
                   check=True, stdout=subprocess.DEVNULL)
    base = root / prefix.lstrip("/")
    doc = base / "share/doc/dwv"
    pages = [f"docs/{it.name}" for kind in ("md", "svg", "tsv") for it in TOP.glob(f"docs/*.{kind}")]
    for page in ["README.md", "CHANGELOG.md", "CONTRIBUTING.md", "SECURITY.md", *pages]:
        target = doc / page
        target.parent.mkdir(exist_ok=True, parents=True)
        shutil.copy(TOP / page, target)
    subprocess.run([TOP / "docs/make-indexes.py", doc / "docs"], check=True, stdout=subprocess.DEVNULL)
    kit = pathlib.Path(os.path.realpath(shutil.which("rt") or "/")).parents[1]
    for crate in PORTED:
        for licence in sorted(kit.glob(f"rattle/{crate}/LICENSE*")):
            (doc / "licences").mkdir(exist_ok=True)
            shutil.copy(licence, doc / "licences" / f"{crate}-{licence.name}")
    return base


def seal(base, doc):
    """Sets the permissions of all files below a folder, and writes BUILD, which has their checksums, into another."""
    files = sorted(it for it in base.rglob("*") if it.is_file() and not it.is_symlink())
    sums = [f"{hashlib.sha256(it.read_bytes()).hexdigest()}  {it.relative_to(base)}" for it in files]
    built = [f"dwv {VERSION}", f"commit {said('git', 'rev-parse', 'HEAD')}", f"toolchain {said('rt', 'version')}", ""]
    (doc / "BUILD").write_text("\n".join(built + sums) + "\n")
    for it in base.rglob("*"):
        if not it.is_symlink():
            it.chmod(0o755 if it.is_dir() or os.access(it, os.X_OK) else 0o644)


def plain(member):
    """A member of a tarball without what differs from one machine to another."""
    member.uid = member.gid = 0
    member.uname = member.gname = "root"
    member.mtime = moment()
    return member


def tarball(folder, work):
    name = f"dwv-{VERSION}-x86_64-linux"
    base = staged(work, f"/{name}")
    seal(base, base / "share/doc/dwv")
    path = folder / f"{name}.tar.xz"
    with lzma.open(path, "wb", preset=9) as packed, tarfile.open(fileobj=packed, mode="w") as tar:
        tar.add(base, name, recursive=False, filter=plain)
        for it in sorted(base.rglob("*")):
            tar.add(it, f"{name}/{it.relative_to(base)}", recursive=False, filter=plain)
    return [path]


SONAME = f"libdwv.so.{MAJOR}"
LIBRARIES = "lib/x86_64-linux-gnu"
# Debian's packages: the section, the other fields, the first line of the description and what this package has. The
# first has all files that no other one has.
DEBS = {
    "dwv": ("devel", f"Recommends: libdwv{MAJOR} (= {VERSION}), python3, python3-pyelftools\n"
            "Suggests: binutils, dwz, python3-numpy, python3-zstandard\n"
            "Provides: dh-sequence-dwv\n", "verify DWARF debugging information",
            "the program, its scripts in Python, and an addon of debhelper"),
    f"libdwv{MAJOR}": ("libs", "", "verify DWARF debugging information, C library", "the shared library"),
    "libdwv-dev": ("libdevel", f"Depends: libdwv{MAJOR} (= {VERSION})\n",
                   "verify DWARF debugging information, files for C",
                   "the header, the static library and a file for pkg-config"),
}
# Links by which debhelper finds its addon.
ADDON = {"bin/dh_dwv": "../share/dwv/integrations/debian/dh_dwv",
         "share/perl5/Debian/Debhelper/Sequence/dwv.pm": "../../../../dwv/integrations/debian/dwv.pm",
         "share/man/man1/dh_dwv.1.gz": "dwv.1.gz"}
FILES = {f"libdwv{MAJOR}": [f"{LIBRARIES}/{SONAME}"],
         "libdwv-dev": ["include", f"{LIBRARIES}/libdwv.a", f"{LIBRARIES}/libdwv.so", f"{LIBRARIES}/pkgconfig"]}
CONTROL = f"""Package: {{name}}
Source: dwv
Version: {VERSION}
Architecture: amd64
Maintainer: {{maintainer}}
Installed-Size: {{size}}
{{fields}}Section: {{section}}
Priority: optional
Description: {{line}}
 dwv verifies the DWARF debugging information of a linked ELF program, in
 versions 4 and 5, and prints its named types as C declarations. Its answers
 are proved: a debugger, a profiler or a symbol server that reads a file after
 dwv said "sound" needs no checks of its own for what that word covers.
 .
{{has}}
"""
COPYRIGHT = """Format: https://www.debian.org/doc/packaging-manuals/copyright-format/1.0/
Upstream-Name: dwv

Files: *
Copyright: {year} the authors of dwv
License: none-chosen
 The owner of dwv has not chosen a licence yet: ask before you pass this package on.
 The licences of the crates that are linked into it are in /usr/share/doc/dwv/licences.
"""


def compress(path):
    """Compresses a page in place, without a name or a time. A link to a page becomes one to the compressed page."""
    if path.is_symlink():
        path.with_name(f"{path.name}.gz").symlink_to(f"{os.readlink(path)}.gz")
        path.unlink()
        return
    with open(f"{path}.gz", "wb") as target, gzip.GzipFile("", "wb", 9, target, mtime=0) as packed:
        packed.write(path.read_bytes())
    path.unlink()


def changelog(author):
    """The changes of this version as a changelog of Debian."""
    text = re.search(rf"(?ms)^## {re.escape(VERSION)}$(.*?)(?:^## |\Z)", (TOP / "CHANGELOG.md").read_text())[1]
    changes = [" ".join(it.split()) for it in re.split(r"(?m)^- ", text)[1:]]
    lines = [textwrap.fill(it, 78, initial_indent="  * ", subsequent_indent="    ") for it in changes]
    when = email.utils.formatdate(moment())
    return "\n".join([f"dwv ({VERSION}) unstable; urgency=medium", "", *lines, "", f" -- {author}  {when}", ""])


def arranged(work):
    """All files as below /usr, as Debian has them, and the folder of each package with its own."""
    usr = staged(work / "dwv", "/usr")
    (usr / "lib").rename(usr / "libraries")
    (usr / "lib").mkdir()
    (usr / "libraries").rename(usr / LIBRARIES)
    libraries = usr / LIBRARIES
    (libraries / SONAME).chmod(0o644)
    pc = libraries / "pkgconfig/dwv.pc"
    pc.write_text(pc.read_text().replace("prefix=${pcfiledir}/../..", "prefix=/usr")
                  .replace("libdir=${prefix}/lib", f"libdir=${{prefix}}/{LIBRARIES}"))
    for script in (usr / "share/dwv").iterdir():
        if script.is_file():
            script.write_text(re.sub(r"\A#!/usr/bin/env python3", "#!/usr/bin/python3", script.read_text()))
    programs = [it for it in (usr / "bin/dwv", usr / "bin/dwv-addr") if it.exists()]
    subprocess.run(["strip", "--strip-unneeded", "--remove-section=.comment", *programs, libraries / SONAME], check=True)
    subprocess.run(["strip", "--strip-debug", "-D", libraries / "libdwv.a"], check=True)
    for page in (usr / "share/man").rglob("*.1"):
        compress(page)
    for link, to in ADDON.items():
        (usr / link).parent.mkdir(parents=True, exist_ok=True)
        (usr / link).symlink_to(to)
    (usr / "share/doc/dwv/CHANGELOG.md").unlink()
    for name, files in FILES.items():
        for file in files:
            target = work / name / "usr" / file
            target.parent.mkdir(parents=True, exist_ok=True)
            (usr / file).rename(target)
    shutil.rmtree(usr / "lib")
    return {name: work / name for name in DEBS}


def deb(folder, work):
    author = said("git", "log", "-1", "--format=%an <%ae>") or "nobody <nobody@localhost>"
    made = []
    for name, root in arranged(work).items():
        section, fields, line, has = DEBS[name]
        doc = root / "usr/share/doc" / name
        doc.mkdir(parents=True, exist_ok=True)
        (doc / "copyright").write_text(COPYRIGHT.format(year=time.gmtime(moment()).tm_year))
        (doc / "changelog").write_text(changelog(author))
        compress(doc / "changelog")
        seal(root, doc)
        control = root / "DEBIAN"
        control.mkdir()
        files = sorted(it for it in (root / "usr").rglob("*") if it.is_file() and not it.is_symlink())
        size = sum(it.stat().st_size for it in files) // 1024 + 1
        if name != "libdwv-dev":
            fields = f"Depends: libc6 (>= 2.{newest(NEEDED[0] if name == 'dwv' else LIBRARY)})\n{fields}"
        has = textwrap.fill(f"This package has {has}.", 78, initial_indent=" ", subsequent_indent=" ")
        (control / "control").write_text(CONTROL.format(name=name, maintainer=author, size=size, fields=fields,
                                                        section=section, line=line, has=has))
        if name == f"libdwv{MAJOR}":
            (control / "triggers").write_text("activate-noawait ldconfig\n")
            (control / "shlibs").write_text(f"libdwv {MAJOR} {name} (>= {VERSION})\n")
        sums = [f"{hashlib.md5(it.read_bytes()).hexdigest()}  {it.relative_to(root)}\n" for it in files]
        (control / "md5sums").write_text("".join(sums))
        for it in control.iterdir():
            it.chmod(0o644)
        root.chmod(0o755)
        made.append(folder / f"{name}_{VERSION}_amd64.deb")
        env = {**os.environ, "SOURCE_DATE_EPOCH": str(moment())}
        subprocess.run(["dpkg-deb", "--build", "--root-owner-group", root, made[-1]], check=True, env=env,
                       stdout=subprocess.DEVNULL)
    return made


def newest(path):
    """The second number of the newest version of the C library that a file needs, at least that of x86-64's first."""
    return max([5, *map(int, re.findall(r"GLIBC_2\.(\d+)", said("objdump", "-T", str(path))))])


def platform():
    """The tag of a wheel by the newest symbol that the library needs of the C library."""
    return f"manylinux_2_{newest(LIBRARY)}_x86_64"


def wheel(folder, work):
    compiled = shutil.ignore_patterns("*.pyc", "__pycache__")
    shutil.copytree(TOP / "python", work / "python", ignore=compiled)
    shutil.copy(LIBRARY, work / "python/dwv" / LIBRARY.name)
    shutil.copytree(TOP / "contrib/dwv_tools", work / "python/dwv/scripts/dwv_tools", ignore=compiled)
    for script in ("check", "explain", "c-header"):
        shutil.copy(TOP / "contrib" / script, work / "python/dwv/scripts")
    seal(work / "python/dwv", work / "python/dwv")
    program = ("import setuptools\nfrom wheel.bdist_wheel import bdist_wheel\n"
               "class Compiled(setuptools.Distribution):\n    has_ext_modules = lambda self: True\n"
               "class Tagged(bdist_wheel):\n    def get_tag(self):\n"
               f"        return 'py3', 'none', '{platform()}'\n"
               "setuptools.setup(distclass=Compiled, cmdclass={'bdist_wheel': Tagged})\n")
    env = {**os.environ, "SOURCE_DATE_EPOCH": str(max(moment(), 315532800))}
    needed = ("-c", "import setuptools, wheel; print('found')")
    python = next((it for it in (sys.executable, "/usr/bin/python3") if said(it, *needed)), None)
    if not python:
        sys.exit("package.py: the modules setuptools and wheel are not installed")
    subprocess.run([python, "-W", "ignore", "-c", program, "-q", "bdist_wheel", "-d", str(folder)], cwd=work / "python",
                   env=env, check=True, stdout=subprocess.DEVNULL)
    return [folder / f"dwv-{VERSION}-py3-none-{platform()}.whl"]


def main():
    parser = argparse.ArgumentParser(description="Makes packages of what `make` and `make lib` built.")
    parser.add_argument("--version", action="version", version=VERSION)
    parser.add_argument("kind", choices=("tarball", "deb", "wheel"))
    parser.add_argument("folder", type=pathlib.Path)
    words = parser.parse_args()
    missing = [str(it.relative_to(TOP)) for it in NEEDED if not it.exists()]
    if missing:
        parser.error(f"{', '.join(missing)}: not built; run make and make lib first")
    words.folder.mkdir(parents=True, exist_ok=True)
    with tempfile.TemporaryDirectory() as name:
        made = {"tarball": tarball, "deb": deb, "wheel": wheel}[words.kind](words.folder.resolve(), pathlib.Path(name))
    print(*made, sep="\n")


if __name__ == "__main__":
    main()
