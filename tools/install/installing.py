"""Installs the programs, their pages and the clients below a directory, or packs them.

An installation is a tree of files below a prefix that names no place of its own, but for the unit
of systemd. It has a list of its files with their SHA-256, by which the next one removes what it
does not have any more.
"""

import gzip
import hashlib
import os
import platform
import shutil
import subprocess
import sys
import tarfile
import tempfile
from pathlib import Path

import commands
import completions

PROGRAMS = ("bk_shell", "bk_serve", "bk_simulate")
LIST = Path("share", "bookie", "SHA256SUMS")
# The prefix that the unit of systemd names, and so that of an archive.
USUAL = Path("/usr/local")
# The files that are copied, by their place below the prefix.
COPIED = {
    "share/man/man1/bookie.1": "docs/bookie.1",
    "share/doc/bookie/README.md": "tools/install/README.md",
    "share/doc/bookie/LICENSE": "LICENSE",
    "share/doc/bookie/protocol.md": "bindings/protocol.md",
    "share/bookie/python/pyproject.toml": "bindings/python/pyproject.toml",
    "share/bookie/python/package.py": "bindings/python/package.py",
    "share/bookie/python/bookie.py": "bindings/python/bookie.py",
    "share/bookie/python/frames.py": "bindings/python/frames.py",
    "share/bookie/rust/Cargo.toml": "bindings/rust/Cargo.toml",
    "share/bookie/rust/bookie.rs": "bindings/rust/bookie.rs",
    "share/bookie/rust/frames.rs": "bindings/rust/frames.rs",
    "share/bookie/java/pom.xml": "bindings/java/pom.xml",
    "share/bookie/c/bookie.c": "bindings/c/bookie.c",
    "include/bookie.h": "bindings/c/bookie.h",
}
JAVA = "org/dabchickrug/bookie"
UNIT = "lib/systemd/system/bookie@.service"


class Refused(Exception):
    """Why nothing is installed."""


def note(text):
    print(f"dev build: {text}", file=sys.stderr)


def write(path, text):
    path.parent.mkdir(parents=True, exist_ok=True)
    path.write_text(text)


def copy(source, path, mode=0o644):
    path.parent.mkdir(parents=True, exist_ok=True)
    shutil.copyfile(source, path)
    path.chmod(mode)


def stage_programs(top, root, programs):
    """Puts bin/bookie and what it runs into a tree."""
    copy(top / "bookie", root / "bin" / "bookie", 0o755)
    for name, (path, _) in programs.items():
        copy(path, root / "libexec" / "bookie" / name, 0o755)
    (root / "bin" / "bk_serve").symlink_to("../libexec/bookie/bk_serve")
    made = "".join(f"{name} {how}\n" for name, (_, how) in programs.items())
    write(root / "libexec" / "bookie" / "programs", made)
    if not shutil.which("rustc"):
        return note("no daemon, since there is no rustc")
    told = subprocess.run(
        [top / "tools" / "daemon" / "build"], stdout=subprocess.PIPE, text=True, check=True
    )
    copy(told.stdout.strip(), root / "libexec" / "bookie" / "bookie-daemon", 0o755)


def stage_library(root):
    """Puts the client in C, as a static library, into a tree."""
    compiler, archiver = shutil.which("cc") or shutil.which("gcc"), shutil.which("ar")
    if not compiler or not archiver:
        return note(
            "no library for C, since there is no C compiler; its source is in share/bookie/c"
        )
    with tempfile.TemporaryDirectory() as room:
        words = [
            compiler,
            "-std=c11",
            "-O2",
            "-fPIC",
            f"-I{root / 'include'}",
            "-c",
            "-o",
            f"{room}/bookie.o",
        ]
        subprocess.run([*words, root / "share" / "bookie" / "c" / "bookie.c"], check=True)
        (root / "lib").mkdir(exist_ok=True)
        subprocess.run(
            [archiver, "rcsD", root / "lib" / "libbookie.a", f"{room}/bookie.o"], check=True
        )


def stage(top, root, prefix, programs):
    """Makes the tree of an installation in a directory, with the list of its files."""
    stage_programs(top, root, programs)
    for place, source in COPIED.items():
        copy(top / source, root / place)
    for source in sorted((top / "bindings" / "java" / JAVA).glob("*.java")):
        if not source.name.startswith("Test"):
            copy(source, root / "share" / "bookie" / "java" / JAVA / source.name)
    copy(top / "bindings" / "c" / "bookie.pc", root / "lib" / "pkgconfig" / "bookie.pc")
    stage_library(root)
    for place, text in completions.completions().items():
        write(root / place, text)
    unit = (top / "tools" / "daemon" / "bookie@.service").read_text()
    write(root / UNIT, unit.replace(f"{USUAL}/bin/bookie ", f"{prefix}/bin/bookie "))
    files = sorted(it.relative_to(root) for it in root.rglob("*") if not it.is_dir())
    sums = (f"{hashlib.sha256((root / it).read_bytes()).hexdigest()}  {it}\n" for it in files)
    write(root / LIST, "".join(sums))
    return [*files, LIST]


def listed(prefix):
    """Returns the files of the installation that is there."""
    path = prefix / LIST
    lines = path.read_text().splitlines() if path.is_file() else []
    return {Path(it.partition("  ")[2]) for it in lines}


def put(source, path):
    """Puts a file in its place at once: who runs the earlier one keeps it."""
    path.parent.mkdir(parents=True, exist_ok=True)
    new = path.with_name(f".{path.name}.new")
    new.unlink(missing_ok=True)
    shutil.copy2(source, new, follow_symlinks=False)
    os.replace(new, path)


def install(top, prefix, programs):
    """Installs below a prefix, in place of what an earlier call has installed there."""
    if top in (prefix, *prefix.parents):
        raise Refused(f"{prefix}: it is in the repository")
    with tempfile.TemporaryDirectory(prefix="install-") as room:
        files, earlier = stage(top, Path(room), prefix, programs), listed(prefix)
        for it in files:
            put(Path(room) / it, prefix / it)
    for it in sorted(earlier - set(files)):
        (prefix / it).unlink(missing_ok=True)
    print(f"installed {len(files)} files below {prefix}")


def plain(entry):
    """An entry of an archive without what differs from call to call."""
    entry.uid = entry.gid = entry.mtime = 0
    entry.uname = entry.gname = "root"
    return entry


def archive(top, folder, programs):
    """Packs an installation, and writes the SHA-256 of the archive beside it."""
    version = commands.version()[0].replace(" ", "-")
    name = f"{version}-{platform.system().lower()}-{platform.machine()}"
    path = folder / f"{name}.tar.gz"
    folder.mkdir(parents=True, exist_ok=True)
    with tempfile.TemporaryDirectory(prefix="archive-") as room:
        root = Path(room) / name
        root.mkdir()
        files = stage(top, root, USUAL, programs)
        new = folder / f".{path.name}.new"
        with open(new, "wb") as file, gzip.GzipFile("", "wb", fileobj=file, mtime=0) as packed:
            with tarfile.open(fileobj=packed, mode="w") as tar:
                for it in sorted(files):
                    tar.add(root / it, f"{name}/{it}", filter=plain)
    os.replace(new, path)
    digest = hashlib.sha256(path.read_bytes()).hexdigest()
    write(folder / f"{path.name}.sha256", f"{digest}  {path.name}\n")
    print(f"{path}\n{path}.sha256")
