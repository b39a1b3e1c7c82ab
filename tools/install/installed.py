"""What the tests of an installation share: the installation, runs of programs, a directory."""

import os
import shutil
import subprocess
import sys
import tempfile
import unittest
import xml.etree.ElementTree as ElementTree
from pathlib import Path

TOP = Path(__file__).resolve().parent.parent.parent
sys.path.insert(0, str(TOP / ".ci"))
sys.dont_write_bytecode = True

# Seconds of one command; long, since other load may slow it down.
LIMIT = 600
BARE = "/usr/local/bin:/usr/bin:/bin"


class Given:
    """The programs to install, whether they are stand-ins, the installation, and a room."""

    words, stand_ins, prefix, room = [], set(), None, None
    hides = False


def run(words, status=0, cwd=None, env=None, steps="", hidden=False):
    """Runs a command, which has to end with this status. Returns its output and its errors."""
    words = [str(it) for it in words]
    if hidden and Given.hides:
        # The repository is an empty directory for it.
        words = [
            "unshare",
            "-m",
            "sh",
            "-c",
            f'mount -t tmpfs none "{TOP}" && exec "$@"',
            "sh",
            *words,
        ]
    how = {"cwd": cwd or Given.room, "env": {"HOME": str(Given.room), "PATH": BARE, **(env or {})}}
    ran = subprocess.run(words, input=steps, capture_output=True, text=True, timeout=LIMIT, **how)
    if ran.returncode != status:
        raise AssertionError(
            f"{' '.join(words)}: status {ran.returncode}\n{ran.stdout}{ran.stderr}"
        )
    return ran.stdout, ran.stderr


def build(*words, status=0):
    env = {it: os.environ[it] for it in ("PATH", "HOME") if it in os.environ}
    return run([TOP / "dev", "build", *words], status, env=env)


def needs(*programs):
    """Skips a test whose programs are not present."""
    lacking = [it for it in programs if not shutil.which(it)]
    return unittest.skipIf(lacking, f"no {' '.join(lacking)}")


class Case(unittest.TestCase):
    """A test with a directory of its own."""

    maxDiff = 2000

    def setUp(self):
        self.room = Path(tempfile.mkdtemp(dir=Given.room))
        self.addCleanup(shutil.rmtree, self.room, ignore_errors=True)

    def copy(self, part=""):
        """A copy of the installation, or of a part of it."""
        return shutil.copytree(Given.prefix / part, self.room / "copy", symlinks=True)

    def write(self, name, text):
        path = self.room / name
        path.parent.mkdir(parents=True, exist_ok=True)
        path.write_text(text)
        return path

    def used(self, *words, env=None):
        """Runs a program that uses a client, over a new directory. Returns its output."""
        words = [*words, Given.prefix / "bin" / "bk_serve", self.room / "logs"]
        (self.room / "logs").mkdir(exist_ok=True)
        env = {"PATH": os.environ["PATH"], **(env or {})}
        return run(words, cwd=self.room, env=env, hidden=True)[0]


def compiled_by(pom):
    """Returns the files that Maven compiles by its description of a package."""
    root, space = ElementTree.parse(pom).getroot(), "{http://maven.apache.org/POM/4.0.0}"
    found = [
        {path for it in root.iter(f"{space}{kind}") for path in pom.parent.glob(it.text)}
        for kind in ("include", "exclude")
    ]
    return sorted(found[0] - found[1])
