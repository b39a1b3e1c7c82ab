"""What every test here uses: a directory, calls of the shell, sessions of the server."""

import os
import shutil
import subprocess
import sys
import tempfile
import time
import unittest
from pathlib import Path

TOP = Path(__file__).resolve().parent.parent.parent
sys.path[:0] = [str(TOP / "tools" / "logs"), str(TOP / "bindings" / "python")]

import session  # noqa: E402

# Seconds after which a call or a reply counts as one that never comes; long, for a busy machine.
LIMIT = 60
# How long a server is left alone for its background, and how often one looks meanwhile.
SILENCE, PAUSE = 2.0, 0.05


class Programs:
    """The paths of the shell and the server, the directory below which the tests work, whether the
    programs are not proved, which makes them slow on large entries, and whether failures that are
    expected are shown."""

    shell = serve = room = None
    is_slow = is_telling = False


def compact_words(minor, major):
    """The words by which a server compacts in the background; the thresholds are thousandths."""
    return ["--compact", f"{minor // 10},{major // 10}"]


def wait_until(is_so, limit=LIMIT):
    """Waits until something is so. Returns whether it came to be."""
    end = time.monotonic() + limit
    while not is_so():
        if time.monotonic() > end:
            return False
        time.sleep(PAUSE)
    return True


def flip(path, at, bit=1):
    """Flips a bit of a byte of a file. A negative place counts from the end."""
    data = bytearray(path.read_bytes())
    data[at] ^= bit
    path.write_bytes(data)


class Case(unittest.TestCase):
    """A test with a directory of its own; `logs` in it is the directory of entry logs."""

    maxDiff = 2000

    def setUp(self):
        self.room = Path(tempfile.mkdtemp(dir=Programs.room))
        self.addCleanup(shutil.rmtree, self.room, ignore_errors=True)
        self.logs = self.room / "logs"

    def call(self, *words, steps="", more=None, **how):
        """Runs the shell. Returns its status, output and errors."""
        how = {"stdout": subprocess.PIPE, "stderr": subprocess.PIPE, **how}
        env = {**os.environ, **(more or {})}
        words = [str(Programs.shell), *map(str, words)]
        return subprocess.run(words, input=steps.encode(), env=env, timeout=LIMIT, **how)

    def bookie(self, *words, status=0, steps="", more=None):
        """Runs the shell, which has to end with this status. Returns its output and its errors."""
        ran = self.call(*words, steps=steps, more=more)
        out, errors = ran.stdout.decode(), ran.stderr.decode(errors="replace")
        text = " ".join(map(str, words))
        self.assertEqual(ran.returncode, status, f"status of {text}\n{out[-500:]}\n{errors[-500:]}")
        return out, errors

    def script(self, *steps, words=(), status=0):
        """Runs steps on the directory. Returns the answers."""
        words = ["script", "--folder", self.logs, *words]
        out, _ = self.bookie(*words, status=status, steps="".join(f"{it}\n" for it in steps))
        return out.splitlines()

    def publish(self, *adds, after=(), words=()):
        """Adds entries by a script, `LEDGER ENTRY [TEXT]` each, and seals the published log."""
        writes = ["write"] * (len(adds) + 1)
        steps = [*(f"add {it}" for it in adds), "swap", *writes, "publish", "roll", *after]
        answers = self.script(*steps, words=words)
        self.assertEqual(answers[: len(adds)], ["accepted"] * len(adds))
        return answers

    def serve(self, *options, folder=None, more=None):
        """Begins a session of the server on the directory, and says hello."""
        opened = self.started(*options, folder=folder, more=more)
        self.assertEqual(opened.hello().name, "welcome", opened.errors_now())
        return opened

    def started(self, *options, folder=None, more=None):
        """Starts the server, without hello."""
        words = [str(Programs.serve), str(folder or self.logs), *map(str, options)]
        opened = session.Session(words, LIMIT, more)
        self.addCleanup(opened.kill)
        return opened

    def close(self, opened, status=0):
        """Closes a session in order. Returns the reply."""
        reply = opened.call("close")
        self.assertEqual((reply.name, opened.end()), ("closed", status))
        return reply

    def files(self):
        """The files of the directory, with their bytes; the lock's are left out."""
        found = {it.name: it.read_bytes() for it in self.logs.iterdir() if it.is_file()}
        found.pop("writer.lock", None)
        return found

    def log_names(self):
        """The names of the logs of the directory, in their order."""
        return sorted((it.name for it in self.logs.glob("*.log")), key=lambda it: int(it[:-4], 16))
