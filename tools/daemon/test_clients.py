"""Tests of the daemon: the clients of bindings/ that connect to it. One whose compiler is not present is skipped."""

import shutil
import subprocess
import unittest

from daemons import HERE, TOP, Case, Programs
from bookie import Bookie, Ended, Refused  # noqa: E402

C = ["-std=c11", "-O1", "-Wall", "-Wextra", "-Werror", "-pedantic"]


def out(words, **how):
    return subprocess.run([str(it) for it in words], check=True, stdout=subprocess.PIPE, text=True, **how).stdout


class Clients(Case):
    """Clients of the languages: the same calls as with a server of their own, and the end of one session."""

    def test_python(self):
        daemon = self.daemon()
        other = Bookie.connect(daemon.socket)
        with Bookie.connect(str(daemon.socket)) as bookie:
            receipt = bookie.add(1, 0, b"hello")
            sent = [bookie.send("add", ledger=1, entry=e, content=b"x") for e in range(1, 300)]
            self.assertEqual({it.result().name for it in sent}, {"accepted"})
            self.assertEqual((bookie.read_back(receipt), bookie.unflushed), (b"hello", 300))
            self.assertRaises(Refused, bookie.read, 2**63, 0)
            self.assertEqual(list(bookie.entries(1)), list(range(300)))
        self.assertEqual((bookie.close(), bookie.unflushed), (0, 0))
        self.assertRaises(Ended, bookie.read, 1, 0)
        self.assertEqual(other.kill(), 0)
        self.assertEqual(Bookie.connect(daemon.socket).last_entry(1), 299)

    def test_rust(self):
        daemon, rate = self.daemon(), out([HERE / "build", "rate"]).strip()
        said = out([rate, 300, 20, 256, 2, daemon.socket, Programs.server, self.room / "pipe"])
        self.assertEqual([it.split(":")[0] for it in said.splitlines()], ["round 1", "round 2", "best"])
        with Bookie.connect(daemon.socket) as bookie:
            self.assertEqual([bookie.last_entry(it) for it in (1, 2)], [299, 299])

    @unittest.skipUnless(shutil.which("gcc"), "no gcc")
    def test_c(self):
        daemon, sources, program = self.daemon(), TOP / "bindings" / "c", self.room / "connects"
        out(["gcc", *C, "-I", sources, "-o", program, HERE / "connects.c", sources / "bookie.c", "-lpthread"])
        said = out([program, daemon.socket])
        self.assertEqual(said.splitlines(), ["600 entry hello negative 600 0", "1 0 gone -1 gone"])
        self.assertEqual(daemon.end(), 0)
        self.assertEqual(len(self.stored()), 601)

    @unittest.skipUnless(shutil.which("javac"), "no javac")
    def test_java(self):
        daemon, sources = self.daemon(), TOP / "bindings" / "java" / "org" / "dabchickrug" / "bookie"
        words = ["javac", "--release", "17", "-Xlint:all", "-Werror", "-d", self.room / "java", HERE / "Connects.java"]
        out([*words, *sorted(sources.glob("*.java"))])
        said = out(["java", "-cp", self.room / "java", "Connects", daemon.socket])
        self.assertEqual(said.splitlines(), ["600 hello NEGATIVE 600", "0 0"])
        self.assertEqual(daemon.end(), 0)
        self.assertEqual(len(self.stored()), 600)
