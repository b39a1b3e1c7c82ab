"""Tests the programs of an installation."""

import sys

import commands
from installed import BARE, Case, Given, needs, run
from test_clients import PYTHON

# A run of the toolchain writes down that it was called.
RT = '#!/bin/sh\necho "$@" >> "$CALLS"\nexit 1\n'
DAEMON = """
words = [sys.argv[1].replace("bk_serve", "bookie"), "daemon", sys.argv[2], "--socket", "socket"]
daemon = subprocess.Popen(words)
while not os.path.exists("socket") and daemon.poll() is None:
    time.sleep(0.02)
"""
ENDED = """
daemon.send_signal(signal.SIGTERM)
print(daemon.wait())
"""


class Programs(Case):
    def bookie(self, *words, status=0, steps="", prefix=None, env=None):
        path = (prefix or Given.prefix) / "bin" / "bookie"
        return run([path, *words], status, self.room, env, steps, hidden=True)

    def test_help_and_version(self):
        """Help and version are those of the page, of each program, and each says how it was
        made."""
        version, logic = commands.version()
        made = (Given.prefix / "libexec" / "bookie" / "programs").read_text().splitlines()
        how = {name: text for name, _, text in (it.partition(" ") for it in made)}
        crates = {
            "": "bk_shell",
            "serve": "bk_serve",
            "daemon": "bk_serve",
            "simulate": "bk_simulate",
        }
        for word, crate in crates.items():
            words = [word] if word else []
            wanted = f"{version}\n{logic}\n{how[crate]}\n"
            self.assertEqual(self.bookie(*words, "--version"), (wanted, ""))
            begin = "Usage: bookie COMMAND" if not word else commands.OWN[word][1]
            self.assertTrue(self.bookie(*words, "--help")[0].startswith(begin), word)
        for it in commands.commands():
            self.assertIn(f"bookie {it.usage}", self.bookie("help", it.name)[0])

    def test_shell(self):
        """Commands run on a directory; without a real program, the stand-in gets the words."""
        steps = "add 1 0 hello\nswap\nwrite\nwrite\npublish\nroll\n"
        out, errors = self.bookie("script", "--folder", "logs", steps=steps)
        checked = self.bookie("check", "logs")
        if "bk_shell" in Given.stand_ins:
            self.assertEqual(out, "stand-in bk_shell script --folder logs\n")
        else:
            self.assertEqual((out.splitlines()[-1], checked), ("sealed 0", ("0 ok\n", "")))
        self.assertEqual(errors, "")

    def test_serve_and_simulate(self):
        """`serve` and `simulate` run their programs with the words after the command."""
        if "bk_simulate" in Given.stand_ins:
            self.assertEqual(
                self.bookie("simulate", "--days", "1")[0], "stand-in bk_simulate --days 1\n"
            )
        self.write(
            "use.py",
            PYTHON.replace(
                "[sys.argv[1], ", "[sys.argv[1].replace('bk_serve', 'bookie'), 'serve', "
            ),
        )
        env = {"PYTHONPATH": str(Given.prefix / "share" / "bookie" / "python")}
        self.assertEqual(self.used(sys.executable, self.room / "use.py", env=env), "hello\n")

    @needs("rustc")
    def test_daemon(self):
        """The installed daemon starts the installed server, and ends in order."""
        use = PYTHON.replace("Bookie([sys.argv[1], sys.argv[2]])", "Bookie.connect('socket')")
        self.write("use.py", f"import os, signal, subprocess, sys, time\n{DAEMON}{use}{ENDED}")
        env = {"PYTHONPATH": str(Given.prefix / "share" / "bookie" / "python")}
        self.assertEqual(self.used(sys.executable, self.room / "use.py", env=env), "hello\n0\n")

    def test_no_compile(self):
        """An installed program never calls the toolchain, also if it lacks a program."""
        (self.room / "rt").mkdir()
        self.write("rt/rt", RT).chmod(0o755)
        env = {"PATH": f"{self.room / 'rt'}:{BARE}", "CALLS": str(self.room / "calls")}
        copy = self.copy()
        self.bookie("help", "check", prefix=copy, env=env)
        self.bookie("check", self.room, prefix=copy, env=env)
        for name, word in (
            ("bk_shell", "check"),
            ("bk_serve", "serve"),
            ("bk_simulate", "simulate"),
        ):
            (copy / "libexec" / "bookie" / name).unlink()
            _, errors = self.bookie(word, "logs", status=1, prefix=copy, env=env)
            self.assertEqual(
                errors,
                f"bookie: {copy}/libexec/bookie/{name} is not there; this installation is not "
                "whole\n",
            )
        self.assertFalse((self.room / "calls").exists())

    def test_places(self):
        """The tree may be moved, and called by a link."""
        copy = self.copy().rename(self.room / "moved")
        (self.room / "link").symlink_to(copy / "bin" / "bookie")
        for words in (["check", self.room], ["--help"], ["serve", "--version"]):
            self.assertEqual(run([self.room / "link", *words], cwd="/"), self.bookie(*words), words)
