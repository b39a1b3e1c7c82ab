#!/usr/bin/env python3
"""Tests an installation and an archive.

usage: tools/install/test_install.py [--shell PATH] [--serve PATH] [NAME..]

Installs below a temporary directory, and uses what is there from another one, where the repository
cannot be seen if this may hide it. The programs are those of the present sources, proved or
compiled, that are there, or the given ones; else a stand-in, and bindings/model.py as the server.

NAME is a file of tests or a test: test_clients, test_clients.Clients.test_c. A test whose compiler is not present is skipped, and named. The
last line is `N of M tests agree`; the status is 0 if all do.
"""

import argparse
import io
import itertools
import os
import shutil
import subprocess
import sys
import tempfile
import unittest
from concurrent.futures import ThreadPoolExecutor
from pathlib import Path

TOP = Path(os.path.realpath(__file__)).parent.parent.parent
sys.path[:0] = [str(TOP / ".ci"), str(TOP / "tools" / "install")]
sys.dont_write_bytecode = True

import unproved  # noqa: E402
from installed import Given, build  # noqa: E402

STAND_IN = '#!/bin/sh\necho stand-in {name} "$@"\n'
FILES = ("test_clients", "test_files", "test_programs")


def programs_of(asked, room):
    """Returns the words that name the programs to install, and which of them are stand-ins."""
    found, stand_ins = {"bk_shell": asked.shell, "bk_serve": asked.serve}, set()
    for name in ("bk_shell", "bk_serve", "bk_simulate"):
        kept = {"proved": unproved.built(TOP, name), "unproved": unproved.kept(TOP, name)}
        fresh = (path for how, path in kept.items() if unproved.is_fresh(TOP, name, how))
        path = found.get(name) or next(fresh, None)
        if path is None:
            path = room / name
            model = (TOP / "bindings" / "model.py").read_text() if name == "bk_serve" else None
            path.write_text(model or STAND_IN.format(name=name))
            path.chmod(0o755)
            stand_ins.add(name)
        found[name] = Path(path).resolve()
    return [it for name, path in found.items() for it in ("--program", f"{name}={path}")], stand_ins


def can_hide():
    """Returns whether this may hide the repository from a command."""
    words = ["unshare", "-m", "sh", "-c", f'mount -t tmpfs none "{TOP}" && test ! -e "{TOP}/dev"']
    return (
        bool(shutil.which("unshare")) and subprocess.run(words, capture_output=True).returncode == 0
    )


def tests_in(suite):
    for it in suite:
        yield from tests_in(it) if isinstance(it, unittest.TestSuite) else [it]


def run_suite(suite):
    told = io.StringIO()
    return unittest.TextTestRunner(stream=told, verbosity=0).run(suite), told.getvalue()


def run_all(names):
    """Runs tests side by side. Returns how many were run and are wrong."""
    load = unittest.defaultTestLoader
    suites = [load.loadTestsFromName(it) for it in names or FILES]
    ran = wrong = 0
    with ThreadPoolExecutor(len(os.sched_getaffinity(0))) as pool:
        for found, told in pool.map(run_suite, itertools.chain(*map(tests_in, suites))):
            ran += found.testsRun - len(found.skipped)
            wrong += len({str(it) for it, _ in found.failures + found.errors})
            print(told if not found.wasSuccessful() else "", end="")
            for it, why in found.skipped:
                print(f"skipped: {it}: {why}")
    return ran, wrong


def main(words):
    parser = argparse.ArgumentParser(description=__doc__.split("\n")[0])
    for it in ("--shell", "--serve"):
        parser.add_argument(it)
    parser.add_argument("names", nargs="*")
    asked = parser.parse_args(words)
    shared = "/dev/shm" if os.access("/dev/shm", os.W_OK) else None
    with tempfile.TemporaryDirectory(prefix="installed-", dir=shared) as room:
        Given.room, Given.prefix = Path(room), Path(room) / "prefix"
        Given.words, Given.stand_ins = programs_of(asked, Given.room)
        Given.hides = can_hide()
        build(*Given.words, "--install", Given.prefix)
        ran, wrong = run_all(asked.names)
    print(f"{ran - wrong} of {ran} tests agree")
    return 0 if ran and not wrong else 1


if __name__ == "__main__":
    sys.exit(main(sys.argv[1:]))
