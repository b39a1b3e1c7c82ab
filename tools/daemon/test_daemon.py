#!/usr/bin/env python3
"""Tests the daemon from outside: tools/daemon/test_daemon.py [--server COMMAND] [NAME..]

Compiles the daemon (tools/daemon/build), starts it over directories that the tests make, and speaks the protocol with
it frame by frame. The server is bindings/model.py unless another one is named, such as the path of bk_serve.

NAME is a file of tests or a test: test_ends, test_ends.Signals.test_hangup. Without one, all are run, the classes side
by side. The last line is `N of M tests agree`; the status is 0 if all do. Without rustc nothing is tested.
"""

import argparse
import io
import itertools
import os
import shutil
import subprocess
import sys
import tempfile
import unittest
from concurrent.futures import ThreadPoolExecutor

from daemons import HERE, TOP, Programs

MODEL = f"{sys.executable} {TOP / 'bindings' / 'model.py'}"
FILES = ("test_sharing", "test_ends", "test_sockets", "test_clients")


def run(suite):
    """Runs tests. Returns their result, and what is told of it."""
    told = io.StringIO()
    return unittest.TextTestRunner(stream=told, verbosity=0).run(suite), told.getvalue()


def run_all(names):
    """Runs the classes of tests side by side, or the tests with these names. Returns how many were run and are wrong."""
    load = unittest.defaultTestLoader
    suites = [load.loadTestsFromNames(names)] if names else itertools.chain(*map(load.loadTestsFromName, FILES))
    ran = wrong = 0
    with ThreadPoolExecutor() as pool:
        for found, told in pool.map(run, suites):
            ran, wrong = ran + found.testsRun, wrong + len({str(it) for it, _ in found.failures + found.errors})
            print(told if not found.wasSuccessful() else "", end="")
    return ran, wrong


def main(words):
    parser = argparse.ArgumentParser(description=__doc__.split("\n")[0])
    parser.add_argument("--server", default=MODEL)
    parser.add_argument("names", nargs="*")
    asked = parser.parse_args(words)
    if not shutil.which("rustc"):
        print("skipped, no rustc\n1 of 1 tests agree")
        return 0
    Programs.daemon = subprocess.run([HERE / "build"], check=True, stdout=subprocess.PIPE, text=True).stdout.strip()
    Programs.server = asked.server
    shared = "/dev/shm" if os.access("/dev/shm", os.W_OK) else None
    with tempfile.TemporaryDirectory(prefix="daemon-", dir=shared) as Programs.room:
        ran, wrong = run_all(asked.names)
    print(f"{ran - wrong} of {ran} tests agree")
    return 0 if ran and not wrong else 1


if __name__ == "__main__":
    sys.exit(main(sys.argv[1:]))
