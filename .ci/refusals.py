"""Runs built test programs with each of their allocations refused in turn.

A row of refusals.txt is a crate and one of its tests, which passes whichever allocation is refused:
it makes a refused call again. This needs a C compiler, cc or gcc.
"""

import os
import shutil
import subprocess
import tempfile
from pathlib import Path

HERE = Path(__file__).resolve().parent
SOURCE = HERE / "refusals.c"
COMPILER = shutil.which("cc") or shutil.which("gcc")
# Seconds for one run of a test.
LIMIT = 120
# How many failing runs of a test are told.
TOLD = 3


def rows():
    """Returns the tests of each crate that has some."""
    found = {}
    for line in (HERE / "refusals.txt").read_text().splitlines():
        if line and not line.startswith("#"):
            crate, test = line.split()
            found.setdefault(crate, []).append(test)
    return found


class Refusing:
    """The compiled library, and runs of test programs with it."""

    def __init__(self, room):
        self.room, self.library = Path(room), Path(room) / "refusals.so"
        words = [COMPILER, "-O2", "-shared", "-fPIC", "-o", self.library, SOURCE]
        subprocess.run(words, check=True, capture_output=True)

    def ends_well(self, program, test, number):
        """Returns whether the test passes with this allocation refused; 0 refuses none."""
        env = {
            **os.environ,
            "LD_PRELOAD": str(self.library),
            "REFUSED": str(number),
            "REFUSED_COUNT": str(self.room / "count"),
        }
        how = {
            "stdin": subprocess.DEVNULL,
            "stdout": subprocess.DEVNULL,
            "stderr": subprocess.DEVNULL,
        }
        with tempfile.TemporaryDirectory(dir=self.room) as folder:
            try:
                return (
                    subprocess.run(
                        [program, test], cwd=folder, env=env, timeout=LIMIT, **how
                    ).returncode
                    == 0
                )
            except subprocess.TimeoutExpired:
                return False

    def count(self):
        """Returns how many allocations the last run asked for that ended by itself; 0 if none
        told."""
        told = self.room / "count"
        return int(told.read_text()) if told.is_file() else 0

    def failing(self, program, test):
        """Returns the allocations whose refusal a test does not survive, and how many were
        refused."""
        (self.room / "count").unlink(missing_ok=True)
        if not self.ends_well(program, test, 0):
            return [0], 0
        count = self.count()
        return [it for it in range(1, count + 1) if not self.ends_well(program, test, it)], count


def check(top, crates):
    """Refuses each allocation of the tests of these crates, whose programs are built below this
    directory. Returns how many refusals passed, the crates that failed, and the lines to print."""
    listed = {crate: tests for crate, tests in rows().items() if crate in crates}
    if not listed:
        return 0, set(), []
    if not COMPILER:
        return 0, set(listed), ["no C compiler, cc or gcc: no allocation was refused"]
    passed, failed, lines = 0, set(), []
    with tempfile.TemporaryDirectory(prefix="refusals-") as room:
        refusing = Refusing(room)
        for crate, tests in listed.items():
            for test in tests:
                wrong, count = refusing.failing(
                    Path(top) / "crates" / crate / "out" / f"{crate}_tests", test
                )
                passed += count - len(wrong)
                lines.append(
                    f"{crate}, {test}: {count - len(wrong)} of {count} allocations refused, each "
                    "in a run that passed"
                )
                lines += [
                    f"{crate}, {test}: fails "
                    f"{'without a refusal' if it == 0 else f'with allocation {it} refused'}"
                    for it in wrong[:TOLD]
                ]
                failed |= {crate} if wrong or not count else set()
    return passed, failed, lines
