"""Programs of the present sources: the proved ones, and those that are run without proof.

./dev build proves and builds a program, ./dev compile compiles one without proof and keeps it. The
file PROGRAM.made beside each has the digest of what it is made of (tools/dev/made).
"""

import os
import signal
import subprocess
from pathlib import Path

# Words of the check that `rt try` runs at the same time, for hints. It proves no function.
HINTS = b"\0--start\0no function\0"


def children_of(number):
    """Returns the numbers of the child processes of a process."""
    try:
        return [
            int(it) for it in Path(f"/proc/{number}/task/{number}/children").read_text().split()
        ]
    except OSError:
        return []


def words_of(number):
    try:
        return Path(f"/proc/{number}/cmdline").read_bytes()
    except OSError:
        return b""


def end_hints(number):
    """Ends the check that an `rt try` of this number runs for hints: the gate's checks give them
    too, and it takes half of the processor time. Returns whether it was there."""
    found = [it for it in children_of(number) if HINTS in words_of(it)]
    for it in found:
        os.kill(it, signal.SIGKILL)
    return bool(found)


def built(top, crate):
    """Returns the path of the program of a crate that was proved."""
    return top / "crates" / crate / "out" / crate


def kept(top, crate):
    """Returns the path of the program that ./dev compile keeps of a crate."""
    return top / "crates" / crate / "out" / "unproved" / crate


def is_fresh(top, crate, how):
    """Returns whether the program of a crate, `proved` or `unproved`, is made of the sources."""
    return subprocess.run([top / "tools" / "dev" / "made", "--is", crate, how]).returncode == 0


def digest(top, crate, how):
    """Returns the digest of what the program of a crate is made of now."""
    words = [top / "tools" / "dev" / "made", crate, how]
    return subprocess.run(words, stdout=subprocess.PIPE, text=True, check=True).stdout


def program_of(top, crate):
    """Returns the path of the proved program of a crate, or of one that is compiled if need be."""
    if is_fresh(top, crate, "proved"):
        return built(top, crate)
    subprocess.run([top / "tools" / "dev" / "compile", crate], check=True)
    return kept(top, crate)
