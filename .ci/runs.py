"""Runs of the toolchain side by side, each in a copy of the crates that it needs, over the
libraries that are built."""

import os
import re
import shutil
import signal
import subprocess
import sys
import threading
from concurrent.futures import ThreadPoolExecutor
from pathlib import Path

import tried

PARTS = ("src", "specs", "proofs")
# Measured memory of one run, in bytes.
ROOM = 3_000_000_000
# The runs that are going on, and whether a signal has ended the call.
RUNNING = set()
IS_ENDED = threading.Event()


class Ended(Exception):
    """A signal has ended the call."""


def rt(folder, *words):
    """Runs `rt` in a crate's directory. Returns its status and what it said."""
    how = {
        "stdin": subprocess.DEVNULL,
        "stdout": subprocess.PIPE,
        "stderr": subprocess.STDOUT,
        "text": True,
        "errors": "replace",
    }
    process = subprocess.Popen(["rt", *words], cwd=folder, start_new_session=True, **how)
    RUNNING.add(process)
    said = process.communicate()[0]
    RUNNING.discard(process)
    if IS_ENDED.is_set():
        raise Ended
    return process.returncode, said


def end():
    """Ends the runs that are going on, and with them the calls that wait for them."""
    IS_ENDED.set()
    for it in list(RUNNING):
        try:
            os.killpg(it.pid, signal.SIGKILL)
        except ProcessLookupError:
            pass


def lanes(room):
    """Returns how many runs that take so much memory each can go on side by side."""
    free = re.search(r"^MemAvailable:\s+(\d+)", Path("/proc/meminfo").read_text(), re.M)
    return max(1, min(len(os.sched_getaffinity(0)), 1024 * int(free[1]) // room))


def in_lanes(names, call):
    """Calls for each name, side by side as processors and memory allow. Returns the names for which
    the call gave False."""
    with ThreadPoolExecutor(lanes(ROOM)) as pool:
        given = list(pool.map(call, names))
    return [it for it, is_well in zip(names, given) if not is_well]


def build_below(top, names):
    """Proves and builds the libraries below these crates that are not built. Returns whether all
    are."""
    below = tried.dependences(top)
    wanted = {deeper for it in names for deeper in below[it]}
    lacking = [
        it
        for it in sorted(wanted, key=lambda it: len(below[it]))
        if not (top / "crates" / it / "out" / "rlib").is_dir()
    ]
    return not any(
        subprocess.run(["rt", "lib"], cwd=top / "crates" / it, stdin=subprocess.DEVNULL).returncode
        for it in lacking
    )


def stamps(top):
    """Returns, of each crate with a built library, the file that notes of which files it is built,
    and the note that stands for the present ones. Returns nothing if the toolchain has no such
    note."""
    kit = Path(os.path.realpath(shutil.which("rt"))).parent
    if not (kit / "rtlib.py").is_file():
        return {}
    sys.path.insert(0, str(kit))
    import rtlib

    folders = {it: top / "crates" / it for it in tried.libraries(top)}
    built = [
        it for it, folder in folders.items() if (folder / "out" / "rlib" / f"{it}.rlib").is_dir()
    ]
    # A note is made of those of the crates below, which the toolchain computes again for each crate
    # above.
    one, known = rtlib.Crate.stamp, {}
    rtlib.Crate.stamp = (
        lambda it: known[it.folder] if it.folder in known else known.setdefault(it.folder, one(it))
    )
    try:
        return {
            it: (
                folders[it] / "out" / "rlib" / "stamp",
                rtlib.Crate(str(folders[it]), str(top), {}).stamp(),
            )
            for it in built
        }
    finally:
        rtlib.Crate.stamp = one


def note_built(top):
    """Notes of each library that rt ci has left under a directory that it is made of the files
    there, so that rt check uses it. Without the note, which rt ci does not leave, rt check proves
    the library again."""
    for file, stamp in stamps(top).values():
        file.write_text(stamp)


def built(top):
    """Returns the crates whose library is built of their present files, and so proved."""
    return [
        it
        for it, (file, stamp) in stamps(top).items()
        if file.is_file() and file.read_text() == stamp
    ]


def link(source, to):
    Path(to).hardlink_to(source)


def copy_of(top, crate, room):
    """Makes a copy of the crate with its kept work, beside links to the libraries below it. Returns
    its directory."""
    below = tried.dependences(top)[crate]
    for name in [crate, *below]:
        for part in PARTS:
            if (top / "crates" / name / part).is_dir():
                shutil.copytree(top / "crates" / name / part, room / "crates" / name / part)
    for name in below:
        shutil.copytree(
            top / "crates" / name / "out" / "rlib",
            room / "crates" / name / "out" / "rlib",
            copy_function=link,
        )
    if (top / "crates" / crate / "out" / "incremental").is_dir():
        shutil.copytree(
            top / "crates" / crate / "out" / "incremental",
            room / "crates" / crate / "out" / "incremental",
        )
    lines = (top / "crates.txt").read_text().splitlines()
    wanted = [
        it
        for it in lines
        if it.partition("#")[0].partition(":")[0].split(" ")[0] in (crate, *below)
    ]
    (room / "crates.txt").write_text("\n".join([*wanted, ""]))
    shutil.copy(top / "HANDLES", room)
    return room / "crates" / crate
