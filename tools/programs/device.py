"""A device that fails or gives other bytes: preloaded libraries, and a small file system."""

import ctypes
import os
import shutil
import subprocess
import unittest
from pathlib import Path

import kit

HERE = Path(__file__).resolve().parent
SOURCES = {"reads": HERE / "reads.c", "faults": kit.TOP / "tools" / "faults" / "faults.c"}
NEW_MOUNTS = 0x00020000
needs_compiler = unittest.skipUnless(shutil.which("gcc"), "no gcc, which compiles a library")


def library(name):
    """Compiles a library, once for each process. Returns its path."""
    path = Path(kit.Programs.room) / f"{name}-{os.getpid()}.so"
    if not path.exists():
        words = ["gcc", "-O1", "-shared", "-fPIC", "-w", "-o", path, SOURCES[name], "-lpthread"]
        subprocess.run(words, check=True)
    return str(path)


def interrupted():
    """The environment in which every other read of the standard input is interrupted."""
    return {"LD_PRELOAD": library("reads"), "READS_INTERRUPTED": "1"}


def flipped(path, at):
    """The environment in which reads of a file give a flipped bit of the byte at a place."""
    return {"LD_PRELOAD": library("reads"), "READS_FLIP": str(path), "READS_AT": str(at)}


def failing(path, kind, number, errno, stays=False):
    """The environment in which a call of a kind on a path fails, the one of this number, and later
    ones too if it stays."""
    found = {"FAULT_FOLDER": path, "FAULT_KINDS": f",{kind},", "FAULT_AT": number}
    found |= {"FAULT_HOW": errno, "FAULT_STAYS": "1" if stays else "0"}
    return {"LD_PRELOAD": library("faults"), **{name: str(it) for name, it in found.items()}}


def mount_small(case, path, size):
    """Mounts a small file system at a path, seen by this process and what it starts. Skips the test
    if that is not allowed."""
    if os.geteuid() != 0:
        case.skipTest("only root can mount a small file system")
    path.mkdir()
    libc = ctypes.CDLL(None, use_errno=True)
    words = ["mount", "-t", "tmpfs", "-o", f"size={size}", "none", str(path)]
    is_apart = libc.unshare(NEW_MOUNTS) == 0
    for it in (["mount", "--make-rprivate", "/"], words):
        is_apart = is_apart and subprocess.run(it, capture_output=True).returncode == 0
    if not is_apart:
        case.skipTest("no small file system can be mounted")
    case.addCleanup(subprocess.run, ["umount", "-l", str(path)], check=True)
