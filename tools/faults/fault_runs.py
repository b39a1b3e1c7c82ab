"""Runs a program with one failing call of the system, and looks what that left: for ./dev
faults."""

import errno
import os
import re
import shutil
import subprocess
from pathlib import Path

import entry_logs

SECONDS = 120
# Each way in which a call of a kind fails: its name, FAULT_HOW, and whether later calls fail too.
ONCE = {
    "open": ("EIO", "EMFILE", "EINTR"),
    "read": ("EIO", "short", "EINTR"),
    "write": ("EIO", "ENOSPC", "short", "full", "nearly", "EINTR"),
    "sync": ("EIO", "EINTR"),
    "remove": ("EIO",),
    "rename": ("EIO",),
    "cut": ("EIO",),
    "make": ("EIO", "ENOSPC"),
    "stat": ("EIO",),
    "list": ("EIO",),
    "lock": ("ENOLCK",),
    "mode": ("EPERM",),
}
STAY = {"write": "EIO", "sync": "EIO", "open": "EIO", "read": "EIO", "remove": "EIO", "stat": "EIO"}
# A disk that is full after a part of a write.
FULL = ("full", "nearly")
WRITING = "open,write,sync,remove,rename,cut,make,mode"
READING = ("open", "read", "stat", "list")
# A fault that the caller need not hear of: a call that goes on, or that is tried again.
UNSEEN = ("short", "EINTR")
# What the program may pass over: the number in the lock file tells who writes and no more, a file
# system need not lock directories, a file that sets a log aside is removed by the next writer, and
# a hint that is left without its log by the next `hint`, as one that was not written to its end.
PASSED_OVER = re.compile(
    r"(write|cut) .*/writer\.lock|lock .*/logs|remove .*\.(unsynced|hint|hint\.new)"
)


# What a program says of what it could not read and does without: a hint, whose log it reads then,
# and the watermarks of an earlier release.
DONE_WITHOUT = re.compile(r"note (hint not used: log \d+|watermarks not looked for): .*\n")


def without_notes(told):
    """What a program said but of what it does without, and whether it said something of that."""
    left = DONE_WITHOUT.sub("", told)
    return left, left != told


class Ran:
    """A call of the program that ended."""

    def __init__(self, status, out, told):
        self.status, self.out, self.told = status, out, told

    def last(self):
        """What it said last, for a report."""
        lines = (self.told.strip() or self.out.strip()).splitlines()
        faults = [line for line in lines if "fault" in line]
        return (faults or lines or ["nothing"])[0][:150]


class Fault:
    """A failing call: which kinds count, which of these calls fails, and how."""

    def __init__(self, kinds, variant, at, stays=False):
        self.kinds, self.variant, self.at, self.stays = kinds, variant, at, stays

    def errno(self):
        return errno.ENOSPC if self.variant in FULL else getattr(errno, self.variant, None)

    def environment(self):
        how = self.variant if self.variant in FULL or self.errno() is None else self.errno()
        return {
            "FAULT_KINDS": f",{self.kinds},",
            "FAULT_AT": str(self.at),
            "FAULT_HOW": str(how),
            "FAULT_STAYS": "1" if self.stays else "0",
        }

    def __str__(self):
        kind = "call" if self.kinds == WRITING else self.kinds
        return f"{kind} {self.at} {self.variant}{' and all later' if self.stays else ''}"


NO_FAULT = Fault("open,read,write,sync,remove,rename,cut,make,stat,list,lock,mode", "EIO", 0)


class Program:
    """The program, and the library that is preloaded to fail its calls."""

    def __init__(self, path, library):
        self.path, self.library = str(path), str(library)

    def call(self, words, steps="", **environment):
        """Calls it to its end. A call that hangs has the status None."""
        try:
            run = subprocess.run(
                [self.path, *map(str, words)], input=steps.encode(), capture_output=True,
                timeout=SECONDS, env={**os.environ, **environment},
            )  # fmt: skip
        except subprocess.TimeoutExpired:
            return Ran(None, "", f"hangs for {SECONDS} seconds")
        return Ran(
            run.returncode, run.stdout.decode(errors="replace"), run.stderr.decode(errors="replace")
        )


class Room:
    """A folder with the logs that a run writes, and what is known of their bytes on the device."""

    def __init__(self, program, top):
        self.program = program
        self.work, self.shadow, self.trace = top / "work", top / "shadow", top / "trace"
        self.logs, self.image = self.work / "logs", top / "image"

    def fill(self, base, beside):
        """Makes the folder anew, as a copy of a durable one, without logs where the base is none,
        and files beside it."""
        for path in (self.work, self.shadow):
            shutil.rmtree(path, ignore_errors=True)
            path.mkdir()
        if base:
            shutil.copytree(base, self.logs)
        for name, data in beside.items():
            (self.work / name).write_bytes(data)
        self.files = {}
        for path in self.logs.glob("*") if base else ():
            self.files[path.stat().st_ino] = path.read_bytes()
        self.names = (
            {path.name: f"{path.stat().st_ino}.0" for path in self.logs.glob("*")} if base else None
        )

    def call(self, words, steps, fault):
        """Calls the program with a fault. Returns how it ended, and the calls that counted."""
        self.trace.unlink(missing_ok=True)
        self.trace.touch()
        ran = self.program.call(
            words, steps, LD_PRELOAD=self.program.library, FAULT_FOLDER=str(self.work),
            FAULT_TRACE=str(self.trace), FAULT_SHADOW=str(self.shadow), **fault.environment(),
        )  # fmt: skip
        return ran, self.trace.read_text().splitlines()

    def synced_names(self):
        """The names that are durable, each with the file that it leads to; None: not even the
        folder's own."""
        if self.names is None:
            top = self.shadow / f"names.{self.work.stat().st_ino}"
            if not top.exists() or not any(
                line.endswith(" logs") for line in top.read_text().splitlines()
            ):
                return None
        kept = self.shadow / f"names.{self.logs.stat().st_ino}" if self.logs.exists() else None
        if kept is None or not kept.exists():
            return self.names or {}
        return {
            name: file
            for file, name in (line.split(" ", 1) for line in kept.read_text().splitlines())
        }

    def synced_bytes(self, file):
        kept = self.shadow / file
        if kept.exists():
            return kept.read_bytes()
        inode, births = file.split(".")
        return self.files.get(int(inode), b"") if births == "0" else b""

    def written(self):
        """The files that are there."""
        return (
            {path.name: path.read_bytes() for path in self.logs.glob("*")}
            if self.logs.exists()
            else {}
        )

    def live(self):
        """Each file that is there: its bytes, and those of them that are durable."""
        births = {}
        known = self.shadow / "known"
        data = known.read_bytes() if known.exists() else b""
        for at in range(0, len(data), 16):
            births[int.from_bytes(data[at : at + 8], "little")] = int.from_bytes(
                data[at + 8 : at + 12], "little"
            )
        found = {}
        for path in self.logs.glob("*") if self.logs.exists() else ():
            inode = path.stat().st_ino
            found[path.name] = (
                path.read_bytes(),
                self.synced_bytes(f"{inode}.{births.get(inode, 0)}"),
            )
        return found

    def images(self):
        """What may be found after a power loss, beside what is there: the files by name, None where
        not even the folder is."""
        names, live = self.synced_names(), self.live()
        synced = (
            None
            if names is None
            else {name: self.synced_bytes(file) for name, file in names.items()}
        )
        half = {}
        for name, (whole, kept) in live.items():
            tail = whole[len(kept) :] if whole.startswith(kept) else b""
            half[name] = kept + tail[: len(tail) // 2]
        return {
            "synced": synced,
            "names": {name: kept for name, (_, kept) in live.items()},
            "half": half,
        }

    def lay(self, files):
        """Writes files into the image's folder. Returns it."""
        shutil.rmtree(self.image, ignore_errors=True)
        self.image.mkdir()
        for name, data in files.items():
            (self.image / name).write_bytes(data)
        return self.image


def cut_torn(call, folder, log):
    """Calls `seal --cut-torn`, and does what its help says. Returns how the last call ended."""
    for number in range(3):
        ran = call(["seal", "--cut-torn", folder, log], "")
        found = re.search(r"^help: move (\S+) to another name", ran.told, re.M)
        if not found:
            return ran
        Path(found[1]).rename(f"{found[1]}.{number}")
    return ran


def way_on(program, folder, ran):
    """Does what a refused opening says. Returns None, or why that does not help."""
    found = re.search(r"log (\d+)", ran.told)
    if not found or "help: " not in ran.told:
        return f"no way on: {ran.last()}"
    log = found[1]
    if "seal --cut-torn" in ran.told:
        cut = cut_torn(program.call, folder, log)
        return None if cut.status == 0 else f"{ran.last()}; seal --cut-torn: {cut.last()}"
    scan = program.call(["scan", folder, log])
    if re.search(r"^\d+ \d+ \d+ \d+$", scan.out, re.M):
        return f"{ran.last()}; scan: {scan.last()}"
    name = f"{int(log):x}.log"
    if not (folder / name).exists():
        return f"no way on: {ran.last()}"
    (folder / name).rename(folder / f"{name}.away")
    return None


def open_and_read(program, folder, keys, dead):
    """Opens a store on a folder and reads keys. Returns what was found, None for no entry, or why
    it does not open."""
    keys = list(keys)
    steps = "".join(f"take 0 {ledger} {entry}\nfetch 0\nrelease 0\n" for ledger, entry in keys)
    for _ in range(20):
        ran = program.call(["script", "--folder", folder, *dead], steps)
        if ran.status == 0:
            break
        trouble = way_on(program, folder, ran)
        if trouble:
            return trouble
    else:
        return f"20 ways on do not help: {ran.last()}"
    lines, found = ran.out.splitlines(), {}
    for index, key in enumerate(keys):
        take, fetch, _ = lines[3 * index : 3 * index + 3]
        if take.startswith("leased ") and fetch.startswith("bytes "):
            found[key] = bytes.fromhex(fetch.removeprefix("bytes ").removeprefix("-"))
        else:
            found[key] = None if take in ("not held", "deleted") else f"{take}, {fetch}"
    return found


class Looked:
    """What was found in a folder that should have certain entries: what is lost, and what leads
    nowhere."""

    def __init__(self, must, may, dead, only=True):
        self.must, self.may, self.dead, self.only = must, may, dead, only
        self.lost, self.stuck = [], []

    def copy(self):
        """The same question, without what was found."""
        return Looked(self.must, self.may, self.dead, self.only)

    def compare(self, found, how):
        for key, data in self.must.items():
            if key[0] not in self.dead and found.get(key) != data:
                self.lost.append(
                    f"{how}, entry {key[1]} of ledger {key[0]} is {found.get(key)!r:.40}"
                )
        for key, data in found.items():
            wanted = {self.must.get(key), self.may.get(key)} - {None}
            if data is not None and data not in wanted and (self.only or wanted):
                self.lost.append(
                    f"{how}, entry {key[1]} of ledger {key[0]}, which nobody added, is {data!r:.40}"
                )

    def look(self, program, folder):
        """Reads a folder beside the program, and by it, as the printed ways on allow."""
        self.compare(entry_logs.last_records(entry_logs.read_folder(folder)), "read")
        found = open_and_read(program, folder, {**self.may, **self.must}, self.dead)
        if isinstance(found, str):
            self.stuck.append(found)
        else:
            self.compare(found, "opened")


def is_named(ran, hits, fault, says_reason):
    """Whether a run that met a fault names it; with a file and the reason where the command
    promises both."""
    if "fault" not in ran.out + ran.told:
        return False
    if not says_reason or fault.errno() is None:
        return True
    names = set()
    for path in (hit.split(" ", 1)[1] for hit in hits):
        log = entry_logs.log_of(os.path.basename(path))
        names |= {path, os.path.dirname(path)} | ({f"log {log}:"} if log is not None else set())
    return os.strerror(fault.errno()) in ran.told and any(name in ran.told for name in names)


def variants():
    """Each kind of fault: the kinds of calls that count, how one fails, and whether later ones
    do."""
    for kind, names in ONCE.items():
        for name in names:
            yield kind, name, False
    for kind, name in STAY.items():
        yield kind, name, True
    yield WRITING, "kill", False
