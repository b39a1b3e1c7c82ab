"""A virtual machine that runs jobs on a recorded disk: for ./dev power."""

import ctypes
import glob
import os
import queue
import re
import shutil
import signal
import subprocess
import time
from pathlib import Path

from power_images import BLOCK, Base, Recording
from power_nbd import Server

HERE = Path(__file__).resolve().parent
# What has to be there, and the Debian package that has it.
TOOLS = {
    "qemu-system-x86_64": "qemu-system-x86", "busybox": "busybox-static", "mkfs.ext4": "e2fsprogs",
    "mkfs.xfs": "xfsprogs", "mkfs.btrfs": "btrfs-progs", "gcc": "gcc",
}  # fmt: skip
KERNEL = "linux-image-cloud-amd64"
ALWAYS = ("virtio_pci", "virtio_blk")
# A busy machine gives timers late. Without random addresses QEMU translates a program's code once,
# not for each process. The others spare time: pages of 2 MiB and new pages are not filled with
# zeros in advance, and no tests run at the boot.
OPTIONS = (
    "console=ttyS0 quiet panic=-1 oops=panic mitigations=off no_timer_check norandmaps nokaslr "
    "init_on_alloc=0 "
    "transparent_hugepage=never cryptomgr.notests audit=0 apparmor=0 selinux=0"
)
# One processor, on which code runs as if there were more: else a request of a disk was lost,
# perhaps for want of barriers. It has what a built program needs (x86-64-v2), as QEMU's default has
# not.
PROCESSORS = ("-cpu", "Nehalem", "-smp", "1,maxcpus=2")
# Its memory, and the most that QEMU keeps of translated code, both in MiB.
MEMORY = ("-m", "256", "-accel", "tcg,tb-size=64")
# How long the guest may be silent, on a machine that is busy.
SECONDS = 900


class FileSystem:
    """A kind of file system: its size and how it is made, the modules that it wants, where its
    superblocks are, the lines of the shell after which its kernel threads write nothing by
    themselves, and every 5 or 30 seconds, and what its manual says to run on one that cannot be
    mounted."""

    def __init__(self, name, mebibytes, make, modules, superblocks, threads, repair=None):
        self.name, self.mebibytes, self.make, self.modules, self.repair = (
            name,
            mebibytes,
            make,
            modules,
            repair,
        )
        self.superblocks, (self.quiet, self.usual) = superblocks, threads

    def empty(self, path):
        """Makes an empty one in a file."""
        with open(path, "wb") as file:
            file.truncate(self.mebibytes << 20)
        subprocess.run([*self.make, str(path)], check=True, stdout=subprocess.DEVNULL)
        # A file in memory needs no pages for zeros.
        subprocess.run(["fallocate", "--dig-holes", str(path)], check=True)
        return Base(path, [place // BLOCK for place in self.superblocks])


COMMITS = ("mount -o remount,commit=600 /dev/vda /mnt", ":")
LOG_WORK = tuple(f"echo {pause} >/proc/sys/fs/xfs/xfssyncd_centisecs" for pause in (720000, 3000))
FILE_SYSTEMS = {
    # Nothing is left to be initialized later, so that the kernel does not write by itself.
    "ext4": FileSystem(
        "ext4",
        64,
        ["mkfs.ext4", "-q", "-E", "lazy_itable_init=0,lazy_journal_init=0"],
        (),
        (0,),
        COMMITS,
        ["e2fsck", "-f", "-y"],
    ),
    "xfs": FileSystem("xfs", 320, ["mkfs.xfs", "-q"], ("xfs",), (), LOG_WORK),
    "btrfs": FileSystem(
        "btrfs", 256, ["mkfs.btrfs", "-q"], ("btrfs",), (64 << 10, 64 << 20), COMMITS
    ),
}


def path_of(tool):
    return shutil.which(tool, path=f"{os.environ.get('PATH', '')}:/usr/sbin:/sbin:/usr/bin:/bin")


def kernel():
    """Returns the newest kernel that has its modules, and their directory; None if there is
    none."""
    for path in sorted(glob.glob("/boot/vmlinuz-*cloud-amd64"), reverse=True):
        modules = Path("/lib/modules") / path.removeprefix("/boot/vmlinuz-")
        if (modules / "modules.dep").exists():
            return path, modules
    return None


def absent():
    """Returns the names of the Debian packages that are needed and absent."""
    return [package for tool, package in TOOLS.items() if not path_of(tool)] + (
        [] if kernel() else [KERNEL]
    )


# ---- the first file system of the guest


class Archive:
    """An archive of files in the kernel's format (cpio)."""

    def __init__(self):
        self.parts, self.names = [], set()

    def add(self, name, data, mode):
        if name in self.names:
            return
        self.names.add(name)
        path = name.encode() + b"\0"
        numbers = (len(self.names), mode, 0, 0, 1, 0, len(data), 0, 0, 0, 0, len(path), 0)
        head = b"070701" + b"".join(b"%08X" % number for number in numbers) + path
        self.parts += [head, bytes(-len(head) % 4), data, bytes(-len(data) % 4)]

    def add_file(self, name, path, mode=0o100755):
        """Adds a file with the directories above it."""
        for parent in list(Path(name).parents)[-2::-1]:
            self.add(str(parent), b"", 0o40755)
        self.add(name, Path(path).read_bytes(), mode)

    def save(self, path):
        self.add("TRAILER!!!", b"", 0)
        Path(path).write_bytes(b"".join(self.parts))


def libraries(program):
    """Returns the files that the program is linked with."""
    told = subprocess.run(["ldd", program], capture_output=True, text=True).stdout
    return sorted(set(re.findall(r"(/\S+) \(0x", told)))


def modules_of(directory, wanted):
    """Returns the files of modules and of those that they need, in an order in which they can be
    loaded."""
    needs = {}
    for line in (directory / "modules.dep").read_text().splitlines():
        file, _, rest = line.partition(":")
        needs[file] = rest.split()
    files = {Path(file).name.split(".")[0].replace("-", "_"): file for file in needs}
    found = []
    for name in wanted:
        for file in [*reversed(needs[files[name]]), files[name]]:
            if file not in found:
                found.append(file)
    return found


def compiled(room, name, sources, *options):
    made = room / name
    subprocess.run(
        [path_of("gcc"), "-O2", *options, "-o", made, *(HERE / source for source in sources)],
        check=True,
    )
    return made


def first_files(room, program, server, names):
    """Writes the guest's first file system, with the programs, for file systems of these names.
    Returns its path."""
    archive, directory = Archive(), kernel()[1]
    files = modules_of(
        directory, [*ALWAYS, *(it for name in names for it in FILE_SYSTEMS[name].modules)]
    )
    for file in files:
        archive.add_file(f"modules/{Path(file).name}", directory / file)
    programs = {
        "bin/busybox": path_of("busybox"),
        "program": program,
        **({"server": server} if server else {}),
    }
    for name, path in programs.items():
        for library in libraries(path):
            archive.add_file(library.lstrip("/"), library)
        archive.add_file(name, path)
    archive.add_file("power.so", compiled(room, "power.so", ["power.c"], "-shared", "-fPIC"))
    archive.add_file("init", compiled(room, "init", ["power_guest.c", "power_client.c"], "-static"))
    for name in ("run", "say", "send_logs"):
        archive.add(f"bin/{name}", b"/init", 0o120777)
    archive.add_file("jobs.sh", HERE / "power_jobs.sh", 0o100644)
    archive.add(
        "modules/list", "".join(f"{Path(file).name}\n" for file in files).encode(), 0o100644
    )
    archive.save(room / "first.cpio")
    return room / "first.cpio"


# ---- the machine


class Dead(Exception):
    """The guest ended."""


class Silent(Exception):
    """The guest does not answer."""


def end_with_parent():
    """Lets the kernel kill this process when its parent ends."""
    ctypes.CDLL(None).prctl(1, signal.SIGKILL)


class Guest:
    """A running machine, which does one job after another."""

    def __init__(self, room, first, size):
        self.console = room / "console.txt"
        socket = room / "nbd"
        socket.unlink(missing_ok=True)
        self.server = Server(socket, size)
        disks = []
        for name in ("data", "messages", "jobs"):
            server = f"server.type=unix,server.path={socket},export={name}"
            disks += ["-blockdev", f"driver=nbd,node-name={name},{server},cache.direct=on"]
            disks += ["-device", f"virtio-blk-pci,drive={name},discard=off,write-zeroes=off"]
        self.machine = subprocess.Popen(
            [
                path_of("qemu-system-x86_64"), "-M", "pc", *PROCESSORS, *MEMORY, "-nodefaults", "-no-reboot",
                "-display", "none", "-serial", f"file:{self.console}", "-kernel", kernel()[0], "-initrd", str(first),
                "-append", OPTIONS, *disks,
            ],
            stdin=subprocess.DEVNULL, preexec_fn=end_with_parent,
        )  # fmt: skip

    def run(self, job, image):
        """Runs a job on a disk, a copy of an image. Returns its messages and the recording."""
        self.server.record(image.copy())
        self.server.give(job)
        messages, end = [], time.monotonic() + SECONDS
        while not messages or messages[-1].words != ["done"]:
            try:
                messages.append(self.server.messages.get(timeout=1))
                end = time.monotonic() + SECONDS
            except queue.Empty:
                if self.machine.poll() is not None:
                    raise Dead(self.last_lines()) from None
                if time.monotonic() > end:
                    raise Silent(
                        f"the machine is silent for {SECONDS} s: {self.last_lines()}"
                    ) from None
        return messages[:-1], Recording(image, self.server.events)

    def last_lines(self):
        lines = (
            self.console.read_text(errors="replace").splitlines() if self.console.exists() else []
        )
        return " | ".join(lines[-3:]) or "its console is empty"

    def close(self):
        self.machine.kill()
        self.machine.wait()
        self.server.close()
