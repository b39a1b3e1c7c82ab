"""What a program does at a limit of files, on a full disk, and without permission: for ./dev kills
--limits."""

import os
import resource
import shutil
import signal
import subprocess

import serve_faults
from kills import Program, read, script_words

bookie = serve_faults.bookie

# The content of the entry that each directory has, and the size of one that is too long.
HELD, BIG = "hello", 100000
# The sizes of a small file system, and of one with room.
SMALL, LARGE = "64k", "1m"
DENIED = "Permission denied"


def expect(what, is_so):
    print(f"{what}: {'as it must be' if is_so else 'DIFFERS'}")
    return 0 if is_so else 1


def small_files():
    """Limits files to 8192 bytes. A longer write fails, without a signal."""
    signal.signal(signal.SIGXFSZ, signal.SIG_IGN)
    resource.setrlimit(resource.RLIMIT_FSIZE, (8192, 8192))


class Shell:
    """The shell: `add` and `read` return `published`, the content, or what is said in their
    place."""

    name = "bk_shell"
    # What an entry that is not written answers, and how an opening begins that is refused.
    refusal, fault = "fault disk", "fault disk: "

    def __init__(self, path):
        self.program = Program(path)

    def at(self, path):
        return Shell(path)

    def add(self, folder, entry, content, **how):
        steps = f"add 1 {entry} {content}\nswap\nwrite\npublish\n"
        status, output, told = self.program.call(script_words(folder), steps, **how)
        answers = output.splitlines()
        if status == 0 and answers == ["accepted", "swapped 1", self.refusal, "not all written"]:
            return self.refusal
        return (
            "published" if status == 0 and answers[-1] == "published 1" else told.strip() or output
        )

    def read(self, folder, entry):
        found = read(self.program, folder, [(1, entry)])[1, entry]
        return found[1] if isinstance(found, tuple) else found


class Server:
    """The server, by its client."""

    name = "bk_serve"
    refusal = fault = "disk"

    def __init__(self, path):
        self.path = str(path)

    def at(self, path):
        return Server(path)

    def session(self, folder, **how):
        """Opens the directory. Returns the session, or the name of the refusal."""
        return serve_faults.answer_of(
            bookie.Bookie, [self.path, str(folder)], stderr=subprocess.DEVNULL, **how
        )

    def add(self, folder, entry, content, **how):
        session = self.session(folder, **how)
        if isinstance(session, str):
            return session
        session.add(1, entry, content.encode())
        flushed = serve_faults.answer_of(session.flush)
        closed = serve_faults.answer_of(session.close)
        return (
            "published"
            if flushed == 1 and closed == 0
            else flushed
            if flushed == closed
            else f"{flushed}, {closed}"
        )

    def read(self, folder, entry):
        session = self.session(folder)
        if isinstance(session, str):
            return session
        with session:
            found = serve_faults.content_of(session, 1, entry)
        return found and found.decode()


def is_found(shell, folder):
    """Whether a reading command finds the entry."""
    status, output, _ = shell.program.call(["find", str(folder), "1", "0"])
    return status == 0 and output.split()[-1:] == [HELD.encode().hex()]


def limit_files(it, shell, folder):
    """An entry that exceeds the limit is not written; earlier ones can be read."""
    it.add(folder, 0, HELD)
    refused = it.add(folder, 1, "x" * BIG, preexec_fn=small_files)
    count = expect(f"{it.name}, a file that may not grow is `{it.refusal}`", refused == it.refusal)
    count += expect("  and reading commands find what was published", is_found(shell, folder))
    count += expect("  and an opening", it.read(folder, 0) == HELD)
    return count + expect("  and later it is written", it.add(folder, 1, "x" * BIG) == "published")


def limit_disk(it, shell, folder):
    """The same on a file system of 64 KiB; an opening may be refused until there is room."""
    folder.mkdir()
    mount = ["mount", "-t", "tmpfs", "-o"]
    if subprocess.run([*mount, f"size={SMALL}", "none", folder], capture_output=True).returncode:
        print(f"{it.name}, a full file system: not tried, since none can be mounted here")
        return 0
    try:
        logs = folder / "logs"
        it.add(logs, 0, HELD)
        count = expect(
            f"{it.name}, a full file system is `{it.refusal}`",
            it.add(logs, 1, "x" * BIG) == it.refusal,
        )
        count += expect("  and reading commands find what was published", is_found(shell, logs))
        found = it.read(logs, 0)
        how = "finds it" if found == HELD else "is refused with a named fault"
        count += expect(f"  and an opening {how}", found == HELD or str(found).startswith(it.fault))
        subprocess.run([*mount, f"remount,size={LARGE}", "none", folder], check=True)
        count += expect("  and with room it finds it", it.read(logs, 0) == HELD)
        return count + expect("  and then it is written", it.add(logs, 1, "x" * BIG) == "published")
    finally:
        subprocess.run(["umount", folder], check=True)


def limit_rights(it, shell, room):
    """Another user can read the directory, but not write to it."""
    if os.geteuid() != 0:
        print(f"{it.name}, without rights: not tried, since only root can become another user")
        return 0
    folder, other, reader = room / f"{it.name}.rights", room / it.name, room / "reader"
    shutil.copy(getattr(it, "path", None) or it.program.path, other)
    shutil.copy(shell.program.path, reader)
    it.add(folder, 0, HELD)
    nobody = {"preexec_fn": lambda: os.setuid(65534), "cwd": room}
    refused = it.at(other).add(folder, 1, "x", **nobody)
    is_named = refused.startswith(it.fault) and (it.fault == it.refusal or DENIED in refused)
    count = expect(f"{it.name}, a directory without rights is reported", is_named)
    if it.name == shell.name:
        status, output, told = Program(other).call(["compact", "--dead=1", str(folder)], **nobody)
        is_named = status == 1 and output == "" and told.startswith(it.fault) and DENIED in told
        count += expect("  by a compaction too", is_named)
    status, output, _ = Program(reader).call(["find", str(folder), "1", "0"], **nobody)
    return count + expect(
        "  and what may be read is read",
        status == 0 and output.split()[-1:] == [HELD.encode().hex()],
    )


def run(program, server, room):
    """Tries the limits of the shell and of the server. Returns the number of differences."""
    shell, count = Shell(program), 0
    room.chmod(0o755)
    for it in (shell, Server(server)):
        count += limit_files(it, shell, room / f"{it.name}.files")
        count += limit_disk(it, shell, room / f"{it.name}.disk")
        count += limit_rights(it, shell, room)
    return count
