"""Lets each command meet directories that no bookie makes: for ./dev faults --hostile."""

import hashlib
import os
import shutil
import socket
import stat
import subprocess
from pathlib import Path

import entry_logs

SECONDS = 60
MANY = 20_000
NOBODY = 65534
STEPS = "add 1 500 hello\nswap\nwrite\npublish\ntake 0 1 500\nfetch 0\nrelease 0\ntake 0 1 0\nfetch 0\nrelease 0\nroll\n"
# The log that is hostile, and its name.
ID, NAME = 9, "9.log"
RECORD = (24).to_bytes(4, "big") + (6).to_bytes(8, "big") + (1).to_bytes(8, "big") + b"outside!"
SMALL = b"BKLO\0\0\0\1" + bytes(1016) + RECORD


def commands(folder, log, has_load):
    """Each call: its words, its steps, and whether it only reads."""
    for word in ("check", "logs", "stat", "ledgers"):
        yield [word, folder], "", True
    yield ["check", "--digest", "auto", folder], "", True
    yield ["--json", "check", folder], "", True
    yield ["entries", folder, "1"], "", True
    yield ["find", folder, "1", "0"], "", True
    for word in ("scan", "header", "map"):
        yield [word, folder, log], "", True
    yield ["scan", "--data", folder, log], "", True
    yield ["compact", "--dry-run", "--dead=2", folder], "", True
    yield ["compact", "--dead=2", folder], "", False
    yield ["seal", folder, log], "", False
    yield ["seal", "--cut-torn", folder, log], "", False
    yield ["script", "--folder", folder], STEPS, False
    yield ["script", "--folder", folder, "--no-manifest"], STEPS, False
    if has_load:
        yield ["load", "--folder", folder, "--threads", "2", "--adds", "20"], "", False


def snapshot(top):
    """What is below a folder: kind, rights, and the bytes or where a link leads; a lock file's
    number is left out."""
    found = {}
    for path in [top, *top.rglob("*")] if os.path.lexists(top) else []:
        it = path.lstat()
        if stat.S_ISLNK(it.st_mode):
            held = os.readlink(path)
        elif stat.S_ISREG(it.st_mode):
            held = (
                it.st_size,
                hashlib.sha256(path.read_bytes()).hexdigest() if it.st_size < 1 << 24 else None,
            )
        else:
            held = None
        found[str(path.relative_to(top))] = (stat.S_IFMT(it.st_mode), it.st_mode & 0o7777, held)
    return found


# ---- the directories: each changes a copy of a good one, beside which is a folder `outside` with a
# good log


def link(target):
    return lambda folder: (folder / NAME).symlink_to(target)


def bind(path):
    here = os.getcwd()
    os.chdir(path.parent)
    try:
        with socket.socket(socket.AF_UNIX) as it:
            it.bind(path.name)
    finally:
        os.chdir(here)


def make_folder(folder):
    (folder / NAME).mkdir()
    (folder / NAME / "inside").write_bytes(b"kept")


def named(*names):
    """Files that have the bytes of a log, and names that are no log's."""
    return lambda folder: [
        Path(os.fsdecode(os.path.join(os.fsencode(folder), name))).write_bytes(SMALL)
        for name in names
    ]


def many(data):
    def fill(folder):
        for log in range(100, 100 + MANY):
            (folder / f"{log:x}.log").write_bytes(data)

    return fill


def torn(folder):
    """The log is torn, so that seal --cut-torn copies it."""
    (folder / NAME).write_bytes(SMALL + RECORD[:10])


def copy_at(make):
    def fill(folder):
        torn(folder)
        make(folder / (NAME + ".torn"))

    return fill


def draft_at(make):
    def fill(folder):
        torn(folder)
        make(folder / (NAME + ".torn.new"))

    return fill


def lock_at(make):
    def fill(folder):
        (folder / "writer.lock").unlink(missing_ok=True)
        make(folder / "writer.lock")

    return fill


def sparse(length):
    def fill(folder):
        (folder / NAME).write_bytes(SMALL)
        os.truncate(folder / NAME, length)

    return fill


def folder_is(make):
    """In the place of the folder is something else."""

    def fill(folder):
        shutil.rmtree(folder)
        make(folder)

    return fill


OUT = "../outside/6.log"
KINDS = {
    "a link to a log beside it": link("0.log"),
    "a link to a log outside": link(OUT),
    "a link that leads nowhere": link("../outside/new.log"),
    "a link to itself": link(NAME),
    "a link to a folder": link("../outside"),
    "a link to zeros without end": link("/dev/zero"),
    "a pipe": lambda folder: os.mkfifo(folder / NAME),
    "a link to a pipe": lambda folder: (os.mkfifo(folder / "pipe"), link("pipe")(folder)),
    "a socket": lambda folder: bind(folder / NAME),
    "a folder": make_folder,
    "two names of one log": lambda folder: os.link(folder / "0.log", folder / NAME),
    "a log with a name outside": lambda folder: os.link(folder / OUT, folder / NAME),
    "names in capitals": named(b"A.log", b"B.LOG", b"1F.log", b"c.Log"),
    "names that are no number": named(b"00.log", b"09.log", b"+9.log", b"-1.log", b"0x9.log", b" 9.log", b"9.log ", b".log"),
    "numbers that are too large": named(b"80000000.log", b"ffffffff.log", b"100000000.log", b"f" * 250 + b".log"),
    "the last log": named(b"7fffffff.log"),
    "a name with a line feed": named(b"9\n.log", b"\n9.log"),
    "a name that is not UTF-8": named(b"\xff.log"),
    "an empty log": lambda folder: (folder / NAME).write_bytes(b""),
    "a log of one byte": lambda folder: (folder / NAME).write_bytes(b"B"),
    "a log of zeros": lambda folder: (folder / NAME).write_bytes(bytes(5000)),
    "a log that is too long": sparse((1 << 32) + 10),
    "a log with a long end of zeros": sparse(1 << 28),
    "empty logs, many": many(b""),
    "small logs, many": many(SMALL),
    "a link as the lock": lock_at(lambda path: path.symlink_to(OUT)),
    "a link to nothing as the lock": lock_at(lambda path: path.symlink_to("../outside/new")),
    "a pipe as the lock": lock_at(os.mkfifo),
    "a socket as the lock": lock_at(bind),
    "a folder as the lock": lock_at(lambda path: path.mkdir()),
    "a file with two names as the lock": lock_at(lambda path: os.link(path.parent / OUT, path)),
    "a long file as the lock": lock_at(lambda path: path.write_bytes(b"precious " * 9)),
    "a link as the copy": copy_at(lambda path: path.symlink_to(OUT)),
    "a link to nothing as the copy": copy_at(lambda path: path.symlink_to("../outside/new")),
    "a pipe as the copy": copy_at(os.mkfifo),
    "a folder as the copy": copy_at(lambda path: path.mkdir()),
    "another file as the copy": copy_at(lambda path: path.write_bytes(b"precious")),
    "a link as the draft of the copy": draft_at(lambda path: path.symlink_to(OUT)),
    "a pipe as the draft of the copy": draft_at(os.mkfifo),
    "a folder as the draft of the copy": draft_at(lambda path: path.mkdir()),
    "another file as the draft of the copy": draft_at(lambda path: path.write_bytes(b"precious")),
    "a torn log with a name outside": lambda folder: (torn(folder), os.link(folder / NAME, folder / "../outside/9.log")),
    "a pipe as the copy of a short log": lambda folder: (
        (folder / NAME).write_bytes(b"BKLO"),
        os.mkfifo(folder / f"{NAME}.torn"),
    ),
    "a link as a bookie's index": lambda folder: (folder / "lastMark").symlink_to("nothing"),
    "no folder": folder_is(lambda path: None),
    "a file as the folder": folder_is(lambda path: path.write_bytes(SMALL)),
    "a pipe as the folder": folder_is(os.mkfifo),
    "a link to nothing as the folder": folder_is(lambda path: path.symlink_to("nothing")),
    "a link to itself as the folder": folder_is(lambda path: path.symlink_to(path.name)),
    "a link to the folder": lambda folder: (folder.rename(folder.parent / "real"), folder.symlink_to("real")),
    "a torn log that is a link": lambda folder: (
        torn(folder),
        (folder / NAME).rename(folder / "../outside/7.log"),
        link("../outside/7.log")(folder),
    ),
}  # fmt: skip
# These are tried by another user, whom the rights keep out.
RIGHTS = {
    "a log that may not be read": lambda folder: (folder / "0.log").chmod(0),
    "a log that may not be written": lambda folder: (folder / "0.log").chmod(0o444),
    "a lock that may not be read": lambda folder: (folder / "writer.lock").chmod(0),
    "a folder that may not be listed": lambda folder: folder.chmod(0o311),
    "a folder that may not be entered": lambda folder: folder.chmod(0o444),
    "a folder that may not be written": lambda folder: folder.chmod(0o555),
    "a folder without rights": lambda folder: folder.chmod(0),
}


class Hostile:
    """A good directory, copies of which are changed."""

    def __init__(self, program, top):
        self.top, self.program = top, top / "program"
        top.chmod(0o755)
        shutil.copy(program, self.program)
        self.good, self.folder, self.outside = top / "good", top / "logs", top / "outside"
        self.calls, self.found = 0, 0
        steps = "".join(
            f"add {ledger} {entry} data{entry}\n" for ledger in (1, 2, 3) for entry in range(9)
        )
        steps += "swap\n" + 27 * "write\n" + "publish\nroll\n"
        self.call(["script", "--folder", self.good, "--log-limit", "2048"], steps)
        self.entries = entry_logs.last_records(entry_logs.read_folder(self.good))
        self.has_load = "\n  load" in self.call(["help"], "").stdout

    def call(self, words, steps, other=False):
        try:
            return subprocess.run(
                [self.program, *map(str, words)], input=steps, capture_output=True, text=True, errors="replace",
                timeout=SECONDS, cwd=self.top, preexec_fn=(lambda: os.setuid(NOBODY)) if other else None,
            )  # fmt: skip
        except subprocess.TimeoutExpired:
            return None

    def lay(self, change, other):
        for path in (self.folder, self.outside, self.top / "real"):
            if path.is_dir() and not path.is_symlink():
                subprocess.run(["chmod", "-R", "u+rwX", path], check=True)
                shutil.rmtree(path)
            else:
                path.unlink(missing_ok=True)
        self.outside.mkdir()
        (self.outside / "6.log").write_bytes(SMALL)
        shutil.copytree(self.good, self.folder)
        change(self.folder)
        if other:
            for path in (self.folder, *self.folder.iterdir()):
                os.chown(path, NOBODY, NOBODY)

    def tell(self, kind, words, why):
        self.found += 1
        text = " ".join(str(word).replace(str(self.folder), "DIR") for word in words)
        print(f"{kind}: {text}: {why}".replace(str(self.folder), "DIR"), flush=True)

    def kind(self, name, change, other=False):
        log = 0 if other else ID
        for words, steps, is_reading in commands(self.folder, log, self.has_load):
            self.lay(change, other)
            before = snapshot(self.folder), snapshot(self.outside)
            ran = self.call(words, steps, other)
            self.calls += 1
            for why in self.faults(name, words, ran, is_reading, before):
                self.tell(name, words, why)

    def faults(self, name, words, ran, is_reading, before):
        """What is wrong with a call that ended, or did not."""
        if ran is None:
            return [f"hangs for {SECONDS} seconds"]
        found = []
        told = ran.stderr.strip()
        if ran.returncode not in (0, 1, 2):
            found.append(f"status {ran.returncode}: {told[-150:]}")
        if ran.returncode and not self.is_told(told, ran.stdout):
            found.append(
                f"status {ran.returncode} without a name: {told[-150:]!r} {ran.stdout[-80:]!r}"
            )
        # A file outside that is also a log of the folder may change as the log does.
        names = list(self.folder.glob("*.log")) if self.folder.is_dir() else []
        logs = {path.stat().st_ino for path in names if not path.is_symlink() and path.is_file()}
        same = {path.name for path in self.outside.iterdir() if path.stat().st_ino in logs}
        outside = snapshot(self.outside)
        differ = self.difference(
            *({it: held[it] for it in held if it not in same} for held in (before[1], outside))
        )
        if differ:
            found.append(f"changes files outside: {differ}")
        after = snapshot(self.folder)
        if is_reading and after != before[0]:
            found.append(f"reads, and changes the folder: {self.difference(before[0], after)}")
        if not is_reading:
            found += self.written(words, before[0], after)
        return found

    @staticmethod
    def is_told(told, out):
        """Whether a report names what is wrong: a file, a log, a folder or another reason than the
        word disk alone."""
        lines = [
            line for line in (told + "\n" + out).splitlines() if "fault" in line or "error" in line
        ]
        return any(
            line.strip() not in ("fault disk", "fault odd disk", '{"fault":"disk"}')
            for line in lines
        )

    @staticmethod
    def difference(before, after):
        differ = [
            name for name in before.keys() | after.keys() if before.get(name) != after.get(name)
        ]
        return ", ".join(sorted(differ)[:4])

    def written(self, words, before, after):
        """What a command that writes did beyond that: to files that are no logs, or to entries of
        ledgers that live."""
        found = []
        own = ("writer.lock", "ledgers.manifest", entry_logs.MANIFEST, ".")
        for name, it in before.items():
            is_log = entry_logs.log_of(name) is not None and it[0] == stat.S_IFREG
            if not is_log and name not in own and after.get(name) != it:
                found.append(f"changes {name}")
        lock = before.get("writer.lock")
        if lock and lock[0] != stat.S_IFREG and lock != after.get("writer.lock"):
            found.append("changes what is in the place of the lock")
        if "0.log" not in before:
            return found
        dead = {2} if words[0] == "compact" else set()
        subprocess.run(["chmod", "-R", "u+rwX", self.folder], check=True)
        left = entry_logs.last_records(entry_logs.read_folder(self.folder))
        lost = [
            key
            for key, data in self.entries.items()
            if key[0] not in dead and left.get(key) != data
        ]
        return found + ([f"loses {len(lost)} entries, such as {lost[0]}"] if lost else [])


def run(program, only, top):
    hostile = Hostile(program, top)
    for name, change in KINDS.items():
        if not only or name in only:
            hostile.kind(name, change)
    for name, change in RIGHTS.items():
        if os.geteuid() == 0 and (not only or name in only):
            hostile.kind(name, change, other=True)
    if os.geteuid() != 0:
        print("rights: not tried, since only root can become another user")
    print(f"{hostile.calls} calls, {hostile.found} findings")
    return 1 if hostile.found else 0
