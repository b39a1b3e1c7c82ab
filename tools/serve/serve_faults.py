"""Fails each call of the system in turn while bk_serve answers a session: for ./dev faults --serve.

The session publishes entries, deletes and fences ledgers and stores master keys, and goes on after
each refusal. Later sessions, on the files as they are and on what a power loss would leave, have to
find what was answered: entries that were published after a refused deletion too, and no entry of a
ledger whose deletion was answered. After a `close` that was refused the exit status has to be 1. A
log is sealed before the session and one in it, so calls on their hints fail too.

In further sessions reads fail that are sent ahead and that threads share. Each has to be answered
in its turn, by its entry or by `disk`, and one failing call is told once.
"""

import io
import os
import shutil
import subprocess
import sys

import fault_runs

TOP = os.path.dirname(os.path.dirname(os.path.dirname(os.path.abspath(__file__))))
sys.path.insert(0, os.path.join(TOP, "bindings", "python"))

import bookie  # noqa: E402

frames = bookie.frames

KINDS = (
    ("write", "EIO", False),
    ("write", "ENOSPC", False),
    ("write", "short", False),
    ("write", "nearly", False),
    ("write", "EIO", True),
    ("sync", "EIO", False),
    ("sync", "EIO", True),
    ("cut", "EIO", False),
    ("rename", "EIO", False),
    ("make", "ENOSPC", False),
    (fault_runs.WRITING, "kill", False),
)
# How reads fail that threads share, how many threads do, and how often each entry is read.
READ_KINDS = (
    ("read", "EIO", False),
    ("read", "EIO", True),
    ("read", "short", False),
    ("read", "EINTR", False),
)
READERS, TIMES, SECONDS = 4, 4, 60
NO_REPLY = "no reply"


class Known:
    """What the replies of a session say of a directory."""

    def __init__(self, base):
        # Entries that are published, and those that may be there or not; each with its content.
        self.must, self.may = dict(base), {}
        self.dead, self.fenced, self.keys, self.accepted = set(), set(), {}, {}
        # Ledgers of which a deletion was refused or not answered.
        self.doubtful = set()
        # What the server said that is not so.
        self.wrong = []

    def added(self, key, content, answer):
        if answer == NO_REPLY:
            self.may[key] = content
        elif isinstance(answer, bookie.Receipt):
            self.accepted[key] = content

    def flushed(self, answer):
        if not isinstance(answer, str):
            self.must.update(self.accepted)
            self.accepted = {}

    def deleted(self, ledger, answer):
        """A deletion that was refused may hold for the entries that were there, and for no later
        one."""
        for entries in (self.must, self.accepted):
            for key in [it for it in entries if it[0] == ledger]:
                self.may[key] = entries.pop(key)
        (self.doubtful if isinstance(answer, str) else self.dead).add(ledger)

    def differences(self, session):
        """Yields how a later session differs from what is known."""
        yield from self.wrong
        entries = {**self.may, **self.accepted, **self.must}
        for (ledger, entry), content in sorted(entries.items()):
            found = content_of(session, ledger, entry)
            if ledger in self.dead:
                if found is not None:
                    yield f"entry {entry} of ledger {ledger}, which is deleted, is there"
            elif (ledger, entry) in self.must and found != content:
                yield f"entry {entry} of ledger {ledger} is {found!r:.40}"
            elif found not in (None, content):
                yield f"entry {entry} of ledger {ledger} is {found!r:.40}"
        for ledger in sorted(self.fenced - self.dead - self.doubtful):
            if not session.is_fenced(ledger):
                yield f"ledger {ledger} is no longer fenced"
        for ledger, keys in sorted(self.keys.items()):
            if ledger not in self.dead | self.doubtful and session.master_key(ledger) not in keys:
                yield f"the master key of ledger {ledger} is {session.master_key(ledger)!r:.40}"


def answer_of(call, *words, **fields):
    """Returns the answer of a call, or the name of its refusal, or that there was no reply."""
    try:
        return call(*words, **fields)
    except bookie.Refused as refusal:
        return refusal.name
    except bookie.Ended:
        return NO_REPLY


def content_of(session, ledger, entry):
    """Returns the content of an entry, None if there is none or its ledger is deleted."""
    try:
        return session.read(ledger, entry)
    except bookie.Refused as refusal:
        if refusal.name == "deleted":
            return None
        raise


def add(session, known, ledger, entry):
    content = f"entry {entry} of ledger {ledger}".encode()
    known.added((ledger, entry), content, answer_of(session.add, ledger, entry, content))


def delete(session, known, ledger):
    known.deleted(ledger, answer_of(session.delete, ledger))


def fence(session, known, ledger):
    if not isinstance(answer_of(session.fence, ledger), str):
        known.fenced.add(ledger)


def set_key(session, known, ledger, key):
    before = known.keys.get(ledger, {None})
    answer = answer_of(session.set_master_key, ledger, key)
    known.keys[ledger] = before | {key} if isinstance(answer, str) else {key}


def flush(session, known):
    known.flushed(answer_of(session.flush))


def run_steps(session, known):
    """The session: each deletion, fence and key is followed by adds, which count where they are
    accepted and published."""
    for ledger in (1, 2, 3, 4):
        add(session, known, ledger, 10)
    flush(session, known)
    answer_of(session.seal)
    for ledger in (1, 2):
        delete(session, known, ledger)
        add(session, known, ledger, 11)
    set_key(session, known, 3, b"a key")
    fence(session, known, 3)
    add(session, known, 3, 11)
    flush(session, known)
    add(session, known, 1, 12)
    delete(session, known, 5)
    set_key(session, known, 4, b"another key")
    add(session, known, 4, 11)
    add(session, known, 5, 12)
    flush(session, known)


def replies_of(data):
    """Yields the id and the message of each reply."""
    stream = io.BytesIO(data)
    while (frame := frames.read_frame(stream)) is not None:
        yield frame[0], frames.decode(frames.STATUSES, frame[1])


def wrong_reads(asked, entries, replies, stays):
    """Yields what is wrong of the replies to reads of which one failed, or all later ones too."""
    if [id for id, _ in replies] != sorted(asked):
        yield f"{len(asked)} reads get {len(replies)} replies, or not in their order"
    for id, reply in replies:
        if reply.name != "disk" and reply.fields.get("content") != entries[asked[id]]:
            yield f"read {id}, of {asked[id]}, is answered by {reply.name}"
    if not stays and [reply.name for _, reply in replies].count("disk") > 1:
        yield "one failing call is told more than once"


class Server:
    """The program, and the directories of a trial."""

    def __init__(self, path, shell, top, room):
        self.path, self.shell, self.top, self.room = str(path), shell, top, room
        self.base = top / "base"
        self.entries = {}

    def open(self, folder, **environment):
        how = {"env": {**os.environ, **environment}} if environment else {}
        with open(self.top / "told", "wb") as told:
            return bookie.Bookie([self.path, str(folder)], stderr=told, **how)

    def fill(self):
        """Makes the directory that each trial begins with."""
        known = Known({})
        with self.open(self.base) as session:
            for ledger in range(1, 6):
                for entry in range(3):
                    add(session, known, ledger, entry)
            flush(session, known)
            session.seal()
        if not list(self.base.glob("*.hint")):
            raise RuntimeError("the sealed log has no hint")
        self.entries = known.must

    def begin(self, fault):
        """Makes the directory of a session with a fault. Returns the environment of the server."""
        self.room.fill(self.base, {})
        self.room.trace.unlink(missing_ok=True)
        self.room.trace.touch()
        return {
            "LD_PRELOAD": self.shell.library, "FAULT_FOLDER": str(self.room.work), "FAULT_TRACE": str(self.room.trace),
            "FAULT_SHADOW": str(self.room.shadow), **fault.environment(),
        }  # fmt: skip

    def read(self, fault):
        """Serves reads that are sent ahead, with a fault. Returns what is wrong, and the calls that
        counted."""
        environment, asked = self.begin(fault), dict(enumerate(sorted(self.entries) * TIMES, 1))
        data = frames.encode(
            frames.BY_NAME["hello"], 0, {"magic": frames.MAGIC, "lowest": 1, "highest": 1}
        )
        for id, (ledger, entry) in asked.items():
            data += frames.encode(frames.BY_NAME["read"], id, {"ledger": ledger, "entry": entry})
        words = [self.path, str(self.room.logs), "--readers", str(READERS)]
        ran = subprocess.run(
            words,
            input=data,
            capture_output=True,
            timeout=SECONDS,
            env={**os.environ, **environment},
        )
        (_, first), *replies = replies_of(ran.stdout)
        wrong = (
            list(wrong_reads(asked, self.entries, replies, fault.stays))
            if first.name == "welcome"
            else []
        )
        return wrong, self.room.trace.read_text().splitlines()

    def run(self, fault):
        """Serves a session with a fault. Returns what is known then, and the calls that counted."""
        environment, known = self.begin(fault), Known(self.entries)
        try:
            session = self.open(self.room.logs, **environment)
        except (bookie.Refused, bookie.Ended):
            return known, self.room.trace.read_text().splitlines()
        run_steps(session, known)
        try:
            session.close()
        except bookie.Refused:
            if session.process.returncode != 1:
                known.wrong.append(
                    f"the exit status after a refused close is {session.process.returncode}"
                )
        except bookie.Ended:
            session.kill()
        return known, self.room.trace.read_text().splitlines()

    def look(self, known, files):
        """Returns how a later session on these files differs from what is known, or that there is
        none."""
        folder = self.room.lay(files)
        for _ in range(20):
            try:
                session = self.open(folder)
                break
            except (bookie.Refused, bookie.Ended) as why:
                ran = self.shell.call(["script", "--folder", folder])
                trouble = (
                    f"{why}" if ran.status == 0 else fault_runs.way_on(self.shell, folder, ran)
                )
                if trouble:
                    return [], f"a later session: {trouble}"
        else:
            return [], "20 ways on do not help"
        with session:
            return list(known.differences(session)), None


def numbers(calls, kinds, is_quick, few):
    found = sum(line.split()[0] in kinds.split(",") for line in calls)
    return (
        sorted({1 + index * found // few for index in range(few)})
        if is_quick
        else range(1, found + 1)
    )


def run_reads(server, is_quick, few):
    """Tries all faults of reads that threads share. Prints each finding, and returns the number of
    faults and of findings."""
    wrong, calls = server.read(fault_runs.NO_FAULT)
    faults, lost = 0, 0
    for why in wrong:
        raise RuntimeError(f"without a fault: {why}")
    for kinds, variant, stays in READ_KINDS:
        for at in numbers(calls, kinds, is_quick, few):
            fault = fault_runs.Fault(kinds, variant, at, stays)
            wrong, told = server.read(fault)
            faults += any(line.startswith("!") for line in told)
            for why in wrong:
                print(f"lost: {fault}: {why}", flush=True)
            lost += bool(wrong)
    return faults, lost


def run(path, shell, top, is_quick, few):
    """Tries all faults. Prints each finding, and returns the number of faults, of losses and of
    dead ends."""
    server = Server(path, shell, top, fault_runs.Room(shell, top))
    server.fill()
    usual, calls = server.run(fault_runs.NO_FAULT)
    for why in usual.differences(server.open(server.room.logs)):
        raise RuntimeError(f"without a fault: {why}")
    (faults, lost), stuck = run_reads(server, is_quick, few), 0
    for kinds, variant, stays in KINDS:
        for at in numbers(calls, kinds, is_quick, few):
            fault = fault_runs.Fault(kinds, variant, at, stays)
            known, told = server.run(fault)
            hits = [line[1:] for line in told if line.startswith("!")]
            if not hits:
                continue
            faults += 1
            images = {
                "after the fault": server.room.written(),
                "after a power loss": server.room.images()["synced"] or {},
            }
            for where, files in images.items():
                differences, trouble = server.look(known, files)
                hit = hits[0].replace(str(server.room.work), "..")
                for why in differences:
                    print(f"lost: {fault} ({hit}): {where}, {why}", flush=True)
                if trouble:
                    print(f"dead end: {fault} ({hit}): {where}, {trouble}", flush=True)
                lost, stuck = lost + bool(differences), stuck + bool(trouble)
    shutil.rmtree(server.base, ignore_errors=True)
    return faults, lost, stuck
