"""Sends bk_serve sessions of requests by chance, all sent ahead, and compares each reply with a
model: for ./dev faults --serve --ahead.

Reads, pages and look-ups stand between adds, deletions, fences, flushes, seals and compactions of
few ledgers, and now and then many reads follow one another. The model (bindings/model.py) carries
the same requests out in their order. Every request has to be answered once, in the order of the
requests; but where threads share the reads, as in two of three sessions, the reply to an add may
come before those to earlier reads. In half of these sessions each read of a file waits as on a slow
device, so that threads carry reads out. In every other session the server compacts in the
background.
"""

import bisect
import os
import random
import re
import subprocess
import sys

from serve_faults import TOP, bookie

sys.path.insert(0, os.path.join(TOP, "bindings"))

import model  # noqa: E402

frames = bookie.frames
SECONDS = 120
# Requests of a session at most, and so many sessions in turn share a directory.
REQUESTS, TOGETHER = 2000, 10
LEDGERS, ENTRIES = range(1, 9), range(12)
LAST_ID = 2**63 - 1
# What an opening notes of a log from whose start on nothing is durable.
NOTE = re.compile(
    rb"note log (\d+): \d+ bytes ignored from position 0: (log never durable|not durable)"
)
# What is told by numbers that depend on the logs: the status alone is compared.
BY_STATUS = ("compact", "seal")
ADDS = ("add", "add_recovery")
# How many threads share the reads, by the session's number.
READERS = (1, 4, 8)
# Every so many sessions reads are slow, and how many microseconds each then waits.
SLOW, WAITS = 2, 1500
# How often each call is sent, and how often each one where reads follow one another.
CALLS = {
    "add": 400, "add_recovery": 20, "read": 300, "read_last": 30, "read_back": 30, "last_entry": 30, "holds": 50, "entries": 20,
    "ledgers": 10, "fence": 2, "is_fenced": 10, "delete": 3, "set_master_key": 5, "master_key": 10, "flush": 10,
    "checkpoint": 5, "seal": 8, "compact": 2, "stats": 10,
}  # fmt: skip
READS = {"read": 8, "read_last": 1, "read_back": 1}


def content_of(chance):
    return chance.randbytes(chance.choice((0, 1, 30, 200, 3000)))


def request_of(chance, calls, trail):
    """Returns one of these calls and its fields. Receipts are of the marks that the trail has by
    now."""
    ledger, entry = chance.choice(LEDGERS), chance.choice(ENTRIES)
    if chance.randrange(200) == 0:
        ledger = LAST_ID + 1
    name = chance.choices(list(calls), calls.values())[0]
    if name in ADDS:
        return name, {"ledger": ledger, "entry": entry, "content": content_of(chance)}
    if name in ("read", "holds"):
        return name, {"ledger": ledger, "entry": entry}
    if name == "read_back":
        number = chance.randrange(len(trail) + 2)
        mark = (
            trail[number]
            if number < len(trail) and len(trail[number]) == 3
            else (ledger, entry, bytes(32))
        )
        return name, {"number": number, "ledger": mark[0], "entry": mark[1], "digest": mark[2]}
    if name == "entries":
        return name, {"ledger": ledger, "from": entry, "most": chance.randrange(20)}
    if name == "ledgers":
        return name, {"from": ledger, "most": chance.randrange(20)}
    if name == "set_master_key":
        return name, {"ledger": ledger, "key": chance.randbytes(chance.randrange(30))}
    if name == "compact":
        return name, {"minor": chance.choice((0, 200)), "major": chance.choice((0, 800))}
    return name, {"ledger": ledger} if name not in model.WITHOUT_LEDGER else {}


def told(status, numbers, tail):
    """Returns the frame's bytes after the id, from the numbers and bytes of a reply of the
    model."""
    return bytes([status]) + b"".join(it.to_bytes(8, "big") for it in numbers) + tail


def wanted_of(kept, name, frame):
    """Carries a request out on the model. Returns the reply's bytes after its id."""
    id, call, body = int.from_bytes(frame[4:12], "big"), frame[12], frame[13:]
    parsed, numbers, tail = model.parse(id, call, body)
    return told(*kept.call(parsed, numbers, tail, body))


class Ahead:
    """Sessions, each with the model of its directory."""

    def __init__(self, path, top, seed, library):
        self.path, self.top, self.chance, self.findings = str(path), top, random.Random(seed), 0
        self.library = str(library)
        # Replies, and those to adds that came before a reply to an earlier read.
        self.replies, self.overtook = 0, 0
        # Logs of the directory that were noted as never durable.
        self.never_durable = set()

    def tell(self, number, why):
        print(f"session {number}: {why}", flush=True)
        self.findings += 1

    def one(self, number, folder, beside):
        kept = model.Model(str(beside))
        # An opening fences the ledgers again.
        kept.trail = [(ledger, "fence") for ledger in kept.fenced]
        data, wanted, id = (
            frames.encode(
                frames.BY_NAME["hello"], 0, {"magic": frames.MAGIC, "lowest": 1, "highest": 1}
            ),
            {},
            0,
        )
        compacts, reads = number % 2 == 0, 0
        for _ in range(self.chance.randrange(1, REQUESTS)):
            id += self.chance.randrange(1, 3)
            reads = max(reads - 1, 0) or (
                self.chance.randrange(200) if self.chance.randrange(100) == 0 else 0
            )
            name, fields = request_of(self.chance, READS if reads else CALLS, kept.trail)
            frame = frames.encode(frames.BY_NAME[name], id, fields)
            data += frame
            wanted[id] = name, wanted_of(kept, name, frame)
        kept.flush()
        kept.file.close()
        readers = READERS[number % len(READERS)]
        words = [
            self.path,
            str(folder),
            *(["--compact", "20,80"] if compacts else []),
            "--readers",
            str(readers),
        ]
        is_slow = readers > 1 and number // len(READERS) % SLOW == 0
        slow = (
            {"LD_PRELOAD": self.library, "FAULT_FOLDER": str(folder), "FAULT_SLOW": str(WAITS)}
            if is_slow
            else {}
        )
        run = subprocess.run(
            words, input=data, capture_output=True, timeout=SECONDS, env={**os.environ, **slow}
        )
        self.judge(number, run, wanted, compacts, readers)

    def judge(self, number, run, wanted, compacts, readers):
        found, order, data = {}, [], run.stdout
        while data:
            size = 4 + int.from_bytes(data[:4], "big")
            id = int.from_bytes(data[4:12], "big")
            if id in found:
                return self.tell(number, f"two replies to {id}")
            found[id], data = data[12:size], data[size:]
            order.append(id)
        self.replies += len(found)
        if run.returncode != 0 or not self.allows(number, run.stderr):
            return self.tell(number, f"status {run.returncode}: {run.stderr!r:.200}")
        if found.pop(0)[0] != 32 or sorted(found) != sorted(wanted):
            return self.tell(number, f"{len(found)} replies to {len(wanted)} requests")
        late = self.out_of_order(order, wanted, readers)
        if late is not None:
            return self.tell(number, f"the reply to {late} is out of order")
        for id, (name, reply) in wanted.items():
            if not self.is_same(name, found[id], reply, compacts):
                return self.tell(
                    number,
                    f"the reply to {name} {id} is {self.text(found[id])}, and not "
                    f"{self.text(reply)}",
                )

    def out_of_order(self, order, wanted, readers):
        """Returns the first id whose reply came before one that it may not overtake."""
        waiting = sorted(order)
        for id in order:
            at = bisect.bisect_left(waiting, id)
            if at and (
                readers == 1
                or wanted[id][0] not in ADDS
                or any(wanted[it][0] not in READS for it in waiting[:at])
            ):
                return id
            self.overtook += at > 0
            del waiting[at]
        return None

    def allows(self, number, errors):
        """Whether the error stream has nothing but notes of logs that hold nothing that was
        promised.

        A session that compacts in the background may end while a log is being copied. The log that
        it copies to has been created, and was never synced: its bytes are copies, and the index
        points to the log that they were copied from. The next opening notes it as never durable,
        and later ones of the directory, which keep it hidden, as not durable. There is no such log
        in the first session of a directory, nor another one after a session that did not compact.
        """
        for line in errors.splitlines():
            note = NOTE.fullmatch(line)
            if note is None:
                return False
            log, cause = note.groups()
            if cause == b"log never durable" and number % TOGETHER != 1 and (number - 1) % 2 == 0:
                self.never_durable.add(log)
            elif cause != b"not durable" or log not in self.never_durable:
                return False
        return True

    @staticmethod
    def is_same(name, found, wanted, compacts):
        if name == "stats":
            # The bytes in the caches, the entries of the index, the front, the leases and the
            # failures; the logs depend on more.
            return found[0] == wanted[0] and all(
                found[at : at + 8] == wanted[at : at + 8] for at in (25, 33, 57, 65, 73)
            )
        if name == "seal":
            return found[0] in (51, 52)
        if name == "compact" and wanted[0] == 49:
            return found[0] == 49 or (compacts and found[0] == 85)
        if name in BY_STATUS:
            return found[0] == wanted[0]
        return found == wanted

    @staticmethod
    def text(reply):
        return f"{frames.STATUSES[reply[0]].name} {reply[1:].hex():.60}"


def run(path, top, sessions, seed, library):
    """Sends so many sessions. Returns the number of findings, of replies, and of those that
    overtook."""
    it = Ahead(path, top, seed, library)
    for number in range(1, sessions + 1):
        if number % TOGETHER == 1:
            folder, beside = top / f"ahead{number}", top / f"model{number}"
            it.never_durable.clear()
        it.one(number, folder, beside)
    if sessions >= 2 * len(READERS) and not it.overtook:
        it.tell(sessions, "no add overtook a read in any session, though reads were slow")
    return it.findings, it.replies, it.overtook
