#!/usr/bin/env python3
"""Has many clients add through a daemon, ends it under load, and compares what was answered with what is read afterwards.

usage: hammer.py [OPTIONS] DIR

DIR is a directory for the store and the notes of the clients, which is empty or does not exist. Each client is a process
with a ledger of its own. It sends adds ahead, among them reads and a flush after each 500, and notes which entries are
durable by an answered flush. When the clients have sent --requests together, the daemon gets SIGTERM under load; before
that, one client is killed. --store puts the store elsewhere, such as on a small tmpfs; it is copied to DIR before it is
read.

Each entry that was answered durable has to be there with its bytes, and if the daemon ended with status 0 also each one
that was accepted. Nothing may be there that no client has sent. Prints the counts; the status is 0 if nothing is lost or
wrong.
"""

import argparse
import json
import os
import shlex
import shutil
import signal
import struct
import subprocess
import sys
import time
from multiprocessing import Process, Value
from pathlib import Path

import daemons
from daemons import Programs, TOP, frames

AHEAD, BATCH, FLUSH_AFTER = 200, 50, 500
ADD, READ, FLUSH, ACCEPTED, ENTRY, FLUSHED = 2, 4, 18, 33, 35, 47


def content(ledger, entry):
    return (b"%d.%d." % (ledger, entry)) * (1 + entry % 12)


class Wire:
    """Frames over two files: requests are sent ahead, and replies handled as they come."""

    def __init__(self, source, target, handle):
        self.source, self.target, self.handle = source, target, handle
        self.id, self.unanswered, self.rest = 0, 0, b""

    def send(self, *requests):
        """Sends requests, each a call and its fields, as soon as few enough are without a reply. Returns false at the end."""
        data = b""
        for call, fields in requests:
            self.id += 1
            data += struct.pack(">IQB", 9 + len(fields), self.id, call) + fields
        self.unanswered += len(requests)
        try:
            while data:
                data = data[os.write(self.target, data) :]
        except OSError:
            self.drain(0)
            return False
        return self.drain(AHEAD)

    def drain(self, most):
        """Handles replies until at most `most` are missing. Returns false at the end of the session."""
        while self.unanswered > most:
            try:
                piece = os.read(self.source, 1 << 18)
            except ConnectionResetError:
                piece = b""
            if not piece:
                return False
            data, at = self.rest + piece, 0
            while len(data) - at >= 4 and len(data) - at >= 4 + (length := int.from_bytes(data[at : at + 4], "big")):
                id, status = struct.unpack_from(">QB", data, at + 4)
                self.handle(id, status, data[at + 13 : at + 4 + length])
                at, self.unanswered = at + 4 + length, self.unanswered - 1
            self.rest = data[at:]
        return True


class Worker:
    """A client: what it has sent, and what was answered."""

    def __init__(self, ledger, path, socket_path, total, limit):
        self.ledger, self.notes, self.total, self.limit = ledger, open(path, "w", buffering=1), total, limit
        self.client = daemons.Client(socket_path)
        assert self.client.hello().name == "welcome"
        self.entries, self.accepted, self.noted, self.counts, self.wrong = {}, [], 0, {}, 0
        self.wire = Wire(self.client.socket.fileno(), self.client.socket.fileno(), self.handle)

    def handle(self, id, status, fields):
        self.counts[status] = self.counts.get(status, 0) + 1
        entry = self.entries.pop(id, None)
        if status == ACCEPTED:
            self.accepted.append(entry)
        elif status == FLUSHED:
            self.note("durable")
        elif status == ENTRY:
            self.wrong += fields != struct.pack(">QQ", self.ledger, entry) + content(self.ledger, entry)

    def note(self, what):
        """Notes the entries that were accepted since the last note."""
        self.notes.write(json.dumps([what, self.accepted[self.noted :]]) + "\n")
        self.noted = len(self.accepted)

    def requests(self, entry):
        """Returns a batch: adds from an entry on, a read of an earlier one, and sometimes a flush."""
        first = self.wire.id + 1
        key = lambda it: struct.pack(">QQ", self.ledger, it)  # noqa: E731
        found = [(ADD, key(it) + content(self.ledger, it)) for it in range(entry, entry + BATCH)]
        self.entries.update((first + at, entry + at) for at in range(BATCH))
        if self.accepted:
            self.entries[first + BATCH] = self.accepted[-1]
            found.append((READ, key(self.accepted[-1])))
        return found + ([(FLUSH, b"")] if entry % FLUSH_AFTER == 0 else [])

    def run(self):
        entry, goes_on = 0, True
        while goes_on and self.total.value < self.limit:
            batch = self.requests(entry)
            goes_on, entry = self.wire.send(*batch), entry + BATCH
            with self.total.get_lock():
                self.total.value += len(batch)
        while goes_on:  # goes on until the daemon ends the session
            goes_on, entry = self.wire.send(*self.requests(entry)), entry + BATCH
        self.note("accepted")
        self.notes.write(json.dumps(["sent", entry, {str(k): v for k, v in self.counts.items()}, self.wrong]) + "\n")


def noted(path):
    """Returns the entries that a client noted as durable and as accepted, and its last line if it came to it."""
    durable, accepted, last = [], [], None
    for line in path.read_text().splitlines():
        if not line.endswith("]"):
            break  # cut by a kill
        what, *found = json.loads(line)
        if what == "sent":
            last = found
        else:
            (durable if what == "durable" else accepted).extend(found[0])
    return durable, accepted, last


class Reading:
    """The entries of a ledger as a server finds them."""

    def __init__(self, directory):
        words = [*shlex.split(Programs.server), str(directory)]
        self.process = subprocess.Popen(words, stdin=subprocess.PIPE, stdout=subprocess.PIPE)
        self.wire = Wire(self.process.stdout.fileno(), self.process.stdin.fileno(), self.handle)
        self.ids, self.wrong, self.wanted = [], [], {}
        hello = struct.pack(">QQQ", frames.MAGIC, 1, 1)
        assert self.wire.send((1, hello)) and self.wire.drain(0)

    def handle(self, id, status, fields):
        if status == 40:
            self.ids = list(struct.unpack(f">{len(fields) // 8}Q", fields))
        elif id in self.wanted:
            ledger, entry = self.wanted.pop(id)
            if fields != struct.pack(">QQ", ledger, entry) + content(ledger, entry):
                self.wrong.append((ledger, entry))

    def found(self, ledger):
        """Returns the ids of the entries of a ledger."""
        found = []
        while True:
            self.wire.send((9, struct.pack(">QQQ", ledger, found[-1] + 1 if found else 0, 1000)))
            self.wire.drain(0)
            if not self.ids:
                return set(found)
            found += self.ids

    def check(self, ledger, entries):
        """Reads entries, and keeps those whose bytes are wrong."""
        for entry in entries:
            self.wanted[self.wire.id + 1] = ledger, entry
            self.wire.send((READ, struct.pack(">QQ", ledger, entry)))
        self.wire.drain(0)


def hammer(asked, room):
    """Runs clients and the end of the daemon. Returns its exit status."""
    daemon = daemons.Daemon(room, "--stall", "60")
    assert daemons.wait_until(daemon.is_serving, 600) and daemon.process.poll() is None, daemon.errors_now()
    total, begun = Value("Q", 0), time.monotonic()
    run = lambda ledger: Worker(ledger, room / f"notes{ledger}", daemon.socket, total, asked.requests).run()  # noqa: E731
    workers = [Process(target=run, args=(ledger,)) for ledger in range(asked.clients)]
    for it in workers:
        it.start()
    while total.value < asked.requests // 2:
        time.sleep(0.01)
    os.kill(workers[0].pid, signal.SIGKILL)
    while total.value < asked.requests and any(it.is_alive() for it in workers):
        time.sleep(0.01)
    seconds = time.monotonic() - begun
    status = daemon.end()
    for it in workers:
        it.join(600)
    print(f"requests {total.value} seconds {seconds:.1f} status {status}")
    print("  " + daemon.errors_now().strip().replace("\n", "\n  "))
    return status


def compare(asked, room, status):
    """Compares the notes with the directory. Returns how many entries are lost or wrong."""
    copy, bad = room / "copy", 0
    shutil.copytree(room / "store", copy)
    reading = Reading(copy)
    for ledger in range(asked.clients):
        durable, accepted, last = noted(room / f"notes{ledger}")
        found = reading.found(ledger)
        reading.check(ledger, found)
        lost, missing = set(durable) - found, set(accepted) - found
        unknown = found - set(durable) - set(accepted) if last else ()
        bad += len(lost) + (len(missing) if status == 0 else 0) + (last[2] if last else 0)
        statuses = {frames.STATUSES[int(it)].name: count for it, count in last[1].items()} if last else "killed"
        print(f"ledger {ledger}: durable {len(durable)} lost {len(lost)}, accepted after {len(accepted)} missing {len(missing)},", end=" ")
        print(f"found {len(found)} without a reply {len(unknown)}; {statuses}")
    print(f"wrong bytes {len(reading.wrong)}")
    reading.process.stdin.close()
    reading.process.wait()
    return bad + len(reading.wrong)


def main(words):
    parser = argparse.ArgumentParser(description=__doc__.split("\n")[0])
    parser.add_argument("--server", default=f"{sys.executable} {TOP / 'bindings' / 'model.py'}")
    parser.add_argument("--clients", type=int, default=8)
    parser.add_argument("--requests", type=int, default=1_000_000)
    parser.add_argument("--store", type=Path)
    parser.add_argument("directory", type=Path)
    asked = parser.parse_args(words)
    Programs.daemon = subprocess.run([daemons.HERE / "build"], check=True, stdout=subprocess.PIPE, text=True).stdout.strip()
    Programs.server, room = asked.server, asked.directory.resolve()
    room.mkdir(exist_ok=True)
    if asked.store:
        asked.store.mkdir(exist_ok=True)
        (room / "store").symlink_to(asked.store.resolve())
    bad = compare(asked, room, hammer(asked, room))
    print("nothing lost" if bad == 0 else f"{bad} lost or wrong")
    return 0 if bad == 0 else 1


if __name__ == "__main__":
    sys.exit(main(sys.argv[1:]))
