#!/usr/bin/env python3
"""A model of `bk_serve` (protocol.md), for the tests of the clients: usage: model.py DIR

It keeps everything in memory and appends what is durable to DIR/model.log, so that a test can kill it
and open the directory again. Each entry has a log, and a compaction copies and removes as protocol.md says.
Replies that may overtake do: those of reads come late and backwards. It shares no code with the clients. It is
no bookie: its logs are numbers of one file, and it has one thread, no checks of its file, and no limits but
those of frames.
"""

import fcntl
import hashlib
import os
import select
import struct
import sys

MAGIC, VERSION, LARGEST, IN_FLIGHT, PAGE = b"BKSERVE\n", 1, 5_000_064, 256, 1000
LAST_ID = 2**63 - 1
DATA, ATTRIBUTE, CACHE = 4_999_984, 256, 64 << 20
# Thresholds of the compaction in thousandths, and the bytes of records at which a log is sealed.
MINOR, MAJOR, LOG = 200, 800, 1 << 30

# call: name, number of numbers, least and most bytes after them
CALLS = {
    1: ("hello", 3, 0, 0), 2: ("add", 2, 0, DATA), 3: ("add_recovery", 2, 0, DATA), 4: ("read", 2, 0, 0),
    5: ("read_last", 1, 0, 0), 6: ("read_back", 3, 32, 32), 7: ("last_entry", 1, 0, 0), 8: ("holds", 2, 0, 0),
    9: ("entries", 3, 0, 0), 10: ("ledgers", 2, 0, 0), 11: ("fence", 1, 0, 0), 12: ("is_fenced", 1, 0, 0),
    13: ("delete", 1, 0, 0), 14: ("set_master_key", 1, 0, ATTRIBUTE), 15: ("master_key", 1, 0, 0),
    16: ("set_explicit_lac", 1, 0, ATTRIBUTE), 17: ("explicit_lac", 1, 0, 0), 18: ("flush", 0, 0, 0),
    19: ("checkpoint", 0, 0, 0), 20: ("compact", 2, 0, 0), 21: ("stats", 0, 0, 0), 22: ("seal", 0, 0, 0),
    23: ("close", 0, 0, 0),
}
READS = ("read", "read_last", "read_back", "last_entry", "holds", "entries", "ledgers", "is_fenced", "master_key",
         "explicit_lac", "stats")
MOST_HELD = 16
WITHOUT_LEDGER = ("hello", "ledgers", "flush", "checkpoint", "compact", "stats", "seal", "close")


class Fault(Exception):
    """A fault of a frame: the status that ends the session, its numbers, and the id of the frame."""


def record_size(body):
    """Returns the bytes that an entry takes in a log: a length of four bytes, and the entry."""
    return 4 + len(body)


class Model:
    """The entries and ledgers of one directory."""

    def __init__(self, directory):
        os.makedirs(directory, exist_ok=True)
        self.kept, self.fenced, self.dead, self.attributes = {}, set(), set(), {}
        self.trail, self.unpublished, self.front = [], {}, 0
        # The bytes of each log's records, the log of each published entry, the log that is written, and the next one.
        self.logs, self.place, self.open, self.next = {}, {}, None, 0
        self.file = open(os.path.join(directory, "model.log"), "a+b")
        fcntl.flock(self.file, fcntl.LOCK_EX | fcntl.LOCK_NB)
        self.file.seek(0)
        self.recover(self.file.read())

    def recover(self, data):
        at = 0
        while at + 5 <= len(data):
            kind, length = data[at : at + 1], int.from_bytes(data[at + 1 : at + 5], "big")
            body = data[at + 5 : at + 5 + length]
            if len(body) < length:
                break
            self.apply(kind, body)
            at += 5 + length
        self.file.truncate(at)

    def apply(self, kind, body):
        number = int.from_bytes(body[:8], "big")
        if kind == b"e":
            self.put(number, body[8:])
        elif kind == b"r":
            del self.logs[number]
        elif kind == b"f":
            self.fenced.add(number)
        elif kind == b"d":
            self.forget(number)
        elif kind == b"a":
            self.attributes[number, body[8:9]] = body[9:]

    def put(self, log, body):
        """Puts an entry that is durable into its log."""
        ledger, entry = struct.unpack_from(">QQ", body)
        self.next = max(self.next, log + 1)
        self.logs[log] = self.logs.get(log, 0) + record_size(body)
        if ledger not in self.dead:
            self.kept.setdefault(ledger, {})[entry] = body
            self.place[ledger, entry] = log

    def forget(self, ledger):
        self.dead.add(ledger)
        self.fenced.discard(ledger)
        self.attributes, self.unpublished, self.place = (
            {key: value for key, value in of.items() if key[0] != ledger} for of in (self.attributes, self.unpublished, self.place)
        )
        return len(self.kept.pop(ledger, {}))

    def write(self, *records):
        for kind, body in records:
            self.file.write(kind + len(body).to_bytes(4, "big") + body)
        self.file.flush()
        os.fsync(self.file.fileno())

    def durable(self, *records):
        self.write(*records)
        for kind, body in records:
            self.apply(kind, body)

    # ---- logs

    def log_for(self, size):
        """Returns the log for a record, a new one if none is written or the record would make it too long."""
        if self.open is None or self.logs[self.open] + size > LOG:
            self.open, self.next = self.next, self.next + 1
            self.logs[self.open] = 0
        return self.open

    def live(self):
        """Returns the live bytes of each sealed log."""
        found = {log: 0 for log in self.logs if log != self.open}
        for (ledger, entry), log in self.place.items():
            if log in found:
                found[log] += record_size(self.kept[ledger][entry])
        return found

    def remove_unused(self):
        """Removes the sealed logs without a live byte. Returns how many."""
        unused = [log for log, live in self.live().items() if live == 0]
        self.durable(*((b"r", log.to_bytes(8, "big")) for log in unused))
        return len(unused)

    def least_live(self, threshold):
        """Returns the sealed log with the least live share, of those below a threshold, or None."""
        below = [(live / self.logs[log], log) for log, live in self.live().items() if live * 1000 < threshold * self.logs[log]]
        return min(below)[1] if below else None

    def copy(self, log):
        """Copies the live entries of a log to a new one, which is sealed. Returns how many."""
        target, self.next = self.next, self.next + 1
        moved = [self.kept[ledger][entry] for (ledger, entry), at in self.place.items() if at == log]
        self.durable(*((b"e", target.to_bytes(8, "big") + body) for body in moved))
        return len(moved)

    def compact_below(self, threshold):
        """Compacts every log below a threshold. Returns how many logs were removed and entries copied."""
        removed, copied = self.remove_unused(), 0
        while (log := self.least_live(threshold)) is not None:
            copied += self.copy(log)
            removed += self.remove_unused()
        return removed, copied

    # ---- calls: each returns a status, numbers, and bytes

    def call(self, name, numbers, tail, body):
        ledger = numbers[0] if numbers and name not in WITHOUT_LEDGER else None
        if name == "read_back":
            ledger = numbers[1]
        if ledger is not None and ledger > LAST_ID:
            return 65, (), b""
        return getattr(self, name)(*numbers, *([tail, body] if tail is not None else []))

    def add(self, ledger, entry, content, body, recovery=False):
        if entry > LAST_ID:
            return 65, (), b""
        if ledger in self.dead:
            return 67, (), b""
        if ledger in self.fenced and not recovery:
            return 68, (), b""
        held = self.kept.setdefault(ledger, {})
        if entry in held:
            return 34, (), b""
        used = sum(map(len, self.unpublished.values())) if len(self.unpublished) % 4096 == 4095 else 0
        if used + len(body) > CACHE:
            return 69, (used, CACHE), b""
        held[entry] = self.unpublished[ledger, entry] = body
        digest = hashlib.sha256(body).digest()
        self.trail.append((ledger, entry, digest))
        return 33, (len(self.trail) - 1,), digest

    def add_recovery(self, ledger, entry, content, body):
        return self.add(ledger, entry, content, body, recovery=True)

    def read(self, ledger, entry):
        if entry > LAST_ID:
            return 65, (), b""
        if ledger in self.dead:
            return 67, (), b""
        found = self.kept.get(ledger, {}).get(entry)
        return (36, (), b"") if found is None else (35, (ledger, entry), found[16:])

    def read_last(self, ledger):
        if ledger in self.dead:
            return 67, (), b""
        held = self.kept.get(ledger)
        return self.read(ledger, max(held)) if held else (36, (), b"")

    def read_back(self, number, ledger, entry, digest, body):
        if number >= len(self.trail):
            return 74, (len(self.trail),), b""
        if self.trail[number] != (ledger, entry, digest):
            return 75, (), b""
        return self.read(ledger, entry)

    def last_entry(self, ledger):
        if ledger in self.dead:
            return 67, (), b""
        held = self.kept.get(ledger)
        return (37, (max(held),), b"") if held else (36, (), b"")

    def holds(self, ledger, entry):
        return (38 if entry in self.kept.get(ledger, {}) else 39), (), b""

    def page(self, ids, start, most):
        return 40, (), b"".join(i.to_bytes(8, "big") for i in sorted(i for i in ids if i >= start)[: min(most, PAGE)])

    def entries(self, ledger, start, most):
        return (67, (), b"") if ledger in self.dead else self.page(self.kept.get(ledger, {}), start, most)

    def ledgers(self, start, most):
        return self.page([ledger for ledger, held in self.kept.items() if held], start, most)

    def fence(self, ledger):
        if ledger in self.dead:
            return 67, (), b""
        if ledger in self.fenced:
            return 42, (), b""
        self.durable((b"f", ledger.to_bytes(8, "big")))
        self.trail.append((ledger, "fence"))
        return 41, (), b""

    def is_fenced(self, ledger):
        return (38 if ledger in self.fenced else 39), (), b""

    def delete(self, ledger):
        if ledger in self.dead:
            return 73, (), b""
        self.write((b"d", ledger.to_bytes(8, "big")))
        self.trail.append((ledger, "delete"))
        return 43, (self.forget(ledger),), b""

    def set_attribute(self, kind, ledger, value):
        if ledger in self.dead:
            return 67, (), b""
        self.durable((b"a", ledger.to_bytes(8, "big") + kind + value))
        return 44, (), b""

    def attribute(self, kind, ledger):
        if ledger in self.dead:
            return 67, (), b""
        value = self.attributes.get((ledger, kind))
        return (46, (), b"") if value is None else (45, (), value)

    def set_master_key(self, ledger, key, body):
        return self.set_attribute(b"m", ledger, key)

    def master_key(self, ledger):
        return self.attribute(b"m", ledger)

    def set_explicit_lac(self, ledger, lac, body):
        return self.set_attribute(b"l", ledger, lac)

    def explicit_lac(self, ledger):
        return self.attribute(b"l", ledger)

    def flush(self):
        bodies = list(self.unpublished.values())
        records = [(b"e", self.log_for(record_size(body)).to_bytes(8, "big") + body) for body in bodies]
        self.durable(*records)
        self.unpublished, self.front = {}, len(self.trail)
        return 47, (len(bodies),), b""

    def checkpoint(self):
        self.flush()
        return 48, (len(self.trail),), b""

    def compact(self, minor, major):
        if minor not in (0, MINOR) or major not in (0, MAJOR):
            return 86, (), b""
        done = [self.compact_below(threshold) for threshold in (minor, major) if threshold]
        return 49, (sum(removed for removed, _ in done), sum(copied for _, copied in done)), b""

    def stats(self):
        live = sum(record_size(self.kept[ledger][entry]) for ledger, entry in self.place)
        cached = sum(map(len, self.unpublished.values()))
        numbers = len(self.logs), sum(self.logs.values()), live, cached, len(self.place), self.front
        return 50, (*numbers, self.next, len(self.trail), 0, 0), b""

    def seal(self):
        self.flush()
        log, self.open = self.open, None
        return (52, (), b"") if log is None else (51, (log,), b"")

    def close(self):
        self.flush()
        return 53, (len(self.trail),), b""


class Source:
    """The input, and whether more of it is there."""

    def __init__(self, file):
        self.file, self.data = file, bytearray()

    def read(self, size):
        while len(self.data) < size and (more := os.read(self.file, 1 << 20)):
            self.data += more
        taken = bytes(self.data[:size])
        del self.data[:size]
        return taken

    def is_idle(self):
        return len(self.data) < 4 and not select.select([self.file], [], [], 0)[0]


class Sink:
    """The output, and replies to reads that are held back."""

    def __init__(self, stream):
        self.stream, self.held = stream, []

    def reply(self, id, status, numbers, tail):
        head = struct.pack(f">IQB{len(numbers)}Q", 9 + 8 * len(numbers) + len(tail), id, status, *numbers)
        self.stream.write(head + tail)
        self.stream.flush()

    def hold(self, *reply):
        self.held.append(reply)

    def let_go(self):
        while self.held:
            self.reply(*self.held.pop())


def read_frame(stream):
    """Returns the id, call, fields of the next frame, or None at the end."""
    head = stream.read(4)
    if not head:
        return None
    length = int.from_bytes(head, "big")
    if len(head) == 4 and length < 9:
        raise Fault(100, (length,), 0)
    if len(head) == 4 and length > LARGEST:
        raise Fault(101, (length, LARGEST), 0)
    body = stream.read(length) if len(head) == 4 else b""
    if len(head) < 4 or len(body) < length:
        raise Fault(99, (length if len(head) == 4 else 4, len(body) if len(head) == 4 else len(head)), 0)
    return int.from_bytes(body[:8], "big"), body[8], body[9:]


def parse(id, call, body):
    """Returns the name, numbers and bytes of a request."""
    if call not in CALLS:
        raise Fault(102, (call,), id)
    name, count, least, most = CALLS[call]
    if not 8 * count + least <= len(body) <= 8 * count + most:
        raise Fault(103, (call, len(body)), id)
    return name, struct.unpack_from(f">{count}Q", body), body[8 * count :] if most else None


def greet(source, sink, directory):
    """Answers the hello. Returns the model, or None if the session has no version or no directory."""
    frame = read_frame(source)
    if frame is None:
        return None
    id, call, body = frame
    if call != 1 or len(body) != 24 or body[:8] != MAGIC:
        raise Fault(96, (), id)
    _, lowest, highest = struct.unpack(">QQQ", body)
    if not lowest <= VERSION <= highest:
        raise Fault(97, (VERSION, VERSION), id)
    try:
        model = Model(directory)
    except BlockingIOError:
        sink.reply(id, 84, (), b"")
        return None
    sink.reply(id, 32, (VERSION, LARGEST, IN_FLIGHT, PAGE), b"")
    return id, model


def serve(directory):
    """Serves one session. Returns the exit status."""
    source, sink = Source(0), Sink(sys.stdout.buffer)
    model = None
    try:
        opened = greet(source, sink, directory)
        if opened is None:
            return 1
        last, model = opened
        while (frame := next_frame(source, sink)) is not None:
            id, call, body = frame
            if id <= last:
                raise Fault(104, (id, last), id)
            last = id
            name, numbers, tail = parse(id, call, body)
            if name == "hello":
                raise Fault(98, (), id)
            answer = model.call(name, numbers, tail, body)
            if name in READS:
                sink.hold(id, *answer)
                continue
            if name == "close":
                sink.let_go()
            sink.reply(id, *answer)
            if name == "close":
                return 0
        sink.let_go()
        model.flush()
        return 0
    except Fault as fault:
        status, numbers, id = fault.args
        sink.let_go()
        if model is not None:
            model.flush()
        sink.reply(id, status, numbers, b"")
        return 1
    except BrokenPipeError:
        # The client has ended. What was accepted is flushed, as at the end of the input.
        if model is not None:
            model.flush()
        os._exit(1)


def next_frame(source, sink):
    """Returns the next frame. Replies that are held back go out when no request is there, and when they are many."""
    if len(sink.held) >= MOST_HELD or source.is_idle():
        sink.let_go()
    return read_frame(source)


if __name__ == "__main__":
    if len(sys.argv) != 2:
        sys.exit("usage: model.py DIR")
    sys.exit(serve(sys.argv[1]))
