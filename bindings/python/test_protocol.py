#!/usr/bin/env python3
"""Tests the codec and a server against ../protocol.md: usage: test_protocol.py SERVER DIR

The worked sessions of the page are decoded, encoded and replayed on the server. Hostile sessions must
end by the fault that the page names, and lose nothing that was answered. Each session has a directory
of its own below DIR.
"""

import pathlib
import re
import subprocess
import sys

import frames

PAGE = pathlib.Path(__file__).resolve().parent.parent / "protocol.md"
HELLO = dict(magic=frames.MAGIC, lowest=1, highest=1)


def sessions():
    """Yields the worked sessions: lists of direction, text and frame."""
    for block in re.findall(r"^```text\n(.*?)^```", PAGE.read_text(), re.M | re.S):
        found = re.findall(r"^([<>]) (.*)\n((?:    [0-9a-f ]+\n)+)", block, re.M)
        yield [(way, text, bytes.fromhex("".join(digits.split()))) for way, text, digits in found]


def check_codec(way, text, frame):
    """A frame decodes to what the text names, and that encodes to the frame."""
    kinds = frames.CALLS if way == ">" else frames.STATUSES
    if frame[12] not in kinds:
        assert "none" in text, text
        return
    message = frames.decode(kinds, frame[12:])
    assert text.split()[0] == message.name, text
    assert frames.encode(kinds[frame[12]], int.from_bytes(frame[4:12], "big"), message.fields) == frame, text
    for size in range(12, len(frame)):
        check_cut(kinds, frame[12:size], message.name)


def check_cut(kinds, body, name):
    """A part of a frame is a fault, or a shorter message of the same kind."""
    try:
        assert frames.decode(kinds, body).name == name
    except frames.Fault:
        pass


class Server:
    """A server whose pipes are written and read as bytes."""

    def __init__(self, server, directory):
        command = [server, directory]
        self.process = subprocess.Popen(command, stdin=subprocess.PIPE, stdout=subprocess.PIPE)

    def ask(self, frame):
        self.process.stdin.write(frame)
        self.process.stdin.flush()
        return self.reply()

    def reply(self):
        found = frames.read_frame(self.process.stdout)
        return found and (found[0], frames.decode(frames.STATUSES, found[1]))

    def end(self):
        """Closes the input. Returns the replies that are left and the exit status."""
        try:
            self.process.stdin.close()
        except BrokenPipeError:
            pass
        left = list(iter(self.reply, None))
        self.process.stdout.close()
        return left, self.process.wait()


def replay(server, session):
    """The server replies as the page says, when each request waits for the reply before it. Returns how many requests
    are of a call that it does not have."""
    missing = 0
    for (_, _, request), (_, text, expected) in zip(session[::2], session[1::2]):
        id, reply = server.ask(request)
        wanted = frames.decode(frames.STATUSES, expected[12:])
        assert id == int.from_bytes(expected[4:12], "big"), text
        if reply.name == "not_offered":
            missing += 1
            continue
        assert reply.name == wanted.name, (text, reply)
        assert reply.name == "welcome" or reply == wanted, (text, reply)
    left, status = server.end()
    assert left == [] and status == (1 if wanted.name in frames.ENDED else 0), (left, status)
    return missing


def request(id, name, **fields):
    return frames.encode(frames.BY_NAME[name], id, fields)


def raw(id, kind, fields=b""):
    return (9 + len(fields)).to_bytes(4, "big") + id.to_bytes(8, "big") + bytes([kind]) + fields


def hostile():
    """Yields sessions that end by a fault: bytes, and the fault with its id and numbers."""
    hello, add = request(0, "hello", **HELLO), request(5, "add", ledger=1, entry=7, content=b"kept")
    yield add, (5, "no_hello")
    yield request(0, "hello", magic=1, lowest=1, highest=1), (0, "no_hello")
    yield request(0, "hello", magic=frames.MAGIC, lowest=2, highest=9), (0, "version", 1, 1)
    yield hello + add + request(6, "hello", **HELLO), (6, "second_hello")
    yield hello + add + request(5, "flush"), (5, "not_rising", 5, 5)
    yield hello + add + request(4, "flush"), (4, "not_rising", 4, 5)
    yield hello + add + raw(6, 0), (6, "unknown_call", 0)
    yield hello + add + raw(6, 24), (6, "unknown_call", 24)
    yield hello + add + raw(6, 255, b"x" * 100), (6, "unknown_call", 255)
    yield hello + add + raw(6, 18, b"x"), (6, "bad_fields", 18, 1)
    yield hello + add + raw(6, 4, bytes(15)), (6, "bad_fields", 4, 15)
    yield hello + add + raw(6, 6, bytes(24 + 33)), (6, "bad_fields", 6, 57)
    yield hello + add + raw(6, 14, bytes(8 + 257)), (6, "bad_fields", 14, 265)
    yield hello + add + raw(6, 2, bytes(16 + 4_999_985)), (6, "bad_fields", 2, 5_000_001)
    yield hello + add + (8).to_bytes(4, "big") + bytes(8), (0, "short", 8)
    yield hello + add + (0).to_bytes(4, "big"), (0, "short", 0)
    yield hello + add + (5_000_065).to_bytes(4, "big") + bytes(100), (0, "oversized", 5_000_065, 5_000_064)
    yield hello + add + b"\xff\xff\xff\xff", (0, "oversized", 2**32 - 1, 5_000_064)
    yield hello + add + add[:3], (0, "cut", 4, 3)
    yield hello + add + add[:12], (0, "cut", 29, 8)
    yield hello + add + add[:-1], (0, "cut", 29, 28)


def check_hostile(program, directory, data, expected):
    """The session ends by this fault, and every add that was answered is there afterwards."""
    process = subprocess.run([program, directory], input=data, capture_output=True)
    replies, rest = [], process.stdout
    while rest:
        size = 4 + int.from_bytes(rest[:4], "big")
        replies.append((int.from_bytes(rest[4:12], "big"), frames.decode(frames.STATUSES, rest[12:size])))
        rest = rest[size:]
    id, end = replies[-1]
    assert (id, end.name, *end.fields.values()) == expected, (expected, replies[-1])
    assert process.returncode == 1, process.returncode
    if "accepted" in [reply.name for _, reply in replies]:
        server = Server(program, directory)
        server.ask(request(0, "hello", **HELLO))
        assert server.ask(request(1, "read", ledger=1, entry=7))[1].content == b"kept"
        assert server.end() == ([], 0)


def check_front(program, directory):
    """The durable front is the length of the trail when the last flush began, whatever was added since."""
    server = Server(program, directory)
    server.ask(request(0, "hello", **HELLO))
    found = []
    for id, name in enumerate(("stats", "add", "stats", "flush", "stats", "add", "add", "stats", "flush", "stats"), 1):
        reply = server.ask(request(id, name, ledger=1, entry=id, content=b"x"))[1]
        if name == "stats":
            found.append((reply.durable, reply.front))
    assert found == [(0, 0), (0, 1), (1, 1), (1, 3), (3, 3)], found
    assert server.end() == ([], 0)


def main(program, directory):
    worked, count, missing = list(sessions()), 0, 0
    for i, session in enumerate(worked):
        for line in session:
            check_codec(*line)
            count += 1
        missing += replay(Server(program, f"{directory}/worked{i}"), session)
    attacks = list(hostile())
    for i, (data, expected) in enumerate(attacks):
        check_hostile(program, f"{directory}/hostile{i}", data, expected)
    check_front(program, f"{directory}/front")
    print(f"{len(worked)} worked sessions of {count} frames, {len(attacks)} hostile sessions; {missing} requests not offered")


if __name__ == "__main__":
    if len(sys.argv) != 3:
        sys.exit("usage: test_protocol.py SERVER DIR")
    main(sys.argv[1], sys.argv[2])
