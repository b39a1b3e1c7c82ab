"""Frames of `bk_serve` (../protocol.md): requests and replies as values and as bytes."""

import struct
from typing import NamedTuple

MAGIC = int.from_bytes(b"BKSERVE\n", "big")
VERSION = 1
LARGEST = 5_000_064  # greatest length of a frame, without its length field


class Fault(Exception):
    """Bytes that are no frame of this protocol."""


class Kind(NamedTuple):
    """A kind of frame: its numbers, and the name and the limits of the bytes after them."""

    code: int
    name: str
    numbers: tuple
    tail: str = ""
    least: int = 0
    most: int = 0


class Message(NamedTuple):
    """A request or a reply: its kind's name, and its fields by name."""

    name: str
    fields: dict

    def __getattr__(self, field):
        try:
            return self.fields[field]
        except KeyError:
            raise AttributeError(field) from None


REQUESTS = [
    Kind(1, "hello", ("magic", "lowest", "highest")),
    Kind(2, "add", ("ledger", "entry"), "content", 0, 4999984),
    Kind(3, "add_recovery", ("ledger", "entry"), "content", 0, 4999984),
    Kind(4, "read", ("ledger", "entry")),
    Kind(5, "read_last", ("ledger",)),
    Kind(6, "read_back", ("number", "ledger", "entry"), "digest", 32, 32),
    Kind(7, "last_entry", ("ledger",)),
    Kind(8, "holds", ("ledger", "entry")),
    Kind(9, "entries", ("ledger", "from", "most")),
    Kind(10, "ledgers", ("from", "most")),
    Kind(11, "fence", ("ledger",)),
    Kind(12, "is_fenced", ("ledger",)),
    Kind(13, "delete", ("ledger",)),
    Kind(14, "set_master_key", ("ledger",), "key", 0, 256),
    Kind(15, "master_key", ("ledger",)),
    Kind(16, "set_explicit_lac", ("ledger",), "lac", 0, 256),
    Kind(17, "explicit_lac", ("ledger",)),
    Kind(18, "flush", ()),
    Kind(19, "checkpoint", ()),
    Kind(20, "compact", ("minor", "major")),
    Kind(21, "stats", ()),
    Kind(22, "seal", ()),
    Kind(23, "close", ()),
]

DONE = [
    Kind(32, "welcome", ("version", "largest", "in_flight", "page")),
    Kind(33, "accepted", ("number",), "digest", 32, 32),
    Kind(34, "held", ()),
    Kind(35, "entry", ("ledger", "entry"), "content", 0, 4999984),
    Kind(36, "not_held", ()),
    Kind(37, "last", ("entry",)),
    Kind(38, "yes", ()),
    Kind(39, "no", ()),
    Kind(40, "page", (), "ids", 0, 524288),
    Kind(41, "fenced_now", ()),
    Kind(42, "fenced_before", ()),
    Kind(43, "dropped", ("entries",)),
    Kind(44, "stored", ()),
    Kind(45, "attribute", (), "value", 0, 256),
    Kind(46, "no_attribute", ()),
    Kind(47, "flushed", ("entries",)),
    Kind(48, "durable", ("front",)),
    Kind(49, "compacted", ("logs", "entries")),
    Kind(50, "figures", ("logs", "bytes", "live", "cached", "indexed", "durable", "next_log", "front", "leases", "failures")),
    Kind(51, "sealed", ("log",)),
    Kind(52, "nothing_open", ()),
    Kind(53, "closed", ("front",)),
]

REFUSALS = [
    Kind(64, "backwards", ("seen", "front")),
    Kind(65, "negative", ()),
    Kind(66, "too_long", ("length",)),
    Kind(67, "deleted", ()),
    Kind(68, "fenced", ()),
    Kind(69, "full", ("used", "limit")),
    Kind(70, "memory", ()),
    Kind(71, "no_seat", ()),
    Kind(72, "too_many", ()),
    Kind(73, "already_deleted", ()),
    Kind(74, "missing", ("front",)),
    Kind(75, "differs", ()),
    Kind(76, "not_there", ()),
    Kind(77, "disk", ()),
    Kind(78, "odd", ()),
    Kind(79, "logs_full", ()),
    Kind(80, "no_more_ids", ()),
    Kind(81, "settings", ()),
    Kind(82, "bad_log", ("log",)),
    Kind(83, "log_too_long", ("log",)),
    Kind(84, "in_use", ()),
    Kind(85, "busy", ()),
    Kind(86, "out_of_range", ()),
    Kind(87, "no_thread", ()),
    Kind(88, "not_offered", ()),
]

ENDS = [
    Kind(96, "no_hello", ()),
    Kind(97, "version", ("lowest", "highest")),
    Kind(98, "second_hello", ()),
    Kind(99, "cut", ("length", "read")),
    Kind(100, "short", ("length",)),
    Kind(101, "oversized", ("length", "largest")),
    Kind(102, "unknown_call", ("call",)),
    Kind(103, "bad_fields", ("call", "length")),
    Kind(104, "not_rising", ("next", "previous")),
    Kind(105, "input_failed", ()),
    Kind(106, "no_memory", ()),
]

CALLS = {kind.code: kind for kind in REQUESTS}
STATUSES = {kind.code: kind for kind in DONE + REFUSALS + ENDS}
BY_NAME = {kind.name: kind for kind in REQUESTS}
REPLY_BY_NAME = {kind.name: kind for kind in DONE + REFUSALS + ENDS}
REFUSED = {kind.name for kind in REFUSALS}
ENDED = {kind.name for kind in ENDS}


def encode(kind, id, fields):
    """Returns the frame of a message, with its length field."""
    tail = bytes(fields.get(kind.tail, b"")) if kind.tail else b""
    if not kind.least <= len(tail) <= kind.most or kind.name == "page" and len(tail) % 8:
        raise ValueError(f"{kind.name}: {kind.tail} of {len(tail)} bytes")
    numbers = [fields[name] for name in kind.numbers]
    head = struct.pack(f">IQB{len(numbers)}Q", 9 + 8 * len(numbers) + len(tail), id, kind.code, *numbers)
    return head + tail


def decode(kinds, body):
    """Returns the message whose bytes after the id are these."""
    if not body:
        raise Fault("no kind")
    kind = kinds.get(body[0])
    if kind is None:
        raise Fault(f"unknown kind {body[0]}")
    start = 1 + 8 * len(kind.numbers)
    if not kind.least <= len(body) - start <= kind.most or kind.name == "page" and (len(body) - start) % 8:
        raise Fault(f"kind {kind.code} with {len(body) - 1} bytes of fields")
    fields = dict(zip(kind.numbers, struct.unpack_from(f">{len(kind.numbers)}Q", body, 1)))
    if kind.tail:
        fields[kind.tail] = bytes(body[start:])
    return Message(kind.name, fields)


def read_frame(stream):
    """Returns the id and the other bytes of the next frame, or None at the end."""
    head = stream.read(4)
    if not head:
        return None
    length = int.from_bytes(head, "big")
    if len(head) == 4 and not 9 <= length <= LARGEST:
        raise Fault(f"frame of {length} bytes")
    body = stream.read(length) if len(head) == 4 else b""
    if len(head) < 4 or len(body) < length:
        raise Fault(f"cut frame {length} {len(body)}")
    return int.from_bytes(body[:8], "big"), body[8:]
