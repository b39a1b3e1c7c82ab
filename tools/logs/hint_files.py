"""Writes and reads hints as crates/bk_hint/README.md describes them, beside the program: for ./dev
faults --hints.

A log is its bytes. An entry is its ledger, its entry id, the position of its payload, and the bytes
of its record.
"""

import struct

import entry_logs

MAGIC, VERSION = b"BKHI", 1
FRONT = struct.Struct(">4sIIQIII")
HEAD = struct.Struct(">QQII")
SUM = 4
SHORTEST = FRONT.size + SUM
# The step of an entry that begins a run; from AGAIN on, so many more of the last size.
BEGIN, AGAIN, MOST = 0, 1 << 31, (1 << 32) - 1
ID_LIMIT, LOG_END = 1 << 63, (1 << 32) - 1


def crc_table(polynomial=0x82F63B78):
    table = []
    for byte in range(256):
        for _ in range(8):
            byte = (byte >> 1) ^ (polynomial if byte & 1 else 0)
        table.append(byte)
    return table


TABLE = crc_table()


def crc32c(*pieces):
    rest = 0xFFFFFFFF
    for piece in pieces:
        for byte in piece:
            rest = TABLE[(rest ^ byte) & 0xFF] ^ (rest >> 8)
    return rest ^ 0xFFFFFFFF


def signed(hint):
    """A hint with its checksum, of its other bytes."""
    return hint + crc32c(hint).to_bytes(SUM, "big")


# ---- logs


def place_of_map(log):
    """Where a log has its ledgers map, and how many pairs; None if it is not sealed."""
    if (
        len(log) < entry_logs.HEADER
        or log[:4] != b"BKLO"
        or entry_logs.number(log, 4, 4) not in (0, 1)
    ):
        return None
    if entry_logs.number(log, 4, 4) == 0:
        return None
    at, count = entry_logs.number(log, 8, 8), entry_logs.number(log, 16, 4)
    return (at, count) if entry_logs.HEADER <= at < len(log) and count >= 0 else None


def ledgers_map(log):
    """The sizes by ledger of a sealed log's map, or None."""
    (at, count), sizes = place_of_map(log), {}
    while at < len(log):
        if len(log) - at < 24:
            return None
        length, pairs = entry_logs.number(log, at, 4), entry_logs.number(log, at + 20, 4)
        is_batch = [entry_logs.number(log, at + 4, 8), entry_logs.number(log, at + 12, 8)] == [
            -1,
            -2,
        ]
        if not is_batch or pairs < 0 or length != 20 + 16 * pairs or len(log) - at - 4 < length:
            return None
        for place in range(at + 24, at + 24 + 16 * pairs, 16):
            ledger, size = struct.unpack_from(">QQ", log, place)
            if ledger in sizes:
                return None
            sizes[ledger] = size
        at += 4 + length
    return sizes if len(sizes) == count else None


def entries_of(log):
    """The entries of a log before its ledgers map."""
    at, _ = place_of_map(log)
    return [
        (ledger, entry, place, 20 + len(data))
        for place, ledger, entry, data in entry_logs.Log(log).entries
        if place < at
    ]


def facts_of(number, log):
    """What a hint has of its log: id, length, and the checksum of header and map."""
    at, _ = place_of_map(log)
    return number, len(log), crc32c(log[: entry_logs.HEADER], log[at:])


# ---- hints


def steps_of(entries):
    """Heads and steps of entries, as the program writes them."""
    heads, steps, last = [], [], None
    for ledger, entry, at, size in entries:
        is_next = last and (ledger, entry, at) == (last[0], last[1] + 1, last[2] + last[3])
        if not is_next:
            heads.append((ledger, entry, at, size))
            steps.append(BEGIN)
        elif size != last[3]:
            steps.append(size - 4)
        elif AGAIN <= steps[-1] < MOST:
            steps[-1] += 1
        else:
            steps.append(AGAIN)
        last = ledger, entry, at, size
    return heads, steps


def packed(number, length, checksum, heads, steps):
    front = FRONT.pack(MAGIC, VERSION, number, length, checksum, len(heads), len(steps))
    return signed(
        front + b"".join(HEAD.pack(*it) for it in heads) + struct.pack(f">{len(steps)}I", *steps)
    )


def hint_of(number, log):
    """The hint of a sealed log."""
    return packed(*facts_of(number, log), *steps_of(entries_of(log)))


def unpacked(hint):
    """Facts, heads and steps of a hint, or the text of what is wrong."""
    if len(hint) < SHORTEST:
        return f"short hint {len(hint)}"
    magic, version, number, length, checksum, heads, steps = FRONT.unpack_from(hint)
    if magic != MAGIC:
        return "bad hint magic"
    if version != VERSION:
        return f"hint version {version}"
    if len(hint) != SHORTEST + HEAD.size * heads + 4 * steps:
        return f"hint length {len(hint)}"
    if signed(hint[:-SUM]) != hint:
        return "bad hint checksum"
    end = FRONT.size + HEAD.size * heads
    return (
        (number, length, checksum),
        list(HEAD.iter_unpack(hint[FRONT.size : end])),
        list(struct.unpack_from(f">{steps}I", hint, end)),
    )


def runs_of(heads, steps):
    """Each step's first entry and how many entries it lists; None if one is not legal, or a head
    has no step."""
    runs, heads, past, last = [], iter(heads), entry_logs.HEADER, None
    for step in steps:
        if step == BEGIN:
            run = next(heads, None)
            if run is None:
                return None
            count = 1
        elif last is None:
            return None
        else:
            size, count = (last[3], step - AGAIN + 1) if step >= AGAIN else (step + 4, 1)
            run = last[0], last[1] + 1, last[2] + last[3], size
        ledger, entry, at, size = run
        end = at - 4 + count * size
        is_legal = ledger < ID_LIMIT and entry + count - 1 < ID_LIMIT and 20 <= size < AGAIN + 4
        if not is_legal or at - 4 < past or end > LOG_END:
            return None
        runs.append((*run, count))
        past, last = end, (ledger, entry + count - 1, end - size + 4, size)
    return runs if next(heads, None) is None else None


def why_not(number, log, hint):
    """Why a hint may not be used for the log of this id and bytes, as the program says it; None if
    it may."""
    found = unpacked(hint)
    if isinstance(found, str):
        return found
    (of, length, checksum), heads, steps = found
    runs = runs_of(heads, steps)
    if runs is None:
        return "bad hint entries"
    if of != number:
        return f"hint of log {of}"
    if length != len(log):
        return f"hint of a log of {length} bytes"
    if not place_of_map(log):
        return "log not sealed"
    at, _ = place_of_map(log)
    if runs and runs[-1][2] - 4 + runs[-1][3] * runs[-1][4] > at:
        return "hint past the ledgers map"
    if checksum != facts_of(number, log)[2]:
        return "hint of another header or ledgers map"
    sizes = {}
    for ledger, _, _, size, count in runs:
        sizes[ledger] = sizes.get(ledger, 0) + size * count
    return None if sizes == ledgers_map(log) else "hint of another ledgers map"


def listed(hint):
    """The entries of a hint that may be used."""
    _, heads, steps = unpacked(hint)
    runs = runs_of(heads, steps)
    return [
        (ledger, entry + it, at + it * size, size)
        for ledger, entry, at, size, count in runs
        for it in range(count)
    ]
