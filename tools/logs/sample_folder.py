#!/usr/bin/env python3
"""Makes a small directory of entry logs, which docs/operating.md walks through.

usage: tools/logs/sample_folder.py DIR     DIR must not exist

Writes DIR/current with four logs, byte by byte as docs/format.md describes them, and DIR/live.txt
with the ledgers that still exist, as the stock shell lists them. Three logs are sealed. Log 31 is
not, and ends in half a record. Ledgers 1 and 4 are not in the list.
"""

import sys
from pathlib import Path

HEADER = 1024
MAGIC, VERSION = b"BKLO", 1
# The ids of a batch of a ledgers map.
BATCH_IDS = (-1, -2)
# The logs: for each entry its ledger, its entry id and the length of its data.
SEALED = {
    0: [(1, 0, 400), (2, 0, 60), (1, 1, 400), (2, 1, 60), (1, 2, 400)],
    1: [(3, 0, 250), (3, 1, 250), (3, 2, 250)],
    2: [(4, 0, 300), (4, 1, 300)],
}
UNSEALED = {31: [(2, 2, 60), (5, 0, 120)]}
# How much of the next record an interrupted write left.
TORN = (5, 1, 120), 50
LIVE = [2, 3, 5]


def number(value, size):
    return value.to_bytes(size, "big", signed=True)


def record(ledger, entry, data):
    payload = number(ledger, 8) + number(entry, 8) + data
    return number(len(payload), 4) + payload


def entry_record(ledger, entry, length):
    """Returns the record of an entry; its data is a text that names it, again and again."""
    text = f"ledger {ledger} entry {entry}. ".encode()
    return record(ledger, entry, (text * (length // len(text) + 1))[:length])


def map_batch(sizes):
    """Returns a ledgers map of one batch, of the bytes that each ledger has."""
    pairs = b"".join(number(ledger, 8) + number(size, 8) for ledger, size in sorted(sizes.items()))
    return record(*BATCH_IDS, number(len(sizes), 4) + pairs)


def ledgers_map(entries):
    """Returns the number of ledgers, and the map."""
    sizes = {}
    for ledger, entry, length in entries:
        sizes[ledger] = sizes.get(ledger, 0) + len(entry_record(ledger, entry, length))
    return len(sizes), map_batch(sizes)


def header(position, count):
    return (MAGIC + number(VERSION, 4) + number(position, 8) + number(count, 4)).ljust(
        HEADER, b"\0"
    )


def sealed(entries):
    records = b"".join(entry_record(*it) for it in entries)
    count, batch = ledgers_map(entries)
    return header(HEADER + len(records), count) + records + batch


def torn(entries):
    entry, kept = TORN
    return (
        header(0, 0) + b"".join(entry_record(*it) for it in entries) + entry_record(*entry)[:kept]
    )


def main(words):
    if len(words) != 1 or words[0].startswith("-"):
        sys.exit(__doc__)
    folder = Path(words[0])
    try:
        (folder / "current").mkdir(parents=True)
    except FileExistsError:
        sys.exit(f"sample_folder: {folder / 'current'} is there already")
    for logs, bytes_of in ((SEALED, sealed), (UNSEALED, torn)):
        for log, entries in logs.items():
            (folder / "current" / f"{log:x}.log").write_bytes(bytes_of(entries))
    (folder / "live.txt").write_text("".join(f"ledgerID: {ledger}\n" for ledger in LIVE))


if __name__ == "__main__":
    main(sys.argv[1:])
