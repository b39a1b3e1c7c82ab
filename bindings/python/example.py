"""A program with the client: example.py COMMAND.., the words of the server and its directory.

    PYTHONPATH=bindings/python python3 bindings/python/example.py ./bookie serve store

A writer makes entries durable and crashes. Another one fences its ledger, so that the first cannot add any more, and adds
what is missing. Then the directory is opened again, and the ledger read.
"""

import hashlib
import sys

from bookie import Bookie, Ended, Refused

LEDGER = 1
WRITTEN, MISSING = [b"first", b"second", b"third"], b"last"


def word(is_so):
    return "true" if is_so else "false"


def digest_of(ledger, entry, content):
    """Returns the SHA-256 of an entry: its ids, eight bytes each, and its content."""
    return hashlib.sha256(ledger.to_bytes(8, "big") + entry.to_bytes(8, "big") + content).digest()


def add(bookie, entry, content, recovery=False):
    """Adds an entry, which is in memory until a flush is answered. Returns its receipt, whose digest is that of the entry."""
    try:
        receipt = bookie.add(LEDGER, entry, content, recovery)
    except Refused as refused:
        if refused.name not in ("full", "memory"):
            raise  # `fenced`, `deleted`: never to be added; `disk`: after the device is mended
        bookie.flush()
        receipt = bookie.add(LEDGER, entry, content, recovery)
    if receipt is None:
        raise ValueError(f"entry {entry} is there already")
    if receipt.digest != digest_of(LEDGER, entry, content):
        raise ValueError(f"entry {entry} was accepted with other bytes")
    return receipt


def write(command):
    """Makes entries durable, and ends as a crash does: what was flushed stays."""
    bookie = Bookie(command)
    receipts = [add(bookie, entry, content) for entry, content in enumerate(WRITTEN)]
    print("durable", bookie.flush())  # one flush for all of them: it waits for the device
    for receipt, content in zip(receipts, WRITTEN):
        print("receipt", receipt.entry, receipt.digest.hex()[:8], word(bookie.read_back(receipt) == content))
    bookie.kill()


def recover(command):
    """Takes the ledger over: fences it, and adds what is missing."""
    with Bookie(command) as bookie:  # `close` at the end flushes
        print("fenced", word(bookie.fence(LEDGER)))
        entry = bookie.last_entry(LEDGER) + 1
        try:
            bookie.add(LEDGER, entry, b"of the first writer")
        except Refused as refused:
            print("refused", refused.name)
        add(bookie, entry, MISSING, recovery=True)
        print("recovered", entry, bookie.flush())


def read(command):
    """Reads the ledger after opening the directory again."""
    with Bookie(command) as bookie:
        for entry in bookie.entries(LEDGER):
            print("entry", entry, bookie.read(LEDGER, entry).decode())
        print("fenced", word(bookie.is_fenced(LEDGER)))


def main(command):
    try:
        write(command)
        recover(command)
        read(command)
    except Refused as refused:
        sys.exit(f"refused: {refused}")  # nothing changed, unless it is `disk`; the session goes on
    except Ended as ended:
        sys.exit(f"ended: {ended}")  # requests without a reply took effect or not: open again, and read
    except OSError as error:
        sys.exit(f"no server: {error}")


if __name__ == "__main__":
    main(sys.argv[1:] or sys.exit(__doc__))
