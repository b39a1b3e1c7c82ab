"""Measures a bookie whose reads are slow while entries are added: python3 tools/serve/serve_slow.py
SERVER [MICROSECONDS].

Each read of a file waits so long [20,000], as on a slow device (FAULT_SLOW of
tools/faults/faults.c). One thread sends reads of published entries, 40 ahead, and another adds, 150
ahead, both of 100 bytes, for four seconds. Prints how many replies each got, for a server with 1, 4
and 8 readers. It needs gcc.
"""

import os
import random
import subprocess
import sys
import tempfile
import threading
import time
from pathlib import Path

TOP = Path(os.path.realpath(__file__)).parent.parent.parent
sys.dont_write_bytecode = True
sys.path.insert(0, str(TOP / "bindings" / "python"))

import bookie  # noqa: E402

ENTRIES, SECONDS = 2000, 4
READERS = (1, 4, 8)


def send_ahead(session, window, until, request):
    """Sends requests until a time, and waits for the oldest where so many are ahead. Returns the
    number of replies."""
    sent, replies = [], 0
    while time.monotonic() < until:
        call, fields = request(replies + len(sent))
        sent.append(session.send(call, **fields))
        if len(sent) > window:
            sent.pop(0).result()
            replies += 1
    for it in sent:
        it.result()
    return replies


def measure(server, library, folder, readers, wait):
    slow = {"LD_PRELOAD": str(library), "FAULT_FOLDER": str(folder), "FAULT_SLOW": str(wait)}
    with bookie.Bookie(
        [server, str(folder), "--readers", str(readers)], env={**os.environ, **slow}
    ) as session:
        for it in [
            session.send("add", ledger=1, entry=entry, content=bytes(100))
            for entry in range(ENTRIES)
        ]:
            it.result()
        session.flush()
        until, counts = time.monotonic() + SECONDS, {}

        def run(name, window, request):
            counts[name] = send_ahead(session, window, until, request)

        reading = (
            "reads",
            40,
            lambda number: ("read", {"ledger": 1, "entry": random.randrange(ENTRIES)}),
        )
        adding = (
            "adds",
            150,
            lambda number: ("add", {"ledger": 2, "entry": number, "content": bytes(100)}),
        )
        threads = [threading.Thread(target=run, args=it) for it in (reading, adding)]
        for it in threads:
            it.start()
        for it in threads:
            it.join()
    return counts


def main(server, wait="20000"):
    with tempfile.TemporaryDirectory(prefix="serve-slow-") as room:
        library = Path(room) / "faults.so"
        subprocess.run(
            [
                "gcc",
                "-O2",
                "-shared",
                "-fPIC",
                "-pthread",
                "-o",
                library,
                TOP / "tools" / "faults" / "faults.c",
            ],
            check=True,
        )
        for readers in READERS:
            folder = Path(room).resolve() / f"of{readers}"
            folder.mkdir()
            counts = measure(server, library, folder, readers, int(wait))
            print(
                f"{readers} readers: {counts['reads'] / SECONDS:,.0f} reads and "
                f"{counts['adds'] / SECONDS:,.0f} adds a second",
                flush=True,
            )


if __name__ == "__main__":
    main(*sys.argv[1:])
