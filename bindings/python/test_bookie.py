#!/usr/bin/env python3
"""Tests the client: usage: test_bookie.py SERVER DIR

SERVER is the program (`bk_serve`), DIR a directory that does not exist or is empty, as DIR-ends beside it. Prints
the summary that the tests of all clients print, line for line. Runs itself with further words, ROLE and LEDGER, as
a program that gets a signal or has no standard streams.
"""

import asyncio
import faulthandler
import hashlib
import os
import signal
import struct
import subprocess
import sys
import threading
import time

from bookie import Bookie, Ended, Refused, receipt_of

COUNT = 2000  # entries of each of two ledgers
LARGE = 5  # large entries that are added, and as many again while they are read
FEW = 100  # entries of a session that ends in another way
SECONDS = 60  # limit on a program that is run
# Of ten entries of a log so many are of a ledger that is not deleted.
LIVE = (0, 1, 1, 5, 6, 9)


def content(ledger, entry):
    return bytes((ledger * 31 + entry * 7 + i) & 255 for i in range(20 + entry % 100))


def whole(ledger, entry):
    return struct.pack(">QQ", ledger, entry) + content(ledger, entry)


def refusal(call, *arguments, **fields):
    """Returns the name of the refusal of a call, or `accepted`."""
    try:
        call(*arguments, **fields)
        return "accepted"
    except Refused as refused:
        return refused.name


def add_until_accepted(bookie, future, ledger, entry):
    """Returns the receipt of an add that was sent; adds again after a flush as long as the cache is full."""
    while True:
        try:
            return receipt_of(ledger, entry, future.result())
        except Refused as refused:
            if refused.name != "full":
                raise
            bookie.flush()
            future = bookie.send("add", ledger=ledger, entry=entry, content=content(ledger, entry))


def add_ledger(bookie, ledger, receipts):
    sent = [bookie.send("add", ledger=ledger, entry=e, content=content(ledger, e)) for e in range(COUNT)]
    receipts[ledger] = [add_until_accepted(bookie, future, ledger, e) for e, future in enumerate(sent)]


def add_all(bookie):
    receipts = {}
    threads = [threading.Thread(target=add_ledger, args=(bookie, ledger, receipts)) for ledger in (1, 2)]
    for thread in threads:
        thread.start()
    for thread in threads:
        thread.join()
    right = sum(
        receipt.digest == hashlib.sha256(whole(ledger, receipt.entry)).digest()
        for ledger, given in receipts.items()
        for receipt in given
    )
    rising = all(a.number < b.number for given in receipts.values() for a, b in zip(given, given[1:]))
    print("added", sum(map(len, receipts.values())), "digests", right, "rising" if rising else "not rising")
    return receipts


def opened(bookie):
    print("opened", bookie.limits.version)


def read_all(bookie, ledgers):
    """Returns how many entries the ledgers have, and the SHA-256 of all of them in order."""
    count, digest = 0, hashlib.sha256()
    for ledger in ledgers:
        sent = [bookie.send("read", ledger=ledger, entry=e) for e in bookie.entries(ledger)]
        for future in sent:
            reply = future.result()
            digest.update(struct.pack(">QQ", reply.ledger, reply.entry) + reply.content)
            count += 1
    return f"{count} {digest.hexdigest()}"


def large(entry):
    start = (4 * 31 + entry * 7) & 255
    return (bytes(range(256)) * 1173)[start : start + 300_000]


def large_entries(bookie):
    """Large adds and large reads at once, all sent ahead: neither side may wait for the other."""
    added = [bookie.send("add", ledger=4, entry=e, content=large(e)) for e in range(LARGE)]
    for future in added:
        future.result()
    sent, digest = [], hashlib.sha256()
    for e in range(LARGE):
        sent.append(bookie.send("read", ledger=4, entry=e))
        added.append(bookie.send("add", ledger=4, entry=LARGE + e, content=large(LARGE + e)))
    for future in sent:
        digest.update(future.result().content)
    print("large", sum(future.result().name == "accepted" for future in added), digest.hexdigest())
    bookie.delete(4)


def yes(value):
    return "yes" if value else "no"


def or_none(value):
    return "none" if value is None else value


def lists(bookie):
    print("last", bookie.last_entry(1), bookie.last_entry(2), or_none(bookie.last_entry(9)))
    print("ledgers", *bookie.ledgers())
    print("read last", yes(bookie.read_last(1) == (COUNT - 1, content(1, COUNT - 1))))


def attributes(bookie):
    bookie.set_master_key(1, bytes(range(20)))
    bookie.set_explicit_lac(1, (4999).to_bytes(8, "big"))
    print("attributes", bookie.master_key(1).hex(), bookie.explicit_lac(1).hex(), or_none(bookie.master_key(2)))
    print("is fenced", yes(bookie.is_fenced(1)), yes(bookie.is_fenced(3)))


def figures(bookie):
    found = bookie.stats()
    within = yes(found.live <= found.bytes and found.durable <= found.front)
    print("figures", found.front, found.cached, found.indexed, within, found.leases, found.failures)


def fill_logs(bookie):
    """Seals logs of ten entries of 20 bytes, some of ledger 5 and the others of ledger 6."""
    for log, live in enumerate(LIVE):
        for e in range(10):
            bookie.add(5 if e < live else 6, 100 * log + e, content(5, 100 * log))
        bookie.seal()


def compacted(bookie, minor, major):
    done = bookie.compact(minor, major)
    return f"{done.logs} {done.entries}"


def compactions(bookie):
    """Each threshold takes the logs below it, 0 takes none, and entries are read from the copies."""
    bookie.seal()
    print("compact", compacted(bookie, 200, 800))
    fill_logs(bookie)
    bookie.delete(6)
    before = bookie.stats()
    print("omitted", compacted(bookie, 0, 0))
    print("minor", compacted(bookie, 200, 0), "again", compacted(bookie, 200, 0))
    print("major", compacted(bookie, 0, 800), "again", compacted(bookie, 0, 800))
    after = bookie.stats()
    print("freed", before.logs - after.logs, before.bytes - after.bytes, "live", before.live, after.live)
    print("thresholds", *(refusal(bookie.compact, *it) for it in ((800, 200), (2000, 0), (0, 200))))
    right = sum(bookie.read(5, e) == content(5, e - e % 10) for e in bookie.entries(5))
    print("copied", right)


def first_session(bookie):
    opened(bookie)
    receipts = add_all(bookie)
    bookie.flush()
    print("read", read_all(bookie, (1, 2)))
    lists(bookie)
    print("holds", yes(bookie.holds(1, COUNT - 1)), yes(bookie.holds(1, COUNT)), yes(bookie.holds(9, 0)))
    print("read back", yes(bookie.read_back(receipts[2][77]) == content(2, 77)))
    print("forged", refusal(bookie.read_back, receipts[2][77]._replace(entry=78)))
    print("again", or_none(bookie.add(1, 0, b"other")), yes(bookie.read(1, 0) == content(1, 0)), or_none(bookie.read(9, 0)))
    print("fenced", yes(bookie.fence(1)), yes(bookie.fence(1)))
    print("add", refusal(bookie.add, 1, COUNT, b"x"), "recovery", refusal(bookie.add, 1, COUNT, b"x", recovery=True))
    print("negative", refusal(bookie.add, 2**63, 0, b"x"))
    attributes(bookie)
    figures(bookie)
    print("deleted", bookie.delete(2), refusal(bookie.delete, 2), refusal(bookie.read, 2, 0), refusal(bookie.add, 2, 0, b"x"))
    print("holds", yes(bookie.holds(2, 0)))
    compactions(bookie)
    large_entries(bookie)
    print("durable", yes(bookie.checkpoint() > 2 * COUNT))
    bookie.seal()


def killed_session(bookie):
    """Adds to ledger 3, flushes after a thousand, and kills the server amid a thousand more."""
    for e in range(1000):
        bookie.add(3, e, content(3, e))
    bookie.flush()
    sent = [bookie.send("add", ledger=3, entry=e, content=content(3, e)) for e in range(1000, 2000)]
    sent[300].result()
    bookie.kill()
    for future in sent:
        try:
            future.result()
        except Ended:
            pass
    try:
        bookie.flush()
    except Ended:
        print("killed: later calls are refused")


def last_session(bookie):
    opened(bookie)
    print("read", read_all(bookie, (1, 5)))
    key, lac = bookie.master_key(1).hex(), bookie.explicit_lac(1).hex()
    print("fenced", yes(bookie.is_fenced(1)), refusal(bookie.read, 2, 0), key, lac)
    found = list(bookie.entries(3))
    right = all(bookie.read(3, e) == content(3, e) for e in found)
    print("published", yes(found[:1000] == list(range(1000))), "right", yes(right))
    print("closed", bookie.close(), bookie.close())


# ---- other ends of a session


def add_few(bookie, ledger):
    sent = [bookie.send("add", ledger=ledger, entry=e, content=b"x") for e in range(FEW)]
    for future in sent:
        future.result()


def found(command, ledger, wait=10):
    """Returns how many entries of a ledger a new session finds. It waits for a predecessor that still flushes."""
    with Bookie(command, wait) as bookie:
        return len(list(bookie.entries(ledger)))


def died(command, ledger, is_flushed, more):
    """Adds more entries after a flush, or none. The server is killed, not by the client. Returns how many entries `close`
    says may be lost."""
    bookie = Bookie(command)
    add_few(bookie, ledger)
    if is_flushed:
        bookie.flush()
    for e in range(more):
        bookie.add(ledger, FEW + e, b"x")
    os.kill(bookie.process.pid, signal.SIGKILL)
    try:
        bookie.close()
    except Ended as ended:
        assert str(ended).endswith(f": {bookie.unflushed}"), ended
        return bookie.unflushed
    return "silent"


def play_signalled(command, ledger):
    """Adds entries, and waits for a signal. Closes in order after SIGINT; another one ends it at once."""
    signal.signal(signal.SIGINT, signal.default_int_handler)
    signal.signal(signal.SIGTERM, signal.SIG_DFL)
    signal.signal(signal.SIGHUP, signal.SIG_DFL)
    with Bookie(command) as bookie:
        add_few(bookie, ledger)
        try:
            print("ready", flush=True)
            time.sleep(SECONDS)
        except KeyboardInterrupt:
            pass


def signalled(command, ledger, number):
    """Sends a signal to the process group of a program with a session. Returns how many of its entries are found."""
    words = [sys.executable, __file__, *command, "signalled", str(ledger)]
    with subprocess.Popen(words, stdout=subprocess.PIPE, start_new_session=True) as child:
        assert child.stdout.readline() == b"ready\n"
        os.killpg(child.pid, number)
        status = child.wait(SECONDS)
    assert status == (0 if number == signal.SIGINT else -number), status
    return found(command, ledger)


def play_closed(command, ledger):
    """Adds an entry. The server's error stream is no file of the directory."""
    with Bookie(command) as bookie:
        bookie.add(ledger, 0, b"x")
        errors = f"/proc/{bookie.process.pid}/fd/2"
        assert not os.path.exists("/proc/self/fd") or os.readlink(errors) == "/dev/null"


def without_streams(command, ledger):
    """Runs a program without standard input, output and errors. Returns how many of its entries are found."""
    words = [sys.executable, __file__, *command, "closed", str(ledger)]
    subprocess.run(["/bin/sh", "-c", 'exec "$@" <&- >&- 2>&-', "sh", *words], timeout=SECONDS, check=True)
    return found(command, ledger)


async def give_up(bookie, ledger):
    for e in range(FEW // 2, FEW):
        future = bookie.send("add", ledger=ledger, entry=e, content=b"x")
        try:
            await asyncio.wait_for(asyncio.wrap_future(future), 0)
        except asyncio.TimeoutError:
            pass


def cancelled(command, ledger):
    """Cancels requests that were sent. Returns how many of their entries are found by a later call."""
    # A session whose reader has ended waits forever.
    faulthandler.dump_traceback_later(SECONDS, exit=True)
    with Bookie(command) as bookie:
        for e in range(FEW // 2):
            bookie.send("add", ledger=ledger, entry=e, content=b"x").cancel()
        asyncio.run(give_up(bookie, ledger))
        count = len(list(bookie.entries(ledger)))
    faulthandler.cancel_dump_traceback_later()
    return count


def succeed(command, ledger):
    """Opens the directory while a predecessor has it, without and with time. Returns the refusal, and what is found."""
    first = Bookie(command)
    add_few(first, ledger)
    began = time.monotonic()
    refused = refusal(Bookie, command, wait=0)
    # So the next opening is refused at first.
    timer = threading.Timer(0.3 + 2 * (time.monotonic() - began), first.close)
    timer.start()
    count = found(command, ledger, SECONDS)
    timer.join()
    return refused, count


def ends(command):
    print("died", died(command, 11, False, 0), died(command, 12, True, 0), died(command, 20, True, 30))
    numbers = (signal.SIGINT, signal.SIGTERM, signal.SIGHUP)
    print("signals", *(signalled(command, 13 + i, it) for i, it in enumerate(numbers)))
    print("cancelled", cancelled(command, 16))
    print("without streams", without_streams(command, 17))
    print("successor", *succeed(command, 18))


ROLES = {"signalled": play_signalled, "closed": play_closed}


def main(server, directory, role=None, ledger="0"):
    command = [server, directory]
    if role is not None:
        return ROLES[role](command, int(ledger))
    with Bookie(command) as bookie:
        first_session(bookie)
    killed_session(Bookie(command))
    last_session(Bookie(command))
    ends([server, f"{directory}-ends"])


if __name__ == "__main__":
    if len(sys.argv) not in (3, 5):
        sys.exit("usage: test_bookie.py SERVER DIR")
    main(*sys.argv[1:])
