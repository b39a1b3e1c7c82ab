"""Logs whose hints are damaged, and how full their directories are: for ./dev faults --hints."""

import collections

import entry_logs

# The ledger that a script deletes at its end.
DEAD = 5


def payloads(chance, count, sizes, ledgers):
    """Steps that add so many entries, in flushes of some, and delete a ledger."""
    ids, steps, size = collections.Counter(), [], 0
    for number in range(count):
        ledger = chance.choice(ledgers)
        steps.append(f"add {ledger} {ids[ledger]} {'x' * chance.choice(sizes)}".rstrip())
        ids[ledger] += 1
        size += 1
        if size == 40 or number == count - 1:
            steps += ["swap", *["write"] * size, "publish"]
            size = 0
    return [*steps, f"delete {DEAD}", "roll"]


def many_sizes(chance):
    return payloads(chance, 700, (0, 1, 20, 100, 101, 300), range(1, 7))


def one_size(chance):
    return payloads(chance, 1500, (44,), range(1, 7))


def one_ledger(chance):
    return payloads(chance, 600, (10, 50, 50, 50, 200), (3, DEAD))


FOLDERS = {"many sizes": many_sizes, "one size": one_size, "one ledger": one_ledger}


def big(number, size):
    return number.to_bytes(size, "big", signed=number < 0)


def strange_log(chance):
    records, sizes = [], collections.Counter()
    for _ in range(chance.randrange(1, 12)):
        ledger, entry = chance.randrange(1, 7), chance.randrange(40)
        data = chance.randbytes(chance.randrange(60))
        record = big(len(data) + 16, 4) + big(ledger, 8) + big(entry, 8) + data
        for _ in range(chance.choice((1, 1, 2))):
            records.append(record)
            sizes[ledger] += len(record)
        if chance.random() < 0.2:
            records.append(big(20, 4) + big(-7, 8) + chance.randbytes(12))
    pairs = b"".join(big(ledger, 8) + big(size, 8) for ledger, size in sorted(sizes.items()))
    batch = big(20 + len(pairs), 4) + big(-1, 8) + big(-2, 8) + big(len(sizes), 4)
    body = b"".join(records)
    header = b"BKLO" + big(1, 4) + big(entry_logs.HEADER + len(body), 8) + big(len(sizes), 4)
    return header.ljust(entry_logs.HEADER, b"\0") + body + batch + pairs
