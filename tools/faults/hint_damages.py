"""Damages of hints, and the logs whose hints are damaged: for ./dev faults --hints.

A damage makes bytes of the hint of a log, or a file of another kind in its place. Those named
`forged: ..` have a checksum that fits what they list.
"""

import os
import struct
from pathlib import Path

import hint_files
from hint_files import AGAIN, BEGIN, FRONT, packed, signed, unpacked


class Logs:
    """Sealed logs by id, their hints and entries."""

    def __init__(self, logs):
        self.logs = logs
        self.hints = {log: hint_files.hint_of(log, data) for log, data in logs.items()}
        self.entries = {log: hint_files.entries_of(data) for log, data in logs.items()}

    def why_not(self, log, hint):
        return hint_files.why_not(log, self.logs[log], hint)

    def is_true(self, log, hint):
        """Whether a hint that may be used lists the entries of its log."""
        return hint_files.listed(hint) == self.entries[log]


# ---- damages of bytes: each takes a source of chance, the logs, an id and the hint, and returns
# bytes


def flipped(chance, logs, log, hint):
    bits = bytearray(hint)
    for _ in range(chance.choice((1, 1, 1, 2, 3, 8, 40))):
        bits[chance.randrange(len(bits))] ^= 1 << chance.randrange(8)
    return bytes(bits)


def cut(chance, logs, log, hint):
    return hint[: chance.randrange(len(hint))]


def cut_in_front(chance, logs, log, hint):
    return hint[chance.randrange(1, len(hint)) :]


def extended(chance, logs, log, hint):
    more = chance.choice(
        (bytes(chance.randrange(1, 64)), chance.randbytes(chance.randrange(1, 64)), hint, hint[-4:])
    )
    return hint + more


def exchanged(chance, logs, log, hint):
    return logs.hints[chance.choice(list(logs.hints))]


def mixed(chance, logs, log, hint):
    """The front of one hint and the end of another."""
    at = chance.randrange(len(hint))
    return hint[:at] + exchanged(chance, logs, log, hint)[at:]


def earlier(chance, logs, log, hint):
    """The hint of a log of this id and length that had other ledgers."""
    more = chance.randrange(1, 1000)
    entries = [(ledger + more, *rest) for ledger, *rest in logs.entries[log]]
    number, length, checksum = hint_files.facts_of(log, logs.logs[log])
    return packed(
        number, length, checksum ^ chance.randrange(1, 1 << 32), *hint_files.steps_of(entries)
    )


def zeroed(chance, logs, log, hint):
    size = chance.choice((1, 4, 16, 64, 512, 4096))
    at = chance.randrange(len(hint)) // size * size
    return hint[:at] + bytes(len(hint[at : at + size])) + hint[at + size :]


def garbage(chance, logs, log, hint):
    return chance.choice(
        (b"", b"B", chance.randbytes(36), chance.randbytes(len(hint)), bytes(len(hint)), hint[:36])
    )


def moved(chance, logs, log, hint):
    """A piece is in another place."""
    at, size, to = chance.randrange(len(hint)), chance.randrange(1, 32), chance.randrange(len(hint))
    rest = hint[:at] + hint[at + size :]
    return rest[:to] + hint[at : at + size] + rest[to:]


# ---- forged ones


def parts(hint):
    facts, heads, steps = unpacked(hint)
    return list(facts), [list(head) for head in heads], list(steps)


def near(chance, value, most):
    """A number near another one, or any other."""
    change = chance.choice(
        (-1, 1, 2, -2, 4, -4, chance.randrange(-300, 300), chance.randrange(most))
    )
    return (value + change) % most


def forged_word(chance, logs, log, hint):
    body, at = bytearray(hint[:-4]), 4 * chance.randrange(len(hint) // 4 - 1)
    struct.pack_into(">I", body, at, near(chance, struct.unpack_from(">I", body, at)[0], 1 << 32))
    return signed(bytes(body))


def forged_bit(chance, logs, log, hint):
    return signed(flipped(chance, logs, log, hint[:-4]))


def forged_cut(chance, logs, log, hint):
    return signed(hint[: FRONT.size + 4 * chance.randrange((len(hint) - FRONT.size) // 4)])


def forged_fact(chance, logs, log, hint):
    facts, heads, steps = parts(hint)
    at = chance.randrange(3)
    facts[at] = near(chance, facts[at], 1 << (64 if at == 1 else 32))
    return packed(*facts, heads, steps)


def forged_facts(chance, logs, log, hint):
    """The entries of another log, with the facts of this one."""
    _, heads, steps = parts(exchanged(chance, logs, log, hint))
    return packed(*parts(hint)[0], heads, steps)


def head_changed(field, most):
    def forge(chance, logs, log, hint):
        facts, heads, steps = parts(hint)
        if heads:
            head = chance.choice(heads)
            head[field] = near(chance, head[field], most)
        return packed(*facts, heads, steps)

    return forge


def forged_step(chance, logs, log, hint):
    facts, heads, steps = parts(hint)
    if steps:
        at = chance.randrange(len(steps))
        steps[at] = chance.choice(
            (
                near(chance, steps[at], 1 << 32),
                BEGIN,
                AGAIN,
                AGAIN + chance.randrange(9),
                16 + chance.randrange(300),
            )
        )
    return packed(*facts, heads, steps)


def forged_count(chance, logs, log, hint):
    """An entry is missing, or is there twice, or one more is."""
    entries = list(logs.entries[log])
    at = chance.randrange(len(entries)) if entries else 0
    if entries and chance.random() < 0.5:
        del entries[at]
    else:
        before = entries[at] if entries else (1, 0, 1028, 40)
        entries.insert(at + 1, (before[0], before[1] + 1, before[2] + before[3], before[3]))
    return packed(*parts(hint)[0], *hint_files.steps_of(entries))


def laid(entries):
    """Entries one behind another, from the header on."""
    at, found = 1028, []
    for ledger, entry, _, size in entries:
        found.append((ledger, entry, at, size))
        at += size
    return found


def forged_entries(change):
    """The entries are changed, and laid one behind another again: the log's bytes by ledger stay,
    so only its records differ."""

    def forge(chance, logs, log, hint):
        entries = [list(it) for it in logs.entries[log]]
        if len(entries) > 1:
            change(chance, entries)
        return packed(*parts(hint)[0], *hint_files.steps_of(laid(entries)))

    return forge


def other_entry_id(chance, entries):
    entry = chance.choice(entries)
    entry[1] = near(chance, entry[1], 1 << 63)


def ids_exchanged(chance, entries):
    one, other = chance.sample(entries, 2)
    one[:2], other[:2] = other[:2], one[:2]


def sizes_exchanged(chance, entries):
    one, other = chance.sample(entries, 2)
    one[3], other[3] = other[3], one[3]


def other_order(chance, entries):
    at = chance.randrange(len(entries))
    entries[:] = entries[at:] + entries[:at] if chance.random() < 0.5 else entries[::-1]


def ids_shifted(chance, entries):
    """As in an earlier log of this id, with the same ledgers map: no forger makes it, but another
    bookie or a lost directory."""
    more = chance.randrange(1, 1000)
    for entry in entries:
        entry[1] += more


# ---- what is in the place of a hint; each takes a path


def link_to_nothing(path):
    path.symlink_to("nothing")


def link_to_itself(path):
    path.symlink_to(path.name)


BYTES = {
    "flipped bits": flipped,
    "cut": cut,
    "cut in front": cut_in_front,
    "extended": extended,
    "hint of another log": exchanged,
    "two hints mixed": mixed,
    "hint of an earlier log": earlier,
    "zeroed page": zeroed,
    "no hint at all": garbage,
    "a piece moved": moved,
    "forged: a word": forged_word,
    "forged: bits": forged_bit,
    "forged: cut": forged_cut,
    "forged: id, length or checksum": forged_fact,
    "forged: entries of another log": forged_facts,
    "forged: ledger of a head": head_changed(0, 1 << 64),
    "forged: entry of a head": head_changed(1, 1 << 64),
    "forged: position of a head": head_changed(2, 1 << 32),
    "forged: size of a head": head_changed(3, 1 << 32),
    "forged: a step": forged_step,
    "forged: an entry more or less": forged_count,
    "forged: another entry id": forged_entries(other_entry_id),
    "forged: ids of two entries exchanged": forged_entries(ids_exchanged),
    "forged: sizes of two entries exchanged": forged_entries(sizes_exchanged),
    "forged: another order": forged_entries(other_order),
    "hint of an earlier log with the same ledgers map": forged_entries(ids_shifted),
}
PLACES = {
    "a directory": Path.mkdir,
    "a pipe": os.mkfifo,
    "a link to nothing": link_to_nothing,
    "a link to itself": link_to_itself,
}
