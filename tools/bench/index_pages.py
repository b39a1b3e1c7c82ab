#!/usr/bin/env python3
"""Counts the bytes of memory of a key in the index, by the number of keys of a ledger.

A copy of the page rules of bk_index (its README): pages of up to 256 entries, packed if all keys
are of one ledger, split into 128 and 129. 25 ledgers are written at the same time, and each entry
goes to a random one. Prints, for ledgers of so many keys on average, the mean bytes a key over the
second half of 200,000 adds: if all ledgers are kept, and if a closed one is deleted after an
exponential time of 60,000 adds on average. Then what `index_bytes` of bk_simulation says. Takes
half a minute.
"""

import bisect
import heapq
import random

WRITERS, ADDS, LIFE = 25, 200_000, 60_000
PACKED, PLAIN, FULL, HALF = 12, 24, 256, 128
# A box with its list and the C library's heads; a fence and a pointer, in lists that double.
PAGE = 80 + 36


class Page:
    """Keys, whether they are in plain form, and the room of their list."""

    def __init__(self, keys, room):
        self.keys, self.room = keys, room
        self.plain = keys[0][0] != keys[-1][0]

    def insert(self, key):
        bisect.insort(self.keys, key)
        self.plain = self.plain or self.keys[0][0] != self.keys[-1][0]
        while self.room < len(self.keys):
            self.room *= 2

    def bytes(self):
        return self.room * (PLAIN if self.plain else PACKED) + PAGE


def home(fences, key):
    return max(bisect.bisect_right(fences, key) - 1, 0)


def insert(pages, fences, key):
    if not pages:
        pages.append(Page([key], 4))
        fences.append(key)
        return
    at = home(fences, key)
    if len(pages[at].keys) < FULL:
        pages[at].insert(key)
    else:
        keys = sorted([*pages[at].keys, key])
        pages[at : at + 1] = [Page(keys[:HALF], HALF), Page(keys[HALF:], FULL)]
        fences.insert(at + 1, keys[HALF])
    fences[at] = pages[at].keys[0]


def delete(pages, fences, ledger):
    at = home(fences, (ledger, -1))
    while at < len(pages) and fences[at][0] <= ledger:
        pages[at].keys = [key for key in pages[at].keys if key[0] != ledger]
        if pages[at].keys:
            fences[at] = pages[at].keys[0]
            at += 1
        else:
            del pages[at], fences[at]


def mean(keys, is_deleted):
    chance = random.Random(1)
    pages, fences, deaths, means = [], [], [], []
    written = [[ledger, 0, chance.randint(1, keys)] for ledger in range(WRITERS)]
    fresh = WRITERS
    for now in range(ADDS):
        writer = chance.choice(written)
        insert(pages, fences, (writer[0], writer[1]))
        writer[1] += 1
        if writer[1] >= writer[2]:
            if is_deleted:
                heapq.heappush(deaths, (now + chance.expovariate(1 / LIFE), writer[0]))
            writer[:] = [fresh, 0, max(keys // 2 + chance.randint(0, keys), 1)]
            fresh += 1
        while deaths and deaths[0][0] <= now:
            delete(pages, fences, heapq.heappop(deaths)[1])
        if now > ADDS // 2 and now % (ADDS // 20) == 0:
            held = sum(len(page.keys) for page in pages)
            means.append(sum(page.bytes() for page in pages) / held)
    return sum(means) / len(means)


if __name__ == "__main__":
    print("keys of a ledger, all kept, some deleted, index_bytes")
    for keys in (1, 4, 16, 64, 128, 256, 512, 1024, 4096):
        says = 15 + min(6144 // keys, 85)
        print(f"{keys:6} {mean(keys, False):6.1f} {mean(keys, True):6.1f} {says:5}")
