"""Reads by receipt, and pages of ids: their bounds, as the server answers them."""

import hashlib

import kit


def digest(ledger, entry, content):
    return hashlib.sha256(ledger.to_bytes(8, "big") + entry.to_bytes(8, "big") + content).digest()


class Receipts(kit.Case):
    """An add is found by the number that its receipt has, and by no other."""

    def test_number(self):
        opened = self.serve()
        contents = [b"one", b"two", b"three"]
        self.assertEqual(opened.add(1, *contents), ["accepted"] * 3)
        for options in ((), ("--readers", "2")):
            for number, content in enumerate(contents):
                receipt = {"ledger": 1, "entry": number, "digest": digest(1, number, content)}
                found = opened.call("read_back", number=number, **receipt)
                self.assertEqual((found.name, found.content), ("entry", content))
                for other in (3, 1 << 32, number + (1 << 32), (1 << 64) - 1):
                    found = opened.call("read_back", number=other, **receipt)
                    self.assertEqual((found.name, found.front), ("missing", 3), other)
                other = opened.call("read_back", number=(number + 1) % 3, **receipt)
                self.assertEqual(other.name, "differs")
                changed = {**receipt, "digest": bytes(32)}
                self.assertEqual(opened.call("read_back", number=number, **changed).name, "differs")


class Pages(kit.Case):
    """Ids from one on, at most as many as were asked for."""

    def ids(self, opened, name, **fields):
        found = opened.call(name, **fields)
        self.assertEqual(found.name, "page")
        return [int.from_bytes(found.ids[at : at + 8], "big") for at in range(0, len(found.ids), 8)]

    def test_bounds(self):
        opened = self.serve()
        for ledger in (3, 5, 8):
            self.assertEqual(opened.add(ledger, b"x", b"y", b"z", first=4), ["accepted"] * 3)
        for most in (0, 1, 2, 3, 4, (1 << 64) - 1):
            for start in (0, 3, 4, 5, 6, 7, 8, 9):
                entries = [it for it in (4, 5, 6) if it >= start][:most]
                found = self.ids(opened, "entries", **{"ledger": 5, "from": start, "most": most})
                self.assertEqual(found, entries, (start, most))
                ledgers = [it for it in (3, 5, 8) if it >= start][:most]
                found = self.ids(opened, "ledgers", **{"from": start, "most": most})
                self.assertEqual(found, ledgers, (start, most))
