"""Entries past the pieces in which a program reads: their data, and their digests as the test
computes them."""

import random
import zlib

import kit
import log_files
from hint_files import crc32c

SIZES = (200_001, 1_048_576, 5_000_000)
LAC = (1 << 64) - 1
# Bytes of ledger, entry, LAC and length, which a digest covers with what follows it.
FRONT = 32


def ids(ledger, entry):
    return ledger.to_bytes(8, "big") + entry.to_bytes(8, "big")


def with_digest(ledger, entry, body, kind):
    """Returns an entry's data as BookKeeper's client makes it: LAC, length, digest, body."""
    front = LAC.to_bytes(8, "big") + len(body).to_bytes(8, "big")
    if kind == "crc32c":
        return front + crc32c(ids(ledger, entry), front, body).to_bytes(4, "big") + body
    return front + zlib.crc32(ids(ledger, entry) + front + body).to_bytes(8, "big") + body


class Large(kit.Case):
    """A log with an entry of each size, and small ones between them."""

    def sizes(self):
        return SIZES[:2] if kit.Programs.is_slow else SIZES

    def entries(self, kind):
        """Returns an entry of ledger 1 of each size, with a small one of ledger 2 after each."""
        chance, found = random.Random(kind), []
        for entry, size in enumerate(self.sizes()):
            body = chance.randbytes(size - FRONT - (4 if kind == "crc32c" else 8))
            found.append((1, entry, with_digest(1, entry, body, kind)))
            found.append((2, entry, with_digest(2, entry, b"small", kind)))
        return found

    def lay(self, kind):
        entries = self.entries(kind)
        log_files.write(self.logs, {0: entries})
        return entries, list(log_files.offsets(entries))

    def scanned(self, entries):
        """Returns the lines of `scan --data`."""
        lines = []
        for (ledger, entry, data), at in zip(entries, log_files.offsets(entries)):
            lines.append(f"{at + 4} {ledger} {entry} {20 + len(data)} {data.hex()}")
        return [*lines, f"entries {len(entries)} foreign 1 torn 0"]

    def test_scan_prints_the_data(self):
        entries, _ = self.lay("crc32")
        out, errors = self.bookie("scan", "--data", self.logs, "0")
        self.assertTrue(out.splitlines() == self.scanned(entries))
        self.assertEqual(errors, "")

    def test_scan_prints_a_changed_byte(self):
        entries, places = self.lay("crc32")
        kit.flip(self.logs / "0.log", places[2] + 20 + 200_000)
        data = bytearray(entries[2][2])
        data[200_000] ^= 1
        entries[2] = (*entries[2][:2], bytes(data))
        self.assertTrue(
            self.bookie("scan", "--data", self.logs, "0")[0].splitlines() == self.scanned(entries)
        )

    def check(self, kind, status):
        return self.bookie("check", "--digest", kind, self.logs, status=status)[0].splitlines()

    def test_right_digests(self):
        for kind in ("crc32", "crc32c"):
            with self.subTest(kind):
                self.lay(kind)
                self.assertEqual(self.check(kind, 0), ["0 ok"])
                self.assertEqual(self.check("auto", 0), ["0 ok", "unknown 0"])

    def test_digest_of_the_other_kind(self):
        entries, places = self.lay("crc32c")
        wrong = [
            f"digest {at + 4} {ledger} {entry}" for (ledger, entry, _), at in zip(entries, places)
        ]
        self.assertEqual(self.check("crc32", 1), [*wrong, "0 ok"])

    def test_one_flipped_byte(self):
        """In the front, in the digest, at the beginning, behind 200,000 bytes and at the end of
        each large entry."""
        entries, places = self.lay("crc32")
        for entry, at in list(zip(entries, places))[::2]:
            last = len(entry[2]) - 1
            for place in {0, 8, 17, 24, 200_000 - FRONT, last}:
                kit.flip(self.logs / "0.log", at + 20 + place, 0x40)
                self.assertEqual(
                    self.check("crc32", 1), [f"digest {at + 4} 1 {entry[1]}", "0 ok"], place
                )
                kit.flip(self.logs / "0.log", at + 20 + place, 0x40)
        self.assertEqual(self.check("crc32", 0), ["0 ok"])

    def test_one_flipped_byte_of_auto(self):
        """The kind is that of the ledger's first entry, so a later one that is damaged is found."""
        _, places = self.lay("crc32c")
        kit.flip(self.logs / "0.log", places[2] + 20 + 1_000_000, 0x80)
        self.assertEqual(
            self.check("auto", 1), [f"digest {places[2] + 4} 1 1", "0 ok", "unknown 0"]
        )

    def test_export_and_import(self):
        entries, _ = self.lay("crc32")
        words = [str(kit.Programs.shell), "export", "--raw", str(self.logs), "1"]
        raw = self.call(*words[1:]).stdout
        self.assertTrue(raw == log_files.records(entries[::2]))
        (self.room / "raw").write_bytes(log_files.records(entries[:1]))
        self.assertEqual(
            self.bookie("import", self.room / "new", self.room / "raw")[0], "added 1 held 0\n"
        )
        self.assertTrue(log_files.read(self.room / "new") == {(1, 0): entries[0][2]})
