"""Import of exported entries: what is added and held, records that are refused, deletions in force,
and a device that fails while the entries are written."""

import errno
import json
import os
import threading
import time

import device
import kit
import log_files
import manifest_files

ENTRIES = [(1, 0, b"one"), (1, 1, b""), (2, 0, b"two" * 100), (3, 7, b"\0\xff")]
WANTED = {(ledger, entry): data for ledger, entry, data in ENTRIES}


class Case(kit.Case):
    """A file of records, and what the directory has after an import."""

    def setUp(self):
        super().setUp()
        self.file = self.room / "file"
        self.file.write_bytes(log_files.records(ENTRIES))

    def take(self, *words, status=0, more=None):
        return self.bookie("import", *words, self.logs, self.file, status=status, more=more)

    def found(self):
        """The entries of the directory, once each log is seen to be sealed."""
        out, _ = self.bookie("check", self.logs)
        self.assertEqual({it.split()[1] for it in out.splitlines()}, {"ok"})
        return log_files.read(self.logs)


class Counts(Case):
    def test_each_entry_is_added_once(self):
        self.assertEqual(self.take(), ("added 4 held 0\n", ""))
        self.assertEqual(self.found(), WANTED)
        before = self.log_names()
        self.assertEqual(self.take(), ("added 0 held 4\n", ""))
        self.assertEqual((self.found(), self.log_names()), (WANTED, before))

    def test_entries_that_are_there_are_held(self):
        self.publish("1 1 mine", "2 1 other")
        self.assertEqual(self.take(), ("added 3 held 1\n", ""))
        self.assertEqual(self.found(), {**WANTED, (1, 1): b"mine", (2, 1): b"other"})

    def test_last_record_of_a_key_is_held(self):
        self.file.write_bytes(log_files.records([(1, 0, b"one"), (1, 0, b"two")]))
        self.assertEqual(self.take()[0], "added 1 held 1\n")
        self.assertEqual(self.found(), {(1, 0): b"one"})

    def test_object(self):
        out, errors = self.bookie("--json", "import", self.logs, self.file)
        self.assertEqual((json.loads(out), errors), ({"added": 4, "held": 0}, ""))

    def test_empty_file(self):
        self.file.write_bytes(b"")
        self.assertEqual(self.take(), ("added 0 held 0\n", ""))
        self.assertEqual(self.log_names(), [])

    def test_export_comes_back(self):
        keys = [(ledger, entry) for ledger in (1, 5) for entry in range(9)]
        self.publish(*(f"{ledger} {entry} {ledger}{entry}" for ledger, entry in keys))
        old, self.logs = self.logs, self.room / "new"
        for ledger in (1, 5):
            self.file.write_bytes(self.call("export", "--raw", old, ledger).stdout)
            self.assertEqual(self.take()[0], "added 9 held 0\n")
        self.assertEqual(self.found(), log_files.read(old))


class Input(Case):
    """What the file is, and how much is in it."""

    def test_pipe_that_gives_pieces(self):
        entries = [*ENTRIES, (4, 0, bytes(range(256)) * 80)]
        records, pipe = log_files.records(entries), self.room / "pipe"
        os.mkfifo(pipe)

        def feed():
            with open(pipe, "wb", buffering=0) as out:
                for at in range(0, len(records), 1500):
                    out.write(records[at : at + 1500])
                    time.sleep(0.002)

        feeding = threading.Thread(target=feed, daemon=True)
        feeding.start()
        out, errors = self.bookie("import", self.logs, pipe)
        feeding.join(kit.LIMIT)
        self.assertEqual((out, errors), (f"added {len(entries)} held 0\n", ""))
        self.assertEqual(self.found(), {it[:2]: it[2] for it in entries})

    def test_directory_is_not_read(self):
        self.file.unlink()
        self.file.mkdir()
        out, errors = self.take(status=1)
        self.assertEqual(out, "")
        self.assertTrue(errors.startswith("fault read: Is a directory"), errors)
        found = json.loads(self.bookie("--json", "import", self.logs, self.file, status=1)[1])
        self.assertEqual(found["fault"], "read")

    def test_more_than_a_cache(self):
        """The cache has 16,777,216 bytes: it is flushed before the fourth of these entries, which
        are as long as an entry may be."""
        if kit.Programs.is_slow:
            self.skipTest("the programs are not proved, and take a minute")
        entries = [(1, it, bytes([it]) * 4_999_984) for it in range(4)]
        self.file.write_bytes(log_files.records(entries))
        self.assertEqual(self.take(), ("added 4 held 0\n", ""))
        self.assertEqual(log_files.read(self.logs), {it[:2]: it[2] for it in entries})

    def test_more_logs_than_a_script_holds(self):
        self.logs.mkdir()
        for log in range(1025):
            (self.logs / log_files.name_of(log)).write_bytes(b"")
        self.assertEqual(self.take(), ("added 4 held 0\n", ""))
        self.assertEqual(log_files.read(self.logs), WANTED)


class Refused(Case):
    def bad(self, data, at, more=b""):
        """The file ends with these bytes, which are no record."""
        whole = log_files.records(ENTRIES)
        self.file.write_bytes(whole + data + more)
        out, errors = self.take(status=1)
        self.assertEqual((out, errors), ("", f"fault bad record at {len(whole) + at}\n"))

    def test_record_that_is_cut(self):
        record = log_files.records([(4, 0, b"four")])
        for length in range(1, len(record)):
            self.bad(record[:length], 0)

    def test_length_that_no_record_has(self):
        for length in (0, 15, 5_000_001, 0x7FFFFFFF, 0xFFFFFFFF):
            self.bad(length.to_bytes(4, "big"), 0, bytes(100))

    def test_record_after_a_good_one(self):
        record = log_files.records([(4, 0, b"four")])
        self.bad(record + b"\0\0\0\x0f", len(record), bytes(15))

    def test_key_that_is_negative(self):
        for key in ((1 << 63, 0), (0, 1 << 63)):
            ids = b"".join(it.to_bytes(8, "big") for it in key)
            self.file.write_bytes((16).to_bytes(4, "big") + ids)
            self.assertEqual(self.take(status=1), ("", "fault negative number\n"))

    def test_file_that_is_not_there(self):
        self.file.unlink()
        out, errors = self.take(status=1)
        self.assertEqual(out, "")
        self.assertIn(str(self.file), errors)
        self.assertFalse(self.logs.exists())

    def test_object(self):
        self.file.write_bytes(b"\0\0\0\x01")
        out, errors = self.bookie("--json", "import", self.logs, self.file, status=1)
        self.assertEqual(out, "")
        self.assertEqual(json.loads(errors), {"fault": "bad record", "reason": "bad record at 0"})


class Deletions(Case):
    def deleted(self):
        records = manifest_files.records(self.logs / "ledgers.manifest")
        return [ledger for kind, ledger in records if kind == "deleted"]

    def test_ledger_that_is_recorded(self):
        self.script("delete 2")
        self.assertEqual(self.take(status=1), ("", "fault deleted\n"))
        self.assertNotIn((2, 0), log_files.read(self.logs))

    def test_ledger_that_is_named(self):
        self.assertEqual(self.take("--dead", "3", status=1), ("", "fault deleted\n"))
        self.assertEqual(self.deleted(), [3])
        self.assertNotIn((3, 7), log_files.read(self.logs))

    def test_ledger_that_the_file_does_not_have(self):
        self.script("delete 8")
        self.assertEqual(self.take("--dead", "9"), ("added 4 held 0\n", ""))
        self.assertEqual((self.found(), self.deleted()), (WANTED, [8, 9]))

    def test_without_the_manifest(self):
        self.script("delete 2")
        self.assertEqual(self.take("--no-manifest"), ("added 4 held 0\n", ""))
        self.assertEqual(self.found(), WANTED)

    def test_fence_does_not_hold_here(self):
        """A rescued entry of a fenced ledger comes back."""
        self.script("fence 2")
        self.assertEqual(self.take(), ("added 4 held 0\n", ""))
        self.assertEqual(self.found(), WANTED)


@device.needs_compiler
class Device(Case):
    """A call of the system fails; the same import succeeds afterwards."""

    def failing(self, kind, number):
        more = device.failing(self.logs / "0.log", kind, number, errno.EIO)
        out, errors = self.take(status=1, more=more)
        first, second = errors.splitlines()
        self.assertEqual((out, second), ("", "fault disk"))
        self.assertTrue(first.startswith(f"{self.logs}/0.log: {kind}: "), first)

    def test_write_fails(self):
        self.failing("write", 1)
        self.assertIn("held", self.take()[0])
        self.assertEqual(log_files.read(self.logs), WANTED)

    def test_sync_fails(self):
        self.failing("sync", 1)
        self.take()
        self.assertEqual(log_files.read(self.logs), WANTED)
