"""The verdict of `load` over a disk that gives other bytes than were written."""

import errno
import os
import re
import subprocess

import device
import entry_logs
import kit
import log_files
import manifest_files

FILES = re.compile(
    r"^files found (\d+) deleted (\d+) lost (\d+) unknown (\d+) earlier (\d+) of (\d+)$", re.M
)
LOGS = re.compile(r"logs made (\d+) compacted (\d+) removed (\d+)")
THREADS = ["--threads", "2", "--adds", "60"]


class Load(kit.Case):
    def figures(self, out):
        """Returns the numbers of the line on files: found, deleted, lost, unknown, earlier and of
        how many."""
        return list(map(int, FILES.search(out).groups()))

    def test_good(self):
        out, _ = self.bookie("load", "--folder", self.logs, *THREADS)
        found, deleted, *others = self.figures(out)
        self.assertEqual(
            (found + deleted, others, out.splitlines()[-1]), (60, [0, 0, 0, 0], "good")
        )
        self.assertEqual(len(log_files.read(self.logs)), 60)

    def test_figures_agree_with_the_files(self):
        """Each thread reads an entry back after every fourth of its thirty adds."""
        out, _ = self.bookie("load", "--folder", self.logs, *THREADS)
        payloads = [16 + len(it) for it in log_files.read(self.logs).values()]
        adds, takes, logs, _, latencies, receipts, *_ = out.splitlines()
        self.assertEqual(len(payloads), 60)
        self.assertEqual(adds.split()[:8:2], ["adds", "bytes", "held", "refused"])
        self.assertEqual(adds.split()[1:8:2], ["60", str(sum(payloads)), "0", "0"])
        self.assertEqual(takes, "takes 14 wrong 0 ledgers deleted 0")
        self.assertEqual(logs, "logs made 1 compacted 0 removed 0")
        self.assertEqual(receipts, "receipts 60")
        found = list(map(int, latencies.split()[2:7:2]))
        self.assertEqual(found, sorted(found))

    def test_remainder_of_the_adds(self):
        """The first threads make one add more than the others."""
        out, _ = self.bookie("load", "--folder", self.logs, "--threads", "4", "--adds", "63")
        found, deleted, *others = self.figures(out)
        self.assertEqual((found + deleted, others), (63, [0, 0, 0, 0]))
        self.assertEqual(len(log_files.read(self.logs)), 63)

    def test_ledgers_are_past_those_of_the_directory(self):
        """The last ledger has no room for entries of a load behind it, the one before has."""
        last = (1 << 62) - 1
        self.publish(f"{last} 0 hello")
        out, _ = self.bookie("load", "--folder", self.logs, *THREADS)
        self.assertEqual((self.figures(out)[4:], out.splitlines()[-1]), ([1, 1], "good"))
        found = {ledger for ledger, _ in log_files.read(self.logs)}
        self.assertEqual((min(found), min(found - {last})), (last, last + 1))
        self.publish(f"{last + 2} 0 hello")
        before = self.files()
        out, errors = self.bookie("load", "--folder", self.logs, *THREADS, status=1)
        self.assertEqual((out, errors.splitlines()[0]), ("", "fault no ledger"))
        self.assertEqual(self.files(), before)

    def deletions(self, thousands):
        """Runs a load of one thread, which deletes the last of its eight ledgers after each
        thousand adds. Returns how many logs were compacted: none, if each entry of a deleted ledger
        was still in the cache."""
        logs = self.room / f"logs{thousands}"
        words = ["--threads", "1", "--adds", str(1000 * thousands)]
        out, _ = self.bookie("load", "--folder", logs, *words)
        found, deleted, *others = self.figures(out)
        self.assertEqual((found + deleted, others), (1000 * thousands, [0, 0, 0, 0]))
        _, takes, told, *_ = out.splitlines()
        self.assertEqual(takes, f"takes {250 * thousands} wrong 0 ledgers deleted {thousands}")
        gone = [8 * it + 7 for it in range(thousands)]
        recorded = manifest_files.records(logs / "ledgers.manifest")
        self.assertEqual(recorded, [("deleted", it) for it in gone])
        entries = log_files.read(logs)
        live = {it for it in range(8 * thousands) if it not in gone}
        self.assertEqual((len(entries), {it for it, _ in entries}), (found, live))
        made, compacted, removed = map(int, LOGS.fullmatch(told).groups())
        self.assertEqual(len(list(logs.glob("*.log"))), made - removed)
        return compacted

    def test_deleted_ledgers_are_recorded_and_compacted_away(self):
        """A fast program deletes before it flushes: then a longer load has to."""
        self.assertTrue(any(self.deletions(it) for it in (1, 4, 16, 64)))

    @device.needs_compiler
    def test_flipped_byte_of_an_entry_is_bad(self):
        """A search finds the key of the entry with other data, so that the entry counts as lost."""
        more = device.flipped(self.logs / "0.log", entry_logs.HEADER + log_files.FRONT)
        out, _ = self.bookie("load", "--folder", self.logs, *THREADS, status=1, more=more)
        found, deleted, lost, unknown, *_ = self.figures(out)
        self.assertEqual((found + deleted, lost, unknown, out.splitlines()[-1]), (59, 1, 0, "bad"))

    @device.needs_compiler
    def test_flipped_bit_of_an_entry_id_is_bad(self):
        """A search finds a key that nobody added, and not the one that was."""
        more = device.flipped(self.logs / "0.log", entry_logs.HEADER + log_files.FRONT - 3)
        out, _ = self.bookie("load", "--folder", self.logs, *THREADS, status=1, more=more)
        found, deleted, lost, unknown, *earlier = self.figures(out)
        self.assertEqual((found + deleted, lost, unknown, earlier), (59, 1, 1, [0, 0]))
        self.assertEqual(out.splitlines()[-1], "bad")

    def test_earlier_entries_are_counted(self):
        self.publish("1 0 hello", "1 1 more", "2 0 two")
        out, _ = self.bookie("load", "--folder", self.logs, *THREADS)
        self.assertEqual((self.figures(out)[4:], out.splitlines()[-1]), ([3, 3], "good"))

    def test_earlier_entry_that_is_lost_meanwhile_is_bad(self):
        """The second entry of the log becomes another record of the first while the load runs."""
        self.publish("1 0 hello", "1 1 more", "2 0 two")
        words = [kit.Programs.shell, "load", "--folder", self.logs, "--threads", "1", "--seconds", "1"]
        how = {"stdout": subprocess.PIPE, "stderr": subprocess.PIPE, "text": True}
        with subprocess.Popen(list(map(str, words)), **how) as load:
            self.addCleanup(load.kill)
            self.assertTrue(kit.wait_until(lambda: self.log_names() != ["0.log"]))
            with open(self.logs / "0.log", "r+b") as log:
                log.seek(entry_logs.HEADER + log_files.FRONT + len(b"hello") + log_files.FRONT - 1)
                self.assertEqual(log.read(1), b"\1")
                log.seek(-1, os.SEEK_CUR)
                log.write(b"\0")
            out, _ = load.communicate(timeout=kit.LIMIT)
        _, _, lost, unknown, *earlier = self.figures(out)
        self.assertEqual((lost, unknown, earlier), (0, 0, [2, 3]))
        self.assertEqual((load.returncode, out.splitlines()[-1]), (1, "bad"))

    @device.needs_compiler
    def test_log_that_is_not_read_any_more_is_named(self):
        """Each read of the log of earlier entries fails after the opening has read it."""
        self.publish("1 0 hello", "1 1 more", "2 0 two")
        reads = device.failing(self.logs / "0.log", "read", 12, errno.EIO, stays=True)
        out, errors = self.bookie("load", "--folder", self.logs, *THREADS, status=1, more=reads)
        failed = f"{self.logs / '0.log'}: read: Input/output error (os error 5)"
        self.assertEqual((out, errors.splitlines()), ("", ["fault disk", failed]))
