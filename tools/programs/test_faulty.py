"""A log that is faulty, or is no plain file: what is before the fault counts, the other logs are
read, and the status is 1."""

import os

import kit
import log_files

ENTRIES = [(1, 0, b"one"), (2, 0, b"two"), (1, 1, b"more")]


class Names(kit.Case):
    """Something that has the name of a log and is no plain file is left out, and told."""

    NO_FILE = "fault log 5: disk: no regular file\n"

    def setUp(self):
        super().setUp()
        log_files.write(self.logs, {0: ENTRIES})

    def lay(self, kind):
        if kind == "directory":
            (self.logs / "5.log").mkdir()
        else:
            os.mkfifo(self.logs / "5.log")

    def test_others_are_read(self):
        for kind in ("directory", "pipe"):
            self.lay(kind)
            for words, wanted in (
                (["check", self.logs], ["0 ok"]),
                (["ledgers", self.logs], ["1 2 47 0 1 1", "2 1 23 0 0 1"]),
                (["export", self.logs, "2"], ["0 " + b"two".hex()]),
                (["find", self.logs, "2", "0"], [f"0 {1024 + 27} {b'two'.hex()}"]),
            ):
                out, errors = self.bookie(*words, status=1)
                self.assertEqual((out.splitlines(), errors), (wanted, self.NO_FILE), words)
            (self.logs / "5.log").rmdir() if kind == "directory" else (self.logs / "5.log").unlink()

    def test_directory_that_has_nothing_else(self):
        """It is not said to have no log."""
        self.lay("directory")
        (self.logs / "0.log").unlink()
        for words in (["check", self.logs], ["ledgers", self.logs], ["entries", self.logs, "1"]):
            self.assertEqual(self.bookie(*words, status=1), ("", self.NO_FILE))

    def test_doubtful_search_does_not_say_that_there_is_none(self):
        for words in (["find", self.logs, "7", "0"], ["--json", "find", self.logs, "7", "0"]):
            self.assertIn(self.bookie(*words)[0], ("not found\n", '{"found":false}\n'))
        end = b"\0\0\0\7" + bytes(40)
        (self.logs / "1.log").write_bytes(log_files.open_log([(3, 0, b"three")], end))
        for words in (["find", self.logs, "7", "0"], ["--json", "find", self.logs, "7", "0"]):
            out, errors = self.bookie(*words, status=1)
            self.assertEqual(out, "")
            self.assertIn("bad length", errors)
        kit.flip(self.logs / "1.log", 0)
        self.assertEqual(self.bookie("find", self.logs, "7", "0", status=1)[0], "")


class Faulty(kit.Case):
    """Log 1 has no record after the first."""

    def setUp(self):
        super().setUp()
        end = b"\0\0\0\7" + bytes(40)
        log_files.write(self.logs, {0: ENTRIES})
        (self.logs / "1.log").write_bytes(log_files.open_log([(1, 2, b"three")], end))
        self.fault = "fault log 1: bad length 1049 7\n"

    def test_what_is_before_the_fault_counts(self):
        length = 1093 + (self.logs / "0.log").stat().st_size
        sums = f"logs 2 length {length} entries 4 bytes 95 live 95 share 1000"
        for words, wanted in (
            (["stat", self.logs], ["1 1093 1 25 25 1000 open", sums]),
            (["ledgers", self.logs], ["1 3 72 0 2 2", "2 1 23 0 0 1"]),
            (["entries", self.logs, "1", "2"], ["2 1 1028 25"]),
        ):
            out, errors = self.bookie(*words, status=1)
            self.assertEqual((out.splitlines()[-len(wanted) :], errors), (wanted, self.fault))

    def test_it_is_status_1_of_each_check(self):
        for words in ([], ["--long"], ["--digest", "crc32c"]):
            out, _ = self.bookie("check", *words, self.logs, status=1)
            self.assertIn("1 fault bad length 1049 7", out.splitlines())

    def test_live_list_does_not_stop_there(self):
        """A ledger of that log is found, and the fault is told."""
        (self.room / "live").write_text("2\n")
        for words in ([], ["--json"]):
            out, errors = self.bookie(
                *words, "stat", "--live-file", self.room / "live", self.logs, status=1
            )
            self.assertEqual(len(out.splitlines()), 3)
            self.assertEqual(errors.count("bad length"), 2)
            self.assertEqual({it[0] for it in errors.splitlines()}, {"{" if words else "f"})
