"""Lists of live ledgers: each list counts, and what is in none of them is deleted."""

import re
import unittest

import kit
import log_files
import manifest_files

# Each of these ledgers has a log of its own.
LEDGERS = (1, 2, 3, 4)


class Lists(kit.Case):
    def setUp(self):
        super().setUp()
        logs = {ledger: [(ledger, entry, b"x" * 90) for entry in range(3)] for ledger in LEDGERS}
        log_files.write(self.logs, logs)
        self.before = self.files()

    def lists(self, *texts):
        """Writes lists of live ledgers. Returns the words that name them."""
        words = []
        for text in texts:
            file = self.room / f"list{len(words)}"
            file.write_text(text)
            words += ["--live-file", file]
        return words

    def left(self):
        return sorted({ledger for ledger, _ in log_files.read(self.logs)})

    def named(self, *words):
        """Returns the ledgers that a trial names as lost."""
        out = self.bookie("compact", "--dry-run", *words, self.logs)[0]
        self.assertEqual(self.files(), self.before)
        return list(map(int, re.findall(r"^ledger (\d+) entries 3 bytes 330$", out, re.M)))

    def test_trial_names_no_ledger_of_either_list(self):
        self.assertEqual(self.named(*self.lists("ledgerID: 1\n", "2\n")), [3, 4])
        self.assertEqual(self.named(*self.lists("2\n", "ledgerID: 1\n")), [3, 4])
        self.assertEqual(self.named(*self.lists("1\n2\n", "3\n", "4\n")), [])

    def test_compaction_leaves_the_ledgers_of_each_list(self):
        words = self.lists("ledgerID: 4\n", "2\n\n", "1\n")
        self.assertEqual(
            self.bookie("compact", *words, self.logs)[0], "before 4 after 3 freed 1394 moved 0\n"
        )
        self.assertEqual(self.left(), [1, 2, 4])
        self.assertEqual(manifest_files.records(self.logs / "ledgers.manifest"), [("deleted", 3)])

    def test_stat_counts_the_ledgers_of_each_list_as_live(self):
        out = self.bookie("stat", *self.lists("1\n", "3\n"), self.logs)[0].splitlines()
        self.assertEqual([it.split()[4] for it in out[:4]], ["330", "0", "330", "0"])
        self.assertEqual(self.files(), self.before)

    def test_report_counts_the_ledgers_of_each_list_as_live(self):
        def rows(*words):
            return re.findall("<tr.*?</tr>", self.bookie("report", *words, self.logs)[0], re.S)

        both = rows(*self.lists("1\n", "3\n"))
        self.assertEqual(both, rows("--dead", "2", "--dead", "4"))
        self.assertNotEqual(both, rows(*self.lists("1\n")))

    def test_dead_files_count_each(self):
        for name, text in (("one", "1\n"), ("two", "3\n")):
            (self.room / name).write_text(text)
        words = ["--dead-file", self.room / "one", "--dead-file", self.room / "two", "--dead", "4"]
        self.assertEqual(self.named(*words), [1, 3, 4])
        self.bookie("compact", *words, self.logs)
        self.assertEqual(self.left(), [2])

    def test_list_without_a_ledger_is_refused(self):
        for texts in (("",), ("\n\n",), ("", "\n")):
            _, errors = self.bookie("compact", *self.lists(*texts), self.logs, status=1)
            self.assertIn("fault", errors)
            self.assertEqual(self.files(), self.before)

    @unittest.expectedFailure  # an empty list beside another one is taken
    def test_each_list_without_a_ledger_is_refused(self):
        for texts in (("1\n", ""), ("", "1\n")):
            self.bookie("compact", *self.lists(*texts), self.logs, status=1)
            self.assertEqual(self.files(), self.before)

    def test_bad_line_of_a_second_list_is_refused(self):
        _, errors = self.bookie("compact", *self.lists("1\n", "2\nledger 3\n"), self.logs, status=1)
        self.assertIn("list2: line 2: ", errors)
        self.assertEqual(self.files(), self.before)

    def test_none_is_live(self):
        self.bookie("compact", "--live-none", self.logs)
        self.assertEqual((self.log_names(), self.left()), ([], []))

    @unittest.expectedFailure  # a list of another cluster deletes each ledger of the directory
    def test_list_without_a_ledger_of_the_directory_is_refused(self):
        self.bookie("compact", *self.lists("ledgerID: 99\n"), self.logs, status=1)
        self.assertEqual(self.files(), self.before)

    def test_line_that_is_no_ledger_is_refused(self):
        """Each line is one in plain digits, of a list of live ledgers also as the stock shell writes
        it; what is wrong is named with its line, and nothing is done."""
        wrong = [
            " ",
            "1 ",
            " 1",
            "+1",
            "01",
            "-1",
            "1,2",
            "0x1",
            str(1 << 63),
            "1\t",
            "ledgerID:",
            "ledger 1",
        ]
        cases = [("--live-file", it) for it in wrong]
        cases += [("--dead-file", it) for it in [*wrong, "ledgerID: 1"]]
        file = self.room / "file"
        for option, line in cases:
            file.write_text(f"\n2\n{line}\n3\n")
            out, errors = self.bookie("compact", "--dry-run", option, file, self.logs, status=1)
            self.assertEqual(out, "", (option, line))
            self.assertTrue(
                errors.startswith(f"fault {file}: line 3: no number from 0 to "), errors
            )
        for option, line in (("--live-file", "ledgerID:1"), ("--live-file", "ledgerID:   1")):
            file.write_text(f"2\n{line}\n3\n")
            self.assertEqual(self.named(option, file), [4])
        self.assertEqual(self.files(), self.before)
