"""Deletions that an earlier call recorded are used by each later one, which does not name the
ledger."""

import re

import kit
import log_files
import manifest_files

DATA = {(1, 0): b"one", (2, 0): b"two", (2, 1): b"more of two", (3, 0): b"three"}


class Deletions(kit.Case):
    """Ledger 2 was deleted by a script; its records are still in the only log."""

    def setUp(self):
        super().setUp()
        log_files.write(self.logs, {0: [(*key, data) for key, data in DATA.items()]})
        self.assertEqual(self.script("delete 2", "fence 3"), ["dropped 2", "fenced"])
        self.log = (self.logs / "0.log").read_bytes()
        self.raw = self.room / "raw"

    def file_of(self, *entries):
        self.raw.write_bytes(log_files.records(entries))
        return self.raw

    def keys(self):
        return sorted(log_files.read(self.logs))

    def test_manifest_has_them(self):
        records = manifest_files.records(self.logs / "ledgers.manifest")
        self.assertEqual(records, [("deleted", 2), ("fenced", 3)])
        self.assertEqual(
            self.bookie("manifest", self.logs)[0].splitlines()[1:3], ["deleted 2", "fenced 3"]
        )

    def test_import_adds_no_entry_of_the_ledger(self):
        file = self.file_of((2, 0, b"two"), (2, 7, b"new"))
        _, errors = self.bookie("import", self.logs, file, status=1)
        self.assertIn("fault deleted", errors)
        self.assertEqual(log_files.read(self.logs), DATA)
        self.assertEqual(self.script("holds 2 7", "holds 2 0", "holds 1 0"), ["no", "no", "yes"])

    def test_import_of_another_ledger_is_not_refused(self):
        file = self.file_of((1, 0, b"one"), (1, 1, b"again"))
        self.assertEqual(self.bookie("import", self.logs, file)[0], "added 1 held 1\n")
        self.assertEqual(log_files.read(self.logs), {**DATA, (1, 1): b"again"})
        self.assertEqual(self.script("holds 2 0", "fenced 3"), ["no", "yes"])

    def test_compact_frees_the_ledger(self):
        out = self.bookie("compact", self.logs)[0]
        self.assertRegex(out, r"^before 1 after 1 freed \d+ moved 2\n$")
        self.assertEqual(
            log_files.read(self.logs), {key: data for key, data in DATA.items() if key[0] != 2}
        )
        self.assertEqual(self.log_names(), ["1.log"])

    def test_compact_removes_a_log_of_deleted_ledgers(self):
        self.script("delete 1", "delete 3")
        self.assertRegex(
            self.bookie("compact", self.logs)[0], r"^before 1 after 0 freed \d+ moved 0\n$"
        )
        self.assertEqual(self.log_names(), [])

    def test_trial_counts_the_ledger_as_deleted(self):
        out = self.bookie("compact", "--dry-run", self.logs)[0].splitlines()
        self.assertEqual(out[0], f"0 {len(self.log)} compact 2")
        self.assertEqual((self.logs / "0.log").read_bytes(), self.log)

    def test_stat_counts_the_ledger_as_dead(self):
        sizes = log_files.sizes_of([(*it, DATA[it]) for it in DATA])
        live, every = sizes[1] + sizes[3], sum(sizes.values())
        line = self.bookie("stat", self.logs)[0].splitlines()[0]
        self.assertEqual(line, f"0 {len(self.log)} 4 {every} {live} {1000 * live // every} sealed")

    def test_report_counts_the_ledger_as_dead(self):
        sizes = log_files.sizes_of([(*it, DATA[it]) for it in DATA])
        map_bytes = len(self.log) - log_files.HEADER - sum(sizes.values())
        wanted = [len(self.log), sizes[1] + sizes[3], sizes[2], map_bytes]
        for words, numbers in (
            ([], wanted), (["--no-manifest"], [len(self.log), sum(sizes.values()), map_bytes])
        ):
            page = self.bookie("report", *words, self.logs)[0]
            row = re.search(r'<tr><td class="id">0 <small.*?</tr>', page, re.S)[0]
            found = re.findall(r'title="([\d,]+) bytes"', row)
            self.assertEqual([int(it.replace(",", "")) for it in found[: len(numbers)]], numbers)

    def test_script_refuses_the_ledger(self):
        steps = [
            "holds 2 0",
            "add 2 5 x",
            "delete 2",
            "last 2",
            "take 0 2 0",
            "ledgers 0 9",
            "fenced 3",
            "add 3 9 x",
        ]
        found = self.script(*steps)
        wanted = [
            "no",
            "fault deleted",
            "fault already deleted",
            "no entry",
            "deleted",
            "ledgers 1 3",
            "yes",
            "fault fenced",
        ]
        self.assertEqual(found, wanted)

    def test_server_refuses_the_ledger(self):
        opened = self.serve()
        # The mark of the fence that the opening carries out.
        self.assertEqual(opened.call("stats").front, 1)
        self.assertEqual(opened.call("fence", ledger=3).name, "fenced_before")
        self.assertEqual(
            (opened.read(2, 0), opened.read(2, 1), opened.read(1, 0)),
            ("deleted", "deleted", b"one"),
        )
        self.assertEqual(opened.call("holds", ledger=2, entry=0).name, "no")
        self.assertEqual(opened.call("add", ledger=2, entry=9, content=b"x").name, "deleted")
        self.assertEqual(
            opened.call("add_recovery", ledger=2, entry=9, content=b"x").name, "deleted"
        )
        self.assertEqual(opened.call("delete", ledger=2).name, "already_deleted")
        self.assertEqual(opened.call("add", ledger=3, entry=9, content=b"x").name, "fenced")
        self.assertEqual(
            opened.call("entries", **{"ledger": 2, "from": 0, "most": 9}).name, "deleted"
        )
        ids = opened.call("ledgers", **{"from": 0, "most": 9}).ids
        self.assertEqual(ids, b"".join(it.to_bytes(8, "big") for it in (1, 3)))
        self.close(opened)

    def test_deletion_by_the_server_is_used_by_commands(self):
        opened = self.serve()
        self.assertEqual(opened.call("delete", ledger=1).name, "dropped")
        opened.process.kill()
        opened.process.wait()
        self.assertEqual(self.script("holds 1 0", "ledgers 0 9"), ["no", "ledgers 3"])
        self.bookie("compact", self.logs)
        self.assertEqual(self.keys(), [(3, 0)])

    def test_deletion_by_operands_stays(self):
        self.assertEqual(self.script("holds 1 0", words=["1"]), ["no"])
        self.assertEqual(self.script("holds 1 0", "holds 3 0"), ["no", "yes"])
        self.assertIn(("deleted", 1), manifest_files.records(self.logs / "ledgers.manifest"))
