"""`manifest`: what is recorded is shown, and a damaged manifest is made anew after a copy."""

import json

import kit
import log_files
import manifest_files

LEDGERS, LOGS = "ledgers.manifest", "logs.manifest"
ONE = (1, 0, b"one")


class Rebuild(kit.Case):
    """Manifests of several batches, of which the last but one is damaged."""

    def setUp(self):
        super().setUp()
        self.publish("1 0 one", "2 0 two", after=["delete 2", "fence 1"])
        self.lay(LEDGERS, [("deleted", 2)], [("fenced", 1)], [("deleted", 7)], [("fenced", 8)])

    def lay(self, name, *batches):
        """Writes a manifest of these batches, of which the last but one is damaged."""
        (self.logs / name).write_bytes(manifest_files.written(5, *batches))
        at = manifest_files.batches((self.logs / name).read_bytes())[1][-2][0]
        kit.flip(self.logs / name, at + manifest_files.HEAD.size + 2)
        self.damaged = (self.logs / name).read_bytes()

    def test_deletions_before_the_damage_stand(self):
        self.bookie("script", "--folder", self.logs, status=1)
        out, _ = self.bookie("manifest", "--rebuild", self.logs)
        self.assertIn(f"rebuilt {LEDGERS}", out)
        self.assertEqual((self.logs / f"{LEDGERS}.damaged").read_bytes(), self.damaged)
        generation, batches = manifest_files.batches((self.logs / LEDGERS).read_bytes())
        self.assertEqual(generation, 6)
        self.assertEqual(sum((it for _, it in batches), []), [("deleted", 2), ("fenced", 1)])
        self.assertEqual(self.script("holds 2 0", "fenced 1", "holds 1 0"), ["no", "yes", "yes"])

    def test_records_and_bytes_are_counted(self):
        """Of each manifest: the records that the new one has, and the bytes from the damage on."""
        one, two = [("deleted", 2), ("fenced", 3)], [("fenced", 4), ("deleted", 3)]
        self.lay(LEDGERS, one, two, [("deleted", 9)], [("fenced", 9)])
        ends = [at for at, _ in manifest_files.batches(manifest_files.written(5, one, two, one))[1]]
        standing = len(manifest_files.state([*one, *two]))
        unread = len(self.damaged) - ends[2]
        out, errors = self.bookie("manifest", "--rebuild", self.logs)
        kept = f"kept {LEDGERS}.damaged"
        self.assertEqual(
            out.splitlines()[0], f"rebuilt {LEDGERS} records {standing} unread {unread} {kept}"
        )
        self.lay(LOGS, [("made", 0)], [("made", 1)], [("made", 2)])
        unread = (
            len(self.damaged)
            - manifest_files.batches(manifest_files.written(5, [("made", 0)], []))[1][1][0]
        )
        out, errors = self.bookie("manifest", "--rebuild", self.logs)
        line = f"rebuilt {LOGS} records 1 unread {unread} kept {LOGS}.damaged"
        self.assertEqual((out.splitlines(), errors), ([f"whole {LEDGERS}", line], ""))

    def test_damaged_first_batch_leaves_the_generation(self):
        for name, record in ((LEDGERS, ("deleted", 2)), (LOGS, ("made", 4))):
            self.lay(name, [record], [record])
        self.bookie("manifest", "--rebuild", self.logs)
        for name, records in ((LEDGERS, []), (LOGS, [("durable", 0, 1126)])):
            generation, batches = manifest_files.batches((self.logs / name).read_bytes())
            self.assertEqual((generation, [it for _, it in batches]), (6, [records]))

    def test_damaged_header_begins_anew(self):
        for name, record in ((LEDGERS, ("deleted", 2)), (LOGS, ("made", 4))):
            (self.logs / name).write_bytes(b"x" + manifest_files.written(5, [record])[1:])
        self.bookie("manifest", "--rebuild", self.logs)
        for name in (LEDGERS, LOGS):
            self.assertEqual(manifest_files.batches((self.logs / name).read_bytes())[0], 1)

    def test_damaged_one_is_told_with_its_way_on(self):
        (self.logs / LOGS).unlink()
        for words in ([], ["--check"]):
            out, errors = self.bookie("manifest", *words, self.logs, status=1)
            fault, way = errors.splitlines()
            self.assertEqual((out, fault[:24]), ("", "fault damaged manifest 6"))
            self.assertIn(f"{self.logs}/{LEDGERS}", fault)
            self.assertIn("manifest --rebuild", way)

    def test_copy_of_an_earlier_damage_stays(self):
        for name in (LEDGERS, LOGS):
            path = self.logs / f"{name}.damaged"
            path.write_bytes(b"an earlier one")
            (self.logs / name).write_bytes(self.damaged)
            _, errors = self.bookie("manifest", "--rebuild", self.logs, status=1)
            self.assertIn("copy exists", errors)
            self.assertEqual(path.read_bytes(), b"an earlier one")
            self.assertEqual((self.logs / name).read_bytes(), self.damaged)
            path.unlink()

    def test_copy_of_the_same_length_stays(self):
        path = self.logs / f"{LEDGERS}.damaged"
        path.write_bytes(bytes(len(self.damaged)))
        _, errors = self.bookie("manifest", "--rebuild", self.logs, status=1)
        self.assertIn("copy exists", errors)
        self.assertEqual(path.read_bytes(), bytes(len(self.damaged)))
        path.write_bytes(self.damaged)
        self.bookie("manifest", "--rebuild", self.logs)

    def test_file_shorter_than_a_header_is_rebuilt(self):
        for name in (LEDGERS, LOGS):
            (self.logs / name).write_bytes(b"short")
        lines = self.bookie("manifest", "--rebuild", self.logs)[0].splitlines()
        told = {LEDGERS: "records 0 unread 5", LOGS: "records 1 unread 5"}
        wanted = [f"rebuilt {it} {told[it]} kept {it}.damaged" for it in (LEDGERS, LOGS)]
        self.assertEqual(lines, wanted)
        for name in (LEDGERS, LOGS):
            self.assertEqual((self.logs / f"{name}.damaged").read_bytes(), b"short")
        self.assertEqual(manifest_files.records(self.logs / LEDGERS), [])

    def test_both_are_rebuilt(self):
        """Also if the first one cannot be."""
        for is_taken in (False, True):
            (self.logs / LEDGERS).write_bytes(self.damaged)
            (self.logs / LOGS).write_bytes(self.damaged)
            if is_taken:
                (self.logs / f"{LEDGERS}.damaged").write_bytes(b"an earlier one")
            (self.logs / f"{LOGS}.damaged").unlink(missing_ok=True)
            out, _ = self.bookie("manifest", "--rebuild", self.logs, status=int(is_taken))
            self.assertIn(f"rebuilt {LOGS}", out)
            self.assertEqual((self.logs / f"{LOGS}.damaged").read_bytes(), self.damaged)
            length = (self.logs / "0.log").stat().st_size
            records = manifest_files.records(self.logs / LOGS)
            self.assertEqual(records, [("durable", 0, length)])
        self.assertEqual(log_files.read(self.logs), {(1, 0): b"one", (2, 0): b"two"})

    def test_rebuilt_logs_have_each_entry(self):
        (self.logs / LEDGERS).unlink()
        self.lay(LOGS, [("made", 0)], [("durable", 0, 1024)], [("removed", 3, 9)], [("made", 4)])
        self.bookie("manifest", "--rebuild", self.logs)
        self.assertEqual(self.script("holds 1 0", "holds 2 0"), ["yes", "yes"])

    def test_each_log_that_differs_is_named(self):
        (self.logs / LEDGERS).unlink()
        length = (self.logs / "0.log").stat().st_size
        batch = [("made", 1), ("durable", 0, length + 1), ("durable", 5, 2000)]
        (self.logs / LOGS).write_bytes(manifest_files.written(5, batch))
        out, _ = self.bookie("manifest", "--rebuild", self.logs)
        self.assertIn(f"taken 0 length {length} durable {length + 1}", out)
        self.assertIn("missing 5 durable 2000", out)
        self.assertEqual(manifest_files.batches((self.logs / LOGS).read_bytes())[0], 6)

    def test_longer_log_is_named_and_taken(self):
        (self.logs / LEDGERS).unlink()
        length = (self.logs / "0.log").stat().st_size
        batch = [("durable", 0, length - 1), ("durable", 5, 2000)]
        (self.logs / LOGS).write_bytes(manifest_files.written(5, batch))
        out, _ = self.bookie("manifest", "--rebuild", self.logs)
        self.assertIn(f"taken 0 length {length} durable {length - 1}", out)
        self.assertEqual(manifest_files.records(self.logs / LOGS), [("durable", 0, length)])

    def test_records_that_no_longer_stand_are_counted(self):
        batches = [[("deleted", 2)], [("fenced", 3), ("deleted", 2)], [("deleted", 3)]]
        data = manifest_files.written(5, *batches)
        standing = len(manifest_files.state(sum(batches, [])))
        for torn in (b"", b"torn"):
            (self.logs / LEDGERS).write_bytes(data + torn)
            for words in (["manifest"], ["manifest", "--check"]):
                out = self.bookie(*words, self.logs)[0].splitlines()
                counts = f"records 4 standing {standing} torn {len(torn)}"
                self.assertEqual(out[0], f"{LEDGERS} generation 5 {counts}")
                self.assertEqual(out[1].split()[0] == LOGS, len(words) == 2)

    def test_each_kind_of_record_is_shown(self):
        records = [
            ("deleted", 2),
            ("fenced", 3),
            ("attribute", 3, 1, b"lac"),
            ("attribute", 4, 0, b""),
        ]
        (self.logs / LEDGERS).write_bytes(manifest_files.written(5, records))
        (self.logs / LOGS).write_bytes(
            manifest_files.written(7, [("made", 9), ("durable", 0, 1126), ("removed", 3, 1030)])
        )
        wanted = [
            f"{LEDGERS} generation 5 records 4 standing 4 torn 0",
            "deleted 2",
            "fenced 3",
            "attribute 3 kind 1 length 3",
            "attribute 4 kind 0 length 0",
            f"{LOGS} generation 7 records 3 standing 3 torn 0",
            "durable 0 length 1126",
            "removed 3 length 1030",
            "made 9",
        ]
        self.assertEqual(sorted(self.bookie("manifest", self.logs)[0].splitlines()), sorted(wanted))
        objects = [
            json.loads(it) for it in self.bookie("--json", "manifest", self.logs)[0].splitlines()
        ]
        self.assertIn({"record": "attribute", "ledger": 3, "length": 3, "kind": 1}, objects)
        self.assertIn({"record": "removed", "log": 3, "length": 1030}, objects)
        self.assertIn({"record": "made", "log": 9}, objects)

    def test_check_shows_no_records(self):
        (self.logs / LEDGERS).write_bytes(manifest_files.written(5, [("deleted", 2)]))
        out, errors = self.bookie("manifest", "--check", self.logs)
        self.assertEqual([it.split()[0] for it in out.splitlines()], [LEDGERS, LOGS])
        self.assertEqual(errors, "")

    def test_directory_without_manifests(self):
        log_files.write(self.room / "plain", {0: [ONE]})
        out, errors = self.bookie("manifest", self.room / "plain")
        self.assertEqual(out, "")
        self.assertIn("no manifest", errors)
