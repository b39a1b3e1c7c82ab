"""Commands that write: deletions that are named are durable, logs and manifests that are doubtful
stay, and what is left undone is status 1."""

import json
import os
import unittest

import kit
import log_files
import manifest_files

LEDGERS, LOGS = "ledgers.manifest", "logs.manifest"
ONE, TWO, THREE = (1, 0, b"one"), (2, 0, b"two"), (3, 0, b"three")


def named(out):
    """Returns the ledgers that a trial names as lost."""
    return [it.split()[1] for it in out.splitlines() if it.startswith("ledger ")]


class Deletions(kit.Case):
    """Each of these ledgers has a log of its own."""

    def setUp(self):
        super().setUp()
        log_files.write(self.logs, {0: [ONE], 1: [TWO], 2: [THREE]})
        self.raw = self.room / "raw"
        self.raw.write_bytes(log_files.records([(4, 0, b"four")]))

    def deleted(self):
        records = manifest_files.records(self.logs / LEDGERS)
        return [ledger for kind, ledger in records if kind == "deleted"]

    def test_each_named_ledger_is_recorded(self):
        self.bookie("compact", "--dead", "3", "--dead", "1", self.logs)
        self.assertEqual(self.deleted(), [3, 1])
        self.assertEqual(self.log_names(), ["1.log"])

    def test_ledger_that_is_recorded_is_not_recorded_again(self):
        for ledgers in ((3,), (3,), (1, 3)):
            words = [word for it in ledgers for word in ("--dead", it)]
            self.bookie("compact", *words, self.logs)
        found = manifest_files.records(self.logs / "ledgers.manifest")
        self.assertEqual(found, [("deleted", 3), ("deleted", 1)])

    def test_each_operand_of_a_script_is_recorded(self):
        self.assertEqual(self.script("holds 2 0", words=["1", "2"]), ["no"])
        self.assertEqual(self.script("holds 1 0", "holds 2 0", "holds 3 0"), ["no", "no", "yes"])

    def test_each_named_ledger_is_recorded_by_an_import(self):
        self.bookie("import", "--dead", "1", "--dead", "2", self.logs, self.raw)
        self.assertEqual(self.deleted(), [1, 2])

    def test_each_fence_that_is_recorded_is_in_force(self):
        self.script("fence 1", "fence 3", "fence 8")
        steps = ["add 1 9 x", "add 3 9 x", "add 8 9 x", "fenced 3", "fenced 2", "radd 8 9 x"]
        answers = [*["fault fenced"] * 3, "yes", "no", "accepted"]
        self.assertEqual(self.script(*steps), answers)

    def test_lines_after_an_empty_one_count(self):
        (self.room / "live").write_text("1\n\n3\n")
        (self.room / "dead").write_text("\n1\n\n3\n")
        words = ["compact", "--dry-run", self.logs]
        for option, wanted in (("live", ["2"]), ("dead", ["1", "3"])):
            out, _ = self.bookie(*words, f"--{option}-file", self.room / option)
            self.assertEqual(named(out), wanted)

    def test_damaged_manifest_of_ledgers_is_refused(self):
        self.script("delete 1", "delete 2")
        kit.flip(self.logs / LEDGERS, 30)
        before = self.files()
        for words in (
            ["script", "--folder", self.logs],
            ["compact", "--dead", "3", self.logs],
            ["compact", self.logs],
            ["import", self.logs, self.raw],
            ["load", "--folder", self.logs, "--threads", "1", "--adds", "1"],
        ):
            _, errors = self.bookie(*words, status=1)
            self.assertIn(LEDGERS, errors)
            self.assertEqual(self.files(), before, words)

    def test_way_on_behind_each_refusal(self):
        self.script("delete 1", "delete 2")
        rebuild = "'./bookie manifest --rebuild' makes a new one"
        for spoil, fault, way in (
            (lambda: kit.flip(self.logs / LEDGERS, 30), LEDGERS, rebuild),
            (lambda: kit.flip(self.logs / LOGS, 0), LOGS, rebuild),
            (lambda: (self.logs / "2.log").unlink(), "log 2 with", "put the log back from a copy"),
            (lambda: kit.flip(self.logs / "2.log", 0), "log 2: bad magic", "if './bookie scan'"),
        ):
            before = self.files()
            spoil()
            for words in (
                ["script", "--folder", self.logs],
                ["import", self.logs, self.raw],
                ["compact", self.logs],
            ):
                lines = self.bookie(*words, status=1)[1].splitlines()
                self.assertIn(fault, lines[-2], words)
                self.assertTrue(lines[-1].startswith(f"help: {way}"), (words, lines))
            for name, data in before.items():
                (self.logs / name).write_bytes(data)

    @unittest.expectedFailure  # `load` names the fault alone
    def test_way_on_of_a_load(self):
        kit.flip(self.logs / "2.log", 0)
        words = ["load", "--folder", self.logs, "--threads", "1", "--adds", "1"]
        self.assertIn("help: ", self.bookie(*words, status=1)[1])

    def test_manifests_are_left_alone(self):
        for words in (
            ["script", "--no-manifest", "--folder", self.logs, "1"],
            ["import", "--no-manifest", "--dead", "1", self.logs, self.raw],
            ["compact", "--no-manifest", "--dead", "1", self.logs],
            ["load", "--no-manifest", "--folder", self.logs, "--threads", "1", "--adds", "1"],
        ):
            self.bookie(*words)
            self.assertEqual([it for it in self.files() if "manifest" in it], [], words)

    def test_ledgers_in_bytes_that_are_not_durable_are_not_named(self):
        self.logs = self.room / "hidden"
        self.publish("1 0 one", "2 0 two")
        with (self.logs / "0.log").open("ab") as log:
            log.write(log_files.records([(9, 0, b"nine")]))
        (self.room / "live").write_text("1\n")
        out, _ = self.bookie("compact", "--dry-run", "--live-file", self.room / "live", self.logs)
        self.assertEqual(named(out), ["2"])

    def test_trial_names_what_the_call_names(self):
        self.script("delete 1")
        out, _ = self.bookie("compact", "--dry-run", "--dead", "2", self.logs)
        self.assertEqual(named(out), ["2"])

    def test_load_leaves_ledgers_that_are_recorded(self):
        for kind in ("deleted", "fenced"):
            self.logs = self.room / kind
            self.logs.mkdir()
            records = [(kind, ledger) for ledger in range(6)]
            (self.logs / LEDGERS).write_bytes(manifest_files.written(1, records))
            words = ["load", "--folder", self.logs, "--threads", "1", "--adds", "30"]
            self.assertEqual(self.bookie(*words)[0].splitlines()[-1], "good")
            added = {ledger for ledger, _ in log_files.read(self.logs)}
            self.assertTrue(added)
            self.assertEqual(added & set(range(6)), set())


class Kept(kit.Case):
    """Files that are shorter than a header, and directories of a stock bookie."""

    SHORT = b"BKLO" + bytes(900)

    def setUp(self):
        super().setUp()
        log_files.write(self.logs, {0: [ONE, TWO]})

    def short(self, data, copy=None):
        (self.logs / "1.log").write_bytes(data)
        if copy is not None:
            (self.logs / "1.log.torn").write_bytes(copy)

    def compact(self, *words):
        words = ["compact", *words, "--no-manifest", "--dead", "1", "--dead", "2"]
        return self.bookie(*words, self.logs)

    def test_short_log_stays(self):
        for data in (b"x", self.SHORT, bytes(1023)):
            self.short(data)
            (self.logs / "0.log").write_bytes(log_files.sealed_log([ONE, TWO]))
            out, errors = self.compact("--dry-run")
            self.assertIn(f"kept 1.log: {len(data)} bytes", errors)
            self.assertEqual([it[:2] for it in out.splitlines()[:-1] if it[0].isdigit()], ["0 "])
            out, errors = self.compact()
            self.assertIn(f"kept 1.log: {len(data)} bytes", errors)
            self.assertEqual(self.log_names(), ["1.log"])
            self.assertEqual((self.logs / "1.log").read_bytes(), data)

    def test_short_log_with_its_copy_goes(self):
        self.short(self.SHORT, self.SHORT)
        _, errors = self.compact()
        self.assertEqual((self.log_names(), errors), ([], ""))
        self.assertEqual((self.logs / "1.log.torn").read_bytes(), self.SHORT)

    def test_short_log_beside_another_file_stays(self):
        self.short(self.SHORT, self.SHORT[:-1] + b"x")
        _, errors = self.compact()
        self.assertIn("kept 1.log", errors)
        self.assertEqual((self.logs / "1.log").read_bytes(), self.SHORT)

    def test_log_that_is_too_long_is_refused(self):
        """The file has no blocks for its last bytes."""
        os.truncate(self.logs / "0.log", 1 << 32)
        fault, more = "fault log too long 0", "help: a log has at most 4294967295 bytes: "
        raw = self.room / "raw"
        raw.write_bytes(log_files.records([THREE]))
        for words in (
            ["script", "--folder", self.logs],
            ["import", self.logs, raw],
            ["compact", self.logs],
            ["compact", "--dry-run", self.logs],
        ):
            out, errors = self.bookie(*words, status=1)
            first, second = errors.splitlines()
            self.assertEqual((out, first, second[: len(more)]), ("", fault, more), words)
        found = json.loads(self.bookie("--json", "compact", self.logs, status=1)[1])
        self.assertEqual((found["fault"], found["log"]), ("log too long", 0))
        self.assertEqual((self.logs / "0.log").stat().st_size, 1 << 32)

    def test_each_name_of_an_index_is_refused(self):
        for name in ("VERSION", "lastMark", "locations", "ledgers"):
            (self.logs / name).mkdir()
            before = self.files()
            for words in ([], ["--no-manifest"]):
                _, errors = self.bookie("compact", *words, "--dead", "1", self.logs, status=1)
                self.assertIn(f"{self.logs}/{name}", errors)
                self.assertEqual(self.files(), before)
            (self.logs / name).rmdir()

    def test_index_that_is_rebuilt_is_passed(self):
        (self.logs / "locations").mkdir()
        self.compact("--index-is-rebuilt")
        self.assertEqual(self.log_names(), [])

    def test_threshold(self):
        live, dead = (1, 0, b"x" * 100), [(2, it, b"x" * 100) for it in range(2)]
        log_files.write(self.logs, {0: [live, *dead]})
        words = ["compact", "--dry-run", "--dead", "2", self.logs]
        for more, is_taken in (
            (["--minor"], False),
            (["--below", "333"], False),
            (["--below", "334"], True),
            ([], True),
        ):
            out, _ = self.bookie(*words, *more)
            self.assertEqual(" compact 1\n" in out, is_taken, more)

    def test_threshold_of_the_call(self):
        """A third of the log lives: too much for a minor compaction."""
        live, dead = (1, 0, b"x" * 100), [(2, it, b"x" * 100) for it in range(2)]
        log_files.write(self.logs, {0: [live, *dead]})
        for more, left in ((["--minor"], ["0.log"]), (["--below", "333"], ["0.log"]), ([], ["1.log"])):
            self.bookie("compact", "--dead", "2", *more, self.logs)
            self.assertEqual(self.log_names(), left, more)
        self.assertEqual(log_files.read(self.logs), {live[:2]: live[2]})

    def test_trial_counts_the_entries_of_each_log(self):
        for log in (0, 1):
            entries = [(1, log, b"x"), (2, log, b"x" * 200)]
            (self.logs / f"{log}.log").write_bytes(log_files.sealed_log(entries))
        out, _ = self.bookie("compact", "--dry-run", "--dead", "2", self.logs)
        self.assertRegex(out.splitlines()[-1], r"^before 2 after 2 freed \d+ moved 2$")
        self.assertEqual(self.bookie("compact", "--dead", "2", self.logs)[0].split()[-1], "2")

    def test_trial_ends_with_the_line_of_the_call(self):
        """Of entries that were added again the last record counts, here and in a later log."""
        again = [(3, 0, b"again"), (3, 1, b"three")]
        first = [(1, 0, b"one"), (3, 0, b"three"), (1, 0, b"one more"), (4, 5, b"four")]
        logs = {0: [*first, (2, 0, bytes(999))], 1: [(2, 1, b"two")], 2: again, 3: []}
        log_files.write(self.logs, logs)
        words = ["compact", "--dead", "2", self.logs]
        out, _ = self.bookie(*words, "--dry-run")
        found = [it.split()[2:] for it in out.splitlines()[:2]]
        self.assertEqual(found, [["compact", "2"], ["remove"]])
        self.assertEqual(out.splitlines()[-1], self.bookie(*words)[0].strip())
        wanted = {(1, 0): b"one more", (4, 5): b"four", (3, 0): b"again", (3, 1): b"three"}
        self.assertEqual(log_files.read(self.logs), wanted)

    def test_trial_of_a_log_whose_map_differs(self):
        data = bytearray((self.logs / "0.log").read_bytes())
        data[-1] ^= 1
        (self.logs / "0.log").write_bytes(data)
        out, errors = self.bookie(
            "compact", "--dry-run", "--dead", "2", "--below", "1000", self.logs
        )
        lines = out.splitlines()
        self.assertEqual(lines[:2], [f"0 {len(data)} compact 1", "ledger 2 entries 1 bytes 23"])
        self.assertRegex(lines[2], r"^before 1 after 1 freed \d+ moved 1$")
        self.assertEqual(errors, "")

    def test_trial_names_no_bytes_that_are_hidden(self):
        self.logs = self.room / "hidden"
        self.publish("1 0 one", "2 0 two")
        with (self.logs / "0.log").open("ab") as log:
            log.write(log_files.records([(2, 1, b"two"), (2, 2, b"two")]))
        words = ["compact", "--dry-run", "--dead", "2", self.logs]
        self.assertIn("ledger 2 entries 1 bytes 23\n", self.bookie(*words)[0])
        self.assertIn("ledger 2 entries 3 bytes 69\n", self.bookie(*words, "--no-manifest")[0])

    def test_trial_without_ids_shows_what_goes(self):
        """No log can be made after the last: logs that would be removed are shown, no copy is."""
        last = (1 << 31) - 1
        log_files.write(self.logs, {0: [ONE, TWO], 5: [TWO], last: [(2, 1, b"two"), THREE]})
        words = ["compact", "--dead", "2", "--below", "1000", self.logs]
        out, errors = self.bookie(*words, "--dry-run", status=1)
        self.assertEqual(
            ([it.split()[::2] for it in out.splitlines()], errors),
            ([["5", "remove"]], "fault no more ids\n"),
        )
        before = self.files()
        self.assertEqual(self.bookie(*words, status=1)[1], "fault no more ids\n")
        self.assertEqual(log_files.read(self.logs)[1, 0], ONE[2])
        self.assertLessEqual(set(self.log_names()), {it for it in before if it.endswith(".log")})

    def test_copy_that_is_longer_frees_less_than_nothing(self):
        """An open log has no map, its copy has one."""
        log_files.write(self.logs, {0: [ONE, TWO]}, opened=(0,))
        length = (self.logs / "0.log").stat().st_size
        freed = length - len(log_files.sealed_log([ONE]))
        self.assertLess(freed, 0)
        line = f"before 1 after 1 freed {freed} moved 1"
        for words in (["--dry-run"], []):
            out, _ = self.bookie("compact", *words, "--dead", "2", self.logs)
            self.assertEqual(out.splitlines()[-1], line)

    def test_empty_log_is_removed(self):
        (self.logs / "1.log").write_bytes(b"")
        for words in (["--dry-run"], []):
            out, errors = self.bookie("compact", *words, "--no-manifest", self.logs)
            self.assertEqual(
                (out.splitlines()[-1], errors), ("before 2 after 1 freed 0 moved 0", "")
            )
        self.assertEqual(self.log_names(), ["0.log"])

    def test_link_of_an_index_is_refused(self):
        (self.logs / "lastMark").symlink_to(self.room / "gone")
        _, errors = self.bookie("compact", "--dead", "1", self.logs, status=1)
        self.assertIn(f"{self.logs}/lastMark", errors)

    def test_trial_counts_the_map_of_many_ledgers(self):
        """A map has a head for every 10,000 ledgers. The copy is made in pieces of 4,096 entries."""
        live = [(10 + it, 0, b"") for it in range(10_001)]
        log_files.write(self.logs, {0: [*live, (2, 0, bytes(900_000))]})
        words = ["compact", "--dead", "2", self.logs]
        out, _ = self.bookie(*words, "--dry-run")
        freed = (self.logs / "0.log").stat().st_size
        self.bookie(*words)
        freed -= (self.logs / "1.log").stat().st_size
        self.assertEqual(out.splitlines()[-1], f"before 1 after 1 freed {freed} moved 10001")

    def test_trial_counts_deletions_that_are_recorded(self):
        self.script("delete 1", "delete 2")
        out, _ = self.bookie("compact", "--dry-run", self.logs)
        length = (self.logs / "0.log").stat().st_size
        lines = [f"0 {length} remove", f"before 1 after 0 freed {length} moved 0"]
        self.assertEqual(out.splitlines(), lines)

    def test_last_id_is_given(self):
        (self.logs / "0.log").rename(self.logs / "7ffffffe.log")
        words = ["compact", "--dead", "1", "--below", "1000", self.logs]
        out, _ = self.bookie(*words, "--dry-run")
        self.assertIn(" compact 1\n", out)
        self.bookie(*words)
        self.assertEqual(self.log_names(), ["7fffffff.log"])
        _, errors = self.bookie("compact", "--dead", "2", "--below", "1000", self.logs)
        self.assertEqual((self.log_names(), errors), ([], ""))

    def test_directory_that_cannot_be_listed_is_refused(self):
        with open(bytes(self.logs) + b"/\xff", "wb"):
            pass
        (self.room / "raw").write_bytes(log_files.records([THREE]))
        for words in (
            ["compact", "--dead", "1", self.logs],
            ["import", self.logs, self.room / "raw"],
            ["script", "--folder", self.logs],
            ["seal", "--all-unsealed", self.logs],
            ["hint", self.logs],
        ):
            _, errors = self.bookie(*words, status=1)
            self.assertIn(f"{self.logs}", errors)
        self.assertEqual(self.log_names(), ["0.log"])
