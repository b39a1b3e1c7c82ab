"""With `--json` each line on both streams is an object, whatever is told. Its members are those that
a program looks for."""

import errno
import json
import os

import device
import kit
import log_files
import manifest_files

LEDGERS, LOGS = "ledgers.manifest", "logs.manifest"
ENTRIES = [(1, 0, b"one"), (2, 0, b"two")]


class Case(kit.Case):
    def objects(self, *words, status=None, more=None):
        """Runs a command with JSON. Returns the objects of its output and of its errors, one a
        line."""
        ran = self.call("--json", *words, more=more)
        if status is not None:
            self.assertEqual(ran.returncode, status, ran.stderr)
        found = []
        for stream in (b"" if words[0] == "report" else ran.stdout, ran.stderr):
            lines = stream.decode().splitlines()
            self.assertEqual([it for it in lines if not it.startswith("{")], [], words)
            found.append([json.loads(it) for it in lines])
        return found

    def told(self, *words, status=1, more=None):
        """The only object of the errors."""
        _, errors = self.objects(*words, status=status, more=more)
        self.assertEqual(len(errors), 1, errors)
        return errors[0]

    def live(self, text="1\n"):
        (self.room / "live").write_text(text)
        return self.room / "live"

    def raw(self):
        (self.room / "raw").write_bytes(log_files.records([(4, 0, b"four")]))
        return self.room / "raw"


class Notes(Case):
    """What each command notes of a directory."""

    def setUp(self):
        super().setUp()
        self.publish("1 0 one", "2 0 two")
        self.publish("3 0 three", after=["delete 2"])

    def notes(self, note, *calls, status=0, once=False):
        """Each of these calls, on the directory as it is now, has this note as an object."""
        before = {it.name: it.read_bytes() for it in self.logs.iterdir()}
        for words in calls:
            _, errors = self.objects(*words, status=status)
            found = [it for it in errors if note == {key: it.get(key) for key in note}]
            self.assertTrue(found, (words, errors))
            self.assertEqual(len(found), 1 if once else len(found), (words, errors))
            for it in self.logs.iterdir():
                it.unlink()
            for name, data in before.items():
                (self.logs / name).write_bytes(data)

    def test_ignored_bytes(self):
        with (self.logs / "1.log").open("ab") as log:
            log.write(b"abcde")
        at = (self.logs / "1.log").stat().st_size - 5
        self.notes(
            {"note": "not durable", "log": 1, "from": at, "bytes": 5},
            ["ledgers", self.logs],
            ["report", self.logs],
            ["compact", "--dry-run", self.logs],
            ["compact", self.logs],
            ["seal", "--all-unsealed", self.logs],
            ["import", self.logs, self.raw()],
            ["compact", "--dry-run", "--live-file", self.live(), self.logs],
            ["manifest", "--check", self.logs],
        )

    def test_log_that_is_back(self):
        log = (self.logs / "0.log").read_bytes()
        self.bookie("compact", "--dead", "1", "--dead", "2", self.logs)
        (self.logs / "0.log").write_bytes(log + b"abcde")
        note = {"note": "removed log is back", "log": 0, "from": len(log), "bytes": 5}
        self.notes(note, ["ledgers", self.logs], ["compact", self.logs])

    def test_log_that_was_never_durable(self):
        manifest_files_of = manifest_files.written(9, [("made", 0), ("made", 1)])
        (self.logs / LOGS).write_bytes(manifest_files_of)
        length = (self.logs / "0.log").stat().st_size
        note = {"note": "log never durable", "log": 0, "from": 0, "bytes": length}
        self.notes(note, ["ledgers", self.logs])

    def test_durable_bytes_that_are_missing(self):
        length = (self.logs / "0.log").stat().st_size
        os.truncate(self.logs / "0.log", length - 1)
        note = {"note": "durable bytes missing", "log": 0, "durable": length}
        self.notes({**note, "length": length - 1}, ["ledgers", self.logs])
        self.notes({**note, "length": length - 1}, ["manifest", "--check", self.logs], status=1)
        (self.logs / "0.log").unlink()
        self.notes({**note, "length": None}, ["logs", self.logs])

    def test_deleted_ledgers(self):
        note = {"note": "deleted", "ledger": 2, "ledgers": None}
        words = [
            ["entries", self.logs, "2"],
            ["export", self.logs, "2"],
            ["find", self.logs, "2", "0"],
        ]
        self.notes(note, *words)
        self.notes({"note": "deleted", "ledger": None, "ledgers": 1}, ["ledgers", self.logs])
        kit.flip(self.logs / LEDGERS, 0)
        self.notes({"note": "the manifest cannot be read"}, *words, ["ledgers", self.logs])

    def test_hint_that_is_not_used(self):
        self.bookie("hint", self.logs)
        kit.flip(self.logs / "1.hint", 40)
        self.notes(
            {"note": "hint not used", "log": 1, "why": "bad hint checksum"},
            ["ledgers", self.logs],
            ["export", self.logs, "3"],
            ["compact", "--dry-run", self.logs],
            ["compact", self.logs],
            ["import", self.logs, self.raw()],
            once=True,
        )

    def test_torn_manifests(self):
        for name in (LEDGERS, LOGS):
            data = (self.logs / name).read_bytes()
            (self.logs / name).write_bytes(data + b"\0\0\0\5torn")
            for words in (["compact", self.logs], ["import", self.logs, self.raw()]):
                before = self.files()
                _, errors = self.objects(*words, status=0)
                self.assertIn("torn manifest", [it.get("note") for it in errors], words)
                for it in self.logs.iterdir():
                    it.unlink()
                for file, whole in before.items():
                    (self.logs / file).write_bytes(whole)
            (self.logs / name).write_bytes(data)

    def test_short_log_that_is_kept(self):
        (self.logs / LOGS).unlink()
        (self.logs / "5.log").write_bytes(b"short")
        note = {"note": "kept", "log": 5, "length": 5, "file": "5.log"}
        self.notes(note, ["compact", "--dry-run", self.logs], ["compact", self.logs])

    def test_directory_without_a_log(self):
        self.logs = self.room / "none"
        self.logs.mkdir()
        note = {"note": "no log found", "folder": str(self.logs)}
        self.notes(note, ["compact", self.logs], ["ledgers", self.logs])
        self.notes({"note": "no manifest", "folder": str(self.logs)}, ["manifest", self.logs])


class Faults(Case):
    """What is told of a fault, and of the way on."""

    def setUp(self):
        super().setUp()
        log_files.write(self.logs, {0: ENTRIES})

    def bad_length(self):
        """Log 1 is open, and has no record after the first."""
        end = b"\0\0\0\7" + bytes(40)
        (self.logs / "1.log").write_bytes(log_files.open_log([(3, 0, b"three")], end))
        return log_files.HEADER + log_files.FRONT + len(b"three")

    def test_log_of_a_bad_length(self):
        at = self.bad_length()
        for words in (["compact", self.logs], ["compact", "--dry-run", self.logs]):
            found = self.told(*words)
            self.assertEqual((found["fault"], found["log"]), ("bad log", 1))
            self.assertEqual(found["reason"], f"bad length {at} 7")
            self.assertIn("seal --cut-torn", found["help"])
        found = self.told("import", self.logs, self.raw())
        self.assertEqual(found["fault"], "bad log")
        self.assertIn(f"bad length {at} 7", found["reason"])
        self.assertIn("seal --cut-torn", found["help"])
        for words in (["ledgers", self.logs], ["stat", self.logs], ["report", self.logs]):
            found = self.objects(*words)[1]
            wanted = {"fault": "bad length", "at": at, "length": 7, "log": 1}
            self.assertEqual(found, [wanted], words)
        found = self.objects("check", self.logs, status=1)[0]
        self.assertEqual(
            found[1], {"log": 1, "health": "fault", "fault": "bad length", "at": at, "length": 7}
        )

    def test_log_of_a_bad_header(self):
        data = bytearray((self.logs / "0.log").read_bytes())
        for place, wanted in ((0, {"fault": "bad magic"}), (7, {"fault": "version", "version": 9})):
            (self.logs / "0.log").write_bytes(data[:place] + b"\t" + data[place + 1 :])
            for words in (["header", self.logs, "0"], ["entries", self.logs, "1"]):
                self.assertEqual(self.told(*words), {**wanted, "log": 0}, words)

    def test_index(self):
        (self.logs / "locations").mkdir()
        found = self.told("compact", self.logs)
        self.assertEqual(
            (found["fault"], found["file"]), ("bookie index", f"{self.logs}/locations")
        )
        self.assertIn("--index-is-rebuilt", found["help"])
        self.assertEqual(set(found), {"fault", "file", "help"})

    def test_manifest_that_is_no_plain_file(self):
        (self.logs / LEDGERS).mkdir()
        for words in (["compact", "--dry-run", self.logs], ["stat", self.logs]):
            found = self.told(*words)
            self.assertEqual((found["fault"], found["file"]), ("disk", f"{self.logs}/{LEDGERS}"))
            self.assertEqual(found["reason"], "no plain file")

    def test_damaged_manifests(self):
        self.script("delete 2")
        for name, words in (
            (LEDGERS, ["compact", self.logs]),
            (LEDGERS, ["manifest", self.logs]),
            (LOGS, ["compact", self.logs]),
            (LOGS, ["manifest", self.logs]),
        ):
            before = (self.logs / name).read_bytes()
            (self.logs / name).write_bytes(b"x" + before[1:])
            found = self.told(*words)
            kind = "bad manifest" if words[0] == "manifest" else "manifest"
            self.assertEqual(found["fault"], kind)
            self.assertIn(name, found["reason"])
            self.assertIn("manifest --rebuild", found["help"])
            (self.logs / name).write_bytes(before)

    def test_damaged_manifest_of_a_report(self):
        self.script("delete 2")
        kit.flip(self.logs / LEDGERS, 0)
        found = self.objects("report", "--no-manifest", self.logs, status=0)
        self.assertEqual(found, [[], []])
        kit.flip(self.logs / LEDGERS, 0)
        kit.flip(self.logs / LOGS, 0)
        found = [it for it in self.objects("report", self.logs, status=1)[1] if it.get("fault")]
        self.assertEqual([it["fault"] for it in found], ["manifest"])
        self.assertIn(LOGS, found[0]["reason"])

    def test_files_that_are_not_there(self):
        path = str(self.room / "none")
        found = self.told("import", self.logs, path)
        self.assertEqual(found["fault"], "unread")
        self.assertIn(path, found["reason"])
        for option in ("--dead-file", "--live-file"):
            found = self.told("compact", option, path, self.logs)
            self.assertEqual((found["fault"], found["file"]), ("unread", path))

    def test_directory_that_is_not_there(self):
        path = self.room / "none"
        for words in (["ledgers", path], ["compact", path], ["seal", path, "0"], ["hint", path]):
            found = self.told(*words)
            self.assertEqual((found["fault"], found["folder"]), ("disk", str(path)), words)
            self.assertTrue(found["reason"])

    def test_refusals_of_seal(self):
        at = self.bad_length()
        record = log_files.records([(3, 0, b"three")])
        (self.logs / "2.log").write_bytes(log_files.open_log([(3, 0, b"three")], record[:9]))
        for words in ([], ["--no-manifest"]):
            found = self.told("seal", *words, self.logs, "2")
            wanted = {"fault": "torn", "at": at, "torn": 9, "log": 2}
            self.assertEqual({key: found[key] for key in wanted}, wanted)
            self.assertIn("seal --cut-torn", found["help"])
            found = self.told("seal", *words, self.logs, "1")
            self.assertEqual((found["fault"], found["at"], found["length"]), ("bad length", at, 7))
            found = self.told("seal", *words, self.logs, "0")
            self.assertEqual((found["fault"], found["log"]), ("sealed already", 0))
            self.assertIn("seal --cut-torn", found["help"])
            found = self.told("seal", *words, self.logs, "7")
            self.assertEqual(found, {"fault": "no log", "log": 7})

    def test_unsealed_log_of_a_check(self):
        record = log_files.records([(3, 0, b"three")])
        (self.logs / "0.log").write_bytes(log_files.open_log([(3, 0, b"three")], record[:9]))
        for words in ([], ["--long"], ["--digest", "crc32"]):
            found = self.objects("check", *words, self.logs)[0]
            self.assertEqual(found[-1], {"log": 0, "health": "unsealed", "torn": 9}, words)

    def test_hint_of_an_unread_log(self):
        (self.logs / "1.log").symlink_to("1.log")
        for words in ([], ["--check"]):
            found = self.told("hint", *words, self.logs)
            self.assertEqual((found["fault"], found["log"]), ("log", 1))


@device.needs_compiler
class Calls(Case):
    """A call of the system fails."""

    def setUp(self):
        super().setUp()
        log_files.write(self.logs, {0: ENTRIES}, opened=(0,))

    def test_call_of_a_seal(self):
        for words in ([], ["--no-manifest"], ["--cut-torn"]):
            for kind in ("write", "sync"):
                more = device.failing(self.logs / "0.log", kind, 1, errno.EIO)
                found = self.told("seal", *words, self.logs, "0", more=more)
                wanted = ("disk", f"{self.logs}/0.log", kind)
                self.assertEqual((found["fault"], found["file"], found["operation"]), wanted)
                log_files.write(self.logs, {0: ENTRIES}, opened=(0,))

    def test_call_of_an_opening_of_a_seal(self):
        self.script("fence 1")
        more = device.failing(self.logs / LOGS, "sync", 1, errno.EIO, stays=True)
        found = self.told("seal", self.logs, "0", more=more)
        self.assertEqual((found["file"], found["operation"]), (f"{self.logs}/{LOGS}", "sync"))

    def test_calls_of_an_import(self):
        more = device.failing(self.logs / "1.log", "sync", 1, errno.EIO)
        _, errors = self.objects("import", self.logs, self.raw(), status=1, more=more)
        found = [(it["fault"], it.get("file"), it.get("operation")) for it in errors]
        self.assertEqual(found, [("disk", f"{self.logs}/1.log", "sync"), ("disk", None, None)])

    def test_call_of_a_trial(self):
        more = device.failing(self.logs / "0.log", "read", 1, errno.EIO, stays=True)
        found = self.told("compact", "--dry-run", self.logs, more=more)
        self.assertEqual((found["file"], found["operation"]), (f"{self.logs}/0.log", "read"))

    def test_call_of_a_reading_command(self):
        more = device.failing(self.logs / "0.log", "read", 2, errno.EIO, stays=True)
        found = self.told("scan", self.logs, "0", more=more)
        self.assertEqual((found["file"], found["operation"]), (f"{self.logs}/0.log", "read"))
        self.assertIn("Input/output", found["reason"])
