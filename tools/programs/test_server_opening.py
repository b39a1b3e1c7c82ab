"""What the server says of a directory that it opens, or why it does not open it, and what it knows of it then."""

import os
import re

import frames
import kit
import log_files
import manifest_files

TORN = r"torn manifest: the last (\d+) bytes of (\S+) are no record; (\S+) is a copy\n"


class Opening(kit.Case):
    def refused(self, *options):
        """Returns the refusal of a session, its fields, and the errors."""
        opened = self.started(*options)
        found = opened.hello()
        self.assertIn(found.name, frames.REFUSED)
        self.assertEqual(opened.end(), 1)
        return (found.name, *found.fields.values()), opened.errors_now()

    def noted(self, *options):
        """Opens and closes the directory. Returns what was noted."""
        opened = self.serve(*options)
        self.close(opened)
        return opened.errors_now()

    def logs_of_one(self, *ledgers):
        """Writes a sealed log with one entry for each of these ledgers."""
        for ledger in ledgers:
            self.publish(f"{ledger} 0 hello")

    def test_whole_directory_is_silent(self):
        self.logs_of_one(1, 2)
        self.assertEqual(self.noted(), "")

    def test_in_use(self):
        first = self.serve()
        found, errors = self.refused()
        self.assertEqual(found, ("in_use",))
        self.assertRegex(errors, r"^fault .*\n$")
        self.close(first)
        self.close(self.serve())

    def test_missing_log_is_named(self):
        self.logs_of_one(1, 2, 3, 4)
        kept = (self.logs / "2.log").read_bytes()
        (self.logs / "2.log").unlink()
        found, errors = self.refused()
        self.assertEqual(found, ("bad_log", 2))
        self.assertRegex(errors, r"^fault .*\blog 2\b.*\n$")
        # 21 bytes of a record behind the header, of which one is cut off.
        (self.logs / "2.log").write_bytes(kept[: log_files.HEADER + 24])
        found, errors = self.refused()
        self.assertEqual(found, ("bad_log", 2))
        self.assertRegex(errors, r"^fault .*\blog 2\b.*\n$")
        (self.logs / "2.log").write_bytes(kept)
        self.assertEqual(self.noted(), "")

    def test_log_that_is_too_long(self):
        """No manifest has its length. The file has no blocks for its last bytes."""
        self.logs_of_one(1, 2)
        for it in self.logs.glob("*.manifest"):
            it.unlink()
        os.truncate(self.logs / "1.log", 1 << 32)
        found, errors = self.refused()
        self.assertEqual((found, errors), (("log_too_long", 1), "fault log too long 1\n"))

    def test_path_that_is_no_directory(self):
        self.logs.write_bytes(b"")
        found, errors = self.refused()
        self.assertEqual(found, ("disk",))
        self.assertIn(str(self.logs), errors)

    def test_torn_manifests_are_named(self):
        """The torn end stays until the next record is written; a copy stands beside it from the first opening on."""
        self.script("fence 9")
        self.logs_of_one(1)
        for name in ("ledgers.manifest", "logs.manifest"):
            file = self.logs / name
            whole = file.read_bytes()
            file.write_bytes(whole + b"torn!")
            opened = self.serve()
            self.assertEqual(opened.call("fence", ledger=len(name)).name, "fenced_now")
            self.assertEqual(opened.add(len(name), b"hello"), ["fenced"])
            self.assertEqual(opened.add(1, b"hello", first=len(name)), ["accepted"])
            self.close(opened)
            said = re.findall(TORN, opened.errors_now())
            self.assertEqual([it[:2] for it in said], [("5", name)], opened.errors_now())
            self.assertEqual((self.logs / said[0][2]).read_bytes(), whole + b"torn!")
            manifest_files.batches(file.read_bytes())
            self.assertEqual(self.noted(), "")

    def test_ignored_bytes_are_noted(self):
        self.script("add 1 0 hello", "swap", "write", "publish")
        log = self.logs / "0.log"
        log.write_bytes(log.read_bytes() + b"more")
        self.assertRegex(self.noted(), r"^note log 0: 4 bytes ignored .*\n$")

    def test_fences_deletions_and_attributes(self):
        opened = self.serve()
        for ledger in (1, 2, 3):
            opened.add(ledger, b"hello")
        opened.call("set_master_key", ledger=1, key=b"key")
        opened.call("set_explicit_lac", ledger=1, lac=b"lac")
        self.assertEqual(opened.call("fence", ledger=2).name, "fenced_now")
        self.assertEqual(opened.call("delete", ledger=3).name, "dropped")
        self.close(opened)
        for options in ((), ("--no-hints",), ("--readers", "4"), ("--compact", "20,80")):
            opened = self.serve(*options)
            # The trail of a session begins with a mark for each fence.
            self.assertEqual(opened.call("stats").front, 1)
            self.assertEqual([opened.read(it, 0) for it in (1, 2, 3)], [b"hello", b"hello", "deleted"])
            self.assertEqual(opened.add(2, b"late", first=1), ["fenced"])
            self.assertEqual(opened.add(3, b"late", first=1), ["deleted"])
            recovered = opened.call("add_recovery", ledger=2, entry=2, content=b"late")
            self.assertIn(recovered.name, ("accepted", "held"))
            self.assertEqual(opened.call("is_fenced", ledger=2).name, "yes")
            self.assertEqual(opened.call("delete", ledger=3).name, "already_deleted")
            found = [opened.call(it, ledger=1).value for it in ("master_key", "explicit_lac")]
            self.assertEqual(found, [b"key", b"lac"])
            self.close(opened)


class Hints(kit.Case):
    """A hint is written for each sealed log, and used unless that is forbidden."""

    def fill(self, opened, entry):
        self.assertEqual(opened.add(1, b"hello", first=entry), ["accepted"])
        return opened.call("seal").log

    def hints(self):
        return sorted(it.name for it in self.logs.glob("*.hint"))

    def test_hint_of_a_log_that_is_sealed_in_the_session(self):
        opened = self.serve()
        for entry in range(3):
            self.assertEqual(self.fill(opened, entry), entry)
            self.assertTrue(kit.wait_until(lambda: (self.logs / f"{entry}.hint").exists()), f"{entry}.hint")
        self.close(opened)

    def test_hint_of_a_log_that_was_flushed_before(self):
        """An open log gets none, and one when nothing but its seal has changed."""
        opened = self.serve()
        self.assertEqual(opened.add(1, b"hello"), ["accepted"])
        self.assertEqual(opened.call("flush").entries, 1)
        self.assertFalse(kit.wait_until(self.hints, kit.SILENCE / 4))
        self.assertEqual(opened.call("seal").log, 0)
        self.assertTrue(kit.wait_until(self.hints, kit.LIMIT / 4))
        self.assertEqual(self.hints(), ["0.hint"])
        self.close(opened)

    def test_hint_of_a_log_that_is_sealed_last(self):
        opened = self.serve()
        found = opened.together(("add", {"ledger": 1, "entry": 0, "content": b"hello"}), "seal", "close")
        self.assertEqual([it.name for it in found], ["accepted", "sealed", "closed"])
        self.assertEqual(opened.end(), 0)
        self.assertEqual(self.hints(), ["0.hint"])

    def test_end_waits_for_a_hint(self):
        """The hint of a log that is found without one is begun at the opening."""
        log_files.write(self.logs, {0: [(1, it, b"") for it in range(5000)]})
        opened = self.serve()
        self.close(opened)
        self.assertEqual(self.hints(), ["0.hint"])

    def test_hint_of_a_copy(self):
        opened = self.serve("--compact", "20,80")
        opened.add(1, b"hello")
        opened.add(2, *[b"much more than that"] * 9)
        self.assertEqual(opened.call("seal").log, 0)
        opened.call("delete", ledger=2)
        self.assertTrue(kit.wait_until(lambda: self.log_names() == ["1.log"]), self.log_names())
        self.assertTrue(kit.wait_until(lambda: self.hints() == ["1.hint"]), self.hints())
        self.close(opened)

    def test_no_hints_are_written(self):
        opened = self.serve("--no-hints")
        self.fill(opened, 0)
        kit.wait_until(self.hints, kit.SILENCE)
        self.close(opened)
        self.assertEqual(self.hints(), [])

    def test_no_hints_are_used(self):
        opened = self.serve()
        self.fill(opened, 0)
        self.close(opened)
        self.assertEqual(self.hints(), ["0.hint"])
        kit.flip(self.logs / "0.hint", -1)
        damaged = (self.logs / "0.hint").read_bytes()
        for options, wanted in ((("--no-hints",), r"\A\Z"), ((), r"\Anote hint not used: log 0: .*\n\Z")):
            opened = self.serve(*options)
            self.assertEqual(opened.read(1, 0), b"hello")
            self.close(opened)
            self.assertRegex(opened.errors_now(), wanted)
            self.assertEqual((self.logs / "0.hint").read_bytes() == damaged, bool(options))
