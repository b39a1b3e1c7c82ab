"""Steps that fail, of a script and of a session: what is said, what stands afterwards, and that the
same step succeeds later."""

import errno

import device
import kit
import log_files

WRITES = ["write", "write"]


@device.needs_compiler
class Script(kit.Case):
    """Log 0 has an entry of ledger 1 and is sealed; a call on log 1 fails once."""

    def setUp(self):
        super().setUp()
        self.publish("1 0 one")

    def failing(self, kind, number, *steps, name="1.log", words=()):
        """Runs steps of which one fails. Returns the answers and the errors."""
        more = device.failing(self.logs / name, kind, number, errno.EIO)
        text = "".join(f"{it}\n" for it in steps)
        words = ["script", "--folder", self.logs, *words]
        out, errors = self.bookie(*words, steps=text, more=more)
        return out.splitlines(), errors

    def test_failed_write_is_done_again(self):
        steps = ["add 2 0 two", "swap", "write", "stats", "take 0 2 0"]
        steps += [*WRITES, "publish", "take 0 2 0"]
        answers, errors = self.failing("write", 1, *steps)
        self.assertEqual(answers[:3], ["accepted", "swapped 1", "fault disk"])
        self.assertEqual(answers[4], "cached 74776f")
        self.assertEqual(answers[-2:], ["published 1", "leased 8589935620"])
        self.assertIn(f"{self.logs}/1.log", errors)
        self.assertEqual(log_files.read(self.logs), {(1, 0): b"one", (2, 0): b"two"})

    def test_failed_sync_writes_the_entries_again(self):
        steps = ["add 2 0 two", "add 2 1 more", "swap", *WRITES, "write", "publish"]
        after = ["stats", "take 0 2 1", "write", "write", "write", "publish", "take 0 2 1"]
        answers, _ = self.failing("sync", 1, *steps, *after)
        self.assertEqual(answers[len(steps) - 1], "fault disk")
        again = answers[len(steps) :]
        self.assertEqual(again[0], "stats cached 0 flushing 39 marks 2 durable 0")
        self.assertEqual(again[1], "cached 6d6f7265")
        found = [it.split()[0] for it in again[2:6]]
        self.assertEqual(found, ["wrote", "wrote", "all", "published"])
        self.assertEqual(log_files.read(self.logs)[2, 1], b"more")

    def test_failed_create_writes_the_entries_again(self):
        """The second entry needs a log of its own, which cannot be made at first."""
        text = "x" * 900
        steps = [f"add 2 0 {text}", f"add 2 1 {text}", "swap", *WRITES, *WRITES, "write", "publish"]
        found, errors = self.failing("open", 1, *steps, name="2.log", words=["--log-limit", "2048"])
        self.assertEqual([it.split()[0] for it in found[:4]], ["accepted", "accepted", "swapped", "wrote"])
        self.assertEqual((found[4], found[8]), ("fault disk", "published 2"))
        self.assertEqual([it.split()[0] for it in found[5:8]], ["wrote", "wrote", "all"])
        self.assertIn(f"{self.logs}/2.log: create", errors)
        wanted = {(1, 0): b"one", **{(2, it): text.encode() for it in range(2)}}
        self.assertEqual(log_files.read(self.logs), wanted)

    def test_steps_after_a_failure_are_done(self):
        steps = ["add 2 0 two", "swap", "write", "take 0 1 0", "fetch 0", "fence 7", "fenced 7"]
        answers, _ = self.failing("write", 1, *steps)
        wanted = ["fault disk", "leased 1028", "bytes 6f6e65", "fenced", "yes"]
        self.assertEqual(answers[2:], wanted)

    def test_deletion_that_is_not_recorded_is_not_done(self):
        steps = ["delete 1", "holds 1 0", "add 1 1 more"]
        answers, errors = self.failing("write", 1, *steps, name="ledgers.manifest")
        self.assertEqual(answers, ["fault disk"] * 3)
        self.assertIn("ledgers.manifest", errors)
        self.assertEqual(self.script("holds 1 0"), ["yes"])

    def test_removal_that_fails_leaves_the_log(self):
        steps = ["delete 1", "retire 0", "close 0", "remove 0", "remove 0"]
        answers, _ = self.failing("remove", 1, *steps, name="0.log")
        self.assertEqual(answers[:4], ["dropped 1", "retired 0", "closed", "fault disk"])
        self.assertIn(answers[4], ("removed", "fault disk"))

    def test_compaction_that_fails_leaves_the_source(self):
        self.publish("3 0 three", "4 0 four")
        steps = ["delete 3", "major", "copy 9", "copy 9", "end", "giveup", "take 0 4 0", "fetch 0"]
        answers, _ = self.failing("sync", 1, *steps, name="2.log")
        self.assertEqual(answers[:3], ["dropped 1", "chosen 1", "copied 1"])
        self.assertEqual(answers[4:6], ["fault disk", "no job"])
        self.assertEqual(answers[-1], "bytes 666f7572")
        self.assertIn("1.log", self.log_names())


@device.needs_compiler
class Opening(kit.Case):
    CALLS = {"ledgers.manifest": ("open", "read"), "logs.manifest": ("open", "read"), "0.log": ("open", "sync")}

    def test_call_that_fails_is_named(self):
        """The directory is not opened, and opens again."""
        self.publish("1 0 one")
        for name, kinds in self.CALLS.items():
            for kind in kinds:
                more = device.failing(self.logs / name, kind, 1, errno.EIO)
                words = ["script", "--folder", self.logs]
                found = self.bookie(*words, steps="holds 1 0\n", more=more, status=1)
                told = f"{self.logs}/{name}: {kind}: Input/output error (os error 5)"
                self.assertEqual(found, ("", f"fault disk: {told}\n"))
                self.assertEqual(self.script("holds 1 0"), ["yes"])


@device.needs_compiler
class Session(kit.Case):
    """A log's sync or write fails once in a session."""

    def setUp(self):
        super().setUp()
        self.publish("1 0 one")

    def opened(self, kind, number, name="1.log"):
        return self.serve(more=device.failing(self.logs / name, kind, number, errno.EIO))

    def test_failed_write(self):
        opened = self.opened("write", 1)
        opened.add(2, b"two")
        self.assertEqual(opened.call("flush").name, "disk")
        self.assertEqual(opened.read(2, 0), b"two")
        # The ids of an entry count as bytes of its payload.
        found = opened.call("stats")
        self.assertEqual((found.cached, found.durable, found.failures), (16 + len(b"two"), 0, 1))
        self.assertEqual(opened.call("flush").entries, 1)
        self.close(opened)
        self.assertEqual(log_files.read(self.logs)[2, 0], b"two")

    def test_failed_close_is_told(self):
        opened = self.opened("sync", 1)
        opened.add(2, b"two")
        self.assertEqual((opened.call("close").name, opened.end()), ("disk", 1))

    def test_end_of_input_that_cannot_flush_is_told(self):
        opened = self.opened("sync", 1)
        opened.add(2, b"two")
        self.assertEqual(opened.end(), 1)
