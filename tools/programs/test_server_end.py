"""How a session ends: its status, what is durable then, and what is said of it."""

import errno
import os
import subprocess
import threading

import device
import frames
import kit
import log_files
import session

# A file may have this many blocks of 1,024 bytes; a write past that fails, and does not end the process.
BLOCKS = 64
LIMITED = 'trap "" XFSZ; ulimit -f "$0"; exec "$@"'
ENTRY = b"x" * 40_000


# Ways to serve: by the thread that reads, and with another thread for the input.
WAYS = ((), ("--readers", "2"), ("--compact", "20,80"))


class End(kit.Case):
    def limited(self, *options):
        """Begins a session whose files cannot grow past some 64,000 bytes."""
        words = ["bash", "-c", LIMITED, str(BLOCKS), str(kit.Programs.serve), str(self.logs), *map(str, options)]
        opened = session.Session(words, kit.LIMIT)
        self.addCleanup(opened.kill)
        self.assertEqual(opened.hello().name, "welcome", opened.errors_now())
        return opened

    def test_close_whose_flush_fails(self):
        opened = self.limited()
        opened.add(1, ENTRY, ENTRY)
        self.assertEqual(opened.call("close").name, "disk")
        self.assertEqual(opened.end(), 1)

    def test_end_of_input_whose_flush_fails(self):
        opened = self.limited()
        opened.add(1, ENTRY, ENTRY)
        self.assertEqual(opened.end(), 1)

    def test_end_of_input_flushes(self):
        for ledger, options in enumerate(WAYS):
            opened = self.serve(*options)
            self.assertEqual(opened.add(ledger, b"hello"), ["accepted"])
            self.assertEqual(opened.end(), 0)
            self.assertEqual(log_files.read(self.logs)[ledger, 0], b"hello")

    def test_nothing_after_a_close_is_carried_out(self):
        opened = self.serve()
        data, id = opened.frame("close")
        late, _ = opened.frame("add", ledger=1, entry=0, content=b"late")
        opened.write(data + late)
        self.assertEqual(opened.reply(id).name, "closed")
        self.assertIsNone(opened.next())
        self.assertEqual(opened.end(), 0)
        self.assertEqual(log_files.read(self.logs), {})

    def test_reply_to_a_close_that_is_not_written(self):
        for ledger, options in enumerate(WAYS):
            opened = self.serve(*options)
            self.assertEqual(opened.add(ledger, b"hello"), ["accepted"])
            opened.process.stdout.close()
            opened.send("close")
            opened.process.stdin.close()
            self.assertEqual(opened.process.wait(kit.LIMIT), 1)
            self.assertEqual(log_files.read(self.logs)[ledger, 0], b"hello")

    def test_what_was_accepted_is_durable_if_replies_cannot_be_written(self):
        """A reply that is longer than what the server keeps back, and one that is shorter."""
        large = b"x" * 100_000
        for ledger, options in enumerate(WAYS):
            for entry, (name, fields) in enumerate((("read", {"entry": 0}), ("is_fenced", {}))):
                opened = self.serve(*options)
                self.assertEqual(opened.add(ledger, large, first=entry), ["accepted"])
                opened.process.stdout.close()
                opened.send(name, ledger=ledger, **fields)
                self.assertEqual(opened.process.wait(kit.LIMIT), 1)
                self.assertEqual(log_files.read(self.logs).get((ledger, entry)), large, (options, name))

    def test_no_request_is_carried_out_after_replies_cannot_be_written(self):
        for ledger, options in enumerate(WAYS):
            opened = self.serve(*options)
            opened.process.stdout.close()
            opened.send("is_fenced", ledger=ledger)
            self.assertEqual(opened.process.wait(kit.LIMIT), 1)
            with self.assertRaises(BrokenPipeError):
                opened.send("add", ledger=ledger, entry=0, content=b"late")

    def test_input_that_cannot_be_read(self):
        for options in WAYS:
            place = os.open(self.room, os.O_RDONLY)
            words = [str(kit.Programs.serve), str(self.logs), *options]
            how = {"stdout": subprocess.PIPE, "stderr": subprocess.PIPE, "timeout": kit.LIMIT}
            ran = subprocess.run(words, stdin=place, **how)
            os.close(place)
            kind = frames.REPLY_BY_NAME["input_failed"]
            self.assertEqual((ran.returncode, ran.stdout), (1, frames.encode(kind, 0, {})), options)

    def test_seal_flushes(self):
        opened = self.serve()
        opened.add(1, b"hello", b"more")
        self.assertEqual(opened.call("seal").log, 0)
        wanted = log_files.sealed_log([(1, 0, b"hello"), (1, 1, b"more")])
        self.assertEqual((self.logs / "0.log").read_bytes(), wanted)
        self.assertEqual(opened.call("seal").name, "nothing_open")
        self.assertEqual(opened.call("flush").entries, 0)
        self.close(opened)


class Failing(kit.Case):
    @device.needs_compiler
    def test_failed_steps_of_the_background_are_told(self):
        opened = self.serve()
        opened.add(1, b"hello")
        self.assertEqual(opened.call("seal").log, 0)
        self.close(opened)
        fault = device.failing(self.logs / "0.log", "remove", 1, errno.EIO, stays=True)
        opened = self.serve("--compact", "20,80", "--no-hints", more=fault)
        self.assertEqual(opened.call("delete", ledger=1).name, "dropped")
        kit.wait_until(lambda: self.log_names() == [], kit.SILENCE)
        self.assertEqual(self.log_names(), ["0.log"])
        self.close(opened)
        self.assertRegex(opened.errors_now(), r"(?m)^note compaction: [1-9]\d* steps failed$")
        self.close(self.serve("--compact", "20,80"))

    @device.needs_compiler
    def test_each_failed_step_is_counted(self):
        """A log without a live entry cannot be removed, in the round of the opening and in that of a deletion."""
        self.publish("1 0 hello")
        self.publish("2 0 hello", "3 0 " + "hello" * 100)
        self.assertEqual(self.script("delete 1"), ["dropped 1"])
        fault = device.failing(self.logs / "0.log", "remove", 1, errno.EIO, stays=True)
        opened = self.serve("--compact", "20,80", "--no-hints", more=fault)
        for number in (1, 2):
            self.assertTrue(kit.wait_until(lambda: opened.call("stats").failures == number), number)
            self.assertEqual(opened.call("delete", ledger=2).name, ("dropped", "already_deleted")[number - 1])
        self.close(opened)
        self.assertEqual(opened.errors_now(), "note compaction: 2 steps failed\n")
        self.assertEqual(self.log_names(), ["0.log", "1.log"])


class Leases(kit.Case):
    def test_no_lease_is_left(self):
        """A read of an entry that no cache has is by a lease, which ends with it."""
        opened = self.serve()
        opened.add(1, *[b"hello"] * 20)
        self.close(opened)
        for options in WAYS:
            opened = self.serve(*options)
            calls = [("read", {"ledger": 1, "entry": it}) for it in range(20)]
            calls += [("read_last", {"ledger": 1})] * 5
            self.assertEqual({it.name for it in opened.together(*calls)}, {"entry"})
            self.assertEqual(opened.call("stats").leases, 0)
            self.close(opened)


class Load(kit.Case):
    """The background goes on while requests come without a pause."""

    def assert_compacted_meanwhile(self, request, *options, **more):
        """Asserts that a log nearly unused is compacted while many such requests come: 10,000 of
        them, or four times as many, which a quick server takes some time for."""
        wanted = (1, log_files.FRONT + len(b"hello"))
        for batches in (40, 160):
            self.logs = self.room / f"logs{batches}"
            found = self.compacted_meanwhile(batches, request, *options, **more)
            if found == wanted:
                break
        self.assertEqual(found, wanted)

    def compacted_meanwhile(self, batches, request, *options, **more):
        """Sends a deletion that leaves a log nearly unused, then as many times 256 requests, ahead
        of all replies. Returns what the store has at their end: its logs and their bytes."""
        opened = self.serve("--compact", "20,80", *options)
        opened.add(1, b"hello")
        opened.add(2, *[b"much more than that"] * 9)
        self.assertEqual(opened.call("seal").log, 0)
        made = [opened.frame("delete", ledger=2)]
        made += [opened.frame(request, ledger=1, entry=0, **more) for _ in range(256 * batches)]
        made += [opened.frame("stats")]
        # The server leaves requests unread while nobody reads its replies.
        writing = threading.Thread(target=opened.write, args=(b"".join(data for data, _ in made),))
        writing.start()
        found = [opened.reply(id) for _, id in made]
        writing.join()
        self.assertEqual(found[0].name, "dropped")
        self.assertEqual(len({it.name for it in found[1:-1]}), 1)
        self.assertEqual(opened.read(1, 0), b"hello")
        self.close(opened)
        return found[-1].logs, found[-1].bytes

    def test_compaction_while_requests_wait(self):
        self.assert_compacted_meanwhile("holds")

    def test_compaction_while_reads_are_shared(self):
        self.assert_compacted_meanwhile("read", "--readers", "2")

    def test_compaction_while_adds_come_to_readers(self):
        self.assert_compacted_meanwhile("add", "--readers", "2", content=b"hello")
