"""Tests of the daemon: the end of a client, of the daemon, and of its server."""

import os
import shutil
import signal
import time

from daemons import LIMIT, Case, Load, add, frames, request, wait_until
import test_protocol  # noqa: E402

LARGE = 1_000_000


class Ends(Case):
    """The end of a client."""

    def lives(self, client):
        """A client that nothing happened to."""
        self.assertEqual(client.call("holds", ledger=9, entry=9).name, "no")

    def test_close(self):
        """A close is answered last, after what was sent before it is durable; the others go on."""
        daemon = self.daemon()
        other, client = self.client(daemon), self.client(daemon)
        added = client.add(1, *[b"x"] * 20)
        reads = [client.send("read", ledger=1, entry=entry) for entry in range(20)]
        close = client.send("close")
        replies = client.rest()
        self.assertEqual((added, sorted(id for id, _ in replies[:-1])), (["accepted"] * 20, reads))
        self.assertEqual(replies[-1], (close, frames.Message("closed", {"front": 20})))
        self.lives(other)
        os.kill(daemon.server(), signal.SIGKILL)
        daemon.wait()
        self.assertEqual(len(self.stored()), 20)

    def test_end_of_input(self):
        """The end of the input answers everything and flushes."""
        daemon = self.daemon()
        client = self.client(daemon)
        client.write(b"".join(add(it, 1, it) for it in range(1, 41)))
        client.half_close()
        self.assertEqual([(id, it.name) for id, it in client.rest()], [(it, "accepted") for it in range(1, 41)])
        os.kill(daemon.server(), signal.SIGKILL)
        daemon.wait()
        self.assertEqual(len(self.stored()), 40)

    def test_death(self):
        """A client that dies amid a frame has its whole requests carried out."""
        daemon = self.daemon()
        other, client = self.client(daemon), self.client(daemon)
        client.write(b"".join(add(it, 1, it) for it in range(1, 31)) + add(31, 1, 31)[:-1])
        client.kill()
        self.assertTrue(wait_until(lambda: other.call("last_entry", ledger=1).fields == {"entry": 30}))
        self.assertEqual(other.call("holds", ledger=1, entry=31).name, "no")

    def test_rubbish(self):
        """A frame that is no request ends its client, by the fault that the server has for it."""
        daemon = self.daemon()
        other = self.client(daemon)
        for data, expected in test_protocol.hostile():
            client = self.connected(daemon)
            try:
                client.write(data)
                client.half_close()
            except (BrokenPipeError, ConnectionResetError):
                pass  # the rest is not read
            id, end = client.rest()[-1]
            self.assertEqual((id, end.name, *end.fields.values()), expected)
        self.assertEqual(other.read(1, 7), b"kept")

    def test_second_answer_after_fault(self):
        """What was taken before a fault is answered first, and durable."""
        daemon = self.daemon()
        client = self.client(daemon)
        client.write(add(1, 1, 1) + request(2, "read", ledger=1, entry=1) + add(2, 1, 2))
        replies = client.rest()
        self.assertEqual([(id, it.name) for id, it in replies], [(1, "accepted"), (2, "entry"), (2, "not_rising")])
        os.kill(daemon.server(), signal.SIGKILL)
        daemon.wait()
        self.assertEqual(self.stored(), {(1, 1)})

    def test_stall(self):
        """A client that does not read its replies is ended; others never wait for it, and its memory is bounded."""
        daemon = self.daemon("--stall", "1", "--memory", "16")
        other, client = self.client(daemon), self.client(daemon)
        self.assertEqual(client.call("add", ledger=1, entry=0, content=bytes(LARGE)).name, "accepted")
        ahead = b"".join(request(it, "read", ledger=1, entry=0) for it in range(2, 202))
        client.write(ahead)
        begun, longest = time.monotonic(), 0
        while "did not read" not in daemon.errors_now() and time.monotonic() < begun + LIMIT:
            sent = time.monotonic()
            self.assertEqual(other.call("holds", ledger=1, entry=0).name, "yes")
            longest = max(longest, time.monotonic() - sent)
        self.assertIn("did not read its replies", daemon.errors_now())
        self.assertLess(longest, time.monotonic() - begun)
        self.assertLess(daemon.memory(), 64 << 20)
        self.assertRaises(frames.Fault, client.rest)  # a cut one

    def test_slow_reader(self):
        """A client that reads slowly gets everything."""
        daemon = self.daemon("--stall", "2", "--memory", "8")
        client = self.client(daemon)
        self.assertEqual(client.call("add", ledger=1, entry=0, content=bytes(LARGE)).name, "accepted")
        client.write(b"".join(request(it, "read", ledger=1, entry=0) for it in range(2, 32)))
        found = 0
        for _ in range(30):
            time.sleep(0.05)
            found += len(client.next()[1].content)
        self.assertEqual(found, 30 * LARGE)


class Signals(Case):
    """The end of the daemon, and of its server."""

    def loads(self, daemon, count=4):
        loads = [Load(self.client(daemon), ledger) for ledger in range(count)]
        for it in loads:
            it.start()
        self.assertTrue(wait_until(lambda: all(it.flushed for it in loads)))
        return loads

    def joined(self, loads):
        for it in loads:
            it.join(LIMIT)
            self.assertFalse(it.is_alive())
        accepted = {key for it in loads for key in it.accepted}
        return accepted, {key for it in loads for key in it.accepted[: it.flushed]}

    def test_terminate_under_load(self):
        """Everything that was taken is answered, and durable: the directory has what was accepted, and nothing else."""
        for number in (signal.SIGTERM, signal.SIGINT):
            daemon = self.daemon()
            loads = self.loads(daemon)
            idle = self.client(daemon)
            daemon.kill(number)
            daemon.kill(signal.SIGTERM)
            self.assertEqual((daemon.wait(), daemon.socket.exists()), (0, False), daemon.errors_now())
            accepted, _ = self.joined(loads)
            for it in loads:
                self.assertEqual(it.answered, list(range(1, len(it.answered) + 1)))
            self.assertEqual(idle.rest(), [])
            self.assertEqual(self.stored(), accepted)
            shutil.rmtree(self.room / "store")

    def test_hangup(self):
        """SIGHUP changes nothing."""
        daemon = self.daemon()
        client = self.client(daemon)
        daemon.kill(signal.SIGHUP)
        self.assertEqual(client.add(1, b"x"), ["accepted"])
        self.assertEqual(daemon.end(), 0)

    def test_terminate_with_a_stalled_client(self):
        """A client that does not read holds up the end for the time of `--stall` alone."""
        daemon = self.daemon("--stall", "1")
        client = self.client(daemon)
        self.assertEqual(client.call("add", ledger=1, entry=0, content=bytes(LARGE)).name, "accepted")
        client.write(b"".join(request(it, "read", ledger=1, entry=0) for it in range(2, 30)))
        self.assertEqual(client.next()[1].name, "entry")
        self.assertEqual((daemon.end(), self.stored()), (0, {(1, 0)}))
        self.assertIn("did not read its replies", daemon.errors_now())

    def test_server_killed(self):
        """If the server dies the sessions end, the socket is removed, and the status is 1. What was flushed is kept."""
        daemon = self.daemon()
        loads = self.loads(daemon)
        os.kill(daemon.server(), signal.SIGKILL)
        self.assertEqual((daemon.wait(), daemon.socket.exists()), (1, False))
        self.assertIn("bookie daemon: the server ended", daemon.errors_now())
        _, flushed = self.joined(loads)
        self.assertEqual(flushed - self.stored(), set())

    def test_daemon_killed(self):
        """If the daemon is killed its server flushes; the next daemon replaces the socket and finds everything."""
        daemon = self.daemon()
        loads = self.loads(daemon)
        daemon.kill(signal.SIGKILL)
        accepted, _ = self.joined(loads)
        self.assertTrue(daemon.socket.exists())
        client = self.client(self.daemon())
        for ledger, entry in sorted(accepted)[:: max(1, len(accepted) // 100)]:
            self.assertEqual(client.read(ledger, entry), b"x")
