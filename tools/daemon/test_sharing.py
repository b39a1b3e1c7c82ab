"""Tests of the daemon: several clients at once, and what one may do at most."""

import os
import signal

from daemons import LIMIT, Case, Load, Programs, frames
from bookie import Bookie  # noqa: E402


class Sharing(Case):
    """Several clients at once."""

    def test_ids(self):
        """Each client sees its own ids, in the order of its adds, whatever the others send."""
        daemon, count = self.daemon(), 150
        clients = [self.client(daemon) for _ in range(4)]
        for at, client in enumerate(clients):
            client.id = 1000 * at
        for entry in range(count):
            for ledger, client in enumerate(clients):
                client.send("add", ledger=ledger, entry=entry, content=b"%d" % ledger)
        numbers = []
        for at, client in enumerate(clients):
            replies = [client.next() for _ in range(count)]
            self.assertEqual([id for id, _ in replies], list(range(1000 * at + 1, 1000 * at + count + 1)))
            self.assertEqual({reply.name for _, reply in replies}, {"accepted"})
            mine = [reply.number for _, reply in replies]
            self.assertEqual(mine, sorted(mine))
            numbers += mine
            self.assertEqual(client.read(at, 7), b"%d" % at)
        self.assertEqual(sorted(numbers), list(range(4 * count)))

    def test_changes_in_order(self):
        """The changes of a client that are sent ahead take effect in their order."""
        client = self.client(self.daemon())
        key = {"ledger": 1, "entry": 0}
        calls = [("add", {**key, "content": b"x"}), ("fence", {"ledger": 1}), ("add", {**key, "entry": 1, "content": b"x"})]
        calls += [("delete", {"ledger": 1}), ("add_recovery", {**key, "entry": 2, "content": b"x"}), "flush", "close"]
        names = [it.name for it in client.together(*calls)]
        self.assertEqual(names, ["accepted", "fenced_now", "fenced", "dropped", "deleted", "flushed", "closed"])

    def test_effect_for_others(self):
        """A request sees each change of another client that was answered before it was sent."""
        daemon = self.daemon()
        one, other = self.client(daemon), self.client(daemon)
        for entry in range(50):
            self.assertEqual(one.add(1, b"%d" % entry, first=entry), ["accepted"])
            self.assertEqual(other.read(1, entry), b"%d" % entry)
        self.assertEqual(other.add(1, b"again"), ["held"])

    def test_flush_covers_others(self):
        """What any client was answered `accepted` for is durable after the flush of another one."""
        daemon = self.daemon()
        one, other = self.client(daemon), self.client(daemon)
        self.assertEqual(one.add(1, b"x", b"y"), ["accepted"] * 2)
        self.assertEqual(other.call("flush").name, "flushed")
        os.kill(daemon.server(), signal.SIGKILL)
        self.assertEqual(daemon.wait(), 1)
        self.assertEqual(self.stored(), {(1, 0), (1, 1)})


class Limits(Case):
    """What a client may do at most."""

    def test_welcome(self):
        """Each client has the limits of the server."""
        daemon = self.daemon()
        one, other = self.connected(daemon).hello(), self.connected(daemon).hello()
        self.assertEqual((one, one.version, one.largest), (other, 1, frames.LARGEST))

    def test_clients(self):
        """A client too many is refused by `in_use`, until another one has ended."""
        daemon = self.daemon("--clients", "2")
        one, _ = self.client(daemon), self.client(daemon)
        self.assertEqual(self.connected(daemon).hello().name, "in_use")
        self.assertEqual(one.call("close").name, "closed")
        one.kill()
        with Bookie.connect(daemon.socket) as bookie:
            self.assertEqual(bookie.stats().logs, 0)

    def test_fairness(self):
        """A client that sends as much as it can leaves room for another one."""
        daemon = self.daemon()
        busy, other = self.client(daemon), self.client(daemon)
        load = Load(busy, 1)
        load.start()
        for entry in range(100):
            self.assertEqual(other.add(2, b"x", first=entry), ["accepted"])
        self.assertEqual(daemon.end(), 0)
        load.join(LIMIT)

    def test_no_hello(self):
        """A client that does not say hello in time is ended."""
        client = self.connected(self.daemon("--stall", "1"))
        self.assertEqual(client.rest(), [])

    def test_largest_frames(self):
        """Frames of the greatest length pass."""
        client, content = self.client(self.daemon("--memory", "1")), bytes(Programs.large())
        self.assertEqual(client.add(1, content, content), ["accepted"] * 2)
        self.assertEqual([it.name for it in client.together(*[("read", {"ledger": 1, "entry": 0})] * 3)], ["entry"] * 3)
