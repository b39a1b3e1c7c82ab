"""Tests of the daemon: where it listens, its command line, and its metrics."""

import socket
import stat
import subprocess
import urllib.request

import daemons
import text_format
from daemons import LIMIT, Case, Programs, wait_until
from bookie import Bookie  # noqa: E402


class Sockets(Case):
    """Where it listens."""

    def refused(self, *options, status, **how):
        daemon = self.start(*options, **how)
        self.assertEqual(daemon.wait(), status)
        return daemon.errors_now()

    def test_mode(self):
        """The mode of the socket's file."""
        for words, mode in (((), 0o600), (("--mode", "0660"), 0o660)):
            daemon = self.daemon(*words)
            found = daemon.socket.stat()
            self.assertEqual((stat.S_ISSOCK(found.st_mode), stat.S_IMODE(found.st_mode)), (True, mode))
            self.assertEqual(daemon.end(), 0)

    def test_answering_socket(self):
        """A socket of another daemon, and a file that is none, are refused by name and left alone."""
        with socket.socket(socket.AF_UNIX) as other:
            path = self.room / "socket"
            other.bind(str(path))
            other.listen()
            self.assertIn(f"{path}: another daemon answers", self.refused(status=1))
            self.assertTrue(path.exists())
        path.unlink()
        path.write_text("text")
        self.assertIn(f"{path}: the file exists and is not a socket", self.refused(status=1))
        self.assertEqual(path.read_text(), "text")

    def test_directory_in_use(self):
        """A directory that another server has is refused after a while; no socket is left."""
        first = self.daemon()
        room = self.room / "second"
        room.mkdir()
        (room / "store").symlink_to(self.room / "store")
        second = daemons.Daemon(room, "--wait", "1")
        self.addCleanup(second.clean)
        self.assertEqual((second.wait(), second.socket.exists()), (1, False))
        self.assertIn("the server did not open the directory: in_use", second.errors_now())
        self.assertEqual(first.end(), 0)

    def test_tcp(self):
        """TCP at a loopback address, at others only if that is asked for."""
        with socket.create_server(("127.0.0.1", 0)) as free:
            port = free.getsockname()[1]
        daemon = self.daemon("--listen", f"127.0.0.1:{port}", listens=False)
        client = self.client(daemon, ("127.0.0.1", port))
        self.assertEqual(client.add(1, b"x"), ["accepted"])
        with Bookie.connect(("127.0.0.1", port)) as bookie:
            self.assertEqual(bookie.read(1, 0), b"x")
        self.assertEqual((daemon.end(), client.rest()), (0, []))
        self.assertIn("say --public", self.refused("--listen", f"0.0.0.0:{port}", status=2, listens=False))
        daemon = self.daemon("--listen", f"0.0.0.0:{port}", "--public", listens=False)
        self.assertEqual(self.client(daemon, ("127.0.0.1", port)).read(1, 0), b"x")

    def test_words(self):
        """A wrong command line has the status 2."""
        for words in (["--stall", "0"], ["--mode", "8"], ["--nothing", "1"], ["second"], ["--socket"], ["--listen", "x"]):
            self.assertIn("--help", self.refused(*words, status=2))
        self.assertIn("neither --socket nor --listen", self.refused(status=2, listens=False))
        told = subprocess.run([Programs.daemon, "--help"], capture_output=True, text=True)
        self.assertEqual((told.returncode, told.stdout[:13]), (0, "bookie daemon"))


class Metrics(Case):
    """What it counts."""

    def value(self, samples, name, **labels):
        return samples[name, frozenset(labels.items())]

    def check(self, text):
        samples, kinds = text_format.parse(text)
        self.assertEqual(kinds["bookie_daemon_request_seconds"], "histogram")
        value = lambda name, **labels: self.value(samples, name, **labels)  # noqa: E731
        self.assertEqual((value("bookie_daemon_clients"), value("bookie_daemon_connections_total")), (1, 2))
        self.assertEqual(value("bookie_daemon_requests_total", call="add"), 3)
        self.assertEqual(value("bookie_daemon_requests_total", call="close"), 1)
        self.assertEqual(value("bookie_daemon_request_seconds_count", call="add"), 3)
        self.assertEqual(value("bookie_daemon_refusals_total", status="negative"), 1)
        self.assertEqual(value("bookie_daemon_sessions_ended_total", reason="closed"), 1)
        self.assertGreater(value("bookie_daemon_received_bytes_total"), 100)
        self.assertGreater(value("bookie_daemon_sent_bytes_total"), 100)
        self.assertEqual((value("bookie_store_answered"), value("bookie_store_front")), (1, 2))
        self.assertEqual((value("bookie_store_durable"), value("bookie_store_failures")), (2, 0))
        self.assertLess(len(samples), 600)

    def use(self, daemon):
        """Has one client that has closed and one that is connected."""
        self.assertEqual(self.client(daemon).call("holds", ledger=1, entry=0).name, "no")
        client = self.client(daemon)
        self.assertEqual(client.add(1, b"x", b"y"), ["accepted"] * 2)
        self.assertEqual(client.call("add", ledger=2**63, entry=0, content=b"").name, "negative")
        self.assertEqual(client.call("close").name, "closed")

    def test_port(self):
        """The metrics over HTTP."""
        with socket.create_server(("127.0.0.1", 0)) as free:
            place = f"http://127.0.0.1:{free.getsockname()[1]}"
        daemon = self.daemon("--metrics", place.rpartition(":")[2])
        self.use(daemon)
        read = lambda: urllib.request.urlopen(f"{place}/metrics", timeout=LIMIT)  # noqa: E731
        ended = "bookie_daemon_clients 1\n"
        self.assertTrue(wait_until(lambda: ended in read().read().decode()))
        with read() as answer:
            self.assertEqual(answer.headers["Content-Type"], "text/plain; version=0.0.4; charset=utf-8")
            self.check(answer.read().decode())
        with self.assertRaises(urllib.error.HTTPError) as raised:
            urllib.request.urlopen(f"{place}/other", timeout=LIMIT)
        self.assertEqual(raised.exception.code, 404)
        raised.exception.close()

    def test_file(self):
        """The metrics in a file, which is replaced."""
        path = self.room / "metrics.prom"
        self.daemon("--metrics", path)
        self.assertTrue(wait_until(path.exists))
        samples, _ = text_format.parse(path.read_text())
        self.assertEqual(self.value(samples, "bookie_daemon_clients"), 0)
        self.assertEqual(sorted(it.name for it in self.room.iterdir()), ["metrics.prom", "socket", "store"])
