"""What the tests of the daemon use: daemons as processes, and clients that speak frame by frame."""

import shlex
import shutil
import signal
import socket
import subprocess
import sys
import tempfile
import threading
import unittest
from pathlib import Path

HERE = Path(__file__).resolve().parent
TOP = HERE.parent.parent
sys.path[:0] = [str(TOP / "bindings" / "python"), str(TOP / "tools" / "programs")]
sys.dont_write_bytecode = True

import frames  # noqa: E402
import session  # noqa: E402
from bookie import Bookie  # noqa: E402
from kit import LIMIT, wait_until  # noqa: E402


class Programs:
    """The daemon, the command of the server, and the directory below which the tests work."""

    daemon = server = room = None

    @classmethod
    def large(cls):
        """Bytes of a large entry: the most, or fewer for a server that is not proved, which is slow."""
        return 200_000 if "unproved" in cls.server else 4_999_984


def request(id, name, **fields):
    return frames.encode(frames.BY_NAME[name], id, fields)


def hello(**fields):
    return request(0, "hello", **{"magic": frames.MAGIC, "lowest": 1, "highest": 1, **fields})


def add(id, ledger, entry, content=b"x"):
    return request(id, "add", ledger=ledger, entry=entry, content=content)


class Client(session.Session):
    """A connection to a daemon, frame by frame. Ids rise from 1 on; hello has 0."""

    def __init__(self, address, limit=LIMIT):
        family = socket.AF_INET if isinstance(address, tuple) else socket.AF_UNIX
        self.socket = socket.socket(family)
        self.socket.connect(address if isinstance(address, tuple) else str(address))
        self.output, self.limit = session.Output(self.socket, limit), limit
        self.id, self.early = 0, {}

    def write(self, data):
        self.socket.sendall(data)

    def errors_now(self):
        return "the daemon has ended the session"

    def half_close(self):
        self.socket.shutdown(socket.SHUT_WR)

    def each(self):
        """Yields id and message of each frame up to the end."""
        try:
            while (frame := self.next()) is not None:
                yield frame
        except ConnectionResetError:
            pass  # the end, of a daemon that has left requests unread

    def rest(self):
        return list(self.each())

    def kill(self):
        self.socket.close()


class Daemon:
    """A daemon and its directory."""

    def __init__(self, room, *options, server_options=(), listens=True):
        self.room, self.socket = room, room / "socket"
        self.errors = tempfile.TemporaryFile()
        words = [Programs.daemon, room / "store", "--server", Programs.server, *(["--socket", self.socket] if listens else [])]
        words += [*options, *(["--", *server_options] if server_options else [])]
        # A group of its own, so that the tests can end what a killed daemon leaves.
        how = {"stdin": subprocess.DEVNULL, "stderr": self.errors, "start_new_session": True}
        self.process = subprocess.Popen([str(it) for it in words], **how)

    def is_serving(self):
        """Whether it serves; it may have ended instead."""
        return "serving" in self.errors_now() or self.process.poll() is not None

    def errors_now(self):
        self.errors.seek(0)
        return self.errors.read().decode(errors="replace")

    def server(self):
        """The process id of the server."""
        task = Path(f"/proc/{self.process.pid}/task/{self.process.pid}/children")
        return int(task.read_text().split()[0])

    def memory(self):
        """The greatest number of bytes that the daemon had in memory so far."""
        lines = Path(f"/proc/{self.process.pid}/status").read_text().splitlines()
        return 1024 * next(int(it.split()[1]) for it in lines if it.startswith("VmHWM:"))

    def kill(self, number=signal.SIGTERM):
        self.process.send_signal(number)

    def wait(self):
        return self.process.wait(LIMIT)

    def end(self, number=signal.SIGTERM):
        """Ends it by a signal. Returns its exit status."""
        self.kill(number)
        return self.wait()

    def clean(self):
        if self.process.poll() is None:
            self.process.kill()
        self.process.wait()
        self.errors.close()


class Load(threading.Thread):
    """A client that adds and flushes until its session ends. It keeps what was answered, and how many of the accepted
    entries are durable."""

    def __init__(self, client, ledger):
        super().__init__(daemon=True)
        self.client, self.ledger = client, ledger
        self.accepted, self.flushed, self.answered, self.sent = [], 0, [], 0

    def send_all(self):
        try:
            while True:
                self.sent += 1
                is_flush = self.sent % 50 == 0
                self.client.write(request(self.sent, "flush") if is_flush else add(self.sent, self.ledger, self.sent))
        except OSError:
            pass  # the daemon reads no more

    def run(self):
        threading.Thread(target=self.send_all, daemon=True).start()
        for id, reply in self.client.each():
            self.answered.append(id)
            if reply.name == "accepted":
                self.accepted.append((self.ledger, id))
            elif reply.name == "flushed":
                self.flushed = len(self.accepted)


class Case(unittest.TestCase):
    """A test with a directory of its own."""

    def setUp(self):
        self.room = Path(tempfile.mkdtemp(dir=Programs.room))
        self.addCleanup(shutil.rmtree, self.room, ignore_errors=True)

    def start(self, *options, **how):
        """Starts a daemon, and waits until it serves or has ended."""
        daemon = Daemon(self.room, *options, **how)
        self.addCleanup(daemon.clean)
        self.assertTrue(wait_until(daemon.is_serving), daemon.errors_now())
        return daemon

    def daemon(self, *options, **how):
        daemon = self.start(*options, **how)
        self.assertIsNone(daemon.process.poll(), daemon.errors_now())
        return daemon

    def connected(self, daemon, address=None):
        """Returns a client that has not said hello."""
        client = Client(address or daemon.socket)
        self.addCleanup(client.kill)
        return client

    def client(self, daemon, address=None):
        client = self.connected(daemon, address)
        self.assertEqual(client.hello().name, "welcome")
        return client

    def stored(self):
        """The entries of all ledgers, which a server finds in the directory after the daemon."""
        with Bookie([*shlex.split(Programs.server), str(self.room / "store")], wait=LIMIT) as bookie:
            return {(ledger, entry) for ledger in bookie.ledgers() for entry in bookie.entries(ledger)}
