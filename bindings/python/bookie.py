"""Client of `bk_serve`: one directory, served by a child process, or by a daemon (`Bookie.connect`).

    with Bookie(["bk_serve", "/var/bookie"]) as bookie:
        receipt = bookie.add(1, 0, b"hello")
        sent = [bookie.send("add", ledger=1, entry=e, content=b"x") for e in range(1, 1000)]
        for reply in sent:
            reply.result()          # a Message; a refusal raises Refused
        bookie.flush()              # everything accepted so far is durable
        assert bookie.read(1, 0) == b"hello"

Requests may be sent ahead, from any thread: `send` returns a future. Each other method waits.

`accepted` is worth memory: what is not flushed is lost if the server is killed. README.md, Signals, says what ends it.
"""

import os
import socket
import subprocess
import threading
import time
from concurrent.futures import Future
from typing import NamedTuple

import frames

# Seconds before a directory that is in use is opened again: the first pause, each twice the one before, and the longest.
PAUSE, LONGEST = 0.05, 1
# Replies that make each entry durable whose add was sent before their request.
FLUSHED = ("flushed", "durable", "sealed", "nothing_open", "closed")
FLUSHES = ("flush", "checkpoint", "seal", "close")


class Refused(Exception):
    """The server refused a request. `name` is the refusal, and `reply` has its fields."""

    def __init__(self, reply):
        fields = " ".join(str(value) for value in reply.fields.values())
        super().__init__(f"{reply.name} {fields}".strip())
        self.name, self.reply = reply.name, reply


class Ended(Exception):
    """The session has ended: the server stopped, was killed, or met a fault of a frame."""


class Receipt(NamedTuple):
    """Evidence that an entry was accepted."""

    number: int
    ledger: int
    entry: int
    digest: bytes


class Unflushed:
    """Counts the entries that were accepted and that no answered flush covers, by the ids of requests."""

    def __init__(self):
        # Accepted: all, and those sent after the flush that was sent last. The greatest ids: of an accepted add, of an
        # answered flush, and of a flush that was sent.
        self._all = self._after = self._accepted = self._covered = self._flush = 0

    def sent(self, id, name):
        if name in FLUSHES:
            self._flush, self._after = id, 0

    def answered(self, id, name):
        if name == "accepted":
            self._accepted = max(self._accepted, id)
            self._all += id > self._covered
            self._after += id > self._flush
        elif name in FLUSHED:
            self._covered = max(self._covered, id)
            if id == self._flush:
                self._all = self._after

    def count(self):
        """Returns how many, or more while a later flush has no answer."""
        return self._all if self._accepted > self._covered else 0


class Output:
    """What is written to a connection."""

    def __init__(self, connection):
        self._connection, self.write = connection, connection.sendall

    def flush(self):
        pass

    def close(self):
        self._connection.shutdown(socket.SHUT_WR)


class Connection:
    """A connection to a daemon, in the place of the process of a server."""

    def __init__(self, address):
        if isinstance(address, tuple):
            self._socket = socket.create_connection(address)
            self._socket.setsockopt(socket.IPPROTO_TCP, socket.TCP_NODELAY, 1)
        else:
            self._socket = socket.socket(socket.AF_UNIX)
            self._socket.connect(os.fspath(address))
        self.stdin, self.stdout = Output(self._socket), self._socket.makefile("rb")

    def kill(self):
        try:
            self._socket.shutdown(socket.SHUT_RDWR)
        except OSError:
            pass  # it has ended

    def wait(self):
        """Returns 0: the connection has no exit status."""
        self._socket.close()  # the file that is read keeps it until that is closed
        return 0


class Bookie:
    """A session.

    `command` is the program and its arguments. While another process has the directory, as a predecessor that still
    flushes, the session is opened again for `wait` seconds; then `Refused` has the name `in_use`. `options` are those of
    `subprocess.Popen`. The server gets a session of the system of its own, so that a signal to the group of this process,
    as ^C sends, does not end it before this client closes.
    """

    def __init__(self, command, wait=10, **options):
        options.setdefault("start_new_session", True)
        if not is_open(2):
            # Else a file of the directory would be the server's error stream.
            options.setdefault("stderr", subprocess.DEVNULL)
        self._open_within(wait, lambda: subprocess.Popen(command, stdin=subprocess.PIPE, stdout=subprocess.PIPE, **options))

    @classmethod
    def connect(cls, address, wait=10):
        """Opens a session with a daemon (../../tools/daemon), by the path of its socket or by a host and a port.

        The calls are the same. `close` flushes and ends this session, not the server, and so does `kill`, which does not
        wait. Both return 0. A daemon that has as many clients as it takes is `in_use`, and is tried again for `wait` seconds.
        """
        self = cls.__new__(cls)
        self._open_within(wait, lambda: Connection(address))
        return self

    def _open_within(self, wait, start):
        until, pause = time.monotonic() + wait, PAUSE
        while True:
            try:
                return self._open(start())
            except Refused as refused:
                if refused.name != "in_use" or time.monotonic() + pause > until:
                    raise
            time.sleep(pause)
            pause = min(2 * pause, LONGEST)

    def _open(self, process):
        self.process = process
        # The reader takes `_lock` alone, which nobody holds while a write blocks: so replies are always read.
        self._lock, self._writing = threading.Lock(), threading.Lock()
        self._waiting, self._last, self._why = {}, 0, None
        self._unflushed, self._is_closed = Unflushed(), False
        self._room = threading.BoundedSemaphore(1)
        self._reader = threading.Thread(target=self._read_all, daemon=True)
        self._reader.start()
        try:
            self.limits = self._call("hello", magic=frames.MAGIC, lowest=frames.VERSION, highest=frames.VERSION)
        except BaseException:
            self.kill()
            raise
        self._room = threading.BoundedSemaphore(self.limits.in_flight)

    # ---- requests and replies

    def send(self, name, **fields):
        """Sends a request. Returns the future of its reply. Blocks while `in_flight` are unanswered.

        What was sent is carried out: the future cannot be cancelled. Who waits for it may be, as by `asyncio.wait_for`.
        """
        future, room = Future(), self._room
        future.set_running_or_notify_cancel()
        room.acquire()
        future.add_done_callback(lambda _: room.release())
        with self._writing:
            with self._lock:
                why, id = self._why, self._last + 1
                if why is None:
                    try:
                        frame = frames.encode(frames.BY_NAME[name], id, fields)
                    except BaseException as error:
                        future.set_exception(error)
                        raise
                    self._last, self._waiting[id] = id, future
                    self._unflushed.sent(id, name)
            if why is not None:
                future.set_exception(Ended(why))
                return future
            try:
                self.process.stdin.write(frame)
                self.process.stdin.flush()
            except OSError:
                pass  # the reader meets the end of the output and fails what is waiting
            except BaseException:
                self._end_input()  # a signal's handler raised amid the frame: the server ends in order
                raise
        return future

    def _call(self, name, **fields):
        return self.send(name, **fields).result()

    def _read_all(self):
        why = "the server ended"
        try:
            while (frame := frames.read_frame(self.process.stdout)) is not None:
                id, body = frame
                reply = frames.decode(frames.STATUSES, body)
                if reply.name in frames.ENDED:
                    why = str(Refused(reply))
                    break
                with self._lock:
                    future = self._waiting.pop(id, None)
                    self._unflushed.answered(id, reply.name)
                if future is None:
                    why = f"reply to no request: {id}"
                    break
                if reply.name in frames.REFUSED:
                    future.set_exception(Refused(reply))
                else:
                    future.set_result(reply)
        except (OSError, ValueError, frames.Fault) as error:
            why = str(error)
        with self._lock:
            self._why, left = why, list(self._waiting.values())
            self._waiting.clear()
        for future in left:
            future.set_exception(Ended(why))

    # ---- entries

    def add(self, ledger, entry, content, recovery=False):
        """Adds an entry. Returns its receipt, or None if the store already has an entry of this key."""
        name = "add_recovery" if recovery else "add"
        return receipt_of(ledger, entry, self._call(name, ledger=ledger, entry=entry, content=content))

    def read(self, ledger, entry):
        """Returns the content of an entry, or None if there is no such entry."""
        reply = self._call("read", ledger=ledger, entry=entry)
        return reply.content if reply.name == "entry" else None

    def read_last(self, ledger):
        """Returns the greatest entry id of a ledger and the content of that entry, or None."""
        reply = self._call("read_last", ledger=ledger)
        return (reply.entry, reply.content) if reply.name == "entry" else None

    def read_back(self, receipt):
        """Returns the content of the entry of a receipt."""
        reply = self._call("read_back", **receipt._asdict())
        return reply.content if reply.name == "entry" else None

    def last_entry(self, ledger):
        """Returns the greatest entry id of a ledger, or None."""
        reply = self._call("last_entry", ledger=ledger)
        return reply.entry if reply.name == "last" else None

    def holds(self, ledger, entry):
        """Returns whether the store has an entry."""
        return self._call("holds", ledger=ledger, entry=entry).name == "yes"

    def entries(self, ledger, start=0):
        """Yields the entry ids of a ledger from `start` on, rising."""
        return self._pages("entries", start, ledger=ledger)

    def ledgers(self, start=0):
        """Yields the ids of the ledgers that have entries from `start` on, rising."""
        return self._pages("ledgers", start)

    def _pages(self, name, start, **fields):
        while ids := self._call(name, **{"from": start}, most=self.limits.page, **fields).ids:
            page = [int.from_bytes(ids[i : i + 8], "big") for i in range(0, len(ids), 8)]
            yield from page
            start = page[-1] + 1

    # ---- ledgers

    def fence(self, ledger):
        """Fences a ledger. Returns whether it was not fenced before."""
        return self._call("fence", ledger=ledger).name == "fenced_now"

    def is_fenced(self, ledger):
        return self._call("is_fenced", ledger=ledger).name == "yes"

    def delete(self, ledger):
        """Deletes a ledger. Returns how many entries it had."""
        return self._call("delete", ledger=ledger).entries

    def set_master_key(self, ledger, key):
        self._call("set_master_key", ledger=ledger, key=key)

    def master_key(self, ledger):
        reply = self._call("master_key", ledger=ledger)
        return reply.value if reply.name == "attribute" else None

    def set_explicit_lac(self, ledger, lac):
        self._call("set_explicit_lac", ledger=ledger, lac=lac)

    def explicit_lac(self, ledger):
        reply = self._call("explicit_lac", ledger=ledger)
        return reply.value if reply.name == "attribute" else None

    # ---- store

    def flush(self):
        """Makes everything that was accepted durable. Returns how many entries this published."""
        return self._call("flush").entries

    def checkpoint(self):
        """Flushes. Returns the number of marks of the trail that are durable."""
        return self._call("checkpoint").front

    def compact(self, minor=0, major=0):
        """Compacts the logs whose live share is below the server's thresholds. Returns `logs` removed, `entries` copied.

        `minor` and `major` are these thresholds in thousandths, 200 and 800 unless the server has others. 0 omits a kind,
        and any other number is refused by `out_of_range`.
        """
        return self._call("compact", minor=minor, major=major)

    def stats(self):
        return self._call("stats")

    def seal(self):
        """Flushes and seals the open log. Returns its id, or None if no log is open."""
        reply = self._call("seal")
        return reply.log if reply.name == "sealed" else None

    # ---- end

    @property
    def unflushed(self):
        """How many entries were accepted that may be in memory alone: no flush that was sent later is answered."""
        with self._lock:
            return self._unflushed.count()

    def close(self):
        """Flushes and ends the session. If it returns, everything that was accepted is durable.

        Returns the exit status of the server. If the flush fails, the session ends too, and `Refused` is raised, which
        names why. If the session had ended before, or ends meanwhile, `Ended` is raised, which says how many entries may
        be lost. After `close` or `kill` a call does nothing but return the status.
        """
        if self._is_closed:
            return self._end()
        self._is_closed = True
        try:
            self._call("close")
        except Ended as ended:
            raise Ended(f"{ended}; accepted and not flushed: {self.unflushed}") from None
        finally:
            status = self._end()
        return status

    def kill(self):
        """Ends the server at once, as a crash does. What was accepted and not flushed is lost."""
        self._is_closed = True
        self.process.kill()
        return self._end()

    def _end_input(self):
        try:
            self.process.stdin.close()
        except OSError:
            pass

    def _end(self):
        self._end_input()
        status = self.process.wait()
        self._reader.join()
        self.process.stdout.close()
        return status

    def __enter__(self):
        return self

    def __exit__(self, *_):
        self.close()


def receipt_of(ledger, entry, reply):
    """Returns the receipt of a reply to an add, or None if the entry was held."""
    return Receipt(reply.number, ledger, entry, reply.digest) if reply.name == "accepted" else None


def is_open(file):
    try:
        os.fstat(file)
        return True
    except OSError:
        return False
