"""A disk over NBD that records each request, with an export for messages and one for jobs: for
./dev power."""

import dataclasses
import queue
import selectors
import socket
import struct
import threading

# Where the guest puts the data of a message, and where it reads its next job: its length, then its
# text. Reads at the front of a disk are of the kernel, which looks for partitions there.
DATA_AT, JOB_AT, TEXT_AT = 1 << 20, 16 << 20, 32 << 20
AREA = 256 << 20
SECTOR = 512

GREETING = b"NBDMAGICIHAVEOPT" + struct.pack(">H", 3)
OPTION, OPTION_ANSWER = 0x49484156454F5054, 0x3E889045565A9
EXPORT_NAME, ABORT, GO = 1, 2, 7
ACK, INFO, UNSUPPORTED = 1, 3, 0x80000001
# The export takes flushes.
FLAGS = 0b101
REQUEST, ANSWER = 0x25609513, 0x67446698
READ, WRITE, DISCONNECT, FLUSH = 0, 1, 2, 3
HEAD = 28


@dataclasses.dataclass(slots=True)
class Write:
    """Bytes that the guest wrote to the data disk."""

    offset: int
    data: bytes


@dataclasses.dataclass(slots=True)
class Flush:
    """A flush of the data disk. It covers the events that were answered before it was asked for."""

    covers: int


@dataclasses.dataclass(slots=True)
class Message:
    """What the guest reports: words, and data."""

    words: list
    data: bytes


class Connection:
    """The guest's connection to one export, and what it sent that is not yet a whole request."""

    def __init__(self, sock):
        self.sock, self.received = sock, bytearray()
        sock.settimeout(60)
        sock.sendall(GREETING)
        self.whole(4)
        self.export = self.options()
        sock.settimeout(None)

    def whole(self, length):
        while len(self.received) < length:
            got = self.sock.recv(1 << 16)
            if not got:
                raise ConnectionError("the guest went away")
            self.received += got
        found = bytes(self.received[:length])
        del self.received[:length]
        return found

    def answer_option(self, option, kind, data=b""):
        self.sock.sendall(struct.pack(">QIII", OPTION_ANSWER, option, kind, len(data)) + data)

    def options(self):
        """Refuses options until the guest chooses an export. Returns its name; the size follows by
        `choose`."""
        while True:
            magic, self.option, length = struct.unpack(">QII", self.whole(16))
            data = self.whole(length)
            if magic != OPTION or self.option in (ABORT, EXPORT_NAME):
                raise ConnectionError("the guest does not know NBD_OPT_GO")
            if self.option == GO:
                (size,) = struct.unpack(">I", data[:4])
                return data[4 : 4 + size].decode()
            self.answer_option(self.option, UNSUPPORTED)

    def choose(self, size):
        self.answer_option(GO, INFO, struct.pack(">HQH", 0, size, FLAGS))
        self.answer_option(GO, INFO, struct.pack(">HIII", 3, SECTOR, 4096, 32 << 20))
        self.answer_option(GO, ACK)

    def take(self):
        """Receives what is there. Returns whether the guest is still there."""
        while True:
            try:
                got = self.sock.recv(1 << 20, socket.MSG_DONTWAIT)
            except BlockingIOError:
                return True
            if not got:
                return False
            self.received += got

    def requests(self):
        """Yields the whole requests: kind, handle, offset, length, data."""
        while len(self.received) >= HEAD:
            magic, _, kind, handle, offset, length = struct.unpack(">IHHQQI", self.received[:HEAD])
            if magic != REQUEST:
                raise ConnectionError("no request of NBD")
            end = HEAD + (length if kind == WRITE else 0)
            if len(self.received) < end:
                return
            data = bytes(self.received[HEAD:end])
            del self.received[:end]
            yield kind, handle, offset, length, data

    def answer(self, handle, data=b""):
        self.sock.sendall(struct.pack(">IIQ", ANSWER, 0, handle) + data)


class Server:
    """Serves the three exports at a Unix socket, in one thread: so all requests have one order.

    `disk` is what the guest reads and writes, `events` what it asked for since `record`.
    """

    def __init__(self, path, size):
        self.size, self.disk, self.events = size, None, []
        self.messages, self.area = queue.Queue(), bytearray()
        self.job, self.text, self.waiting, self.lock = None, b"", [], threading.Lock()
        self.selector = selectors.DefaultSelector()
        self.listener = socket.socket(socket.AF_UNIX)
        self.listener.bind(str(path))
        self.listener.listen(4)
        self.selector.register(self.listener, selectors.EVENT_READ, None)
        self.is_open = True
        self.thread = threading.Thread(target=self.run, daemon=True)
        self.thread.start()

    def record(self, disk):
        """Puts another disk in the place of the one that the guest has; the guest must not use it
        then."""
        self.disk, self.events = disk, []

    def give(self, text):
        """Gives the guest its next job, a script of the shell."""
        with self.lock:
            self.job = text.encode()
            for connection, handle in self.waiting:
                connection.answer(handle, self.take_job())
            self.waiting = []

    def take_job(self):
        """Returns the length of the job that waits. The guest reads its text next."""
        self.text, self.job = self.job, None
        return str(len(self.text)).encode().ljust(4096)

    def close(self):
        self.is_open = False
        self.thread.join(5)
        for key in list(self.selector.get_map().values()):
            key.fileobj.close()
        self.selector.close()

    def run(self):
        while self.is_open:
            for key, _ in self.selector.select(0.2):
                try:
                    self.accept() if key.data is None else self.serve(key.data)
                except OSError:
                    self.forget(key)

    def accept(self):
        connection = Connection(self.listener.accept()[0])
        connection.choose(self.size if connection.export == "data" else AREA)
        self.selector.register(connection.sock, selectors.EVENT_READ, connection)

    def forget(self, key):
        if key.data is not None:
            self.selector.unregister(key.fileobj)
            key.fileobj.close()

    def serve(self, connection):
        if not connection.take():
            raise ConnectionError("the guest went away")
        # A flush covers what was answered before it came. Requests that came with it are not yet.
        answered, answers = len(self.events), []
        for kind, handle, offset, length, data in connection.requests():
            if kind == DISCONNECT:
                raise ConnectionError("the guest went away")
            answer = getattr(self, f"on_{connection.export}")(kind, offset, length, data, answered)
            if answer is None:
                answer = self.wait(connection, handle)
            if answer is not None:
                answers.append((handle, answer))
        for handle, answer in answers:
            connection.answer(handle, answer)

    def on_data(self, kind, offset, length, data, answered):
        if kind == READ:
            return self.disk.read(offset, length)
        if kind == WRITE:
            self.disk.write(offset, data)
            self.events.append(Write(offset, data))
        elif kind == FLUSH:
            self.events.append(Flush(answered))
        return b""

    def on_messages(self, kind, offset, length, data, answered):
        if kind == READ:
            return bytes(length)
        if kind == WRITE and offset >= DATA_AT:
            at = offset - DATA_AT
            self.area.extend(bytes(max(0, at + length - len(self.area))))
            self.area[at : at + length] = data
        elif kind == WRITE and offset == 0:
            size, *words = data.rstrip(b"\0 \n").decode().split()
            message = Message(words, bytes(self.area[: int(size)]))
            self.events.append(message)
            self.messages.put(message)
        return b""

    def on_jobs(self, kind, offset, length, data, answered):
        """A read of the next job's length waits until there is a job, and takes it."""
        if kind != READ:
            return b""
        if offset == JOB_AT:
            return None
        at = offset - TEXT_AT
        return (self.text[at : at + length] if at >= 0 else b"").ljust(length, b"\0")

    def wait(self, connection, handle):
        with self.lock:
            if self.job is None:
                self.waiting.append((connection, handle))
                return None
            return self.take_job()
