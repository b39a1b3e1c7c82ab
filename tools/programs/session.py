"""A session of the server, frame by frame: what is sent and what is answered, in any order."""

import os
import select
import subprocess
import tempfile
import threading
import time

import frames


class Silence(AssertionError):
    """The server did not answer in time."""


class Output:
    """The output of a process, read with a limit of time."""

    def __init__(self, file, limit):
        self.file, self.limit = file, limit

    def read(self, count):
        """Returns so many bytes, or fewer at the end."""
        found, end = b"", time.monotonic() + self.limit
        while len(found) < count:
            if not select.select([self.file], [], [], max(0, end - time.monotonic()))[0]:
                raise Silence(f"{len(found)} of {count} bytes in {self.limit} seconds")
            piece = os.read(self.file.fileno(), count - len(found))
            if not piece:
                break
            found += piece
        return found


class Session:
    """A server and the requests sent to it. Their ids rise from 1 on; hello has 0."""

    def __init__(self, words, limit, more=None):
        self.errors = tempfile.TemporaryFile()
        how = {"stdin": subprocess.PIPE, "stdout": subprocess.PIPE, "stderr": self.errors}
        self.process = subprocess.Popen(words, env={**os.environ, **(more or {})}, bufsize=0, **how)
        self.output, self.limit = Output(self.process.stdout, limit), limit
        self.id, self.early = 0, {}

    def frame(self, name, **fields):
        """Returns the bytes of a request with the next id, and that id."""
        self.id += 1
        return frames.encode(frames.BY_NAME[name], self.id, fields), self.id

    def write(self, data):
        """Writes bytes to the server; a pipe takes them in pieces."""
        view = memoryview(data)
        while view:
            view = view[self.process.stdin.write(view) :]

    def send(self, name, **fields):
        """Sends a request, and returns its id."""
        data, id = self.frame(name, **fields)
        self.write(data)
        return id

    def next(self):
        """Returns id and message of the next frame; None at the end of the output."""
        found = frames.read_frame(self.output)
        return found and (found[0], frames.decode(frames.STATUSES, found[1]))

    def reply(self, id):
        """Returns the reply to a request; those that come earlier are kept."""
        while id not in self.early:
            found = self.next()
            if found is None:
                raise AssertionError(
                    f"the output ended before the reply to {id}: {self.errors_now()}"
                )
            self.early[found[0]] = found[1]
        return self.early.pop(id)

    def hello(self):
        fields = {"magic": frames.MAGIC, "lowest": 1, "highest": 1}
        self.write(frames.encode(frames.BY_NAME["hello"], 0, fields))
        return self.reply(0)

    def call(self, name, **fields):
        return self.reply(self.send(name, **fields))

    def together(self, *calls):
        """Sends calls ahead, each a name or a pair of name and fields. Returns the replies.

        A thread writes, since a server leaves input unread while its replies are."""
        calls = [(it, {}) if isinstance(it, str) else it for it in calls]
        made = [self.frame(name, **fields) for name, fields in calls]
        writer = threading.Thread(
            target=self.write, args=[b"".join(data for data, _ in made)], daemon=True
        )
        writer.start()
        found = [self.reply(id) for _, id in made]
        writer.join()
        return found

    def add(self, ledger, *contents, first=0):
        """Adds entries to a ledger, sent ahead. Returns the names of the replies."""
        calls = [
            ("add", {"ledger": ledger, "entry": entry, "content": content})
            for entry, content in enumerate(contents, first)
        ]
        return [it.name for it in self.together(*calls)]

    def read(self, ledger, entry):
        """Returns the content of an entry, or the name of the refusal."""
        found = self.call("read", ledger=ledger, entry=entry)
        return found.content if found.name == "entry" else found.name

    def end(self):
        """Closes the input and returns the exit status."""
        try:
            self.process.stdin.close()
        except BrokenPipeError:
            pass
        self.output.read(1 << 30)
        return self.process.wait(self.limit)

    def errors_now(self):
        """The error stream so far."""
        self.errors.seek(0)
        return self.errors.read().decode(errors="replace")

    def kill(self):
        if self.process.poll() is None:
            self.process.kill()
        self.process.wait()
        for it in (self.process.stdin, self.process.stdout, self.errors):
            try:
                it.close()
            except BrokenPipeError:
                pass
