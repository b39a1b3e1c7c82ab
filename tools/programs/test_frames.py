"""Frames in pieces, several in one write, and reads that are interrupted: the server answers the
same."""

import subprocess
import time
import unittest

import device
import frames
import kit
import log_files

# A session with an answer of each sort: its requests, and the statuses of the replies.
REQUESTS = [
    ("add", {"ledger": 1, "entry": 0, "content": b"hello"}),
    ("add", {"ledger": 1, "entry": 1, "content": b""}),
    ("add", {"ledger": 1, "entry": 0, "content": b"other"}),
    ("read", {"ledger": 1, "entry": 0}),
    ("set_master_key", {"ledger": 1, "key": b"key"}),
    ("flush", {}),
    ("read", {"ledger": 1, "entry": 1}),
    ("fence", {"ledger": 1}),
    ("add", {"ledger": 1, "entry": 2, "content": b"late"}),
    ("entries", {"ledger": 1, "from": 0, "most": 10}),
    ("delete", {"ledger": 2}),
    ("add", {"ledger": 3, "entry": 7, "content": b"z" * 3000}),
    ("read_last", {"ledger": 3}),
    ("stats", {}),
    ("close", {}),
]
STATUSES = ["welcome", "accepted", "accepted", "held", "entry", "stored", "flushed", "entry"]
STATUSES += ["fenced_now", "fenced", "page", "dropped", "accepted", "entry", "figures", "closed"]
WANTED = {(1, 0): b"hello", (1, 1): b"", (3, 7): b"z" * 3000}


def session_bytes():
    """Returns the frames of the session, hello first."""
    hello = {"magic": frames.MAGIC, "lowest": 1, "highest": 1}
    found = [frames.encode(frames.BY_NAME["hello"], 0, hello)]
    for id, (name, fields) in enumerate(REQUESTS, 1):
        found.append(frames.encode(frames.BY_NAME[name], id, fields))
    return found


class Frames(kit.Case):
    def run_in(self, pieces, *options, more=None):
        """Writes pieces to a server, a moment apart if there are few. Returns the bytes of its
        output."""
        folder = self.room / f"logs{len(list(self.room.iterdir()))}"
        opened = self.started(*options, folder=folder, more=more)
        for it in pieces:
            opened.write(it)
            if len(pieces) < 100:
                time.sleep(kit.PAUSE / 5)
        opened.process.stdin.close()
        output = opened.output.read(1 << 30)
        self.assertEqual(opened.process.wait(kit.LIMIT), 0, opened.errors_now())
        self.assertEqual(log_files.read(folder), WANTED)
        return output

    def statuses(self, output):
        found = []
        while output:
            size = 4 + int.from_bytes(output[:4], "big")
            name = frames.decode(frames.STATUSES, output[12:size]).name
            found.append((int.from_bytes(output[4:12], "big"), name))
            output = output[size:]
        return found

    def whole(self):
        """Returns the output of the session with a frame in each write."""
        output = self.run_in(session_bytes())
        self.assertEqual(self.statuses(output), list(enumerate(STATUSES)))
        return output

    def test_bytes_one_by_one(self):
        data = b"".join(session_bytes())
        self.assertEqual(self.run_in([bytes([it]) for it in data]), self.whole())

    def test_bytes_one_by_one_with_background_and_readers(self):
        """These options have the input read by a thread of its own."""
        data = b"".join(session_bytes())
        for options in (kit.compact_words(200, 800), ["--readers", "4"]):
            self.assertEqual(
                self.run_in([bytes([it]) for it in data], *options), self.whole(), options
            )

    def test_all_frames_in_one_write(self):
        self.assertEqual(self.run_in([b"".join(session_bytes())]), self.whole())

    def test_two_frames_in_one_write(self):
        found = session_bytes()
        pairs = [b"".join(found[at : at + 2]) for at in range(0, len(found), 2)]
        self.assertEqual(self.run_in(pairs), self.whole())

    def test_frames_cut_at_each_of_their_bytes(self):
        """Each write ends amid the length, the id or the fields of a frame, and has the rest of the
        one before."""
        data, whole = b"".join(session_bytes()), self.whole()
        for step in (3, 7, 13, 29, 41):
            pieces = [data[at : at + step] for at in range(0, len(data), step)]
            self.assertEqual(self.run_in(pieces), whole, step)

    @device.needs_compiler
    def test_interrupted_reads(self):
        whole = self.whole()
        for options in ([], kit.compact_words(200, 800), ["--readers", "4"]):
            output = self.run_in(session_bytes(), *options, more=device.interrupted())
            self.assertEqual(output, whole, options)

    @unittest.expectedFailure  # `script` takes an interrupted read for one that fails
    @device.needs_compiler
    def test_interrupted_reads_of_a_script(self):
        steps = "add 1 0 hello\nswap\nwrite\npublish\nledgers 0 9\n"
        out, _ = self.bookie(
            "script", "--folder", self.logs, steps=steps, more=device.interrupted()
        )
        self.assertEqual(
            out.splitlines(), ["accepted", "swapped 1", "wrote 1028", "published 1", "ledgers 1"]
        )

    def test_largest_frame_in_pieces(self):
        """A frame of the greatest length comes in many reads, and its entry goes out in many
        writes."""
        content = (bytes(range(256)) * 19532)[: 300_000 if kit.Programs.is_slow else 4_999_984]
        opened = self.serve()
        data, id = opened.frame("add", ledger=5, entry=1, content=content)
        for at in range(0, len(data), 99_991):
            opened.write(data[at : at + 99_991])
        self.assertEqual(opened.reply(id).name, "accepted")
        self.assertEqual(opened.call("flush").entries, 1)
        self.assertEqual(opened.read(5, 1), content)
        self.assertEqual(log_files.read(self.logs), {(5, 1): content})
        self.close(opened)

    def test_input_that_ends_amid_a_frame(self):
        """What was answered before is durable, and the end names how much of the frame came."""
        frame = session_bytes()
        data, cut = b"".join(frame[:3]), frame[4]
        for size in (1, 3, 4, 11, len(cut) - 1):
            folder = self.room / f"cut{size}"
            words = [str(kit.Programs.serve), str(folder)]
            ran = subprocess.run(
                words, input=data + cut[:size], capture_output=True, timeout=kit.LIMIT
            )
            self.assertEqual((ran.returncode, self.statuses(ran.stdout)[-1]), (1, (0, "cut")))
            self.assertEqual(log_files.read(folder), {(1, 0): b"hello", (1, 1): b""})
