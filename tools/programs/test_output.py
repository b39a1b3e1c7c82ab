"""Output that cannot be written: each command ends with status 1, and names why unless nobody reads
it any more."""

import json
import os
import re
import resource
import shutil
import signal
import subprocess
import unittest

import frames
import kit
import log_files

ENTRIES = [(1, 0, b"hello"), (2, 0, b"two"), (1, 1, b"more")]
# For each command of `bookie --help` the calls that print something; DIR has a log that is not
# sealed, 0, and log 1.
CALLS = {
    "check": [["DIR"], ["--quick", "DIR"], ["--long", "DIR"], ["--digest", "auto", "DIR"]],
    "logs": [["DIR"]],
    "ledgers": [["DIR"]],
    "entries": [["DIR", "1"]],
    "export": [["DIR", "1"], ["--raw", "DIR", "1"]],
    "find": [["DIR", "1", "0"], ["DIR", "9", "9"]],
    "scan": [["DIR", "0"], ["--data", "DIR", "1"]],
    "header": [["DIR", "0"]],
    "map": [["DIR", "0"], ["DIR", "1"]],
    "stat": [["DIR"], ["--dead", "2", "DIR"]],
    "report": [["DIR"]],
    "compact": [["DIR"], ["--dry-run", "--dead", "2", "DIR"]],
    "hint": [["DIR"], ["--check", "DIR"]],
    "import": [["NEW", "FILE"]],
    "manifest": [["DIR"], ["--check", "DIR"], ["--rebuild", "DIR"]],
    "seal": [["DIR", "0"], ["--all-unsealed", "DIR"], ["--cut-torn", "DIR", "0"]],
    "script": [[], ["--folder", "DIR"]],
    "load": [["--threads", "2", "--adds", "1"]],
}
GENERAL = [["--help"], ["--version"], ["help", "check"], ["compact", "--help"]]
WITHOUT_JSON = ("script",)
# Commands that write nothing but what they print.
READING = ("check", "logs", "ledgers", "entries", "export", "find", "scan", "map", "stat", "report")


def limited(size):
    """Returns what has each file of a process end at a size: a write past it fails."""

    def limit():
        signal.signal(signal.SIGXFSZ, signal.SIG_IGN)
        resource.setrlimit(resource.RLIMIT_FSIZE, (size, size))

    return limit


class Output(kit.Case):
    def setUp(self):
        super().setUp()
        self.good = self.room / "good"
        log_files.write(self.good, {0: ENTRIES, 1: [(3, 0, b"three")]}, opened=(0,))
        self.bookie("script", "--folder", self.good, steps="fence 2\n")
        (self.room / "file").write_bytes(log_files.records(ENTRIES))

    def words(self, command, call):
        """Returns the words of a call on a new copy of the directory."""
        for it in ("logs", "new"):
            shutil.rmtree(self.room / it, ignore_errors=True)
        shutil.copytree(self.good, self.logs)
        places = {"DIR": self.logs, "NEW": self.room / "new", "FILE": self.room / "file"}
        return [command, *(places.get(it, it) for it in call)]

    def each(self):
        """Yields the words of each call, text and JSON."""
        for command, calls in CALLS.items():
            for call in calls:
                yield self.words(command, call)
                if command not in WITHOUT_JSON:
                    yield ["--json", *self.words(command, call)]
        yield from GENERAL

    def test_each_command_is_tried(self):
        """The table here has the commands of the help, no fewer, and each call prints something
        where that is read."""
        out, _ = self.bookie("--help")
        listed = set(re.findall(r"^  (\w+)(?: \S+)* {2,}[A-Z]", out, re.M))
        self.assertEqual(listed, {*CALLS, "help"})
        for words in self.each():
            self.assertTrue(self.bookie(*words, steps="ledgers 0 1\n")[0], words)

    def test_full_device(self):
        for words in self.each():
            with self.subTest(" ".join(map(str, words[:3]))), open("/dev/full", "wb") as full:
                ran = self.call(*words, steps="ledgers 0 1\n", stdout=full)
                errors = ran.stderr.decode()
                self.assertEqual(ran.returncode, 1, errors)
                found = [it for it in errors.splitlines() if not it.startswith("note ")]
                self.assertEqual(len(found), 1, errors)
                self.assertTrue(
                    "fault output" in found[0] or json.loads(found[0])["fault"] == "output", errors
                )

    def test_closed_pipe(self):
        for words in self.each():
            with self.subTest(" ".join(map(str, words[:3]))):
                read, write = os.pipe()
                os.close(read)
                ran = self.call(*words, steps="ledgers 0 1\n", stdout=write)
                os.close(write)
                self.assertEqual((ran.returncode, ran.stderr), (1, b""))

    def test_last_byte_cannot_be_written(self):
        for command in READING:
            for call in CALLS[command]:
                words, out = self.words(command, call), self.room / "out"
                length = len(self.call(*words).stdout)
                with self.subTest(" ".join(map(str, words[:3]))), open(out, "wb") as file:
                    how = {"stdout": file, "preexec_fn": limited(length - 1)}
                    ran = self.call(*words, **how)
                    self.assertEqual(ran.returncode, 1)
                    self.assertIn(b"fault output", ran.stderr)

    def test_what_was_done_stays_done(self):
        with open("/dev/full", "wb") as full:
            for command, call in (
                ("seal", ["DIR", "0"]),
                ("import", ["NEW", "FILE"]),
                ("compact", ["--dead", "3", "DIR"]),
            ):
                self.assertEqual(self.call(*self.words(command, call), stdout=full).returncode, 1)
                if command == "seal":
                    self.assertEqual(
                        (self.logs / "0.log").read_bytes(), log_files.sealed_log(ENTRIES)
                    )
                elif command == "import":
                    wanted = {(ledger, entry): data for ledger, entry, data in ENTRIES}
                    self.assertEqual(log_files.read(self.room / "new"), wanted)
                else:
                    self.assertEqual(self.log_names(), ["0.log"])

    @unittest.expectedFailure  # the fault is text where JSON is asked for
    def test_report_in_json_names_the_fault_in_json(self):
        with open("/dev/full", "wb") as full:
            ran = self.call("--json", *self.words("report", ["DIR"]), stdout=full)
        self.assertEqual(json.loads(ran.stderr)["fault"], "output")


class Served(kit.Case):
    """A server whose replies cannot be written ends with status 1."""

    def test_full_device_at_the_welcome(self):
        fields = {"magic": frames.MAGIC, "lowest": 1, "highest": 1}
        hello = frames.encode(frames.BY_NAME["hello"], 0, fields)
        with open("/dev/full", "wb") as full:
            words = [str(kit.Programs.serve), str(self.logs)]
            ran = subprocess.run(words, input=hello, stdout=full, timeout=kit.LIMIT)
        self.assertEqual(ran.returncode, 1)
        self.assertEqual(log_files.read(self.logs), {})

    def test_closed_pipe_after_an_add(self):
        """The client reads no further: what was accepted is durable all the same."""
        opened = self.serve()
        self.assertEqual(opened.add(1, b"hello"), ["accepted"])
        opened.process.stdout.close()
        for _ in range(3):
            opened.send("stats")
        opened.process.stdin.close()
        self.assertEqual(opened.process.wait(kit.LIMIT), 1)
        self.assertEqual(log_files.read(self.logs), {(1, 0): b"hello"})
        self.assertEqual(self.serve().read(1, 0), b"hello")
