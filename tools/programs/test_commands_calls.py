"""Calls of the system that fail, and what is told on a terminal."""

import errno
import json
import os
import pty
import re
import subprocess
import time
from pathlib import Path

import device
import kit
import log_files
import manifest_files

LEDGERS, LOGS = "ledgers.manifest", "logs.manifest"
ENTRIES = [(1, 0, b"one"), (2, 0, b"two")]


class Unread(kit.Case):
    """The system does not open log 1, which is a link to itself."""

    def setUp(self):
        super().setUp()
        log_files.write(self.logs, {0: ENTRIES, 2: [(3, 0, b"three")]})

    def link(self):
        (self.logs / "1.log").symlink_to("1.log")

    def test_hint_of_a_log_that_is_not_read_stays(self):
        self.bookie("hint", self.logs)
        (self.logs / "1.hint").write_bytes((self.logs / "0.hint").read_bytes())
        self.link()
        for words in (["--check"], []):
            _, errors = self.bookie("hint", *words, self.logs, status=1)
            self.assertIn(f"fault log 1: disk: {self.logs}/1.log: open: ", errors)
        self.assertTrue((self.logs / "1.hint").exists())

    def test_check_of_manifests_needs_each_length(self):
        length = (self.logs / "0.log").stat().st_size
        records = [("durable", 0, length), ("durable", 1, 2000)]
        (self.logs / LOGS).write_bytes(manifest_files.written(1, records))
        self.link()
        _, errors = self.bookie("manifest", "--check", self.logs, status=1)
        self.assertIn("note not compared with the manifest: log 1: disk", errors)

    def test_names_that_are_not_listed(self):
        with open(bytes(self.logs) + b"/\xff", "wb"):
            pass
        (self.room / "live").write_text("1\n")
        words = ["stat", "--live-file", self.room / "live", self.logs]
        _, errors = self.bookie(*words, status=1)
        self.assertEqual(errors.splitlines()[1:], ["fault ledgers of the logs unread"])

    def test_watermark_is_noted(self):
        data = bytearray((self.logs / "2.log").read_bytes())
        data[20:24] = b"mark"
        (self.logs / "2.log").write_bytes(data)
        note = "note watermarks are ignored: log 2 has one of an earlier release\n"
        self.assertEqual(self.bookie("script", "--folder", self.logs)[1], note)

    def test_row_of_a_report_has_the_fault_of_its_log(self):
        kit.flip(self.logs / "0.log", 0)
        page, _ = self.bookie("report", self.logs, status=1)
        row = re.search(r'<tr><td class="id">0 <small.*?</tr>', page, re.S)[0]
        self.assertIn("bad magic", row)

    def test_thresholds_of_a_report(self):
        page, _ = self.bookie("report", self.logs)
        found = re.findall(r"<strong>(\w+)</strong> compaction, with a threshold of ([\d.]+)", page)
        self.assertEqual(found, [("minor", "20.0"), ("major", "80.0")])


class Published(kit.Case):
    def test_published_entries_are_there_though_the_log_is_open(self):
        steps = ["add 1 0 hello", "swap", "write", "write", "publish"]
        self.assertEqual(self.script(*steps)[-1], "published 1")
        length = (self.logs / "0.log").stat().st_size
        records = manifest_files.state_of(self.logs / LOGS)
        self.assertEqual(records, {("log", 0): ("durable", length)})
        self.assertEqual(self.script("holds 1 0"), ["yes"])


class Failing(kit.Case):
    @device.needs_compiler
    def test_logs_are_synced_before_a_manifest_is_made_anew(self):
        log_files.write(self.logs, {0: ENTRIES})
        length = (self.logs / "0.log").stat().st_size
        before = manifest_files.written(1, [("durable", 0, length + 1)])
        (self.logs / LOGS).write_bytes(before)
        more = device.failing(self.logs / "0.log", "sync", 1, errno.EIO)
        _, errors = self.bookie("manifest", "--rebuild", self.logs, status=1, more=more)
        self.assertIn(f"{self.logs}/0.log: sync: ", errors)
        self.assertEqual((self.logs / LOGS).read_bytes(), before)

    @device.needs_compiler
    def test_deletion_that_is_not_recorded_is_told(self):
        log_files.write(self.logs, {0: ENTRIES})
        self.script("fence 1")
        more = device.failing(self.logs / LEDGERS, "sync", 1, errno.EIO, stays=True)
        out, errors = self.bookie(
            "script", "--folder", self.logs, steps="delete 1\nholds 1 0\n", more=more
        )
        self.assertTrue(out.startswith("fault "), out)
        self.assertIn(f"{self.logs}/{LEDGERS}: sync: ", errors)

    @device.needs_compiler
    def test_call_that_fails_is_named_with_the_fault(self):
        log_files.write(self.logs, {0: ENTRIES})
        self.script("fence 1")
        place = f"{self.logs}/{LEDGERS}"
        more = device.failing(place, "sync", 1, errno.EIO, stays=True)
        words = ["compact", "--dead", "1", self.logs]
        _, errors = self.bookie(*words, status=1, more=more)
        self.assertRegex(errors.splitlines()[-1], f"^fault {LEDGERS}: .*: {place}: sync: ")
        words = ["--json", "compact", "--dead", "2", self.logs]
        found = json.loads(self.bookie(*words, status=1, more=more)[1].splitlines()[-1])
        self.assertEqual((found["file"], found["operation"]), (place, "sync"))
        self.assertEqual(self.log_names(), ["0.log"])

    @device.needs_compiler
    def test_calls_that_fail_on_two_files_are_both_told(self):
        """Writes fail from one on: the log's, and then that of the manifest of logs."""
        steps = "delete 1\nadd 3 0 hello\nswap\nwrite\nwrite\npublish\n"
        found = []
        for number in range(4, 9):
            self.logs = self.room / str(number)
            log_files.write(self.logs, {0: ENTRIES})
            self.script("fence 1")
            more = device.failing(self.logs, "write", number, errno.ENOSPC, stays=True)
            _, errors = self.bookie("script", "--folder", self.logs, steps=steps, more=more)
            found.append([it.split(":")[0] for it in errors.splitlines()])
            self.assertTrue(found[-1], number)
        both = [sorted(Path(it).name for it in places) for places in found]
        self.assertIn(["1.log", LOGS], both)

    @device.needs_compiler
    def test_calls_that_fail_alike_are_told_once(self):
        """Reads of a log fail, and then its removal: a line for each kind of call."""
        steps = ["take 0 1 0", *["fetch 0"] * 3, "release 0", "delete 1", "delete 2", "retire 0"]
        steps += ["close 0", "remove 0", "remove 0"]
        place = f"{self.logs}/0.log"
        for number in range(4, 8):
            log_files.write(self.logs, {0: ENTRIES})
            more = device.failing(self.logs / "0.log", "", number, errno.EIO, stays=True)
            more["FAULT_KINDS"] = ",read,remove,"
            words = ["script", "--no-manifest", "--folder", self.logs]
            ran = self.call(*words, steps="".join(f"{it}\n" for it in steps), more=more)
            if ran.returncode == 0:
                break
        self.assertEqual(ran.stdout.decode().splitlines().count("fault disk"), 5)
        told = [it.split(": ")[:2] for it in ran.stderr.decode().splitlines()]
        self.assertEqual(told, [[place, "read"], [place, "remove"]])

    @device.needs_compiler
    def test_log_that_is_there_already_is_told(self):
        log_files.write(self.logs, {0: ENTRIES})
        more = device.failing(self.logs / "1.log", "open", 1, errno.EEXIST)
        words = ["script", "--no-manifest", "--folder", self.logs]
        steps = "add 3 0 hello\nswap\nwrite\nwrite\npublish\n"
        out, errors = self.bookie(*words, steps=steps, more=more)
        self.assertEqual(out.splitlines()[2], "fault odd disk")
        self.assertTrue(errors.startswith(f"{self.logs}/1.log: create: File exists"), errors)

    @device.needs_compiler
    def test_log_that_goes_before_its_length_is_read(self):
        """The system does not find the file at one look: a trial goes on without it."""
        found = []
        for number in range(1, 7):
            log_files.write(self.logs, {0: ENTRIES, 1: [(3, 0, b"three")]})
            more = device.failing(self.logs / "0.log", "stat", number, errno.ENOENT)
            ran = self.call("compact", "--dry-run", "--no-manifest", self.logs, more=more)
            found.append((ran.returncode, ran.stdout))
        for count in (1, 2):
            self.assertIn((0, b"before %d after %d freed 0 moved 0\n" % (count, count)), found)

    @device.needs_compiler
    def test_export_writes_no_entry_twice(self):
        """Log 1 is not found at one look: all logs are read again, and the export goes on."""
        log_files.write(self.logs, {0: [(1, 0, b"one")], 1: [(1, 1, b"two")]})
        first, second = f"0 {b'one'.hex()}\n", f"1 {b'two'.hex()}\n"
        found = set()
        for kind in ("open", "stat"):
            for number in range(3, 12):
                more = device.failing(self.logs / "1.log", kind, number, errno.ENOENT)
                words = ["export", "--no-manifest", self.logs, "1"]
                found.add(self.bookie(*words, more=more))
        self.assertEqual(found, {(first, ""), (first + second, "")})


@device.needs_compiler
class Rows(kit.Case):
    """A row is seen as soon as it is known: the device is slow, and the next log takes its time."""

    def test_first_row_is_seen_before_the_last(self):
        log_files.write(self.logs, {it: ENTRIES for it in range(3)})
        more = {**device.failing(self.logs, "read", 0, 0), "FAULT_SLOW": "300000"}
        for words in (
            ["check", self.logs],
            ["check", "--quick", self.logs],
            ["check", "--digest", "crc32", self.logs],
            ["stat", self.logs],
            ["hint", self.logs],
            ["hint", "--check", self.logs],
        ):
            words = [str(kit.Programs.shell), *map(str, words)]
            how = {"stdout": subprocess.PIPE, "env": {**os.environ, **more}}
            with subprocess.Popen(words, **how) as ran:
                ran.stdout.readline()
                first = time.monotonic()
                ran.stdout.read()
                self.assertGreater(time.monotonic() - first, 0.2, words)


class Terminal(kit.Case):
    """The standard input or the error stream is a terminal."""

    def setUp(self):
        super().setUp()
        self.master, self.slave = pty.openpty()
        self.addCleanup(os.close, self.master)

    def test_script_says_that_it_reads(self):
        os.write(self.master, b"holds 1 0\n\4")
        self.addCleanup(os.close, self.slave)
        words = [str(kit.Programs.shell), "script"]
        ran = subprocess.run(words, stdin=self.slave, capture_output=True, timeout=kit.LIMIT)
        self.assertEqual((ran.returncode, ran.stdout), (0, b"no\n"))
        self.assertIn(b"reading the steps from the terminal until Ctrl-D", ran.stderr)

    def test_other_commands_do_not_say_so(self):
        self.addCleanup(os.close, self.slave)
        log_files.write(self.logs, {0: ENTRIES})
        for words in (["check", self.logs], ["--version"], ["help", "script"]):
            words = [str(kit.Programs.shell), *map(str, words)]
            ran = subprocess.run(words, stdin=self.slave, capture_output=True, timeout=kit.LIMIT)
            self.assertEqual((ran.returncode, ran.stderr), (0, b""))

    def shown_by(self, *words, more=None):
        """Runs the shell. Returns what is shown of the progress, which is cleared at the end."""
        ran = self.call(*words, stderr=self.slave, more=more)
        os.close(self.slave)
        self.assertEqual(ran.returncode, 0)
        shown = b""
        try:
            while piece := os.read(self.master, 4096):
                shown += piece
        except OSError:
            pass
        self.assertTrue(shown.endswith(b"\r\x1b[K"), shown)
        return shown

    def shown(self, logs):
        """Compacts these logs without ledger 2. Returns what is shown of the progress."""
        log_files.write(self.logs, logs)
        return self.shown_by("compact", "--dead", "2", self.logs)

    def test_compaction_shows_its_progress_and_clears_it(self):
        shown = self.shown({log: [(1, log, b"x" * 50), (2, log, b"x" * 500)] for log in range(3)})
        self.assertRegex(shown, rb"^\r\x1b\[K0 of 3 logs, 1 entries copied, 0 MB read")

    def test_compaction_shows_the_logs_that_are_removed(self):
        shown = self.shown({0: [(2, 0, b"x")], 1: [(1, 0, b"x"), (2, 1, b"x" * 500)]})
        self.assertRegex(shown, rb"^\r\x1b\[K1 of 2 logs, 0 entries copied, 0 MB read")

    def test_compaction_shows_the_bytes_that_are_read(self):
        shown = self.shown({0: [(1, 0, b"x"), (2, 0, bytes(2_000_000))]})
        self.assertRegex(shown, rb"^\r\x1b\[K0 of 1 logs, 1 entries copied, 2 MB read")

    @device.needs_compiler
    def test_compaction_shows_its_rate(self):
        """A slow device, so that it takes some seconds: megabytes in a second of them."""
        dead = [(2, it, bytes(2_000_000)) for it in range(10)]
        log_files.write(
            self.logs, {0: [(1, 0, b"x"), *dead], 1: [(1, 1, b"x"), (2, 99, bytes(99))]}
        )
        more = {**device.failing(self.logs, "read", 0, 0), "FAULT_SLOW": "100000"}
        began = time.monotonic()
        shown = self.shown_by("compact", "--dead", "2", self.logs, more=more)
        least = 20 // (time.monotonic() - began + 1)
        found = re.findall(rb"entries copied, 20 MB read, (\d+) MB/s", shown)
        self.assertTrue(found, shown)
        for rate in map(int, found):
            self.assertTrue(least <= rate <= 20, (least, shown))

    def test_compaction_rests_between_two_lines(self):
        """A tenth of a second at least."""
        began = time.monotonic()
        shown = self.shown({log: [(1, log, b"x"), (2, log, bytes(100))] for log in range(60)})
        lines = [it for it in shown.split(b"\r\x1b[K") if it]
        self.assertTrue(1 <= len(lines) <= 10 * (time.monotonic() - began) + 1, len(lines))

    def test_compaction_adds_up_the_bytes_that_are_read(self):
        """A slow device, so that the last line comes after both logs."""
        log_files.write(self.logs, {log: [(1, log, b"x"), (2, log, bytes(1_500_000))] for log in (0, 1)})
        more = {**device.failing(self.logs, "read", 0, 0), "FAULT_SLOW": "333333"}
        shown = self.shown_by("compact", "--dead", "2", self.logs, more=more)
        found = [int(it) for it in re.findall(rb"(\d+) MB read", shown)]
        self.assertEqual((found, found[-1:]), (sorted(found), [3]))

    @device.needs_compiler
    def test_opening_shows_the_logs_that_are_read(self):
        """A slow device: each read takes a third of a second. Log 0 is opened by its hint."""
        log_files.write(self.logs, {0: ENTRIES})
        self.bookie("hint", self.logs)
        for log in (1, 2):
            data = log_files.sealed_log([(1, log, bytes(1_200_000))])
            (self.logs / log_files.name_of(log)).write_bytes(data)
        more = {**device.failing(self.logs, "read", 0, 0), "FAULT_SLOW": "333333"}
        shown = self.shown_by("script", "--no-manifest", "--folder", self.logs, more=more)
        lines = [it.decode() for it in shown.split(b"\r\x1b[K") if it]
        for it in lines:
            self.assertRegex(it, r"^opening: \d of 3 logs(, 1 by hints)?, [01] MB read")
        self.assertTrue(lines[-1].startswith("opening: 2 of 3 logs, 1 by hints, 1 MB read"), lines)

    def test_load_shows_each_second(self):
        shown = self.shown_by("load", "--threads", "1", "--seconds", "3")
        seconds = [int(it) for it in re.findall(rb"\r\x1b\[K(\d+) s, \d+ adds", shown)]
        self.assertTrue(seconds and seconds[0] > 0, shown)
        self.assertEqual(seconds, sorted(set(seconds)))
