"""Tests of tools/backup: copies of a directory that is written meanwhile."""

import os
import re
import shutil
import subprocess
import threading
import time

import log_files
from kit import LIMIT, TOP, Case, Programs, compact_words, wait_until

# Copies that are made beside one load, how often one is begun at most, and the bytes of a log of
# the load. Much is written between two steps of a copy, since `cp` waits before it begins.
COPIES, TRIES, LOG = 3, 12, 40_000
# Seconds between two ledgers of the load: a quick server makes no more than a slow one.
PAUSE = 0.02
# A row of `check` on a log that was being sealed.
MAP_FAULT = re.compile(
    r"(\w+) (?:map differs|fault (?:negative number|not a map|map length|repeated|count differs))"
)
# Entries of a ledger, without the one that is added to a fenced one.
COUNT = 12


def content(ledger, entry):
    return f"{ledger} {entry} ".encode() * (10 + (ledger * 7 + entry) % 40)


class Load(threading.Thread):
    """A session that adds, flushes, fences, adds for recovery and deletes, until it is stopped. It
    knows what was answered."""

    def __init__(self, opened):
        super().__init__(daemon=True)
        self.opened, self.going, self.fault = opened, True, None
        # It waits while this is not set.
        self.gate = threading.Event()
        # Keys that are published; ledgers that are deleted, and those whose deletion was sent;
        # ledgers that are fenced, with one entry each that was added after that.
        self.published, self.deleted, self.doomed = set(), set(), set()
        self.fenced, self.recovered = set(), set()

    def run(self):
        try:
            ledger = 0
            while self.gate.wait() and self.going:
                ledger += 1
                self.round(ledger)
                time.sleep(PAUSE)
        except BaseException as fault:  # noqa: B902
            self.fault = fault

    def round(self, ledger):
        """Makes one ledger. Of three of them two are deleted later, and every fourth is fenced."""
        names = self.opened.add(ledger, *(content(ledger, it) for it in range(COUNT)))
        assert set(names) == {"accepted"}, names
        assert self.opened.call("flush").name == "flushed"
        self.published |= {(ledger, it) for it in range(COUNT)}
        if ledger % 4 == 0:
            assert self.opened.call("fence", ledger=ledger).name == "fenced_now"
            self.fenced.add(ledger)
            fields = {"ledger": ledger, "entry": COUNT, "content": content(ledger, COUNT)}
            self.recovered.add((ledger, COUNT))
            assert self.opened.call("add_recovery", **fields).name == "accepted"
        old = ledger - 8
        if old > 0 and old % 3:
            self.doomed.add(old)
            assert self.opened.call("delete", ledger=old).name == "dropped"
            self.deleted.add(old)

    def now(self):
        """What is answered: published keys, deleted ledgers, fenced ledgers."""
        return set(self.published), set(self.deleted), set(self.fenced)

    def end(self):
        self.going = False
        self.gate.set()
        self.join(LIMIT)


def path_with(room, name, first):
    """Returns a path of programs on which one of this name first runs a command."""
    program = room / "bin" / name
    program.parent.mkdir()
    program.write_text(f'#!/bin/sh\n{first}\nexec {shutil.which(name)} "$@"\n')
    program.chmod(0o755)
    return f"{program.parent}:{os.environ['PATH']}"


def backup(logs, copy, path=os.environ["PATH"]):
    """Runs the tool. Returns its status and what it prints."""
    env = {**os.environ, "BOOKIE": str(Programs.shell), "PATH": path}
    words = [str(TOP / "tools" / "backup"), str(logs), str(copy)]
    how = {"stdout": subprocess.PIPE, "stderr": subprocess.STDOUT, "text": True}
    ran = subprocess.run(words, env=env, timeout=10 * LIMIT, **how)
    return ran.returncode, ran.stdout


class Beside(Case):
    """Copies beside a load with a compaction in the background."""

    def found(self, copy, ledgers):
        """Opens a copy. Returns the keys that it has with their bytes, and the ledgers that are
        deleted and fenced."""
        opened = self.serve(folder=copy)
        keys, deleted, fenced = {}, set(), set()
        for ledger in ledgers:
            asked = [("read", {"ledger": ledger, "entry": it}) for it in range(COUNT + 2)]
            *read, is_fenced = opened.together(*asked, ("is_fenced", {"ledger": ledger}))
            keys |= {(ledger, n): it.content for n, it in enumerate(read) if it.name == "entry"}
            deleted |= {ledger} if read[0].name == "deleted" else set()
            fenced |= {ledger} if is_fenced.name == "yes" else set()
        self.close(opened)
        return keys, deleted, fenced

    def check_logs(self, copy):
        """A log that was sealed meanwhile has a header that names a map which is not shown, or a
        part of it; no other fault is found, and `seal` mends it."""
        ran = self.call("check", copy)
        for row in ran.stdout.decode().splitlines():
            found = MAP_FAULT.match(row)
            self.assertTrue(found or " fault " not in row, row)
            if found:
                self.bookie("seal", "--cut-torn", copy, found[1])
        self.bookie("check", copy)

    def test_copies(self):
        load = Load(self.serve("--log-limit", LOG, *compact_words(200, 800)))
        load.start()
        made, self.path = 0, path_with(self.room, "cp", "sleep 1")
        for number in range(TRIES):
            load.gate.set()
            count = 300 * (number + 1)
            is_far = wait_until(lambda: len(load.published) >= count or load.fault, 10 * LIMIT)
            self.assertTrue(is_far)
            made += self.copies_once(load, self.room / f"copy{number}")
            if made == COPIES:
                break
        load.end()
        self.assertIsNone(load.fault)
        self.assertEqual(made, COPIES)
        self.assertEqual([it for it in os.listdir(self.logs) if it.startswith("backup.")], [])

    def copies_once(self, load, copy):
        """Copies beside the load, which then waits, and checks the copy. Returns whether it was
        made: not if a log was removed before it had its second name, which is reported."""
        published, deleted, fenced = load.now()
        status, told = backup(self.logs, copy, self.path)
        load.gate.clear()
        self.assertIsNone(load.fault)
        if status:
            self.assertRegex(told, "cannot|failed|missing")
            return False
        self.assertEqual(told, "")
        self.check_copy(copy, published, deleted, fenced, set(load.doomed), set(load.recovered))
        return True

    def check_copy(self, copy, published, deleted, fenced, doomed, late):
        ledgers = {it for it, _ in published | late} | {max(it for it, _ in published) + 1}
        keys, has_deleted, has_fenced = self.found(copy, ledgers)
        self.assertEqual(deleted - has_deleted, set())
        self.assertEqual(has_deleted - doomed, set())
        self.assertEqual(fenced - has_fenced - has_deleted, set())
        self.assertGreater(len(published), len(deleted))
        self.assertEqual({it for it in published - set(keys) if it[0] not in has_deleted}, set())
        self.assertEqual({it for it, data in keys.items() if data != content(*it)}, set())
        # An entry that was added after a fence is not there without the fence.
        self.assertEqual({it for it, _ in late & set(keys)} - has_fenced, set())
        self.check_logs(copy)


class Orders(Case):
    """What a copy in another order lacks is reported; what a copy that was killed leaves."""

    def copy(self, *patterns):
        """Copies files by their patterns to the directory `copy`."""
        copy = self.room / "copy"
        copy.mkdir(exist_ok=True)
        for pattern in patterns:
            for it in self.logs.glob(pattern):
                shutil.copy2(it, copy)
        return copy

    def faults(self, copy):
        """What `manifest --check` reports of a copy at fault."""
        return self.bookie("manifest", "--check", copy, status=1)[1]

    def test_manifest_after_logs(self):
        self.script("add 1 0 hello", "swap", "write", "publish")
        self.copy("*.log")
        self.script("add 1 1 hello", "swap", "write", "publish")
        copy = self.copy("*.manifest")
        self.assertIn("durable bytes missing", self.faults(copy))
        self.bookie("script", "--folder", copy, status=1)

    def test_log_removed_meanwhile(self):
        self.publish("1 0 a", "2 0 b")
        self.copy("logs.manifest")
        self.bookie("compact", "--dead", 1, self.logs)
        copy = self.copy("*.log", "ledgers.manifest")
        self.assertIn("durable bytes missing", self.faults(copy))

    def test_no_manifest(self):
        self.publish("1 0 a")
        (self.logs / "logs.manifest").unlink()
        status, told = backup(self.logs, self.room / "copy")
        self.assertEqual((status, (self.room / "copy").exists()), (1, False))
        self.assertIn("has no logs.manifest", told)

    def test_no_manifest_of_ledgers(self):
        """`seal` makes that of the logs alone."""
        log_files.write(self.logs, {0: [(1, 0, b"a")]}, opened=(0,))
        self.bookie("seal", "--all-unsealed", self.logs)
        self.assertFalse((self.logs / "ledgers.manifest").exists())
        self.assertEqual(backup(self.logs, self.room / "copy"), (0, ""))
        self.assertEqual(sorted(os.listdir(self.room / "copy")), ["0.log", "logs.manifest"])

    def test_copy_exists(self):
        self.publish("1 0 a")
        self.copy("logs.manifest")
        self.assertEqual(backup(self.logs, self.room / "copy")[0], 1)
        self.assertEqual(backup(self.logs, self.room / "other"), (0, ""))

    def test_fence_meanwhile(self):
        """An entry that was added after a fence, to a log that is copied, is not there without the
        fence."""
        self.publish("1 0 a")
        steps = "fence 1\\nradd 1 1 b\\nswap\\nwrite\\npublish\\n"
        step = f"printf '{steps}' | {Programs.shell} script --folder {self.logs} > /dev/null"
        copy = self.room / "copy"
        self.assertEqual(backup(self.logs, copy, path_with(self.room, "find", step)), (0, ""))
        words = ["script", "--folder", copy]
        out, _ = self.bookie(*words, steps="holds 1 0\nholds 1 1\nfenced 1\n")
        self.assertEqual(out.split(), ["yes", "yes", "yes"])

    def test_second_names(self):
        """What a copy that was killed leaves keeps no writer out, and loses nothing by its end."""
        self.publish("1 0 a", "2 0 b")
        links = self.logs / "backup.123456"
        links.mkdir()
        for it in self.logs.glob("*.log"):
            os.link(it, links / it.name)
        before = (links / "0.log").read_bytes()
        self.assertEqual(self.script("add 1 1 c", "swap", "write", "publish")[-1], "published 1")
        self.bookie("compact", "--dead", 2, self.logs)
        self.assertEqual((links / "0.log").read_bytes(), before)
        self.assertEqual(self.bookie("export", self.logs, 1)[0].split(), ["0", "61", "1", "63"])
        self.assertEqual(backup(self.logs, self.room / "copy"), (0, ""))
