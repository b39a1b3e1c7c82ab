"""The server's compaction in the background: one reader, and a client that is silent."""

import kit
import log_files
from test_compaction import LEDGERS, content

# Requests after each of which, as input waits, the server performs one step in the background.
STRIDE = 256


class Background(kit.Case):
    """A session with thresholds of 200 and 800 thousandths, but where a test names others."""

    def open(self, minor=200, major=800, *options):
        return self.serve(*kit.compact_words(minor, major), "--readers", "1", *options)

    def fill(self, opened, entry, ledgers=LEDGERS):
        """Writes a sealed log with an entry of each ledger. Returns its name."""
        for ledger in ledgers:
            self.assertEqual(opened.add(ledger, content(ledger, entry), first=entry), ["accepted"])
        self.assertEqual(opened.call("flush").entries, len(ledgers))
        return log_files.name_of(opened.call("seal").log)

    def delete(self, opened, ledgers):
        found = opened.together(*[("delete", {"ledger": it}) for it in ledgers])
        self.assertEqual([it.name for it in found], ["dropped"] * len(ledgers))

    def comes_to(self, names):
        """Waits in silence until the directory has these logs."""
        kit.wait_until(lambda: self.log_names() == names, kit.LIMIT / 4)
        self.assertEqual(self.log_names(), names)

    def stays(self, names):
        """Waits in silence; the directory has these logs afterwards."""
        kit.wait_until(lambda: self.log_names() != names, kit.SILENCE)
        self.assertEqual(self.log_names(), names)

    def test_minor_copies_and_removes_in_silence(self):
        opened = self.open(200, 0)
        name = self.fill(opened, 0)
        self.delete(opened, LEDGERS[1:])
        self.comes_to(["1.log"])
        self.assertEqual((name, log_files.where(self.logs, 1, 0)), ("0.log", {1: content(1, 0)}))
        self.assertEqual(opened.read(1, 0), content(1, 0))
        size = log_files.FRONT + len(content(1, 0))
        found = opened.call("stats")
        self.assertEqual((found.logs, found.bytes, found.live), (1, size, size))
        self.close(opened)
        self.assertEqual(self.serve().read(1, 0), content(1, 0))

    def test_major_copies_and_removes_in_silence(self):
        opened = self.open(0, 800)
        self.fill(opened, 0)
        self.delete(opened, LEDGERS[5:])
        self.comes_to(["1.log"])
        self.assertEqual(
            [opened.read(it, 0) for it in LEDGERS[:5]], [content(it, 0) for it in LEDGERS[:5]]
        )
        self.assertEqual(log_files.read(self.logs), {(it, 0): content(it, 0) for it in LEDGERS[:5]})

    def test_minor_alone_leaves_what_major_would_take(self):
        opened = self.open(200, 0)
        self.fill(opened, 0)
        self.delete(opened, LEDGERS[5:])
        self.stays(["0.log"])

    def test_major_of_another_size(self):
        opened = self.open(100, 500)
        self.fill(opened, 0)
        self.delete(opened, LEDGERS[5:])
        self.stays(["0.log"])
        self.delete(opened, LEDGERS[4:5])
        self.comes_to(["1.log"])
        self.assertEqual(opened.read(4, 0), content(4, 0))

    def test_both_omitted_copy_nothing_and_remove_what_is_unused(self):
        opened = self.open(0, 0)
        self.fill(opened, 0)
        self.fill(opened, 0, (11, 12))
        self.delete(opened, (*LEDGERS[1:], 11, 12))
        self.comes_to(["0.log"])
        self.stays(["0.log"])

    def test_each_log_that_qualifies(self):
        opened = self.open()
        for entry in range(3):
            self.fill(opened, entry)
        self.delete(opened, LEDGERS[1:])
        self.comes_to(["3.log", "4.log", "5.log"])
        self.assertEqual(
            [opened.read(1, it) for it in range(3)], [content(1, it) for it in range(3)]
        )

    def test_opening_begins_a_round(self):
        entries = [(it, 0, content(it, 0)) for it in LEDGERS]
        log_files.write(self.logs, {0: entries})
        self.assertEqual(self.script(*(f"delete {it}" for it in LEDGERS[1:])), ["dropped 1"] * 9)
        opened = self.open()
        self.comes_to(["1.log"])
        self.assertEqual(opened.read(1, 0), content(1, 0))

    def test_flush_begins_a_round(self):
        """The open log has a small live share; only the flush that seals it lets it be
        compacted."""
        opened = self.open(200, 800, "--log-limit", "4096")
        for ledger in LEDGERS:
            opened.add(ledger, content(ledger, 0))
        self.assertEqual(opened.call("flush").entries, 10)
        self.delete(opened, LEDGERS[1:])
        self.stays(["0.log"])
        self.assertEqual(opened.add(11, content(11, 0) * 6), ["accepted"])
        self.stays(["0.log"])
        self.assertEqual(opened.call("flush").entries, 1)
        self.comes_to(["1.log", "2.log"])
        self.assertEqual(
            (opened.read(1, 0), opened.read(11, 0)), (content(1, 0), content(11, 0) * 6)
        )

    def test_log_in_use_does_not_end_the_work(self):
        """The open log has the smallest live share, and a log that cannot be retired comes before
        one that can."""
        opened = self.open()
        whole = self.fill(opened, 0, (21, 22, 23))
        self.fill(opened, 0, LEDGERS)
        unused = self.fill(opened, 0, (31, 32, 33))
        for ledger in range(41, 61):
            opened.add(ledger, content(ledger, 0))
        self.assertEqual(opened.call("flush").entries, 20)
        self.delete(opened, (*LEDGERS[1:], *range(31, 34), *range(42, 61)))
        self.comes_to([whole, "3.log", "4.log"])
        self.assertEqual(
            (unused, opened.read(1, 0), opened.read(41, 0)),
            ("2.log", content(1, 0), content(41, 0)),
        )

    def begun(self, opened, *late):
        """Deletes ledger 2, and sends these requests after four steps. Returns their replies.

        All of it fits in the pipe, so input waits until the last of them."""
        looks = [("holds", {"ledger": 1, "entry": 0})] * (4 * STRIDE)
        found = opened.together(("delete", {"ledger": 2}), *looks, *late)
        self.assertEqual({it.name for it in found[: -len(late)]}, {"dropped", "yes"})
        return [it.name for it in found[-len(late) :]]

    def large(self, opened):
        """Writes a sealed log of 64 entries of ledger 1 and nine times as many of ledger 2, of one
        byte each."""
        self.assertEqual(opened.add(1, *[b"x"] * 64), ["accepted"] * 64)
        self.assertEqual(opened.add(2, *[b"y"] * 576), ["accepted"] * 576)
        self.assertEqual(opened.call("flush").entries, 640)
        return log_files.name_of(opened.call("seal").log)

    def test_request_beside_a_running_one_is_busy(self):
        opened = self.open()
        self.large(opened)
        asked = ("compact", {"minor": 200, "major": 800})
        self.assertEqual(self.begun(opened, asked), ["busy"])
        self.comes_to(["1.log"])
        self.assertEqual(opened.together(asked)[0].name, "compacted")
        self.assertEqual(log_files.read(self.logs), {(1, it): b"x" for it in range(64)})
        self.assertEqual({opened.read(1, it) for it in range(64)}, {b"x"})

    def test_change_during_a_round_begins_another(self):
        """The first log is used no more when the round that runs has passed it."""
        opened = self.open(200, 0)
        unused = self.fill(opened, 0, (11, 12))
        others = [self.fill(opened, 0, (ledger, ledger + 1)) for ledger in (21, 31, 41, 1)]
        late = [("delete", {"ledger": 11}), ("delete", {"ledger": 12})]
        self.assertEqual(self.begun(opened, *late), ["dropped"] * 2)
        self.comes_to(others)
        self.assertEqual((unused, opened.read(1, 0)), ("0.log", content(1, 0)))

    def test_works_while_a_client_reads(self):
        opened = self.open()
        self.fill(opened, 0)
        self.delete(opened, LEDGERS[1:])
        looks = [("holds", {"ledger": 1, "entry": 0})] * STRIDE

        def is_compacted():
            self.assertEqual({it.name for it in opened.together(*looks)}, {"yes"})
            return self.log_names() == ["1.log"]

        self.assertTrue(kit.wait_until(is_compacted))
        self.assertEqual(opened.read(1, 0), content(1, 0))

    def test_session_that_ends_amid_a_round_loses_nothing(self):
        opened = self.open()
        self.large(opened)
        self.begun(opened, "stats")
        self.close(opened)
        again = self.serve()
        found = {again.read(1, it) for it in range(64)}
        self.assertEqual((found, again.call("holds", ledger=2, entry=0).name), ({b"x"}, "no"))
