"""The server's request `compact`: what is copied and removed, by which threshold, and what it
answers."""

import os

import kit
import log_files

# An entry of each of these ledgers is in each log here.
LEDGERS = range(1, 11)


def content(ledger, entry):
    return f"ledger {ledger:3} entry {entry:3} ".encode() * 10


class Compaction(kit.Case):
    """Logs of ten equal entries, one of each ledger; a log's live share is the part of ledgers that
    live."""

    def filled(self, opened, entry=0, ledgers=LEDGERS):
        """Writes a sealed log with an entry of each ledger. Returns its id."""
        for ledger in ledgers:
            self.assertEqual(opened.add(ledger, content(ledger, entry), first=entry), ["accepted"])
        self.assertEqual(opened.call("flush").entries, len(ledgers))
        return opened.call("seal").log

    def delete(self, opened, ledgers):
        for ledger in ledgers:
            self.assertEqual(opened.call("delete", ledger=ledger).name, "dropped")

    def compact(self, opened, minor, major):
        """Returns how many logs were removed, and how many entries copied."""
        found = opened.call("compact", minor=minor, major=major)
        self.assertEqual(found.name, "compacted")
        return found.logs, found.entries

    def compact_beside(self, opened, minor, major):
        """The same in a session with a compaction in the background, which may be busy."""
        ask = {"minor": minor, "major": major}
        kit.wait_until(lambda: opened.call("compact", **ask).name != "busy")
        return self.compact(opened, minor, major)

    def live_log(self, live, *options):
        """Returns a session over one log of which so many entries of ten are live, and the log's
        name."""
        opened = self.serve(*options)
        name = log_files.name_of(self.filled(opened))
        self.delete(opened, LEDGERS[live:])
        return opened, name

    def is_removed(self, name):
        return not (self.logs / name).exists()

    def test_entry_is_copied_and_log_removed(self):
        opened, name = self.live_log(1)
        before = opened.call("stats")
        self.assertEqual(self.compact(opened, 200, 800), (1, 1))
        after = opened.call("stats")
        self.assertTrue(self.is_removed(name))
        self.assertEqual(log_files.where(self.logs, 1, 0), {1: content(1, 0)})
        size = log_files.FRONT + len(content(1, 0))
        self.assertEqual((after.logs, after.bytes, after.live), (1, size, size))
        self.assertEqual((before.logs, before.live), (1, size))
        self.assertEqual(log_files.log_bytes(self.logs), size)
        self.assertEqual(opened.read(1, 0), content(1, 0))
        self.close(opened)
        self.assertEqual(self.serve().read(1, 0), content(1, 0))

    def test_copy_is_a_sealed_log(self):
        opened, _ = self.live_log(1)
        self.compact(opened, 200, 800)
        self.assertEqual(
            (self.logs / "1.log").read_bytes(), log_files.sealed_log([(1, 0, content(1, 0))])
        )
        self.close(opened)

    def test_minor_alone_takes_what_is_below_it(self):
        opened, name = self.live_log(1)
        self.assertEqual(self.compact(opened, 200, 0), (1, 1))
        self.assertTrue(self.is_removed(name))
        self.assertEqual(opened.read(1, 0), content(1, 0))

    def test_minor_alone_leaves_what_major_would_take(self):
        opened, name = self.live_log(5)
        before = self.files()
        self.assertEqual(self.compact(opened, 200, 0), (0, 0))
        self.assertEqual(self.files()[name], before[name])
        self.assertEqual(self.log_names(), [name])

    def test_major_alone_takes_what_minor_leaves(self):
        opened, name = self.live_log(5)
        self.assertEqual(self.compact(opened, 0, 800), (1, 5))
        self.assertTrue(self.is_removed(name))
        self.assertEqual(
            [opened.read(it, 0) for it in (1, 2, 3, 4, 5)],
            [content(it, 0) for it in (1, 2, 3, 4, 5)],
        )

    def test_both_leave_what_is_at_a_threshold(self):
        opened, name = self.live_log(8)
        self.assertEqual(self.compact(opened, 200, 800), (0, 0))
        self.assertEqual(self.log_names(), [name])

    def test_both_omitted_copy_nothing(self):
        opened, name = self.live_log(1)
        self.assertEqual(self.compact(opened, 0, 0), (0, 0))
        self.assertEqual(self.log_names(), [name])

    def test_thresholds_are_those_of_the_options(self):
        opened, name = self.live_log(3, "--log-limit", "1000000", *kit.compact_words(100, 300))
        for minor, major in (
            (200, 800), (300, 100), (0, 800), (200, 0), (0, 100), (300, 0), (1001, 0)
        ):
            self.assertEqual(
                opened.call("compact", minor=minor, major=major).name,
                "out_of_range",
                (minor, major),
            )
        self.assertEqual(self.compact_beside(opened, 100, 300), (0, 0))
        self.assertEqual(self.log_names(), [name])
        self.delete(opened, LEDGERS[2:3])
        self.compact_beside(opened, 100, 300)
        self.assertTrue(self.is_removed(name))
        self.assertEqual(opened.read(2, 0), content(2, 0))

    def test_threshold_that_an_option_omits_is_the_usual_one(self):
        for own, usual in (((0, 300), (200, 300)), ((100, 0), (100, 800))):
            opened = self.serve(*kit.compact_words(*own))
            minor, major = usual
            for asked, name in (
                ((minor, 0), "compacted"), ((0, major), "compacted"), ((0, 999), "out_of_range")
            ):
                reply = opened.call("compact", minor=asked[0], major=asked[1])
                self.assertEqual(reply.name, name, (own, asked))
            self.close(opened)

    def test_exchanged_and_other_thresholds_are_refused(self):
        opened, name = self.live_log(1)
        for minor, major in (
            (800, 200), (800, 0), (0, 200), (199, 800), (200, 801), (1 << 63, 800)
        ):
            self.assertEqual(
                opened.call("compact", minor=minor, major=major).name,
                "out_of_range",
                (minor, major),
            )
        self.assertEqual(self.log_names(), [name])

    def test_each_log_that_qualifies_is_compacted(self):
        opened = self.serve()
        names = [log_files.name_of(self.filled(opened, entry)) for entry in range(4)]
        self.delete(opened, LEDGERS[1:])
        self.assertEqual(self.compact(opened, 200, 0), (4, 4))
        self.assertEqual([it for it in names if not self.is_removed(it)], [])
        self.assertEqual(
            [opened.read(1, it) for it in range(4)], [content(1, it) for it in range(4)]
        )
        self.assertEqual(log_files.read(self.logs), {(1, it): content(1, it) for it in range(4)})

    def test_minor_then_major(self):
        opened = self.serve()
        self.filled(opened, 0, LEDGERS)
        self.filled(opened, 1, LEDGERS[5:])
        whole = log_files.name_of(self.filled(opened, 2, LEDGERS[9:]))
        self.delete(opened, LEDGERS[:7])
        # The shares are 300, 600 and 1000 thousandths.
        self.assertEqual(self.compact(opened, 200, 0), (0, 0))
        self.assertEqual(self.compact(opened, 200, 800), (2, 6))
        self.assertEqual(self.log_names()[0], whole)

    def test_unused_log_is_removed(self):
        opened = self.serve()
        unused = log_files.name_of(self.filled(opened, 0, LEDGERS[:3]))
        used = log_files.name_of(self.filled(opened, 0, LEDGERS[3:]))
        self.delete(opened, LEDGERS[:3])
        self.assertEqual(self.compact(opened, 200, 800), (1, 0))
        self.assertEqual(self.log_names(), [used])
        self.assertTrue(self.is_removed(unused))
        self.assertEqual(opened.call("stats").logs, 1)

    def test_second_request_finds_nothing_to_do(self):
        opened, _ = self.live_log(1)
        found = opened.together(
            *[("compact", {"minor": 200, "major": 800})] * 2, ("read", {"ledger": 1, "entry": 0})
        )
        self.assertEqual(
            [(it.name, *it.fields.values()) for it in found[:2]],
            [("compacted", 1, 1), ("compacted", 0, 0)],
        )
        self.assertEqual(found[2].content, content(1, 0))
        self.assertEqual(self.log_names(), ["1.log"])

    def test_open_log_without_live_entries(self):
        """It is in use until it is sealed, and is written on."""
        opened = self.serve()
        for ledger in (1, 2):
            opened.add(ledger, content(ledger, 0))
        self.assertEqual(opened.call("flush").entries, 2)
        self.delete(opened, (1, 2))
        self.assertEqual(self.compact(opened, 200, 800), (0, 0))
        self.assertEqual(opened.add(3, content(3, 0)), ["accepted"])
        self.assertEqual(opened.call("flush").entries, 1)
        self.assertEqual(log_files.where(self.logs, 3, 0), {0: content(3, 0)})
        self.assertEqual(opened.call("seal").log, 0)
        self.delete(opened, (3,))
        self.assertEqual(self.compact(opened, 200, 800), (1, 0))
        self.assertEqual((self.log_names(), opened.call("stats").bytes), ([], 0))

    def test_deletion_is_durable_before_its_log_goes(self):
        opened, _ = self.live_log(1)
        self.compact(opened, 200, 800)
        opened.process.kill()
        opened.process.wait()
        again = self.serve()
        self.assertEqual(
            [again.read(it, 0) for it in LEDGERS[:3]], [content(1, 0), "deleted", "deleted"]
        )
        self.assertEqual(os.listdir(self.logs).count("0.log"), 0)
