"""Steps of a script whose answers depend on one another: bounds of lines, readers, flushes, compactions and rebuilds."""

import kit
import log_files

# Lines that no script has.
WRONG = [
    "add 1 0 ",
    "add 1",
    "add 9223372036854775808 0",
    "add 1 9223372036854775808",
    "add 01 0",
    "add 1 0 \x7f",
    "radd 1",
    "take 4 1 0",
    "fetch 4",
    "release 4",
    "copy 4294967296",
    "switch 4294967296",
    "retire 2147483648",
    "ledgers 0 4294967296",
    "entries 1 0",
    "swap ",
    " swap",
    "Swap",
    "minor 1",
]
# Two logs: ledgers 1 and 2 in the first, 3 and 4 in the second.
TWO_LOGS = """\
add 1 0 a: accepted
add 2 0 b: accepted
swap: swapped 2
write: wrote 1028
write: wrote 1049
publish: published 2
roll: sealed 0
add 3 0 c: accepted
add 4 0 d: accepted
swap: swapped 2
write: wrote 4294968324
write: wrote 4294968345
publish: published 2
roll: sealed 1
"""


class Steps(kit.Case):
    def answers(self, text, *words):
        """Runs lines `STEP: ANSWER` in memory, and compares each answer."""
        lines = [it.split(": ") for it in text.splitlines()]
        steps = "".join(f"{it[0]}\n" for it in lines)
        found = self.bookie("script", *words, steps=steps)[0].splitlines()
        self.assertEqual(len(found), len(lines))
        wanted = [f"{step}: {answer}" for step, answer in lines]
        self.assertEqual([f"{it[0]}: {answer}" for it, answer in zip(lines, found)], wanted)

    def test_wrong_lines(self):
        for it in WRONG:
            with self.subTest(it):
                out, errors = self.bookie("script", steps=f"swap\n\n{it}\nswap\n", status=1)
                self.assertEqual((out, errors), ("", "line 3: bad command\n"))

    def test_bounds(self):
        self.answers("""\
add 9223372036854775807 9223372036854775807 ~jklmno !: accepted
take 3 9223372036854775807 9223372036854775807: cached 7e6a6b6c6d6e6f2021
add 1 0: accepted
take 0 1 0: cached -
release 3: no lease
copy 4294967295: no job
switch 4294967295: no job
retire 2147483647: no log
ledgers 0 4294967295: ledgers 1 9223372036854775807
ledgers 1 1: ledgers 1
ledgers 2 9: ledgers 9223372036854775807
""")

    def test_recovery_passes_a_fence(self):
        self.answers("""\
add 1 0 a: accepted
fence 1: fenced
add 1 1 b: fault fenced
radd 1 1 b: accepted
fence 1: already fenced
fenced 1: yes
fenced 2: no
""")

    def test_counts_of_a_flush(self):
        self.answers("""\
add 1 0 abc: accepted
stats: stats cached 19 flushing 0 marks 1 durable 0
swap: swapped 1
add 1 1: accepted
swap: running
stats: stats cached 16 flushing 19 marks 2 durable 0
publish: not all written
roll: flush running
write: wrote 1028
roll: flush running
write: all written
publish: published 1
stats: stats cached 16 flushing 0 marks 2 durable 1
write: no flush
publish: no flush
roll: sealed 0
roll: nothing open
""")

    def test_readers(self):
        self.answers(TWO_LOGS + """\
take 0 1 0: leased 1028
take 0 2 0: reader busy
take 1 2 0: leased 1049
fetch 0: bytes 61
delete 1: dropped 1
delete 2: dropped 1
fetch 0: bytes 61
take 2 1 0: deleted
take 2 3 1: not held
retire 0: retired 0
close 0: leased 2
remove 0: not closed
release 0: released
release 0: no lease
fetch 0: no lease
close 0: leased 1
release 1: released
close 0: closed
remove 0: removed
""")

    def test_compaction(self):
        self.answers(TWO_LOGS + """\
delete 1: dropped 1
delete 3: dropped 1
retire 0: still named 1
close 0: not retired
minor: nothing to do
major: chosen 0
retire 0: in use
retire 2: in use
end: not at end
copy 0: copied 0
copy 1: copied 0
copy 1: copied 1
copy 1: at end
switch 1: not now
finish: not now
end: ended 1
major: job running
switch 0: moved 0 1
finish: left 1
switch 1: moved 1 0
finish: retired 0
close 0: closed
remove 0: removed
remove 0: no log
major: chosen 1
copy 10: copied 1
copy 10: at end
end: ended 1
delete 4: dropped 1
switch 10: moved 0 0
finish: retired 1
major: nothing to do
""")

    def test_compaction_that_is_given_up_begins_again(self):
        self.answers(TWO_LOGS.replace("add 3 0 c", "add 1 3 c").replace("add 4 0 d", "add 2 3 d") + """\
delete 1: dropped 2
major: chosen 0
copy 9: copied 1
end: ended 1
copy 9: not now
giveup: given up
major: chosen 0
""")

    def test_least_used_log_is_chosen(self):
        self.answers(TWO_LOGS.replace("swap: swapped 2\nwrite: wrote 4294968324", "add 5 0 e: accepted\nswap: swapped 3\nwrite: wrote 4294968324").replace("write: wrote 4294968345\npublish: published 2", "write: wrote 4294968345\nwrite: wrote 4294968366\npublish: published 3") + """\
delete 1: dropped 1
delete 3: dropped 1
delete 4: dropped 1
major: chosen 1
""")

    def test_directory_keeps_deletions_and_fences(self):
        self.script("add 1 0 a", "add 2 0 b", "add 3 0 c", "swap", "write", "write", "write", "publish")
        self.assertEqual(self.script("delete 1", "fence 2", "fence 3", "delete 3"), ["dropped 1", "fenced", "fenced", "dropped 1"])
        found = self.script("take 0 1 0", "add 1 1", "fenced 2", "add 2 1", "add 3 1", "holds 2 0")
        self.assertEqual(found, ["deleted", "fault deleted", "yes", "fault fenced", "fault deleted", "yes"])

    def test_rebuild(self):
        self.answers(TWO_LOGS + """\
rebuild: rebuilt 4
add 5 0 e: accepted
swap: swapped 1
write: wrote 8589935620
publish: published 1
rebuild: rebuilt 5
delete 1: dropped 1
delete 2: dropped 1
retire 0: retired 0
rebuild: rebuilt 3
holds 4 0: yes
holds 5 0: yes
entries 4 0 9: entries 0
entries 4 1 9: no entry
""")

    def test_flush_over_three_logs(self):
        """Each log of a flush is published; the last stays open."""
        steps = [f"add 1 {it} {'x' * 580}" for it in range(3)]
        steps += ["swap", "write", "write", "write", "retire 0", "publish", "take 0 1 1", "fetch 0"]
        found = self.script(*steps, words=("--log-limit", "2048"))
        self.assertEqual((found[-4], found[-3], found[-1]), ("in use", "published 3", "bytes " + "78" * 580))
        wanted = {(1, it): b"x" * 580 for it in range(3)}
        self.assertEqual((log_files.read(self.logs), self.log_names()), (wanted, ["0.log", "1.log", "2.log"]))
        again = self.script(*(f"holds 1 {it}" for it in range(3)))
        self.assertEqual(again, ["yes"] * 3)

    def test_no_further_log(self):
        """Without a slot for another log nothing is sealed, and the flush goes on when one is free."""
        text = "x" * 580
        self.answers(f"""\
add 1 0 {text}: accepted
swap: swapped 1
write: wrote 1028
publish: published 1
add 2 0 {text}: accepted
swap: swapped 1
write: fault logs full
write: fault logs full
stats: stats cached 0 flushing 596 marks 2 durable 1
retire 0: in use
""", "--slots", "1", "--log-limit", "2048")
