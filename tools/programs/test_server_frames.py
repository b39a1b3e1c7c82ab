"""The bounds of frames: the longest and the shortest that the server takes, and how it names one that it does not take."""

import kit
import frames
import log_files

LONGEST = 4_999_984


class Frames(kit.Case):
    def raw(self, id, kind, body):
        return (9 + len(body)).to_bytes(4, "big") + id.to_bytes(8, "big") + bytes([kind]) + body

    def ended(self, data, *options, greeted=True):
        """Sends bytes and ends the input. Returns the id, the name and the fields of the last frame."""
        opened = self.serve(*options) if greeted else self.started(*options)
        opened.write(data)
        opened.process.stdin.close()
        found = opened.next()
        self.assertIsNone(opened.next())
        self.assertEqual(opened.process.wait(kit.LIMIT), 1)
        return found[0], found[1].name, *found[1].fields.values()

    def test_cut_length_field(self):
        for count in (1, 2, 3):
            self.assertEqual(self.ended(bytes(count)), (0, "cut", 4, count))

    def test_cut_frame(self):
        whole = self.raw(1, 4, bytes(16))
        for count in (4, 5, len(whole) - 1):
            self.assertEqual(self.ended(whole[:count]), (0, "cut", 25, count - 4))

    def test_short_frames(self):
        for length in (0, 1, 8):
            self.assertEqual(self.ended(length.to_bytes(4, "big") + bytes(length)), (0, "short", length))

    def test_longest_frame(self):
        body = bytes(frames.LARGEST - 9)
        self.assertEqual(self.ended(self.raw(1, 2, body)), (1, "bad_fields", 2, len(body)))
        wanted = (0, "oversized", frames.LARGEST + 1, frames.LARGEST)
        self.assertEqual(self.ended((frames.LARGEST + 1).to_bytes(4, "big")), wanted)
        self.assertEqual(self.ended(b"\xff" * 4), (0, "oversized", (1 << 32) - 1, frames.LARGEST))

    def test_unknown_calls(self):
        for call in (0, 24, 31, 32, 64, 96, 255):
            self.assertEqual(self.ended(self.raw(3, call, b"")), (3, "unknown_call", call))

    def test_number_of_fields(self):
        for call in frames.REQUESTS:
            if call.name == "hello":
                continue
            least, most = (8 * len(call.numbers) + it for it in (call.least, call.most))
            wrong = {least - 1, most + 1} - {-1}
            for count in wrong:
                with self.subTest(call=call.name, count=count):
                    wanted = (1, "bad_fields", call.code, count)
                    self.assertEqual(self.ended(self.raw(1, call.code, bytes(count))), wanted)

    def test_ids_rise(self):
        for first, next in ((1, 1), (7, 6), (7, 0), ((1 << 64) - 1, (1 << 64) - 1)):
            opened = self.serve()
            opened.write(self.raw(first, 21, b""))
            self.assertEqual(opened.reply(first).name, "figures")
            opened.write(self.raw(next, 21, b""))
            found = opened.reply(next)
            self.assertEqual((found.name, *found.fields.values()), ("not_rising", next, first))
            self.assertEqual(opened.end(), 1)

    def test_reply_does_not_wait_for_the_rest_of_the_next_frame(self):
        for options in ((), ("--readers", 2), ("--compact", "20,80")):
            opened = self.serve(*options)
            (first, id), (second, last) = opened.frame("stats"), opened.frame("holds", ledger=1, entry=0)
            for count in (1, 4, 12, len(second) - 1):
                opened.write(first + second[:count])
                self.assertEqual(opened.reply(id).name, "figures")
                opened.write(second[count:])
                self.assertEqual(opened.reply(last).name, "no")
                (first, id), (second, last) = opened.frame("stats"), opened.frame("holds", ledger=1, entry=0)
            self.close(opened)

    def hello(self, magic, lowest, highest):
        fields = {"magic": magic, "lowest": lowest, "highest": highest}
        return frames.encode(frames.BY_NAME["hello"], 5, fields)

    def test_hello(self):
        for lowest, highest in ((0, 0), (2, 2), (2, 9), (1, 0)):
            data = self.hello(frames.MAGIC, lowest, highest)
            self.assertEqual(self.ended(data, greeted=False), (5, "version", 1, 1))
        for magic in (0, frames.MAGIC - 1, frames.MAGIC + 1):
            self.assertEqual(self.ended(self.hello(magic, 1, 1), greeted=False), (5, "no_hello"))
        self.assertEqual(self.ended(self.raw(5, 21, b""), greeted=False), (5, "no_hello"))
        self.assertEqual(self.ended(self.hello(frames.MAGIC, 1, 1)), (5, "second_hello"))
        for lowest, highest in ((0, 1), (1, 9), (0, (1 << 64) - 1)):
            opened = self.started()
            opened.write(self.hello(frames.MAGIC, lowest, highest))
            opened.id = 5
            found = opened.reply(5)
            self.assertEqual((found.name, found.version, found.largest), ("welcome", 1, frames.LARGEST))
            self.close(opened)

    def test_longest_entry(self):
        """It is a request, which is refused for its ledger; one byte more is none."""
        opened = self.serve()
        for call in ("add", "add_recovery"):
            found = opened.call(call, ledger=1 << 63, entry=0, content=bytes(LONGEST))
            self.assertEqual(found.name, "negative")
        self.close(opened)

    def test_longest_and_shortest_attribute(self):
        opened = self.serve()
        longest = bytes(range(256))
        for store, get, field in (("set_master_key", "master_key", "key"), ("set_explicit_lac", "explicit_lac", "lac")):
            for value in (longest, b"", longest[1:]):
                self.assertEqual(opened.call(store, ledger=1, **{field: value}).name, "stored")
                self.assertEqual(opened.call(get, ledger=1).value, value)
        self.close(opened)
        opened = self.serve()
        self.assertEqual(opened.call("explicit_lac", ledger=1).value, longest[1:])
        self.close(opened)

    def test_what_was_accepted_before_a_fault_is_durable(self):
        for ledger, options in enumerate(((), ("--readers", 2), ("--compact", "20,80"))):
            opened = self.serve(*options)
            reads = [("read", {"ledger": ledger, "entry": 0})] * 3
            made = [opened.frame("add", ledger=ledger, entry=0, content=b"hello")]
            made += [opened.frame(name, **fields) for name, fields in reads]
            # A frame of no bytes is there as a whole, and is read ahead.
            opened.write(b"".join(data for data, _ in made) + bytes(4))
            self.assertEqual(opened.reply(made[0][1]).name, "accepted")
            self.assertEqual([opened.reply(id).content for _, id in made[1:]], [b"hello"] * 3)
            opened.process.stdin.close()
            found = opened.reply(0)
            self.assertEqual((found.name, *found.fields.values()), ("short", 0))
            self.assertEqual(opened.process.wait(kit.LIMIT), 1)
            self.assertEqual(log_files.read(self.logs)[ledger, 0], b"hello")
