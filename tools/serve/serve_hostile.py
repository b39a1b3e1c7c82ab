"""Sends bk_serve sessions that end by a damaged or hostile frame: for ./dev faults --serve
--hostile.

Each session begins with requests that are answered. Then a frame is cut, too long, too short, of an
unknown call, of wrong fields, of an id that does not rise, a second hello, or bytes by chance. The
server has to answer what came before, to end by the fault that bindings/protocol.md names, and to
keep what it answered. Every other session compacts in the background. In every third one threads
share reads, which may stand right before that frame.
"""

import random
import subprocess

from serve_faults import bookie

frames = bookie.frames
SECONDS = 60
LONGEST = 5_000_064
# So many sessions in turn share a directory.
TOGETHER = 50


def request(id, name, **fields):
    return frames.encode(frames.BY_NAME[name], id, fields)


def raw(id, kind, fields):
    return (9 + len(fields)).to_bytes(4, "big") + id.to_bytes(8, "big") + bytes([kind]) + fields


HELLO = request(0, "hello", magic=frames.MAGIC, lowest=1, highest=1)


def cut(chance, id, last):
    frame = request(id, "add", ledger=1, entry=1, content=chance.randbytes(50))
    size = chance.randrange(1, len(frame))
    return frame[:size], (0, "cut", 4, size) if size < 4 else (0, "cut", len(frame) - 4, size - 4)


def oversized(chance, id, last):
    size = chance.randrange(LONGEST + 1, 1 << 32)
    return size.to_bytes(4, "big") + chance.randbytes(20), (0, "oversized", size, LONGEST)


def short(chance, id, last):
    size = chance.randrange(9)
    return size.to_bytes(4, "big") + bytes(size), (0, "short", size)


def unknown(chance, id, last):
    kind = chance.choice((0, *range(24, 256)))
    return raw(id, kind, chance.randbytes(chance.randrange(40))), (id, "unknown_call", kind)


def wrong_fields(chance, id, last):
    kind, wanted = chance.choice(
        ((4, 16), (7, 8), (8, 16), (9, 24), (10, 16), (11, 8), (13, 8), (18, 0), (20, 16), (23, 0))
    )
    size = chance.choice([it for it in range(60) if it != wanted])
    return raw(id, kind, bytes(size)), (id, "bad_fields", kind, size)


def not_rising(chance, id, last):
    again = chance.randrange(last + 1)
    return request(again, "flush"), (again, "not_rising", again, last)


def second_hello(chance, id, last):
    return request(id, "hello", magic=frames.MAGIC, lowest=1, highest=1), (id, "second_hello")


def by_chance(chance, id, last):
    """Any bytes: what they ask for and how the session ends is not known."""
    return chance.randbytes(chance.randrange(1, 200)), None


def flipped(chance, id, last):
    """A request with a flipped bit may be another request."""
    frame = bytearray(request(id, "holds", ledger=1, entry=1))
    frame[chance.randrange(len(frame))] ^= 1 << chance.randrange(8)
    return bytes(frame), None


TAILS = (cut, oversized, short, unknown, wrong_fields, not_rising, second_hello, by_chance, flipped)


def replies_in(data):
    """Yields the id and the message of each frame."""
    while data:
        size = 4 + int.from_bytes(data[:4], "big")
        yield int.from_bytes(data[4:12], "big"), frames.decode(frames.STATUSES, data[12:size])
        data = data[size:]


class Hostile:
    """Sessions, and the entries that they were told are accepted."""

    def __init__(self, path, top, seed):
        self.path, self.top, self.chance = str(path), top, random.Random(seed)
        self.kept, self.findings = {}, 0

    def tell(self, tail, why):
        print(f"{tail.__name__}: {why}", flush=True)
        self.findings += 1

    def one(self, folder, number):
        """Sends one session, which first reads entries of earlier ones."""
        tail, data, wanted = self.chance.choice(TAILS), HELLO, [(0, "welcome")]
        last, shares, keys = 0, number % 3 == 0, sorted(self.kept)
        for key in (
            self.chance.choices(keys, k=self.chance.randrange(60) if shares else 2) if keys else ()
        ):
            last += self.chance.randrange(1, 9)
            data += request(last, "read", ledger=key[0], entry=key[1])
            wanted.append((last, self.kept[key]))
        for entry in range(self.chance.randrange(4)):
            last += self.chance.randrange(1, 9)
            content = self.chance.randbytes(self.chance.randrange(100))
            data += request(last, "add", ledger=number, entry=entry, content=content)
            wanted.append((last, "accepted"))
            self.kept[number, entry] = content
        bad, end = tail(self.chance, last + self.chance.randrange(1, 9), last)
        words = (["--compact", "20,80"] if number % 2 == 0 else []) + (
            ["--readers", "4"] if shares else []
        )
        run = subprocess.run(
            [self.path, str(folder), *words], input=data + bad, capture_output=True, timeout=SECONDS
        )
        self.judge(tail, run, wanted, end)

    def judge(self, tail, run, wanted, end):
        try:
            replies = list(replies_in(run.stdout))
        except (frames.Fault, IndexError) as why:
            return self.tell(tail, f"a reply that is none: {why}")
        # Replies to reads may overtake others.
        for (id, what), (found, reply) in zip(
            wanted, sorted(replies[: len(wanted)], key=lambda it: it[0])
        ):
            is_right = (
                reply.name == what
                if isinstance(what, str)
                else reply.name == "entry" and reply.content == what
            )
            if id != found or not is_right:
                return self.tell(tail, f"reply {found} is {reply.name}, and not {id} {what!r:.40}")
        if len(replies) < len(wanted):
            return self.tell(tail, f"{len(replies)} replies to {len(wanted)} requests")
        if end is None:
            return None if run.returncode in (0, 1) else self.tell(tail, f"status {run.returncode}")
        last = (replies[-1][0], replies[-1][1].name, *replies[-1][1].fields.values())
        if last != end or run.returncode != 1 or len(replies) != len(wanted) + 1:
            return self.tell(tail, f"ends by {last} with status {run.returncode}, and not by {end}")


def run(path, top, sessions, seed):
    """Sends so many sessions. Returns the number of findings."""
    it = Hostile(path, top, seed)
    for number in range(1, sessions + 1):
        if number % TOGETHER == 1:
            it.kept, folder = {}, top / f"hostile{number}"
        it.one(folder, number)
    return it.findings
