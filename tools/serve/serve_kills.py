"""Kills bk_serve at random moments of a session: for ./dev kills --serve.

A client sends adds ahead, flushes, deletes, fences and stores master keys, until the server is
killed. The next session has to find what was answered; then it goes on in the same directory. Every
other session compacts in the background, in every third threads share reads, and most seal logs
that are small (`--log-limit`), so that there are many hints.

After each kill a session with hints and one with `--no-hints`, each on a copy of the directory,
have to give the same answers. Before, a hint of every second copy is damaged: the session has to
note it, and no other one, and an orderly end has to leave a hint for each sealed log.
"""

import random
import re
import shutil
import sys
import threading

import entry_logs
from serve_faults import Known, answer_of, bookie, content_of

# The longest time until a kill, in seconds and in rounds of requests, and the adds that are sent
# ahead at once.
LONGEST, ROUNDS, AHEAD = 0.15, 6, 64
# How many of the entries of earlier sessions each session reads.
SAMPLE = 300
# Limits of the logs of a session, None for the usual one.
LIMITS = (None, "4096", "20000", "100000")
UNUSED = re.compile(r"^note hint not used: log (\d+):", re.M)


def add_ahead(session, known, chance, ledgers, first):
    """Sends adds ahead, and then waits for their replies."""
    sent = []
    for entry in range(first, first + AHEAD):
        ledger, content = chance.choice(ledgers), chance.randbytes(
            chance.choice((0, 1, 20, 200, 1500))
        )
        sent.append(
            (
                ledger,
                entry,
                content,
                session.send("add", ledger=ledger, entry=entry, content=content),
            )
        )
    for ledger, entry, content, future in sent:
        reply = answer_of(future.result)
        if isinstance(reply, str):
            known.added((ledger, entry), content, reply)
        else:
            known.added((ledger, entry), content, bookie.receipt_of(ledger, entry, reply))


def change_one(session, known, chance, ledger):
    """Deletes or fences a ledger, stores its master key, or compacts."""
    kind = chance.randrange(4)
    if kind == 0:
        known.deleted(ledger, answer_of(session.delete, ledger))
    elif kind == 1 and not isinstance(answer_of(session.fence, ledger), str):
        known.fenced.add(ledger)
    elif kind == 2:
        key = chance.randbytes(20)
        before = known.keys.get(ledger, {None})
        stored = not isinstance(answer_of(session.set_master_key, ledger, key), str)
        known.keys[ledger] = {key} if stored else before | {key}
    elif kind == 3:
        answer_of(session.compact, 200, 800)


def work(session, known, chance, number):
    """Works until the session ends."""
    ledgers, first, rounds = [10 * number + it for it in range(4)], 0, 0
    while session._why is None:
        add_ahead(session, known, chance, ledgers, first)
        known.flushed(answer_of(session.flush))
        change_one(session, known, chance, ledgers.pop(0) if len(ledgers) > 1 else ledgers[0])
        if len(ledgers) == 1:
            ledgers += [10 * number + it for it in range(4, 8)]
        first, rounds = first + AHEAD, rounds + 1
    return rounds


def ids_of(folder, end):
    """The ids of the logs that have a file with this end."""
    return {int(path.name.split(".")[0], 16) for path in folder.glob(f"*.{end}")}


def damage_hint(folder, chance):
    """Damages a hint, puts another one in its place, or leaves it as a kill amid its write does.

    Returns the logs whose hints are to be noted, and whether there was a hint.
    """
    hints = sorted(folder.glob("*.hint"))
    if not hints:
        return set(), False
    hint = chance.choice(hints)
    old = hint.read_bytes()
    data, kind = bytearray(old), chance.randrange(5)
    if kind == 0:
        data = data[: chance.randrange(len(data))]
    elif kind == 1:
        data[chance.randrange(len(data))] ^= 1 << chance.randrange(8)
    elif kind == 2:
        data += chance.randbytes(chance.randrange(1, 100))
    elif kind == 3:
        data = chance.choice(hints).read_bytes()
    else:
        hint.with_suffix(".hint.new").write_bytes(old[: chance.randrange(len(old))])
        hint.unlink()
        return set(), True
    hint.write_bytes(data)
    return (set() if bytes(data) == old else {int(hint.stem, 16)}), True


def shortened(folder):
    """The logs of which not all bytes are durable."""
    lengths = entry_logs.durable_lengths(folder)
    return {
        log
        for log in ids_of(folder, "log")
        if (folder / f"{log:x}.log").stat().st_size > lengths.get(log, 1 << 40)
    }


class Kills:
    """A directory in which each session is killed."""

    def __init__(self, path, top, seed):
        self.path, self.top, self.folder, self.chance = (
            str(path),
            top,
            top / "served",
            random.Random(seed),
        )
        # What earlier sessions left, which the last one was told, and whether that one was killed.
        self.all, self.known, self.differences = Known({}), Known({}), 0
        # Of all openings: logs, hints, and hints that were damaged.
        self.logs = self.hints = self.damaged = 0
        self.longest = LONGEST

    def report(self, why):
        print(why, flush=True)
        self.differences += 1

    def answers(self, folder, words, seed):
        """What a session on a copy of the directory answers, and what it notes of hints."""
        told = self.top / "told"
        with open(told, "wb") as errors, bookie.Bookie(
            [self.path, str(folder), *words], stderr=errors
        ) as session:
            entries = [
                (ledger, entry) for ledger in session.ledgers() for entry in session.entries(ledger)
            ]
            sample = random.Random(seed).sample(entries, min(SAMPLE, len(entries)))
            ledgers = sorted({ledger for ledger, _ in entries})
            found = {
                "entries": entries, "contents": [session.read(*key) for key in sample], "figures": session.stats().fields,
                "last": [session.read_last(it) for it in ledgers], "fenced": [session.is_fenced(it) for it in ledgers],
            }  # fmt: skip
        return found, {int(log) for log in UNUSED.findall(told.read_text())}

    def compare(self):
        """Compares a session with hints and one without, on copies of the directory."""
        folder, seed = self.top / "copy", self.chance.random()
        shutil.copytree(self.folder, folder)
        plain, noted = self.answers(folder, ["--no-hints"], seed)
        if noted:
            self.report(f"a session without hints notes those of {noted}")
        shutil.rmtree(folder)
        shutil.copytree(self.folder, folder)
        hints, logs = ids_of(folder, "hint"), ids_of(folder, "log")
        self.logs, self.hints = self.logs + len(logs), self.hints + len(hints & logs)
        damaged, is_damaged = (
            damage_hint(folder, self.chance) if self.chance.randrange(2) else (set(), False)
        )
        self.damaged += is_damaged
        (folder / "7ffffff0.hint").write_bytes(b"of no log")
        (folder / "7ffffff1.hint.new").write_bytes(b"torn")
        hinted, noted = self.answers(folder, [], seed)
        for kind, found in plain.items():
            if hinted[kind] != found:
                self.report(
                    f"with hints other {kind}: {hinted[kind]!r:.200} in place of {found!r:.200}"
                )
        wanted = ((shortened(folder) & hints) | damaged) & logs
        if noted != wanted:
            self.report(f"hints are noted as not used of {noted} in place of {wanted}")
        self.look_at_hints(folder)
        shutil.rmtree(folder)

    def look_at_hints(self, folder):
        """Looks whether an orderly end has left a hint of each sealed log, and no other file of a
        hint."""
        sealed = {
            log
            for log in ids_of(folder, "log")
            if entry_logs.Log((folder / f"{log:x}.log").read_bytes()).is_sealed()
        }
        if ids_of(folder, "hint") != sealed:
            self.report(f"hints of {ids_of(folder, 'hint')}, but {sealed} are sealed")
        if ids_of(folder, "hint.new"):
            self.report(f"torn hints of {ids_of(folder, 'hint.new')} are left")

    def look(self, session):
        """Compares the directory with what the last session was told, and with a sample of what
        earlier ones left."""
        one = self.known
        kept = sorted(self.all.must)
        one.must.update(
            {key: self.all.must[key] for key in self.chance.sample(kept, min(SAMPLE, len(kept)))}
        )
        one.dead |= self.all.dead
        for why in one.differences(session):
            self.report(why)
        unsure = {**one.may, **one.accepted}
        there = {
            key: data
            for key, data in unsure.items()
            if key[0] not in one.dead and content_of(session, *key) == data
        }
        self.all.must.update(
            {key: data for key, data in {**one.must, **there}.items() if key[0] not in one.dead}
        )
        self.all.dead |= one.dead

    def one(self, number):
        if self.folder.exists():
            self.compare()
        limit = self.chance.choice(LIMITS)
        words = (["--compact", "20,80"] if number % 2 == 0 else []) + (
            ["--log-limit", limit] if limit else []
        )
        words += ["--readers", "4"] if number % 3 == 0 else []
        session = bookie.Bookie([self.path, str(self.folder), *words])
        self.look(session)
        self.known = Known({})
        until = self.chance.uniform(0, self.longest)
        timer = threading.Timer(until, session.process.kill)
        timer.start()
        rounds = work(session, self.known, self.chance, number)
        # On a slow machine a session lasts longer.
        self.longest = max(
            LONGEST, 0.9 * self.longest, ROUNDS * until / rounds if rounds else 2 * self.longest
        )
        timer.join()
        session.kill()


def run(path, top, kills, seed):
    """Kills so many sessions. Returns the number of differences, and of the entries that are
    left."""
    it = Kills(path, top, seed)
    for number in range(1, kills + 1):
        it.one(number)
    it.compare()
    with bookie.Bookie([it.path, str(it.folder)]) as session:
        it.look(session)
        last = Known(it.all.must)
        for why in last.differences(session):
            it.report(why)
    it.look_at_hints(it.folder)
    print(f"{it.hints} hints of {it.logs} logs, {it.damaged} damaged", file=sys.stderr)
    return it.differences, len(it.all.must)
