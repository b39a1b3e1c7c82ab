"""Lets each command meet damaged hints: for ./dev faults --hints."""

import collections
import random
import re
import shutil
import subprocess
import sys
import tempfile
from concurrent.futures import ThreadPoolExecutor
from pathlib import Path

import hint_files
from hint_damages import BYTES, PLACES, Logs, link_to_nothing
from hint_logs import FOLDERS, strange_log

SECONDS = 300
# How many runs of the program are made at once, and how many of the damages that no check but one
# of the log sees are tried alone.
AT_ONCE, ALONE = 2, 100
# One of so many damages is of what is in the place of a hint.
PLACE = 50
LEDGERS = range(8)
# How many entries a script reads, and after how many damages the progress is told.
READ, STRIDE = 60, 5000
REFUSED, RIGHT = "refused", "right"
NOTE = re.compile(r"note hint not used: log (\d+): (.*)")
LIMIT = "2048"


class Folder:
    """A directory that the program wrote, with hints that it made, and what it answers there
    without hints."""

    def __init__(self, program, top, name, chance):
        self.program, self.good, self.answers, self.script = program, top / f"good {name}", {}, {}
        program.must(
            ["script", "--folder", self.good, "--log-limit", LIMIT],
            "\n".join(FOLDERS[name](chance)) + "\n",
        )
        self.foreign(chance)
        self.files = {path.name: path.read_bytes() for path in self.good.iterdir()}
        sealed = {
            log: data for log, data in self.by_log(".log").items() if hint_files.place_of_map(data)
        }
        self.logs = Logs(sealed)
        keys = sorted({entry[:2] for entries in self.logs.entries.values() for entry in entries})
        self.keys = [*keys, (1, 99_999), (77, 0)]
        self.learn()

    def by_log(self, ending):
        names = {name: data for name, data in self.files.items() if name.endswith(ending)}
        return {int(name.removesuffix(ending), 16): data for name, data in names.items()}

    def foreign(self, chance):
        """Logs as no bookie writes them: entries out of order, twice, with gaps, and between
        records that are none."""
        next_log = 1 + max(int(path.stem, 16) for path in self.good.glob("*.log"))
        for number in range(next_log, next_log + 12):
            (self.good / f"{number:x}.log").write_bytes(strange_log(chance))

    def make_hints(self):
        """The hints that the program makes. Returns why they are other ones than
        tools/logs/hint_files.py makes."""
        self.program.must(["hint", self.good])
        made = {path.name: path.read_bytes() for path in self.good.glob("*.hint")}
        wanted = {f"{log:x}.hint": hint for log, hint in self.logs.hints.items()}
        return [name for name in made.keys() | wanted.keys() if made.get(name) != wanted.get(name)]

    def calls(self, chance):
        """A script, which opens a store on the directory, and one of the other commands that read
        hints: their words before the directory and after it, and their steps."""
        ledger, (of, entry) = str(chance.choice(LEDGERS)), chance.choice(self.keys)
        yield ("script", "--folder"), (), self.steps(chance)
        yield chance.choice(
            (
                (("stat",), (), ""),
                (("ledgers",), (), ""),
                (("entries",), (ledger,), ""),
                (("export", "--raw"), (ledger,), ""),
                (("find",), (str(of), str(entry)), ""),
            )
        )

    def steps(self, chance):
        """All ledgers and entry ids of the index, and some entries, or without chance all."""
        listed = "".join(f"last {ledger}\nentries {ledger} 0 100000\n" for ledger in LEDGERS)
        keys = chance.sample(self.keys, min(len(self.keys), READ)) if chance else self.keys
        return f"ledgers 0 1000\n{listed}" + "".join(
            f"take 0 {key[0]} {key[1]}\nfetch 0\nrelease 0\n" for key in keys
        )

    def answers_to(self, words, steps):
        """What a call answers without hints: the status, and the answer to each step, or all."""
        place = Path(tempfile.mkdtemp(dir=self.good.parent))
        self.lay(place, {})
        status, out, _ = self.program.call([*words[0], place, *words[1]], steps)
        shutil.rmtree(place)
        return status, out

    def usual(self, word, rest, steps):
        """What a call answers without hints. A script's answers are put together of those to its
        parts."""
        if steps:
            return 0, b"".join(self.script[step] for step in steps_in(steps))
        if (word, rest) not in self.answers:
            self.answers[word, rest] = self.answers_to((word, rest), "")
        return self.answers[word, rest]

    def learn(self):
        """Learns the answers to all steps that a script may have."""
        steps = self.steps(None)
        status, out = self.answers_to((("script", "--folder"), ()), steps)
        parts, lines = steps_in(steps), out.splitlines(keepends=True)
        if status != 0 or len(lines) != steps.count("\n"):
            raise SystemExit(f"dev faults: a script without hints: status {status}, {out[-200:]}")
        at = 0
        for part in parts:
            self.script[part] = b"".join(lines[at : at + part.count("\n")])
            at += part.count("\n")

    def lay(self, place, hints):
        """Makes the directory anew, with these hints: bytes, or what makes another file."""
        shutil.rmtree(place, ignore_errors=True)
        place.mkdir()
        for name, data in self.files.items():
            (place / name).write_bytes(data)
        for log, hint in hints.items():
            path = place / f"{log:x}.hint"
            path.write_bytes(hint) if isinstance(hint, bytes) else hint(path)


def steps_in(steps):
    """The parts of a script: three steps that read an entry, or one."""
    return re.findall(r"take.*\nfetch.*\nrelease.*\n|.*\n", steps)


class Program:
    def __init__(self, path):
        self.path = path

    def call(self, words, steps=""):
        """Status, answer and notes of a call; without a status it hung."""
        try:
            ran = subprocess.run(
                [self.path, *map(str, words)],
                input=steps.encode(),
                capture_output=True,
                timeout=SECONDS,
            )
        except subprocess.TimeoutExpired:
            return None, b"", ""
        return ran.returncode, ran.stdout, ran.stderr.decode(errors="replace")

    def must(self, words, steps=""):
        status, out, told = self.call(words, steps)
        if status != 0 or b"fault" in out:
            raise SystemExit(
                f"dev faults: {' '.join(map(str, words))}: status {status}, {told[-300:]} "
                f"{out[-300:]}"
            )


class Round:
    """A directory in which each hint is damaged, and what must be said of each."""

    def __init__(self, folder, chance):
        self.folder, self.chance = folder, chance
        self.hints, self.outcomes = {}, collections.Counter()
        # Why a hint is refused, None for any reason; hints of which a note may be missing; hints
        # that are used though the log has other entries, which stay out of the directory.
        self.refused, self.may, self.through = {}, set(), []
        for log in folder.logs.hints:
            self.damage(log)

    def damage(self, log):
        if self.chance.randrange(PLACE) == 0:
            kind, self.hints[log] = self.chance.choice(list(PLACES.items()))
            self.refused[log] = None
            if self.hints[log] is link_to_nothing:
                self.may.add(log)
            self.outcomes[kind, REFUSED] += 1
            return
        logs, kind = self.folder.logs, self.chance.choice(list(BYTES))
        self.hints[log] = good = logs.hints[log]
        hint = BYTES[kind](self.chance, logs, log, good)
        why = None if hint == good else logs.why_not(log, hint)
        if why:
            self.hints[log], self.refused[log] = hint, why
            self.outcomes[kind, REFUSED] += 1
        elif logs.is_true(log, hint):
            self.hints[log] = hint
            self.outcomes[kind, RIGHT] += 1
        else:
            self.through.append((kind, log, hint))

    def findings(self, place):
        """What is wrong with the answers of the commands in this directory."""
        self.folder.lay(place, self.hints)
        for word, rest, steps in self.folder.calls(self.chance):
            status, out, told = self.folder.program.call([*word, place, *rest], steps)
            title = " ".join((*word, *rest))
            if (status, out) != self.folder.usual(word, rest, steps):
                yield (
                    f"{title}: another answer than without hints: status {status}, {out[-200:]} "
                    f"{told[-200:]}"
                )
            yield from (f"{title}: {why}" for why in self.wrong_notes(told))
        for name, data in self.folder.files.items():
            if name.endswith(".log") and (place / name).read_bytes() != data:
                yield f"{name} was changed"

    def wrong_notes(self, told):
        notes = {int(log): why for log, why in NOTE.findall(told)}
        for log in notes.keys() - self.refused.keys():
            yield f"a good hint is not used: log {log}: {notes[log]}"
        for log in self.refused.keys() - notes.keys() - self.may:
            yield f"no note on a hint: log {log}, {self.refused[log]}: {self.hints[log]}"
        for log in self.refused.keys() & notes.keys():
            if self.refused[log] not in (None, notes[log]):
                yield (
                    f"another reason: {notes[log]}, not {self.refused[log]}: log {log}, "
                    f"{self.hints[log]}"
                )


class Trials:
    """Damages of all kinds: how many of each were refused, right, or seen by no check but one of
    the log's records."""

    def __init__(self, program, top, seed):
        self.top, self.seed = top, seed
        self.counts, self.texts = collections.Counter(), collections.Counter()
        self.folders = [
            Folder(program, top, name, random.Random(f"{seed} {name}")) for name in FOLDERS
        ]
        self.through = []

    def find(self, why):
        """Counts a finding. Tells the first of those that differ in numbers alone."""
        kind = re.sub(r"\d+|b'.*", "N", why)
        self.texts[kind] += 1
        if self.texts[kind] == 1:
            print(why[:800], flush=True)

    def round(self, number):
        folder = self.folders[number % len(self.folders)]
        made = Round(folder, random.Random(f"{self.seed} {number}"))
        place = self.top / f"round {number}"
        found = list(made.findings(place))
        shutil.rmtree(place)
        return made, found

    def damages(self):
        return sum(self.counts.values()) + len(self.through)

    def run(self, wanted):
        """Makes at least so many damages."""
        for folder in self.folders:
            for name in folder.make_hints():
                self.find(
                    f"{name} is not as tools/logs/hint_files.py makes it, or one of both is missing"
                )
        each = sum(len(folder.logs.hints) for folder in self.folders) / len(self.folders)
        with ThreadPoolExecutor(AT_ONCE) as pool:
            for made, found in pool.map(self.round, range(int(wanted / each) + 1)):
                self.counts.update(made.outcomes)
                self.through += [(kind, made.folder, log, hint) for kind, log, hint in made.through]
                for why in found:
                    self.find(why)
                self.tell_progress(len(made.hints))

    def tell_progress(self, more):
        """Tells on the error stream how far it is, each time that it has made some thousand
        damages."""
        if self.damages() // STRIDE > (self.damages() - more) // STRIDE:
            print(
                f"{self.damages():,} damages, {sum(self.texts.values())} findings",
                file=sys.stderr,
                flush=True,
            )

    def batches(self):
        """The hints that fit all but the records of their logs, by folder, one for a log in each
        batch."""
        for folder in self.folders:
            by_log = collections.defaultdict(list)
            for kind, of, log, hint in self.through:
                if of is folder:
                    by_log[log].append((kind, hint))
            while left := {log: found.pop() for log, found in by_log.items() if found}:
                yield folder, left

    def noted(self, number, folder, batch):
        """Which of these hints the program says that it does not use."""
        place = self.top / f"batch {number}"
        folder.lay(place, {**folder.logs.hints, **{log: hint for log, (_, hint) in batch.items()}})
        _, _, told = folder.program.call(["stat", place])
        shutil.rmtree(place)
        return batch, {int(log) for log, _ in NOTE.findall(told)}, folder

    def show_through(self):
        """Of the hints that fit all but the records of their logs: how many are refused, and what
        those that are not change."""
        refused, used = collections.Counter(), []
        with ThreadPoolExecutor(AT_ONCE) as pool:
            for batch, noted, folder in pool.map(
                lambda it: self.noted(it[0], *it[1]), enumerate(self.batches())
            ):
                for log, (kind, hint) in batch.items():
                    if log in noted:
                        refused[kind] += 1
                    else:
                        used.append((kind, folder, log, hint))
            used.sort(key=lambda it: it[0])
            sample = used[:: max(1, len(used) // min(ALONE, 10 + len(used) // 20))]
            changes = collections.Counter(
                pool.map(self.alone, range(len(sample)), *zip(*sample)) if sample else ()
            )
        by_kind = collections.Counter(kind for kind, *_ in used)
        for kind in sorted(refused.keys() | by_kind.keys()):
            told = ", ".join(
                f"{what} {number}" for (of, what), number in sorted(changes.items()) if of == kind
            )
            print(
                f"{kind}, fits all but the records: {refused[kind]:,} refused, {by_kind[kind]:,} "
                f"used; of these alone: {told or '-'}"
            )
        return len(used)

    def alone(self, number, kind, folder, log, hint):
        """Tries one of these hints beside good ones: which commands use it and answer otherwise."""
        place, differ, noted = self.top / f"alone {number}", [], False
        folder.lay(place, {**folder.logs.hints, log: hint})
        for word, rest, steps in folder.calls(random.Random(number)):
            status, out, told = folder.program.call([*word, place, *rest], steps)
            noted = noted or str(log) in dict(NOTE.findall(told))
            if (status, out) != folder.usual(word, rest, steps):
                differ.append(word[0])
        shutil.rmtree(place)
        if noted and differ:
            self.find(f"{kind}: log {log} is noted, and {' '.join(differ)} differ: {hint}")
        return kind, f"other answers of {' '.join(differ)}" if differ else "right answers"

    def show(self):
        kinds = sorted({kind for kind, _ in self.counts})
        for kind in kinds:
            print(
                f"{self.counts[kind, REFUSED]:7,} {kind}: refused, {self.counts[kind, RIGHT]:,} "
                "right in this form too"
            )


def run(path, top, wanted, seed):
    """Makes so many damages, and prints what became of them. Returns whether there is a finding."""
    trials = Trials(Program(path), top, seed)
    trials.run(wanted)
    trials.show()
    used = trials.show_through()
    right = sum(count for (_, outcome), count in trials.counts.items() if outcome == RIGHT)
    findings = sum(trials.texts.values())
    print(
        f"{trials.damages():,} damaged hints, {trials.damages() - right - used:,} refused, "
        f"{right:,} that list what the log has, "
        f"{used:,} used though it has others, {findings} findings"
    )
    return 1 if findings else 0
