"""What the guest of ./dev power does to a directory of logs: runs of the programs, one after
another."""

import power_serve
from power_promise import coded, deleted
from power_runs import (
    FOLDER,
    MARKER,
    UNRECORDED,
    WORD,
    Import,
    Look,
    Run,
    Script,
    Stretch,
    Taken,
    exported,
)

LIMITS = ("2048", "4000", "9000", "30000")
SIZES = (0, 1, 20, 100, 300, 700, 1500, 5000)
COMPACTION = ("major", "copy 2", "copy 1000", "end", "switch 1", "switch 1000", "finish")
# Logs that a script tries to retire or to remove: more than there are, as a rule.
LOGS = range(64)
# The kinds of runs, with the calls between which one is killed; those that make a directory; those
# that work without a record of what is durable; and those whose device may fail, with the most
# writes and syncs before.
KILLS = {
    "script": (2, 60), "serve": (2, 80), "compact": (2, 30), "load": (2, 400), "import": (2, 30), "hint": (1, 8),
    "seal": (2, 30),
}  # fmt: skip
KINDS = (*KILLS, "failing")
MAKING = ("script", "serve", "import")
UNRECORDED_KINDS = ("script", "compact", "load", "import", "seal")
FAILING = {"script": 50, "serve": 60, "compact": 25, "import": 25, "seal": 20}
# How often a run of a kind is chosen.
WEIGHTS = {"script": 4, "serve": 4, "compact": 2, "load": 2, "failing": 2}


class Story:
    """Runs of the programs, one after another: flushes with deletions and compactions, some of them
    killed, and some on a device that fails."""

    def __init__(self, chance, asked, length):
        self.chance, self.asked, self.limit = chance, asked, chance.choice(LIMITS)
        self.keeping = UNRECORDED if asked.no_manifest else []
        self.live, self.dead, self.next_ledger = [1, 2, 3, 4], [], 5
        self.next_entry, self.next_marker = 0, 1
        # Entries that were added, and the ledgers with an attribute that was set.
        self.entries, self.attributes, self.processes, self.compaction = {}, set(), [], []
        if length:
            self.begin()
        kinds = [it for it in KINDS if it in asked.kind for _ in range(WEIGHTS.get(it, 1))]
        while len(self.processes) < length:
            self.processes += self.runs_of(chance.choice(kinds))

    def begin(self):
        """Makes the directory."""
        making = [it for it in MAKING if it in self.asked.kind]
        if "load" in self.asked.kind:
            # A load uses the ledgers after the last one with an entry: after MARKER from now on.
            self.processes += self.make_script()
            self.processes += self.load(is_whole=True)
        else:
            self.processes += self.runs_of(self.chance.choice(making or ["script"]))

    def runs_of(self, kind):
        """A run of a kind, some of them killed, with the runs that look at what a killed or a
        failing one left."""
        if kind == "failing":
            return self.failing()
        if kind == "load":
            return self.load()
        made = getattr(self, f"make_{kind}")()
        if self.chance.random() < 0.5:
            made[0].kill_at = self.chance.randrange(*KILLS[kind])
            made.append(self.look(made[0].number + 1))
        return made

    def failing(self):
        """A run whose device fails once, in a write or a sync, and a look at what it left."""
        kind = self.chance.choice([it for it in FAILING if it in self.asked.kind] or list(FAILING))
        made = getattr(self, f"make_{kind}")()
        made[0].fail_at = self.chance.randrange(1, FAILING[kind])
        return [*made, self.look(made[0].number + 1)]

    def numbered(self, run, offset=0):
        run.number = len(self.processes) + offset
        run.is_full = bool(self.asked.full)
        return run

    def run(self, kind, words, offset=0):
        return self.numbered(Run(0, kind, words), offset)

    # ---- the kinds of runs

    def script_words(self):
        dead = [str(ledger) for ledger in self.dead]
        return ["script", "--folder", FOLDER, "--log-limit", self.limit, *self.keeping, *dead]

    def make_script(self):
        process = self.numbered(Script(0, self.script_words()))
        process.first_marker, self.compaction = self.next_marker, []
        for _ in range(self.chance.randrange(1, 5)):
            self.flush(process)
            if self.chance.random() < 0.3:
                process.steps.append("roll")
            if self.chance.random() < 0.2:
                process.steps += [f"retire {log}" for log in LOGS] + removals()
        if self.chance.random() < 0.4:
            # No sync of a file follows these removals.
            process.steps += [*COMPACTION, *(f"retire {log}" for log in LOGS), *removals()]
        self.dead += deleted(process.ended())
        return [process]

    def make_serve(self):
        session = self.numbered(power_serve.session(self))
        self.dead += deleted(session.ended())
        return [session]

    def make_import(self):
        entries = self.some_entries()
        self.entries.update(entries)
        words = ["import", *self.keeping, *self.dead_words()]
        return [self.numbered(Import(0, words, entries, exported(self.asked.program, entries)))]

    def make_compact(self, offset=0):
        words = self.compaction_words(self.chance.choice(("--major", "--minor")))
        return [self.run("compact", words, offset)]

    def make_hint(self):
        return [self.run("hint", ["hint", FOLDER])]

    def make_seal(self):
        return [self.run("seal", ["seal", "--all-unsealed", *self.keeping, FOLDER])]

    def dead_words(self):
        return [f"--dead={ledger}" for ledger in self.dead]

    def compaction_words(self, kind):
        return ["compact", kind, *self.keeping, *self.dead_words(), FOLDER]

    def look(self, number, entries=None):
        """A run that reads all entries, by the server or by a script: what it finds is promised."""
        entries = coded(self.entries) if entries is None else entries
        if "serve" in self.asked.kind and self.chance.random() < 0.5:
            made = power_serve.look(self, number, entries)
        else:
            made = Look(number, self.script_words(), entries)
        made.is_full = bool(self.asked.full)
        return made

    def load(self, is_whole=False):
        """A load of threads, half of them killed if not the whole is asked for; then a compaction,
        which opens what that left, and the files as they are."""
        words = [
            "load",
            "--threads",
            "2",
            "--adds",
            str(self.chance.randrange(20, 200)),
            "--folder",
            FOLDER,
            *self.keeping,
        ]
        load = self.run("load", words)
        load.kill_at = (
            0 if is_whole else self.chance.choice((0, self.chance.randrange(*KILLS["load"])))
        )
        return [load, *self.make_compact(1), self.numbered(Taken(0), 2)]

    # ---- the steps of a script

    def some_entries(self):
        found = {}
        for _ in range(self.chance.randrange(1, 9)):
            size = self.chance.choice(SIZES)
            found[self.chance.choice(self.live), self.next_entry] = "".join(
                self.chance.choices("abcdefgh", k=size)
            )
            self.next_entry += 1
        return found

    def flush(self, process):
        """Adds entries, writes and publishes them; compactions, deletions and fences come
        between."""
        entries = {**self.some_entries(), (MARKER, self.next_marker): WORD}
        process.steps += [
            f"add {ledger} {entry} {text}".rstrip(" ") for (ledger, entry), text in entries.items()
        ]
        self.entries.update(entries)
        process.added.update(entries)
        self.perhaps_end(process, 0.2)
        process.steps.append("swap")
        for _ in range(len(entries) + 1):
            process.steps.append("write")
            self.perhaps_compact(process)
        self.perhaps_end(process, 0.1)
        process.steps += ["publish", f"take 3 {MARKER} {self.next_marker}", "fetch 3", "release 3"]
        process.stretches[-1].entries = entries
        process.stretches[-1].marker = self.next_marker
        process.stretches.append(Stretch())
        self.next_marker += 1
        self.perhaps_end(process, 0.2)

    def perhaps_end(self, process, share):
        if self.chance.random() < share:
            ledger = self.end_one()
            step = self.chance.choice(("delete", "delete", "fence"))
            process.steps.append(f"{step} {ledger}")
            process.stretches[-1].ended.append((step, ledger))

    def end_one(self):
        """Chooses a ledger that is deleted or fenced; another one gets entries in its place."""
        ledger = self.live.pop(self.chance.randrange(len(self.live)))
        self.live.append(self.next_ledger)
        self.next_ledger += 1
        return ledger

    def perhaps_compact(self, process):
        if not self.compaction and self.chance.random() < 0.15:
            self.compaction = [*([step] for step in COMPACTION), removals()]
        if self.compaction and self.chance.random() < 0.6:
            process.steps += self.compaction.pop(0)

    # ---- the job

    def job(self):
        return "".join(process.job() for process in self.processes)


def removals():
    return [step for log in LOGS for step in (f"close {log}", f"remove {log}")]
