"""The runs of the shell in the guest of ./dev power: how one is begun, what it promises, and what
is wrong with it."""

import subprocess
import tempfile
from pathlib import Path

from power_promise import Promise, coded, deleted, files_of, loaded

FOLDER = "/mnt/logs"
# Without a record of what is durable: the options of `script --folder`.
UNRECORDED = ["--no-manifest"]
# A ledger that is used for nothing else: the library of the guest reports each read of its entries
# (power.c).
MARKER, WORD, NO_MARKER = 900, "marker", 1 << 40
KILLED = 137


class Run:
    """One run of a program in the guest, whose input is `steps`. It promises nothing."""

    def __init__(self, number, kind, words):
        self.number, self.kind, self.words, self.steps = number, kind, words, []
        # A run that publishes nothing reports no marker, also if it copies one.
        self.first_marker = NO_MARKER
        # The call at which it is killed, and the one in which the device fails; whether the disk
        # may be full.
        self.kill_at = self.fail_at = 0
        self.is_full = False

    def counted(self):
        """The kind as which it is counted."""
        return "failing" if self.fail_at else self.kind

    def job(self):
        """The lines of the shell that run it."""
        words, steps = " ".join(self.words), "\n".join([*self.steps, "END"])
        numbers = f"{self.number} {self.first_marker} {self.kill_at} {self.fail_at}"
        return f"cat >/tmp/steps <<'END'\n{steps}\nrun {numbers} {words}\n"

    def may_fail(self):
        """Whether its device may fail, so that an answer may be a fault, and the status 1."""
        return bool(self.fail_at) or self.is_full

    def is_recorded(self):
        return UNRECORDED[0] not in self.words

    def trouble(self, status, output):
        """Why a run that was not killed is not as it must be, or None."""
        lines, _, told = output.rpartition("--\n")
        faults = [
            line for line in [*lines.splitlines(), *told.splitlines()] if line.startswith("fault")
        ]
        why = [*faults, *told.strip().splitlines(), *lines.strip().splitlines()[-1:], "no word"][0]
        if self.may_fail() and (status == 0 or status == 1 and faults):
            return None
        return f"{' '.join(self.words)}: status {status}, {why}" if status != 0 or faults else None

    # ---- what the messages promise

    def on_begin(self, event, follows, before):
        return Promise()

    def on_end(self, event, follows, before):
        return Promise()


class Stretch:
    """A part of a script: the ledgers that it ends, and then the entries that are promised at its
    marker."""

    def __init__(self):
        # Pairs of `delete` or `fence`, and a ledger.
        self.ended, self.entries, self.marker = [], {}, None


class Script(Run):
    """A script on the directory."""

    def __init__(self, number, words):
        super().__init__(number, "script", words)
        self.stretches, self.added = [Stretch()], {}

    def ended(self, marker=None):
        """The ledgers that it ends up to a marker, or to its own end."""
        found = []
        for stretch in self.stretches:
            found += stretch.ended
            if stretch.marker == marker:
                break
        return found

    def trouble(self, status, output):
        found, answers = super().trouble(status, output), len(answers_of(output))
        if found or status != 0 or answers == len(self.steps):
            return found
        return f"{' '.join(self.words)}: {answers} answers to {len(self.steps)} steps"

    def dead_until(self, follows):
        """The ledgers that may be deleted before the next message."""
        is_marker = follows and follows.words[0] == "marker"
        return deleted(self.ended(int(follows.words[1]) if is_marker else None))

    def on_begin(self, event, follows, before):
        return Promise((), coded(self.added), self.dead_until(follows))

    def on_marker(self, event, follows, before):
        """A flush is published, after the deletions and fences before it, if none was refused."""
        marker = int(event.words[1])
        flushed = next(it.entries for it in self.stretches if it.marker == marker)
        is_sure = self.is_recorded() and not self.may_fail()
        return Promise(
            coded(flushed), {}, self.dead_until(follows), self.ended(marker) if is_sure else ()
        )

    def on_end(self, event, follows, before):
        """What it answered is done. One that was killed has answered nothing."""
        answers = list(zip(self.steps, answers_of(event.data.decode(errors="replace"))))
        is_well = int(event.words[2]) == 0 and self.is_recorded()
        ended = (
            [ended_by(step) for step, answer in answers if is_done(step, answer)] if is_well else ()
        )
        gone = [
            int(step.split()[1])
            for step, answer in answers
            if step.startswith("remove ") and answer == "removed"
        ]
        return Promise((), {}, deleted(self.ended()), ended, () if self.may_fail() else gone)


class Look(Script):
    """A script that reads entries: what it finds is promised when it has ended."""

    def __init__(self, number, words, keys):
        super().__init__(number, words)
        self.kind, self.keys = "look", list(keys)
        for ledger, entry in self.keys:
            self.steps += [f"take 0 {ledger} {entry}", "fetch 0", "release 0"]

    def found(self, output):
        """Returns the entries that it found, with their bytes."""
        lines, found = answers_of(output), {}
        for index, key in enumerate(self.keys):
            answers = lines[3 * index : 3 * index + 2]
            if len(answers) == 2 and answers[1].startswith("bytes "):
                found[key] = bytes.fromhex(answers[1].removeprefix("bytes ").removeprefix("-"))
        return found

    def on_end(self, event, follows, before):
        return Promise(self.found(event.data.decode(errors="replace")))


class Import(Run):
    """An import of entries that the host exports. They are promised when it has ended well."""

    def __init__(self, number, words, entries, records):
        super().__init__(number, "import", [*words, FOLDER, "/tmp/records"])
        self.entries, self.records = coded(entries), records

    def job(self):
        digits = self.records.hex()
        lines = "\n".join(digits[at : at + 100] for at in range(0, len(digits), 100))
        return f"xxd -r -p >/tmp/records <<'END'\n{lines}\nEND\n{super().job()}"

    def trouble(self, status, output):
        found, wanted = super().trouble(status, output), [f"added {len(self.entries)} held 0"]
        if found or status != 0 or answers_of(output) == wanted:
            return found
        return f"{' '.join(self.words)}: {answers_of(output)}, and not {wanted}"

    def on_begin(self, event, follows, before):
        return Promise((), self.entries)

    def on_end(self, event, follows, before):
        return Promise(self.entries if int(event.words[2]) == 0 else ())


class Taken(Run):
    """The files as they are after a load, whose entries are promised then."""

    def __init__(self, number):
        super().__init__(number, "look", [])

    def job(self):
        return f"send_logs taken {self.number}\n"

    def on_taken(self, event, follows, before):
        return Promise(loaded(files_of(event.data), MARKER))


def answers_of(output):
    """The lines of a script's output; its error output follows them."""
    return output.rpartition("--\n")[0].splitlines()


def ended_by(step):
    verb, ledger = step.split()
    return verb, int(ledger)


def is_done(step, answer):
    """Whether a step is a deletion or a fence that was answered."""
    done = {"delete": ("dropped ", "fault already deleted"), "fence": ("fenced", "already fenced")}
    return answer.startswith(done.get(step.split()[0], ("no answer",)))


def exported(program, entries):
    """Lets the program write entries to a directory of the host, and export them. Returns their
    records."""
    with tempfile.TemporaryDirectory(prefix="bookie-power-") as room:
        folder, add = Path(room) / "logs", [
            f"add {it[0]} {it[1]} {text}".rstrip(" ") for it, text in entries.items()
        ]
        steps = "\n".join([*add, "swap", *["write"] * (len(add) + 1), "publish", ""])
        subprocess.run(
            [program, "script", "--folder", folder],
            input=steps.encode(),
            capture_output=True,
            check=True,
        )
        ledgers = sorted({ledger for ledger, _ in entries})
        export = [[program, "export", "--raw", folder, str(ledger)] for ledger in ledgers]
        return b"".join(subprocess.run(it, capture_output=True, check=True).stdout for it in export)


def troubles(runs, messages):
    """Why runs that were not killed are not as they must be."""
    by_number = {run.number: run for run in runs}
    for message in messages:
        if message.words[0] == "end":
            run, status = by_number[int(message.words[1])], int(message.words[2])
            if not run.kill_at or status != KILLED:
                trouble = run.trouble(status, message.data.decode(errors="replace"))
                if trouble:
                    yield trouble
