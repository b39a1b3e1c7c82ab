"""What is done to a directory on a full disk in the guest of ./dev power, before room is made:
reading, and opening."""

from power_runs import FOLDER, Run, answers_of

# The most ledgers that are read.
LEDGERS = 2


class Crowd:
    """The runs on a full disk: reading commands, each of which has to find what is promised, and
    writing ones, which open the directory or are refused with a named fault."""

    def __init__(self, story, entries):
        ledgers = sorted({ledger for ledger, _ in entries})
        self.ledgers = story.chance.sample(ledgers, min(LEDGERS, len(ledgers)))
        export = [
            Run(0, "export", ["export", *story.keeping, FOLDER, str(ledger)])
            for ledger in self.ledgers
        ]
        writing = [story.look(0, entries), story.make_compact()[0]] if entries else []
        self.readers, self.writers, self.runs = export, writing, [*export, *writing]
        for number, run in enumerate(self.runs):
            run.number = number
            run.is_full = run in writing

    def job(self):
        return "".join(run.job() for run in self.runs)

    def lost(self, ends, promise):
        """The promised entries that the reading commands do not find."""
        for ledger, run in zip(self.ledgers, self.readers if len(ends) > len(self.readers) else ()):
            lines = answers_of(ends[run.number].data.decode(errors="replace"))
            found = {int(number): data for number, data in (line.split() for line in lines)}
            for (its, entry), data in promise.must.items():
                if (
                    its == ledger
                    and ledger not in promise.dead
                    and found.get(entry) != (data.hex() or "-")
                ):
                    yield (
                        f"on the full disk, entry {entry} of ledger {ledger} is "
                        f"{found.get(entry)!r:.40}"
                    )

    def counted(self, ends):
        """Yields what each run that ended did."""
        for run in self.runs:
            if run.number in ends:
                is_well = int(ends[run.number].words[2]) == 0
                kind = "reading commands" if run in self.readers else "writing commands"
                yield f"{kind} that {'opened it' if is_well else 'were refused'}"
