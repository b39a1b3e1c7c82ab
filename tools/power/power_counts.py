"""What ./dev power found, in images; and the images with a finding, which are kept."""

import collections
import json

from power_promise import files_of
from power_runs import KILLED

# In the name of an image that was cut off while the machine opened and compacted, and the kind as
# which it is counted.
RECOVERY = ", recovered,"
RECOVERED = "recovery"


class Counts:
    """What was found, in images, also by the kind of run that was cut off; and the runs by their
    kind."""

    def __init__(self, keep):
        self.keep, self.kept = keep, 0
        self.cuts = (
            self.lost
        ) = self.refused = self.ways_on = self.torn = self.recovered = self.recordings = 0
        self.images = set()
        self.texts = collections.Counter()
        # Runs by kind, killed ones too; cuts by kind and what was found; what was done on a full
        # disk.
        self.runs, self.found, self.full = (
            collections.Counter(),
            collections.Counter(),
            collections.Counter(),
        )

    def add_runs(self, runs, messages):
        """Counts the runs of a recording, by the status with which each ended."""
        self.recordings += 1
        ends = {
            int(message.words[1]): int(message.words[2])
            for message in messages
            if message.words[0] == "end"
        }
        for run in runs:
            self.runs[run.counted(), "runs"] += 1
            self.runs[run.counted(), "killed"] += ends.get(run.number) == KILLED
            self.runs[run.counted(), "ended with 1"] += ends.get(run.number) == 1

    def add(self, name, kind, finding, image, tar, promise):
        """Counts an image. Prints what was found in it, unless that was printed before."""
        self.cuts += 1
        self.lost += bool(finding.lost)
        self.refused += bool(finding.refused)
        self.ways_on += bool(finding.ways_on)
        self.torn += name.endswith(" torn")
        self.recovered += RECOVERY in name
        self.images.add((name.split()[0], image.digest()))
        kind = RECOVERED if RECOVERY in name else kind
        for sort, whys in (("cuts", [name]), ("lost", finding.lost), ("refused", finding.refused)):
            self.found[kind, sort] += bool(whys)
            for why in whys[:1] if sort != "cuts" else ():
                self.texts[sort, why] += 1
                if self.texts[sort, why] == 1:
                    print(f"{sort}: {name}, {kind}: {why}", flush=True)
        if finding.lost or finding.refused:
            self.leave(name, finding, image, tar, promise)

    def leave(self, name, finding, image, tar, promise):
        at = self.keep / f"{self.kept:03}-{name.replace(',', '').replace(' ', '-')}"
        (at / "logs").mkdir(parents=True, exist_ok=True)
        self.kept += 1
        image.save(at / "disk.raw")
        for file, data in files_of(tar).items() if tar else ():
            if file:
                (at / "logs" / file).write_bytes(data)
        whys = [f"lost: {why}" for why in finding.lost] + [
            f"refused: {why}" for why in finding.refused
        ]
        promised = {kind: [[*key, data.decode("latin-1")] for key, data in entries.items()] for kind, entries in
                    (("must", promise.must), ("may", promise.may))}  # fmt: skip
        attributes = [
            [*key, [it and it.hex() for it in values]] for key, values in promise.attributes.items()
        ]
        promised |= {"removed": sorted(promise.gone), "attributes": attributes}
        (at / "promise.json").write_text(json.dumps(promised))
        dead = " ".join(map(str, sorted(promise.dead)))
        ended = " ".join(f"{step} {ledger}" for step, ledger in sorted(promise.ended))
        (at / "finding.txt").write_text(
            "\n".join([name, *whys, f"deleted ledgers: {dead}", f"answered: {ended}", ""])
        )

    def report(self):
        if self.kept:
            print(f"images with a finding are in {self.keep}")
        for kind in sorted({kind for kind, _ in [*self.runs, *self.found]}):
            runs = ", ".join(
                f"{self.runs[kind, it]} {it}" for it in ("runs", "killed", "ended with 1")
            )
            print(
                f"{kind}: {runs}; {', '.join(f'{self.found[kind, it]} {it}' for it in ('cuts', 'lost', 'refused'))}"
            )
        if self.full:
            print(
                "on the full disk: "
                + ", ".join(f"{number} {what}" for what, number in sorted(self.full.items()))
            )
        print(f"{self.recordings} recorded runs, {len(self.images)} different images")
        print(
            f"{self.ways_on} opened only after a way on, {self.torn} torn, {self.recovered} cut "
            "in a recovery"
        )
        print(f"{self.cuts} cuts, {self.lost} lost, {self.refused} refused")
        return 1 if self.lost or self.refused else 0
