"""The cuts of ./dev power: runs in the guest, images of their recordings, and what is found in
them."""

import random
import subprocess
import sys
import time
from concurrent.futures import ThreadPoolExecutor

import fault_runs
from power_counts import RECOVERY, Counts
from power_full import Crowd
from power_guest import FILE_SYSTEMS, Dead, Guest, Silent, first_files, path_of
from power_images import VARIANTS, Base, Image
from power_look import Finding, Looker
from power_promise import Promise, Timeline
from power_runs import Run, troubles
from power_story import Story

# Images of one recording, the share of images that the guest opens itself, also on a full disk, and
# cuts of each of these.
IMAGES, RECOVERED, CROWDED, AGAIN = 80, 1 / 12, 1 / 4, 4
# Directories that are looked at while the guest mounts the next images.
LOOKS = 3


class Stopped(Exception):
    """The test cannot go on."""


class Trial:
    """The cuts of one file system."""

    def __init__(self, asked, room, name, counts):
        self.asked, self.room, self.counts = asked, room, counts
        self.kind = FILE_SYSTEMS[name]
        self.chance = random.Random(f"{asked.seed} {name}")
        self.base = self.kind.empty(room / name)
        self.first = first_files(room, asked.program, asked.server, [name])
        self.looker, self.pool, self.looks = (
            Looker(asked.program, asked.server, room),
            ThreadPoolExecutor(LOOKS),
            [],
        )
        self.guest, self.cuts, self.runs = None, 0, 0

    def is_over(self):
        return self.cuts >= self.asked.cuts or time.monotonic() > self.asked.end

    def all(self):
        try:
            while not self.is_over():
                self.one_run()
            self.collect()
        finally:
            self.pool.shutdown(cancel_futures=True)
            if self.guest:
                self.guest.close()

    def collect(self, most=0):
        """Counts the images that were looked at, in their order, until so many are left."""
        while len(self.looks) > most:
            name, kind, future, *rest = self.looks.pop(0)
            self.counts.add(name, kind, future.result(), *rest)

    # ---- the guest

    def job(self, job, image):
        """Runs a job. If the guest dies of it, the next job gets another one."""
        if not self.guest:
            self.guest = Guest(self.room, self.first, self.base.size)
        try:
            return self.guest.run(job, image)
        except Silent as why:
            raise Stopped(str(why)) from None
        except Dead:
            self.guest.close()
            self.guest = None
            raise

    def mount(self):
        options = f"-o {self.asked.mount} " if self.asked.mount else ""
        return f"mount -t {self.kind.name} {options}/dev/vda /mnt 2>/tmp/why"

    def with_syncs(self, job):
        kinds = ",".join(self.asked.leave_out_sync)
        return f"export POWER_LEAVE_OUT=,{kinds},\n{job}"

    def prepare(self):
        """In one of two runs the kernel writes nothing before it is asked to, however slow the
        machine is."""
        pause, threads = self.chance.choice(((0, self.kind.quiet), (500, self.kind.usual)))
        fill = f"fill {self.asked.full}\n" if self.asked.full else ""
        return f"echo {pause} >/proc/sys/vm/dirty_writeback_centisecs\n{threads}\n{fill}"

    # ---- runs and cuts

    def one_run(self):
        """Records a run of several processes, and cuts it at several events."""
        story = Story(self.chance, self.asked, self.asked.processes)
        began, start = time.monotonic(), Image(self.base)
        try:
            messages, recording = self.job(
                self.with_syncs(f"{self.mount()}\n{self.prepare()}{story.job()}"), start
            )
        except Dead as why:
            raise Stopped(f"the machine ended: {why}") from None
        timeline = Timeline(story.processes, recording.events, Promise())
        for trouble in troubles(story.processes, messages):
            raise Stopped(f"in the machine: {trouble}")
        self.runs += 1
        self.counts.add_runs(story.processes, messages)
        faults, took = (
            sum(message.data.count(b"fault ") for message in messages),
            time.monotonic() - began,
        )
        print(
            f"{self.kind.name}, run {self.runs}: {recording.requests()} requests, "
            f"{len(story.entries)} entries, "
            f"{len(timeline.at(len(recording.events)).must)} promised, {timeline.removals()} "
            f"removals, {faults} faults, "
            f"{took:.0f} s",
            file=sys.stderr, flush=True,
        )  # fmt: skip
        for _ in range(IMAGES):
            if self.is_over():
                break
            self.one_cut(recording, timeline)

    def one_cut(self, recording, timeline, name=""):
        """Cuts a recording, and looks at the image: outside of the guest, or in it, and cuts it
        again."""
        cut = recording.choose(self.chance, (timeline.found, timeline.published))
        variant = self.chance.choice(VARIANTS)
        image, promise = recording.image(cut, variant, self.chance), timeline.at(cut)
        where = f"{name or f'{self.kind.name} run {self.runs}'} cut {cut} {variant}"
        kind, share = timeline.kind_at(cut), CROWDED if self.asked.full else RECOVERED
        self.cuts += 1
        if not name and promise.must and self.chance.random() < share:
            self.recover(where, kind, image, promise)
        else:
            self.look(where, kind, image, promise)

    def look(self, name, kind, image, promise):
        tar, why = self.logs(image)
        if not why:
            self.looks.append(
                (name, kind, self.pool.submit(self.looker.look, tar, promise), image, tar, promise)
            )
            return self.collect(4 * LOOKS)
        finding = Finding()
        finding.refused.append(why)
        if self.kind.repair and why.startswith("unmounted"):
            tar = self.repair(finding, image, promise)
        self.counts.add(name, kind, finding, image, tar, promise)
        return None

    def logs(self, image):
        """Lets the guest mount an image. Returns the directory as an archive, and why there is
        none."""
        try:
            messages, _ = self.job(f"look {self.kind.name} {self.asked.mount}", image)
        except Dead as why:
            return None, f"the machine ended: {why}"
        if not messages:
            return None, "no answer"
        told = messages[-1]
        if told.words == ["tar"]:
            return told.data, None
        return None, f"{' '.join(told.words)}: {told.data.decode(errors='replace')}"

    def repair(self, finding, image, promise):
        """Repairs an image that cannot be mounted, by the file system's own program, and looks what
        is lost. It stays refused."""
        path = self.room / "repaired.raw"
        image.save(path)
        subprocess.run(
            [path_of(self.kind.repair[0]), *self.kind.repair[1:], path], capture_output=True
        )
        tar, why = self.logs(Image(Base(path)))
        path.unlink()
        looked = Finding() if why else self.looker.look(tar, promise)
        finding.lost += looked.lost
        found = why or [*looked.lost, *looked.refused, "nothing is lost"][0]
        finding.refused[0] += f"; after {' '.join(self.kind.repair)}: {found}"
        return tar

    def recover(self, name, kind, image, promise):
        """Lets the guest open and compact the directory, on a full disk too, and cuts it off there
        too."""
        crowd, look, compaction = self.recovery(promise)
        runs = [*crowd.runs, look, compaction]
        job = (
            f"{crowd.job()}rm -f /mnt/filler.*\nlook() {{\n{look.job()}}}\nuntil_opened\n"
            f"{compaction.job()}"
        )
        finding = Finding()
        try:
            messages, recording = self.job(self.with_syncs(f"{self.mount()} || exit\n{job}"), image)
        except Dead as why:
            finding.refused.append(f"the machine ended: {why}")
            return self.counts.add(name, kind, finding, image, None, promise)
        if not messages:
            return self.look(name, kind, image, promise)
        timeline = Timeline(runs, recording.events, promise)
        self.judge(finding, crowd, look, compaction, messages, promise)
        self.counts.add(name, kind, finding, image, None, promise)
        for _ in range(0 if finding.refused or finding.lost else AGAIN):
            if not self.is_over():
                self.one_cut(recording, timeline, name + RECOVERY)
        return None

    def judge(self, finding, crowd, look, compaction, messages, promise):
        """Finds what a recovery in the guest lost or was refused."""
        ends = {int(message.words[1]): message for message in messages if message.words[0] == "end"}
        begun = [int(message.words[1]) for message in messages if message.words[0] == "begin"]
        finding.lost += crowd.lost(ends, promise)
        self.counts.full.update(crowd.counted(ends))
        finding.refused += troubles([*crowd.runs, look, compaction], ends.values())
        finding.ways_on = begun.count(look.number) - 1
        looked = fault_runs.Looked(promise.must, promise.may, promise.dead)
        if not finding.refused and compaction.number in ends:
            looked.compare(
                look.found(ends[look.number].data.decode(errors="replace")), "opened in the machine"
            )
        elif not finding.refused:
            finding.refused.append("the recovery did not end")
        finding.lost += looked.lost

    def recovery(self, promise):
        """The runs that recover a directory: those on a full disk, one that reads every entry, and
        a compaction."""
        story = Story(self.chance, self.asked, 0)
        story.dead = sorted(promise.dead)
        entries = {**promise.may, **promise.must}
        crowd = Crowd(story, entries if self.asked.full else {})
        look = story.look(len(crowd.runs), entries)
        look.is_full = False
        return crowd, look, Run(look.number + 1, "compact", story.compaction_words("--major"))


def run(asked, room):
    counts, status = Counts(asked.keep), 2
    try:
        for name in asked.file_system:
            Trial(asked, room, name, counts).all()
        status = 0
    except Stopped as why:
        print(f"dev power: {why}", file=sys.stderr)
    finally:
        found = counts.report()
    return status or found
