"""What is promised at each event of a recording of ./dev power: entries, deletions, fences,
attributes, removals."""

import io
import tarfile

import entry_logs
from power_nbd import Message

# The messages of a run, which may promise something.
TOLD = ("begin", "marker", "replies", "end", "taken")


class Promise:
    """What must be found after a power loss, what may be, the ledgers that may be deleted, the
    deletions and fences that were answered, which must be there too, the logs whose removal was
    answered, which must not, and the values that an attribute of a ledger may have."""

    def __init__(self, must=(), may=(), dead=(), ended=(), gone=(), attributes=()):
        self.must, self.may, self.dead, self.ended = dict(must), dict(may), set(dead), set(ended)
        self.gone, self.attributes = set(gone), dict(attributes)

    def copy(self):
        return Promise(**vars(self))

    def add(self, other):
        for mine, its in zip(vars(self).values(), vars(other).values()):
            mine.update(its)
        # A later run may give the id of a removed log to a new one.
        self.gone = set(other.gone)

    def is_more_than(self, other):
        """Whether it has a promise that another one has not."""
        mine = (self.must.keys(), self.ended, self.attributes.items())
        its = (other.must.keys(), other.ended, other.attributes.items())
        return bool(self.gone) or any(not one <= two for one, two in zip(mine, its))


class Timeline:
    """What is promised at each event of a recording: each message adds something. Runs keep what
    their messages say."""

    def __init__(self, runs, events, before):
        self.before, self.points = before, []
        # The events that follow a message which promises something: what was read or done, and what
        # was published.
        self.found, self.published = [], []
        # The kind of the run that begins at an event.
        self.begun = []
        by_number = {run.number: run for run in runs}
        messages = [
            (index, event) for index, event in enumerate(events) if isinstance(event, Message)
        ]
        run = None
        for place, (index, event) in enumerate(messages):
            kind = event.words[0]
            if kind in TOLD:
                run = run if kind == "marker" else by_number[int(event.words[1])]
                self.tell(run, index, event, messages[place + 1 : place + 2])

    def tell(self, run, index, event, follows):
        """Adds what a message of a run promises."""
        kind, before = event.words[0], self.at(index)
        if kind == "begin":
            self.begun.append((index, run.counted()))
        added = getattr(run, f"on_{kind}")(event, follows[0][1] if follows else None, before)
        if added.is_more_than(before):
            is_published = (
                kind in ("marker", "replies") and not added.must.keys() <= before.must.keys()
            )
            (self.published if is_published else self.found).append(index + 1)
        self.points.append((index, added))

    def removals(self):
        """How many removals of logs were answered."""
        return sum(len(added.gone) for _, added in self.points)

    def at(self, cut):
        """What is promised when the power is cut in front of an event."""
        promise = self.before.copy()
        for index, added in self.points:
            if index < cut:
                promise.add(added)
        return promise

    def kind_at(self, cut):
        """The kind of the run that was at work, or had ended last."""
        return next((kind for index, kind in reversed(self.begun) if index < cut), "nothing")


def deleted(ended):
    return [ledger for step, ledger in ended if step == "delete"]


def coded(entries):
    return {key: text.encode() for key, text in entries.items()}


def files_of(tar):
    """The files of the directory in an archive, by name; the directory itself has no name."""
    found = {}
    with tarfile.open(fileobj=io.BytesIO(tar)) as archive:
        for member in archive:
            place = member.name.removeprefix("./").split("/")
            if place[0] == "logs" and len(place) < 3:
                found["/".join(place[1:])] = (
                    archive.extractfile(member).read() if member.isreg() else b""
                )
    return found


def loaded(files, last):
    """The entries of loads in a directory's files: a load uses the ledgers after the last one, and
    deletes some."""
    logs = {entry_logs.log_of(name): entry_logs.Log(data) for name, data in files.items()}
    logs.pop(None, None)
    gone = entry_logs.deleted_ledgers(files.get(entry_logs.LEDGERS, b""))
    found = entry_logs.last_records(logs).items()
    return {key: data for key, data in found if key[0] > last and key[0] not in gone}
