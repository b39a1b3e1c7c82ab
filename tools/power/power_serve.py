"""Sessions of the server in the guest of ./dev power: their requests, and what the replies promise.

The requests go in groups. The guest's client (power_client.c) sends a group when the one before is
answered, and reports the replies. So a promise begins with the message of its reply, and what the
next group asks for may be done from then on.
"""

import serve_faults
from power_promise import Promise, coded, deleted
from power_runs import FOLDER, Run

bookie, frames = serve_faults.bookie, serve_faults.frames

# The replies of a session whose device does not fail, by request; each that makes entries durable
# has the same ones.
FLUSHED = dict.fromkeys(bookie.FLUSHES, bookie.FLUSHED)
RIGHT = {
    "hello": ("welcome",), "add": ("accepted",), "read": ("entry", "not_held", "deleted"), "fence": ("fenced_now",),
    "is_fenced": ("yes", "no"), "delete": ("dropped",), "set_master_key": ("stored",), "set_explicit_lac": ("stored",),
    "master_key": ("attribute", "no_attribute", "deleted"), "explicit_lac": ("attribute", "no_attribute", "deleted"),
    "compact": ("compacted", "busy"), **FLUSHED,
}  # fmt: skip
# Replies that may take the place of these if the device fails.
FAILED = ("disk", "odd")
# Requests that set an attribute, by those that ask for it.
ATTRIBUTES = {"master_key": "set_master_key", "explicit_lac": "set_explicit_lac"}
SETS = {request: name for name, request in ATTRIBUTES.items()}
# The most entries of earlier runs that a session reads, and the most ledgers of which it asks the
# attributes.
LOOKS, ASKED = 30, 5


def field_of(request):
    """The field of a request to set an attribute that has its value."""
    return frames.BY_NAME[request].tail


def whole_replies(data):
    """Returns the replies by the ids of their requests; the last one may be cut."""
    found = {}
    try:
        for id, reply in serve_faults.replies_of(data):
            found[id] = reply
    except frames.Fault:
        pass
    return found


class Session(Run):
    """A session: requests, whose ids are their places, and the first id of each group; the entries
    that it adds, and the bytes of those that it reads. The replies are those of its messages so
    far, and the accepted entries those too.
    """

    def __init__(self, number, options):
        super().__init__(number, "serve", ["serve", FOLDER, *options])
        self.requests, self.groups, self.added, self.read = [], [0], {}, {}
        self.replies, self.accepted = {}, {}
        self.ask("hello", magic=frames.MAGIC, lowest=frames.VERSION, highest=frames.VERSION)
        self.end_group()

    # ---- its requests

    def ask(self, name, **fields):
        self.requests.append(frames.Message(name, fields))

    def end_group(self):
        if self.groups[-1] < len(self.requests):
            self.groups.append(len(self.requests))

    def ended(self):
        """The ledgers that it ends."""
        return [
            (it.name, it.fields["ledger"]) for it in self.requests if it.name in ("delete", "fence")
        ]

    def ids_of(self, group):
        """The ids of the requests of a group; of none after the last one."""
        return range(*self.groups[group : group + 2]) if group + 1 < len(self.groups) else range(0)

    def job(self):
        frame = [
            frames.encode(frames.BY_NAME[it.name], id, it.fields).hex()
            for id, it in enumerate(self.requests)
        ]
        self.steps = [
            "".join(frame[id] for id in self.ids_of(group)) for group in range(len(self.groups) - 1)
        ]
        return super().job()

    # ---- what its replies promise

    def on_begin(self, event, follows, before):
        self.replies, self.accepted = {}, {}
        return Promise((), self.added)

    def on_replies(self, event, follows, before):
        group, found = int(event.words[2]), whole_replies(event.data)
        self.replies.update(found)
        promise = Promise((), {}, (), (), (), before.attributes)
        for id in self.ids_of(group):
            if id in found:
                self.take(promise, self.requests[id], found[id])
        for id in self.ids_of(group + 1):
            self.expect(promise, self.requests[id])
        return promise

    def on_end(self, event, follows, before):
        """The end of the input makes all durable that was accepted. Later runs name the ledgers as
        deleted."""
        return Promise(self.accepted if int(event.words[2]) == 0 else (), (), deleted(self.ended()))

    def take(self, promise, request, reply):
        """Adds what a reply promises."""
        name, fields, ledger = request.name, request.fields, request.fields.get("ledger")
        if reply.name == "accepted":
            self.accepted[ledger, fields["entry"]] = fields["content"]
        elif reply.name in bookie.FLUSHED:
            promise.must.update(self.accepted)
        elif reply.name == "entry" and (ledger, fields["entry"]) not in self.added:
            promise.must[ledger, fields["entry"]] = reply.content
        elif reply.name in ("dropped", "deleted"):
            promise.ended.add(("delete", ledger))
        elif reply.name == "fenced_now" or name == "is_fenced" and reply.name == "yes":
            promise.ended.add(("fence", ledger))
        elif reply.name == "stored":
            promise.attributes[SETS[name], ledger] = frozenset([fields[field_of(name)]])
        elif reply.name in ("attribute", "no_attribute"):
            promise.attributes[name, ledger] = frozenset([reply.fields.get("value")])

    def expect(self, promise, request):
        """Adds what a request may do before its reply is reported."""
        ledger = request.fields.get("ledger")
        if request.name == "delete":
            promise.dead.add(ledger)
        elif request.name in SETS:
            key = SETS[request.name], ledger
            value = request.fields[field_of(request.name)]
            promise.attributes[key] = promise.attributes.get(key, frozenset([None])) | {value}

    def found(self, _output=""):
        """Returns the entries that it has read, with their bytes."""
        read = [(it.fields["ledger"], it.fields["entry"], self.replies.get(id)) for id, it in enumerate(self.requests)
                if it.name == "read"]  # fmt: skip
        return {
            (ledger, entry): reply.content
            for ledger, entry, reply in read
            if reply and reply.name == "entry"
        }

    # ---- what is wrong with it

    def trouble(self, status, output):
        replies = [(it.name, self.replies.get(id)) for id, it in enumerate(self.requests)]
        names = [(asked, reply.name if reply else "no reply") for asked, reply in replies]
        failed = (*FAILED, "no reply") if self.may_fail() else ()
        wrong = [
            f"{name} is the reply to {asked}"
            for asked, name in names
            if name not in (*RIGHT[asked], *failed)
        ]
        others = [key for key, content in self.found().items() if content != self.read[key]]
        wrong += [f"entry {entry} of ledger {ledger} has other bytes" for ledger, entry in others]
        # A refusal by the device is a named fault too.
        told = output + "fault disk\n" * (
            self.may_fail() and any(name in FAILED for _, name in names)
        )
        return super().trouble(status, told) or (
            f"{' '.join(self.words)}: {wrong[0]}" if wrong else None
        )


# ---- the sessions of a story


def session(story):
    """A session that reads what earlier runs left, and then flushes, deletes, fences and sets
    attributes."""
    chance, made = story.chance, Session(len(story.processes), options_of(story))
    keys = chance.sample(sorted(story.entries), min(len(story.entries), chance.choice((0, LOOKS))))
    look_back(story, made, coded({key: story.entries[key] for key in keys}))
    for _ in range(chance.randrange(1, 5)):
        fill(story, made)
    return closed(made, chance.random() < 0.8)


def look(story, number, entries):
    """A session that reads entries: those that it finds are promised with the replies."""
    made = Session(number, [])
    look_back(story, made, entries)
    made.kind = "look"
    return closed(made)


def closed(made, is_asked=True):
    """Ends a session, by a request or by the end of its input."""
    if is_asked:
        made.ask("close")
    made.end_group()
    return made


def options_of(story):
    chance, options = story.chance, ["--log-limit", story.limit]
    for words, share in (
        (["--compact", "20,80"], 0.4),
        (["--readers", "2"], 0.25),
        (["--no-hints"], 0.1),
    ):
        options += words if chance.random() < share else []
    return options


def look_back(story, made, entries):
    """Reads entries, attributes and fences that earlier runs left."""
    chance = story.chance
    made.read = entries
    for ledger, entry in entries:
        made.ask("read", ledger=ledger, entry=entry)
        if chance.random() < 0.1:
            made.end_group()
    ledgers = sorted({ledger for ledger, _ in entries} | {ledger for _, ledger in story.attributes})
    for ledger in chance.sample(ledgers, min(len(ledgers), ASKED)):
        for name in ("is_fenced", *ATTRIBUTES):
            made.ask(name, ledger=ledger)
    made.end_group()


def fill(story, made):
    """Adds entries with changes of ledgers between them, and makes them durable."""
    chance = story.chance
    for (ledger, entry), text in story.some_entries().items():
        if ledger in story.live:
            story.entries[ledger, entry] = text
            made.added[ledger, entry] = text.encode()
            made.ask("add", ledger=ledger, entry=entry, content=text.encode())
        change(story, made, 0.2)
    made.ask(chance.choice(("flush", "flush", "flush", "checkpoint", "seal", "seal")))
    if chance.random() < 0.7:
        made.end_group()
    change(story, made, 0.5)
    if chance.random() < 0.3:
        made.ask("compact", minor=chance.choice((0, 200)), major=chance.choice((0, 800)))
        made.end_group()


def change(story, made, share):
    """Deletes or fences a ledger, or sets one of its attributes; with some chance."""
    chance = story.chance
    if chance.random() >= share:
        return
    name = chance.choice(("delete", "fence", *SETS, *SETS))
    if name in SETS:
        ledger = chance.choice(story.live)
        story.attributes.add((SETS[name], ledger))
        made.ask(
            name,
            ledger=ledger,
            **{field_of(name): chance.randbytes(chance.choice((0, 8, 20, 256)))},
        )
    else:
        made.ask(name, ledger=story.end_one())
    if chance.random() < 0.5:
        made.end_group()
