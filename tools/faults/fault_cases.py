"""The commands that ./dev faults lets fail, each on a folder of its own, and what must hold
afterwards."""

import random
import re

import entry_logs
from fault_runs import READING, Looked, cut_torn

LIMIT = "4096"
LEDGERS = range(1, 7)
DEAD = (2, 3, 5)


def data_of(ledger, entry):
    """Some printable data of an entry, of a size between 0 and 300."""
    chance = random.Random(1000 * ledger + entry)
    return "".join(chance.choice("abcdefgh") for _ in range(chance.choice((0, 1, 20, 100, 300))))


def entries(first, count):
    return {
        (ledger, entry): data_of(ledger, entry)
        for entry in range(first, first + count)
        for ledger in LEDGERS
    }


def flush_steps(texts, again=False):
    """The steps that add entries and publish them; if asked, once more, as after a fault."""
    steps = [f"add {ledger} {entry} {text}".rstrip(" ") for (ledger, entry), text in texts.items()]
    steps.append("swap")
    for _ in range(2 if again else 1):
        steps += [*["write"] * (len(texts) + 1), "publish"]
    return steps


def coded(texts):
    return {key: text.encode() for key, text in texts.items()}


class Story:
    """What the answers of a script say: which entries are published, and which may be there."""

    def __init__(self, steps, out):
        self.published, self.accepted, self.dead = {}, {}, set()
        active, flushing = {}, {}
        for step, answer in zip(steps, out.splitlines()):
            word, *rest = step.split(" ", 3)
            if word == "add" and answer in ("accepted", "held"):
                key = int(rest[0]), int(rest[1])
                self.accepted[key] = (rest[2] if len(rest) > 2 else "").encode()
                if answer == "accepted":
                    active[key] = self.accepted[key]
            elif answer.startswith("swapped "):
                active, flushing = {}, active
            elif answer.startswith("published "):
                self.published.update(flushing)
                flushing = {}
            elif answer.startswith("dropped "):
                self.dead.add(int(rest[0]))


class Case:
    """A command with one failing call, on a copy of a folder."""

    kinds = None
    dead = ()
    # Whether a folder may have no entries but those that are known.
    only = True
    # Whether the command changes nothing: what it overcomes it need not tell of.
    is_reading = False
    # Files beside the folder.
    beside = {}

    def __init__(self, program, top):
        self.program, self.top = program, top
        self.base = self.make_base()

    def must(self, words, steps=""):
        ran = self.program.call(words, steps)
        if ran.status != 0 or "fault" in ran.out:
            raise RuntimeError(f"{' '.join(map(str, words))}: status {ran.status}, {ran.last()}")
        return ran

    def make_base(self):
        """A folder of some sealed logs and one that is not sealed."""
        base = self.top / self.name
        self.before = entries(0, 8)
        steps = "\n".join(flush_steps(self.before))
        self.must(["script", "--folder", base, "--log-limit", LIMIT], steps)
        self.before = coded(self.before)
        return base

    def story(self, ran):
        """The entries that the run reports as published, those that it may leave, and the dead
        ledgers."""
        return {}, {}, self.dead

    def looked(self, ran):
        published, accepted, dead = self.story(ran)
        return Looked({**self.before, **published}, accepted, dead, self.only)

    def other_losses(self, folder):
        return []

    def is_partly(self, ran):
        """Whether a run of status 0 tells of a fault, as a script does in its answers."""
        return False

    def stuck(self, ran):
        """Why a later step of the run did not end what a failed one began, a text each."""
        return []

    def again(self, call, folder):
        """The same call once more. Returns what was published then, and why it leads nowhere, or
        None."""
        ran = call(self.words(folder), self.text())
        return {}, None if ran.status == 0 else ran.last()

    def text(self):
        return ""


class Script(Case):
    """Flushes into a folder with logs."""

    name = command = "script"

    def __init__(self, program, top):
        super().__init__(program, top)
        self.lines = self.make_steps()

    def make_steps(self):
        first, second = entries(100, 2), entries(200, 2)
        reads = [
            line
            for key in ((1, 0), (4, 7))
            for line in (f"take 0 {key[0]} {key[1]}", "fetch 0", "release 0")
        ]
        return [*reads, *flush_steps(first, True), "roll", *flush_steps(second, True), *reads]

    def words(self, folder):
        return ["script", "--folder", folder, "--log-limit", LIMIT, *self.dead]

    def text(self):
        return "\n".join(self.lines) + "\n"

    def story(self, ran):
        told = Story(self.lines, ran.out if ran.status == 0 else "")
        every = Story(self.lines, "accepted\n" * len(self.lines)).accepted
        return told.published, every, {*self.dead, *told.dead}

    def is_partly(self, ran):
        return any(line.startswith("fault ") for line in ran.out.splitlines())

    def again(self, call, folder):
        ran = call(self.words(folder), self.text())
        if ran.status != 0 or self.is_partly(ran):
            return {}, ran.last()
        told = Story(self.lines, ran.out)
        # An entry that is held after the end was found at the opening, or published since.
        return told.accepted, None


class ScriptNew(Script):
    """Flushes into a folder that is made."""

    name = "script-new"

    def make_base(self):
        self.before = {}


class ScriptJob(Script):
    """A compaction by the steps of a script."""

    name, dead = "script-job", ()

    def make_steps(self):
        steps = ["delete 2", "delete 3", "delete 5"]
        for _ in range(2):
            # The logs are those that the run without a fault chooses.
            steps += [
                "major",
                "copy 100",
                "end",
                "switch 100",
                "finish",
                "retire 0",
                "close 0",
                "remove 0",
            ]
            steps += ["retire 1", "close 1", "remove 1", "giveup"]
        return [*steps, *flush_steps({(1, 300): "x", (4, 300): "y"}, True), "rebuild"]

    def is_partly(self, ran):
        # What an earlier call deleted stays deleted.
        told = (line for line in ran.out.splitlines() if line != "fault already deleted")
        return any(line.startswith("fault ") for line in told)

    def stuck(self, ran):
        failed, why = set(), []
        # After a deletion that was not recorded no step of the script is carried out.
        if "fault disk" in ran.out.splitlines()[:3]:
            return []
        # After a failed sync of a manifest each record is refused until the directory is opened
        # again, as the next call does.
        if any("logs.manifest" in it and "sync" in it for it in ran.told.splitlines()):
            return []
        for step, answer in zip(self.lines, ran.out.splitlines()):
            if step.startswith("remove "):
                if step in failed and answer != "removed":
                    why.append(f"{step} after a removal that failed: {answer}")
                failed.discard(step)
                if answer.startswith("fault "):
                    failed.add(step)
        return why

    def story(self, ran):
        published, every, dead = super().story(ran)
        return published, every, {*dead, 2, 3, 5}


class Compact(Case):
    name = command = "compact"
    dead = DEAD

    def words(self, folder):
        return ["compact", "--major", *(f"--dead={ledger}" for ledger in self.dead), folder]

    def again(self, call, folder):
        ran = call(self.words(folder), "")
        if ran.status != 0:
            return {}, ran.last()
        plan = self.program.call([*self.words(folder), "--dry-run"])
        left = re.search(r"^before \d+ after \d+ freed 0 moved 0$", plan.out, re.M)
        return {}, None if left else f"not compacted: {plan.out.strip()[-100:]}"


class CompactKept(Compact):
    """A folder with what a crash may leave: a torn log, short ones with a copy and without, and an
    empty one."""

    name = "compact-kept"

    def make_base(self):
        base = super().make_base()
        last = base / sorted(path.name for path in base.glob("*.log"))[-1]
        last.write_bytes(last.read_bytes() + bytes.fromhex("000000320000"))
        (base / "20.log").write_bytes(b"BKLO")
        (base / "21.log").write_bytes(b"BKLO\0\0\0\1")
        (base / "21.log.torn").write_bytes(b"BKLO\0\0\0\1")
        (base / "22.log").write_bytes(b"")
        # The next call takes the logs as they are.
        (base / entry_logs.MANIFEST).unlink()
        return base


class CompactFile(Compact):
    """The deleted ledgers are in a file."""

    name, kinds = "compact-file", READING
    beside = {"deleted": b"2\n3\n5\n"}

    def words(self, folder):
        return ["compact", "--major", "--dead-file", self.top / "work" / "deleted", folder]


class CompactIndex(Compact):
    """A bookie's index is there: nothing may be compacted, whatever fails."""

    name = "compact-index"
    kinds = READING

    def make_base(self):
        base = super().make_base()
        (base / "lastMark").write_bytes(b"")
        self.logs = {path.name: path.read_bytes() for path in base.glob("*.log")}
        return base

    def other_losses(self, folder):
        same = {path.name: path.read_bytes() for path in folder.glob("*.log")} == self.logs
        return [] if same else ["a folder with a bookie's index is compacted"]

    def again(self, call, folder):
        ran = call(self.words(folder), "")
        return {}, None if "bookie index" in ran.told and "help: " in ran.told else ran.last()


class Seal(Case):
    """One log without a map."""

    name = command = "seal"

    def make_base(self):
        base = super().make_base()
        open_logs = [
            log for log, found in entry_logs.read_folder(base).items() if not found.is_sealed()
        ]
        self.log = open_logs[-1]
        return base

    def words(self, folder):
        return ["seal", folder, self.log]

    def again(self, call, folder):
        ran = call(self.words(folder), "")
        if "help: " in ran.told and "seal --cut-torn" in ran.told:
            ran = cut_torn(call, folder, self.log)
        check = self.program.call(["check", folder])
        if f"{self.log} ok" in check.out.splitlines():
            return {}, None
        return {}, f"{ran.last()}; check: {' | '.join(check.out.split(chr(10)))[-100:]}"


class Cut(Seal):
    """A log that ends in half a record, and one log more: a bad length."""

    name, tail = "seal-cut", bytes.fromhex("0000003200000000000000010000")

    def make_base(self):
        base = super().make_base()
        path = base / f"{self.log:x}.log"
        path.write_bytes(path.read_bytes() + self.tail)
        # The next call takes the logs as they are.
        (base / entry_logs.MANIFEST).unlink()
        self.torn = path.read_bytes()
        return base

    def words(self, folder):
        return ["seal", "--cut-torn", folder, self.log]

    def other_losses(self, folder):
        """The bytes that are cut off are in a copy."""
        path = folder / f"{self.log:x}.log"
        copies = [copy.read_bytes() for copy in folder.glob("*.torn*")]
        is_there = path.exists() and (
            path.read_bytes().startswith(self.torn) or self.torn in copies
        )
        return [] if is_there else ["the bytes that are cut off are in no copy"]

    def again(self, call, folder):
        ran = cut_torn(call, folder, self.log)
        check = self.program.call(["check", folder])
        if f"{self.log} ok" not in check.out.splitlines():
            return {}, f"{ran.last()}; check: {' | '.join(check.out.split(chr(10)))[-100:]}"
        return {}, None


class CutBad(Cut):
    """A log that ends in zeros."""

    name, tail = "seal-cut-zeros", bytes(600)


class Hint(Case):
    """The hints of a folder whose logs are sealed but one."""

    name = command = "hint"

    def make_base(self):
        base = super().make_base()
        self.logs = {path.name: path.read_bytes() for path in base.glob("*.log")}
        return base

    def words(self, folder):
        return ["hint", folder]

    def other_losses(self, folder):
        same = {path.name: path.read_bytes() for path in folder.glob("*.log")} == self.logs
        return [] if same else ["a log is changed"]

    def again(self, call, folder):
        """The hints are made then, and are right, unless a log was set aside: a writer has to take
        it back first."""
        if list(folder.glob("*.unsynced")):
            call(["script", "--folder", folder], "")
        ran = call(self.words(folder), "")
        check = self.program.call(["hint", "--check", folder])
        sealed = [log for log, found in entry_logs.read_folder(folder).items() if found.is_sealed()]
        are_right = all(f"{log} right" in check.out.splitlines() for log in sealed)
        return (
            {},
            None
            if ran.status == 0 and check.status == 0 and are_right
            else f"{ran.last()}; {check.out.strip()[-100:]}",
        )


class ScriptHinted(Script):
    """Flushes into a folder that is opened by hints."""

    name = "script-hinted"

    def make_base(self):
        base = super().make_base()
        self.must(["hint", base])
        return base


class CompactHinted(Compact):
    """A folder whose logs have hints, which go with them."""

    name = "compact-hinted"

    def make_base(self):
        base = super().make_base()
        self.must(["hint", base])
        return base


class Load(Case):
    name = command = "load"
    only = False

    def words(self, folder):
        return ["load", "--threads", "2", "--adds", "60", "--folder", folder]

    def again(self, call, folder):
        ran = call(self.words(folder), "")
        return {}, None if ran.status == 0 and ran.out.rstrip().endswith("good") else ran.last()


class Read(Case):
    """A command that changes nothing."""

    kinds, is_reading = READING, True

    def make_base(self):
        base = super().make_base()
        self.files = {path.name: path.read_bytes() for path in base.glob("*")}
        return base

    def words(self, folder):
        return [self.command, *self.before_folder, folder, *self.operands]

    def other_losses(self, folder):
        same = {path.name: path.read_bytes() for path in folder.glob("*")} == self.files
        return [] if same else ["a command that reads has written"]


def reads():
    """A case for each command that only reads."""
    calls = {
        "check": ([], []), "logs": ([], []), "stat": (["--dead", "2"], []), "ledgers": ([], []),
        "entries": ([], ["1"]), "find": ([], ["1", "0"]), "scan": ([], ["0"]), "header": ([], ["0"]), "map": ([], ["0"]),
        "compact": (["--dry-run", "--dead=2"], []),
    }  # fmt: skip
    for command, (before, operands) in calls.items():
        name = "dry-run" if command == "compact" else command
        yield type(
            name,
            (Read,),
            {"name": name, "command": command, "before_folder": before, "operands": operands},
        )


CASES = [
    Script, ScriptNew, ScriptHinted, ScriptJob, Compact, CompactKept, CompactFile, CompactHinted, CompactIndex, Seal, Cut, CutBad,
    Hint, Load, *reads(),
]  # fmt: skip
