"""What the kills of ./dev kills share: calls of the program, entries, what stands in a
directory."""

import subprocess
import sys
import tempfile

# Small, so that a directory has many logs.
LOG_LIMIT = "20000"
# The ledgers of the directory, and those that are deleted before a compaction.
LEDGERS = range(1, 9)
DEAD = (2, 3, 5, 7, 8)
# What is done to ledgers before a kill, and by a run that is killed, in this order.
BEFORE = (("delete", 9), ("fence", 10))
KILLED = tuple(zip(("fence", "delete") * 4, (1, 2, 4, 3, 6, 5, 13, 7)))


def stop(why):
    print(f"dev kills: {why}", file=sys.stderr)
    sys.exit(2)


class Program:
    """The program."""

    def __init__(self, path):
        self.path = str(path)

    def call(self, words, steps="", **how):
        """Runs it to its end. Returns status, output and error output."""
        run = subprocess.run(
            [self.path, *words], input=steps, capture_output=True, text=True, **how
        )
        return run.returncode, run.stdout, run.stderr

    def must(self, words, steps=""):
        """Runs it, and stops if anything fails. Returns the output."""
        status, output, told = self.call(words, steps)
        if status != 0 or "fault" in output:
            stop(f"{' '.join(words)}: status {status}, {told.strip() or output[-200:]}")
        return output

    def begin(self, words, steps=""):
        """Starts it, with its input in a file, so that all of it is available at once."""
        given = tempfile.TemporaryFile("w+")
        given.write(steps)
        given.seek(0)
        with given:
            return subprocess.Popen(
                [self.path, *words],
                stdin=given,
                stdout=subprocess.DEVNULL,
                stderr=subprocess.DEVNULL,
            )


def script_words(folder, dead=()):
    return ["script", "--folder", str(folder), "--log-limit", LOG_LIMIT, *map(str, dead)]


def compact_words(folder, dead=DEAD):
    return ["compact", "--major", *(f"--dead={it}" for it in dead), str(folder)]


def some_entries(chance, first, count, ledgers=LEDGERS):
    """Returns entries of these ledgers, with printable data of several sizes."""
    entries = {}
    for number in range(first, first + count):
        for ledger in ledgers:
            size = chance.choice((0, 1, 20, 200, 1500))
            entries[ledger, number] = "".join(chance.choice("abcdefgh") for _ in range(size))
    return entries


def flushes(entries, each):
    """Returns the steps that add and publish the entries, `each` at a time."""
    steps, keys = [], list(entries)
    for at in range(0, len(keys), each):
        part = keys[at : at + each]
        for ledger, number in part:
            steps.append(f"add {ledger} {number} {entries[ledger, number]}".rstrip(" "))
        steps += ["swap", *["write"] * len(part), "publish"]
    return "\n".join(steps) + "\n"


def read(program, folder, keys, dead=()):
    """Returns for each entry its data, None if it is missing, or the lines of another answer."""
    keys = list(keys)
    steps = "".join(f"take 0 {ledger} {number}\nfetch 0\nrelease 0\n" for ledger, number in keys)
    status, output, told = program.call(script_words(folder, dead), steps)
    if status != 0:
        return {key: ("not opened", told.strip()) for key in keys}
    lines, found = output.splitlines(), {}
    for index, key in enumerate(keys):
        take, fetch, release = lines[3 * index : 3 * index + 3]
        if take.startswith("leased ") and fetch.startswith("bytes ") and release == "released":
            data = fetch.removeprefix("bytes ").removeprefix("-")
            found[key] = bytes.fromhex(data).decode()
        elif take in ("not held", "deleted"):
            found[key] = None
        else:
            found[key] = (take, fetch, release)
    return found


def ending(entries):
    """Returns the steps that delete and fence ledgers, with flushes of these entries between
    them."""
    keys = list(entries)
    each = len(keys) // len(KILLED)
    steps = ""
    for number, (verb, ledger) in enumerate(KILLED):
        part = {key: entries[key] for key in keys[number * each : (number + 1) * each]}
        steps += f"{verb} {ledger}\n" + flushes(part, each)
    return steps


def standing(program, folder):
    """Returns which of `BEFORE` and `KILLED` stand in a directory, in their order."""
    asked = {"delete": "holds {} 0", "fence": "fenced {}"}
    lines = [asked[verb].format(ledger) for verb, ledger in (*BEFORE, *KILLED)]
    output = program.must(script_words(folder), "\n".join(lines) + "\n").split()
    stands = {"delete": "no", "fence": "yes"}
    return [
        answer == stands[verb] for answer, (verb, _) in zip(output, (*BEFORE, *KILLED), strict=True)
    ]


def wrong_standing(found, earlier=None):
    """Prints and counts what is wrong with the deletions and fences of a directory."""
    count = 0
    if not all(found[: len(BEFORE)]):
        print(f"a deletion or a fence before the kill is gone: {found[: len(BEFORE)]}")
        count += 1
    killed = found[len(BEFORE) :]
    if killed != sorted(killed, reverse=True):
        print(f"a later deletion or fence stands, and an earlier one does not: {killed}")
        count += 1
    if earlier is not None and found != earlier:
        print(f"deletions and fences changed from {earlier} to {found}")
        count += 1
    return count


def differences(program, folder, published, unsure, dead):
    """Prints the differences and returns their number."""
    found = read(program, folder, [*published, *unsure], dead)
    count = 0
    for key, data in published.items():
        wanted = None if key[0] in dead else data
        if found[key] != wanted:
            print(
                f"entry {key[1]} of ledger {key[0]}: wanted {wanted!r:.40}, found "
                f"{found[key]!r:.60}"
            )
            count += 1
    for key, data in unsure.items():
        if found[key] not in (None, data):
            print(
                f"entry {key[1]} of ledger {key[0]}: wanted {data!r:.40} or nothing, found "
                f"{found[key]!r:.60}"
            )
            count += 1
    return count
