"""Measures a store over a folder, beside plain Rust, LevelDB, RocksDB and LMDB with the same
entries: ./dev bench folder."""

import collections
import os
import re
import shutil
import subprocess
import time
from pathlib import Path

HERE = Path(__file__).resolve().parent
# The bytes of an entry, the entries of a flush, how many flushes.
FILLS = [(100, 20_000, 10), (10_240, 2_000, 10)]
# The folder that is opened: the bytes of an entry, the entries of a flush, how many flushes, the
# most bytes of a log.
LARGE = (10_240, 2_000, 48, 100_000_000)
# The folder of many keys.
KEYS = (100, 20_000, 50, 1_073_741_824)
NO_LIMIT = 1_073_741_824
# Publishes with and without the manifest of the logs: the entries of a flush, how many flushes.
PUBLISHES = [(100, 200), (1_000, 100), (20_000, 10)]
RUNS = 5
# The other stores: the source of each program, a header and the library that it needs.
OTHERS = {
    "LevelDB": ("leveldb.cc", "leveldb/db.h", "-lleveldb"),
    "RocksDB": ("rocksdb.cc", "rocksdb/db.h", "-lrocksdb"),
    "LMDB": ("lmdb.cc", "lmdb.h", "-llmdb"),
}
# Runs of a filling whose time is mostly that of syncs, which vary.
SYNC_RUNS = 20


def row(name, *values):
    print(f"  {name:<52}" + "".join(f"{value:>14}" for value in values), flush=True)


def ratio(ours, beside):
    return "-" if not ours or not beside else f"{ours / beside:.2f}"


class Programs:
    """The store's program, which may be None, the plain one, and those of the other stores that the
    system has."""

    def __init__(self, work, store, others=True):
        self.work = work
        self.store = [store, "folder"] if store else None
        self.plain = [work / "in-plain"]
        subprocess.run(
            ["rustc", "--edition", "2021", "-O", "-o", self.plain[0], HERE / "folder.rs"],
            check=True,
        )
        compiled = (
            {name: self.compile_other(name, *it) for name, it in OTHERS.items()} if others else {}
        )
        self.others = {name: program for name, program in compiled.items() if program}

    def compile_other(self, name, source, header, library):
        """Compiles the program of another store. Returns None, and says so, if the system lacks its
        library."""
        asked = {"input": f"#include <{header}>\n", "text": True, "capture_output": True}
        if (
            not shutil.which("g++")
            or subprocess.run(["g++", "-E", "-x", "c++", "-"], **asked).returncode
        ):
            print(f"{name} is skipped: no {header}, or no g++")
            return None
        program = self.work / f"in-{source}.program"
        subprocess.run(
            ["g++", "-std=c++17", "-O2", "-o", program, HERE / source, library], check=True
        )
        return [program]

    def both(self):
        return [("store", self.store), ("plain", self.plain)]

    def fills(self):
        """Each that is there with the word by which it fills a folder, and the words behind the
        numbers."""
        found = [
            ("store", self.store, "fill", [NO_LIMIT]),
            ("recorded", self.store, "record", [NO_LIMIT]),
            ("plain", self.plain, "fill", [NO_LIMIT]),
            *((name, program, "fill", []) for name, program in self.others.items()),
        ]
        return [it for it in found if it[1]]

    def opens(self, keys):
        """Each that is there with the words behind the folder by which it opens what it filled, and
        deletes."""
        others = ((name, program, [keys]) for name, program in self.others.items())
        return [*((name, program, []) for name, program in self.both() if program), *others]


def go_first():
    """Takes the highest priority, where that is allowed: then other work on the machine takes
    little from a run."""
    try:
        os.nice(-20)
    except PermissionError:
        pass


def run(program, *words):
    """Runs a program. Returns for each stage its count and its nanoseconds, and the most memory
    that the run had."""
    called = [*map(str, program), *map(str, words)]
    with subprocess.Popen(
        called, text=True, stdout=subprocess.PIPE, preexec_fn=go_first
    ) as process:
        told = process.stdout.read()
        _, status, usage = os.wait4(process.pid, 0)
        process.returncode = os.waitstatus_to_exitcode(status)
    if process.returncode:
        raise SystemExit(
            f"dev bench: {program[0]} {words[0]} ended with status {process.returncode}"
        )
    stages = {}
    for line in told.splitlines():
        stage, count, nanoseconds = line.split()
        stages[stage] = (int(count), int(nanoseconds))
    return stages, 1024 * usage.ru_maxrss


def syncs(program, *words):
    """How often a run calls fsync or fdatasync; None where no strace is found."""
    if not shutil.which("strace"):
        return None
    counted = [
        "strace",
        "-f",
        "-c",
        "-e",
        "trace=fsync,fdatasync",
        *map(str, program),
        *map(str, words),
    ]
    told = subprocess.run(counted, text=True, capture_output=True).stderr
    return sum(
        int(it) for it in re.findall(r"^\s*\S+\s+\S+\s+\S+\s+(\d+)\s.*f(?:data)?sync$", told, re.M)
    )


class Folders:
    """Folders that are made anew."""

    def __init__(self, work):
        self.work = work

    def fresh(self, name):
        folder = self.work / name
        shutil.rmtree(folder, ignore_errors=True)
        folder.mkdir()
        return folder


def logs_of(folder):
    return sorted(folder.glob("*.log"), key=lambda path: int(path.stem, 16))


def must_be_same(one, other):
    """The logs of both folders have the same bytes."""
    names = [[path.name for path in logs_of(folder)] for folder in (one, other)]
    same = names[0] == names[1] and all(
        (one / it).read_bytes() == (other / it).read_bytes() for it in names[0]
    )
    if not same:
        raise SystemExit("dev bench: the two programs did not write the same logs")


def fill_times(programs, folders, length, batch, publishes):
    """The least time of each stage, for each program."""
    least = collections.defaultdict(dict)

    def note(name, stages):
        for stage, (_, nanoseconds) in stages.items():
            least[name][stage] = min(nanoseconds, least[name].get(stage, nanoseconds))

    for _ in range(RUNS):
        filled = {}
        for name, program, word, more in programs.fills():
            filled[name] = folders.fresh(name)
            stages, _ = run(program, word, filled[name], length, batch, publishes, *more)
            note(name, stages)
            spent = sum(stages[it][1] for it in ("add", "write", "publish") if it in stages)
            note(name, {"all": (0, spent), "bare": (0, spent - stages.get("digest", (0, 0))[1])})
        if "store" in filled:
            must_be_same(filled["store"], filled["plain"])
            must_be_same(filled["store"], filled["recorded"])
        for name, program, more in programs.opens(batch * publishes):
            note(name, run(program, "open", filled[name], *more)[0])
    return least


def fill_syncs(programs, folders, length, batch):
    """How many syncs one publish more makes, for each program."""
    made = {}
    for name, program, word, limit in programs.fills():
        few, more = (
            syncs(program, word, folders.fresh("synced"), length, batch, n, *limit) for n in (2, 12)
        )
        made[name] = None if few is None else (more - few) / 10
    return made


def show_fill(programs, folders, length, batch, publishes):
    count = batch * publishes
    least = fill_times(programs, folders, length, batch, publishes)
    print(
        f"\n{count:,} entries of {length:,} bytes, {batch:,} a publish: microseconds an entry, "
        f"least of {RUNS} runs"
    )
    row("", "store", "plain Rust", "ratio", "recorded", "to store")

    def show(title, plus, minus=()):
        each = []
        for name in ("store", "plain", "recorded"):
            found = least.get(name)
            time = found and sum(found[it] for it in plus) - sum(found[it] for it in minus)
            each.append(time and time / count / 1000)
        ours, plain, recorded = ["-" if it is None else f"{it:.3f}" for it in each]
        row(title, ours, plain, ratio(*each[:2]), recorded, ratio(each[2], each[0]))

    show("SHA-256 of a payload alone", ["digest"])
    show("add, its digest taken off", ["add"], ["digest"])
    show("write: appends gathered", ["write"])
    show("publish: sync, view, index", ["publish"])
    show("added to published, digest taken off", ["bare"])
    show("added to published", ["all"])
    show("read by a lease, files warm", ["fetch"])
    show_others(least, count)
    made = fill_syncs(programs, folders, length, batch // 10)
    print(
        "syncs a publish: "
        + ", ".join(f"{name} {'-' if it is None else f'{it:g}'}" for name, it in made.items())
    )


def show_others(least, count):
    """The same entries in other stores, which make no digest."""
    names = ["store", "plain", *(it for it in OTHERS if it in least)]
    print("\nthe same entries in other stores: microseconds an entry")
    row("", *("plain Rust" if it == "plain" else it for it in names))
    lines = [
        ("added to published, without a digest", "bare", 1),
        ("read, files warm", "fetch", 1),
        ("scan, a record", "scan", 1),
        ("opening, files warm, a record", "open", 1),
        ("delete, a key", "delete", 10),
    ]
    for title, stage, part in lines:
        found = [least[it].get(stage) for it in names]
        row(title, *("-" if it is None else f"{it * part / count / 1000:.3f}" for it in found))


def show_publishes(programs, folders):
    """Publishes of several sizes, with and without the manifest of the logs."""
    print(
        "\npublishes of entries of 100 bytes on a directory: microseconds a publish, least of "
        f"{SYNC_RUNS} runs"
    )
    row("", "publish", "recorded", "ratio", "flush", "recorded", "ratio")
    for batch, publishes in PUBLISHES:
        least = {}
        for _ in range(SYNC_RUNS):
            for word in ("fill", "record"):
                stages, _ = run(
                    programs.store, word, folders.fresh(word), 100, batch, publishes, NO_LIMIT
                )
                for name, parts in (
                    ("publish", ("publish",)),
                    ("flush", ("add", "write", "publish")),
                ):
                    took = sum(stages[it][1] for it in parts) / publishes / 1000
                    least[name, word] = min(took, least.get((name, word), took))
        shown = []
        for name in ("publish", "flush"):
            alone, recorded = least[name, "fill"], least[name, "record"]
            shown += [f"{alone:,.0f}", f"{recorded:,.0f}", ratio(recorded, alone)]
        row(f"{batch:,} entries", *shown)


def forget(folder):
    """Has the system forget what it keeps of the files, so that the next reading is from the
    device."""
    for path in logs_of(folder):
        with open(path) as file:
            os.fsync(file.fileno())
            os.posix_fadvise(file.fileno(), 0, 0, os.POSIX_FADV_DONTNEED)


def read_time(folder):
    """How long cat takes for all logs, in nanoseconds."""
    begun = time.monotonic_ns()
    subprocess.run(
        ["cat", *logs_of(folder)], stdout=subprocess.DEVNULL, check=True, preexec_fn=go_first
    )
    return time.monotonic_ns() - begun


def show_opening(programs, folder):
    size = sum(path.stat().st_size for path in logs_of(folder))
    print(
        f"\nopening {len(logs_of(folder))} logs, {size:,} bytes: milliseconds, least of {RUNS} runs"
    )
    row("", "store", "plain Rust", "ratio", "cat")
    for title, is_cold in (("files warm", False), ("files not in memory", True)):
        least = {}
        for _ in range(RUNS):
            for name, program in [*programs.both(), ("cat", None)]:
                if name == "store" and not program:
                    continue
                if is_cold:
                    forget(folder)
                took = (
                    read_time(folder)
                    if name == "cat"
                    else run(program, "open", folder)[0]["open"][1]
                )
                least[name] = min(took, least.get(name, took))
        shown = [
            "-" if name not in least else f"{least[name] / 1e6:,.1f}"
            for name in ("store", "plain", "cat")
        ]
        row(title, shown[0], shown[1], ratio(least.get("store"), least["plain"]), shown[2])


def show_compaction(programs, folders, folder):
    """Compacts one log of the folder, and takes the copy away again."""
    least, moved, copies = {}, {}, {}
    before = logs_of(folder)
    for _ in range(RUNS):
        for name, program in programs.both():
            if not program:
                continue
            count, took = run(program, "compact", folder)[0]["compact"]
            moved[name], least[name] = count, min(took, least.get(name, took))
            (copy,) = set(logs_of(folder)) - set(before)
            copies[name] = folders.fresh(f"copy of {name}")
            copy.rename(copies[name] / copy.name)
    if len(copies) == 2:
        must_be_same(*copies.values())
    print(
        f"\ncompaction of a log of {before[0].stat().st_size:,} bytes, a tenth dead: microseconds "
        "a moved entry"
    )
    row("", "store", "plain Rust", "ratio")
    each = [least.get(name) and least[name] / moved[name] / 1000 for name in ("store", "plain")]
    row(
        f"{moved['plain']:,} entries",
        *("-" if not it else f"{it:.2f}" for it in each),
        ratio(*each),
    )


def show_memory(programs, folders):
    length, batch, publishes, limit = KEYS
    folder = folders.fresh("keys")
    run(programs.plain, "fill", folder, length, batch, publishes, limit)
    keys = batch * publishes
    print(f"\nmemory of an opening of {keys:,} keys, the whole program's: bytes a key")
    row("", "store", "plain Rust", "ratio")
    each = []
    for _, program in programs.both():
        each.append(run(program, "open", folder)[1] / keys if program else None)
    row("index, accounts, windows", *("-" if not it else f"{it:.1f}" for it in each), ratio(*each))


def measure(work, store):
    """All tables. `store` is the built program of bk_bench, or None."""
    programs, folders = Programs(work, store), Folders(work)
    for length, batch, publishes in FILLS:
        show_fill(programs, folders, length, batch, publishes)
    if programs.store:
        show_publishes(programs, folders)
    large = folders.fresh("large")
    run(programs.plain, "fill", large, *LARGE)
    show_opening(programs, large)
    show_compaction(programs, folders, large)
    shutil.rmtree(large)
    show_memory(programs, folders)
