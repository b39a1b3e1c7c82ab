"""Measures openings by hints and by scanning, beside plain Rust, LevelDB, RocksDB and LMDB: ./dev
bench openings."""

import collections
import contextlib
import os
import resource
import statistics
import subprocess
import time

import folder
import hint_files
from counting import stop

# The bytes of an entry, the entries of a flush, how many flushes, the most bytes of a log, and how
# often it is opened.
Shape = collections.namedtuple("Shape", "length batch publishes limit runs")
SHAPES = [
    Shape(1_024, 10_000, 97, 100_000_000, 5),
    Shape(100, 20_000, 500, 105_000_000, 3),
]
# The same in small, for programs that are not proved.
SMALL = Shape(1_024, 100, 3, 100_000, 1)
SCANNED, HINTED = "store, by scanning", "store, by hints"
# What a run told: nanoseconds of the opening, and of the whole program processor time, bytes that
# it read by calls, bytes that came from the device, and the most memory.
Run = collections.namedtuple("Run", "opening processor read device memory")
COLUMNS = (
    "opening",
    "files in memory, ms: least / median",
    "processor, ms",
    "not in memory, ms",
    "bytes read",
    "from the device",
    "memory, MB",
)
DROP = "/proc/sys/vm/drop_caches"


def stages_of(text):
    """The count and the nanoseconds of each stage."""
    lines = (line.split() for line in text.splitlines())
    return {stage: (int(count), int(took)) for stage, count, took in lines}


def opened(words, keys):
    """Runs an opening. The system tells of a program that ended what it read, until its status is
    taken."""
    called = list(map(str, words))
    with subprocess.Popen(
        called, text=True, stdout=subprocess.PIPE, preexec_fn=folder.go_first
    ) as process:
        told = process.stdout.read()
        os.waitid(os.P_PID, process.pid, os.WEXITED | os.WNOWAIT)
        with open(f"/proc/{process.pid}/io") as file:
            io = dict(line.split(": ") for line in file.read().splitlines())
        _, status, usage = os.wait4(process.pid, 0)
        process.returncode = os.waitstatus_to_exitcode(status)
    if process.returncode:
        stop(f"{called[0]} {called[1]} ended with status {process.returncode}")
    stages = stages_of(told)
    if stages["open"][0] != keys or stages.get("unused", (0, 0))[0]:
        stop(f"{called[0]} {called[1]} opened with other keys, or did not use a hint: {told}")
    processor = int(1e9 * (usage.ru_utime + usage.ru_stime))
    return Run(
        stages["open"][1],
        processor,
        int(io["rchar"]),
        int(io["read_bytes"]),
        1024 * usage.ru_maxrss,
    )


def remember(path):
    """Has the system keep the files of a directory in memory."""
    for file in path.iterdir():
        with open(file, "rb", buffering=0) as it:
            while it.read(1 << 20):
                pass


def forget(path):
    """Has the system forget what it keeps of the files of a directory: their pages, and where it
    may, inodes and names."""
    for file in path.iterdir():
        with open(file) as it:
            os.fsync(it.fileno())
            os.posix_fadvise(it.fileno(), 0, 0, os.POSIX_FADV_DONTNEED)
    with contextlib.suppress(PermissionError), open(DROP, "w") as drop:
        drop.write("2")


def size_of(path, ending=""):
    return sum(file.stat().st_size for file in path.iterdir() if file.name.endswith(ending))


def write_hints(path):
    """Writes the hint of each log, without the program."""
    for log in folder.logs_of(path):
        log.with_suffix(".hint").write_bytes(
            hint_files.hint_of(int(log.stem, 16), log.read_bytes())
        )


def must_be_hints(path):
    """The hints are those that tools/logs/hint_files.py makes of the logs."""
    for log in folder.logs_of(path):
        if log.with_suffix(".hint").read_bytes() != hint_files.hint_of(
            int(log.stem, 16), log.read_bytes()
        ):
            stop(f"the hint of {log.name} is another one")


class Openings:
    """The programs and the directories of one shape."""

    def __init__(self, programs, folders, shape):
        self.programs, self.shape = programs, shape
        self.keys = shape.batch * shape.publishes
        self.logs = folders.fresh("logs")
        self.stores = {name: folders.fresh(f"in {name}") for name in programs.others}

    def fill(self):
        """Writes the logs, their hints, and the other stores."""
        words = self.shape.length, self.shape.batch, self.shape.publishes
        folder.run(
            self.programs.store or self.programs.plain, "seal", self.logs, *words, self.shape.limit
        )
        if self.programs.store:
            folder.run(self.programs.store, "hint", self.logs)
        else:
            write_hints(self.logs)
        for name, program in self.programs.others.items():
            folder.run(program, "load", self.stores[name], *words)

    def ways(self):
        """Each way to open: its name, the words of the call, and the directory."""
        if self.programs.store:
            yield SCANNED, [*self.programs.store, "scanned", self.logs], self.logs
            yield HINTED, [*self.programs.store, "hinted", self.logs], self.logs
        for title, word in (
            ("by scanning", "scanned"),
            ("by hints", "hinted"),
            ("by hints, keys sorted first", "sorted"),
        ):
            yield f"plain Rust, {title}", [*self.programs.plain, word, self.logs], self.logs
        for name, program in self.programs.others.items():
            yield name, [*program, "reopen", self.stores[name], self.keys], self.stores[name]

    def measure(self):
        """The runs of each way, in turn: first with the files in memory, then without."""
        warm, cold = collections.defaultdict(list), collections.defaultdict(list)
        for found, prepare in ((warm, remember), (cold, forget)):
            for _ in range(self.shape.runs):
                for name, words, path in self.ways():
                    prepare(path)
                    found[name].append(opened(words, self.keys))
        return warm, cold

    def show(self):
        warm, cold = self.measure()
        logs, hints = size_of(self.logs, ".log"), size_of(self.logs, ".hint")
        print(
            f"\n{len(folder.logs_of(self.logs))} logs of {logs:,} bytes with {self.keys:,} "
            f"entries of {self.shape.length:,} bytes; "
            f"their hints have {hints:,} bytes, {100 * hints / logs:.3f} %. {self.shape.runs} "
            "runs\n"
        )
        print(f"| {' | '.join(COLUMNS)} |\n|{'---|' * len(COLUMNS)}")
        for name, _, path in self.ways():
            print(
                f"| {' | '.join([name, *cells(warm[name], cold[name], size_of(path))])} |",
                flush=True,
            )
        synced = [sync_time(self.logs) for _ in range(self.shape.runs)]
        print(
            "a sync of each log, which is among the store's and plain Rust's: "
            f"{milliseconds(synced)} ms"
        )
        for title in ("store", "plain Rust"):
            scanned, hinted = f"{title}, by scanning", f"{title}, by hints"
            if scanned in warm:
                tell_goals(
                    title,
                    [found[scanned] for found in (warm, cold)],
                    [found[hinted] for found in (warm, cold)],
                    logs,
                )


def sync_time(path):
    """How long a sync of each log takes, in nanoseconds."""
    begun = time.monotonic_ns()
    for log in folder.logs_of(path):
        with open(log) as it:
            os.fsync(it.fileno())
    return time.monotonic_ns() - begun


def milliseconds(times):
    return " / ".join(
        f"{it / 1e6:,.{1 if it < 1e8 else 0}f}" for it in (min(times), statistics.median(times))
    )


def megabytes(memory):
    """The most memory that a program had. One that had less than this one is told to have had as
    much as this one."""
    own = 1024 * resource.getrusage(resource.RUSAGE_SELF).ru_maxrss
    return f"{'below ' if memory <= own else ''}{memory / 1e6:,.0f}"


def cells(warm, cold, size):
    """The figures of a way behind its name."""
    read, device = min(it.read for it in warm), min(it.device for it in cold)
    return [
        milliseconds([it.opening for it in warm]),
        f"{min(it.processor for it in warm) / 1e6:,.0f}",
        milliseconds([it.opening for it in cold]),
        f"{read:,}, {100 * read / size:.2f} %",
        f"{device:,}",
        megabytes(min(it.memory for it in warm)),
    ]


def tell_goals(title, scanned, hinted, size):
    """How many times faster an opening by hints is, and how much of the logs it reads."""
    times = [
        min(it.opening for it in ours) / min(it.opening for it in theirs)
        for ours, theirs in zip(scanned, hinted)
    ]
    processor = [min(it.processor for it in runs[0]) for runs in (scanned, hinted)]
    share = 100 * min(it.read for it in hinted[0]) / size
    print(
        f"{title}, by hints: {times[0]:.1f} times faster with the files in memory "
        f"({processor[0] / processor[1]:.1f} times less "
        f"processor time), {times[1]:.1f} times without; it reads {share:.2f} % of the bytes of "
        "the logs"
    )


def measure(work, store=None):
    """All tables. `store` is a program of the store with the words `seal`, `hint`, `scanned` and
    `hinted`, if there is one."""
    programs, folders = folder.Programs(work, None), folder.Folders(work)
    programs.store = [store] if store else None
    if not os.access(DROP, os.W_OK):
        print(f"files not in memory: their pages alone, since {DROP} may not be written")
    print(f"{os.cpu_count()} processors, load {os.getloadavg()[0]:.1f}")
    for shape in SHAPES if store else [SMALL, *SHAPES]:
        openings = Openings(programs, folders, shape)
        openings.fill()
        openings.show()
