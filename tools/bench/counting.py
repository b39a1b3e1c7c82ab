"""Runs the programs of ./dev bench: counts the instructions of stages by valgrind, times them,
weighs what they hold."""

import os
import re
import shutil
import subprocess
import sys
import time
from pathlib import Path

HERE = Path(__file__).resolve().parent
ORDERS = {"turn": "100 ledgers in turn", "rising": "keys rise"}
DIGEST, ADD, FLUSH = (
    "SHA-256 of a payload alone",
    "add, its digest taken off",
    "flush: write and publish",
)
READ, COMPACT = "read from a log: take, fetch, release", "compact, a moved key"
# Each line of a table: its title, the stages that are added, and those that are subtracted.
LINES = [
    (DIGEST, ["digest"], []),
    (ADD, ["add"], ["digest"]),
    ("read from the write cache", ["cached"], []),
    ("write", ["write"], []),
    ("publish", ["publish"], []),
    (FLUSH, ["write", "publish"], []),
    (READ, ["fetch"], []),
    ("scan, a record", ["scan"], []),
    ("opening, a record", ["reopen"], []),
    ("delete, a key", ["delete"], []),
    (COMPACT, ["compact"], []),
]
# The lines whose sum is an entry's life, and the two lines that follow from others.
LIFE = (ADD, FLUSH, READ, COMPACT)
WITH_DIGEST = "add, with sha2's digest in both"
LIVES = ("life: add, flush, read, compact", "life, with sha2's digest in both")
# A trail is reallocated when its length reaches a power of two: these are powers of two near 10^4
# and 10^6, and these lengths themselves.
TRAILS = {
    "1": [1],
    "10^4": [8192, 10_000, 16_384],
    "10^6": [524_288, 1_000_000, 1_048_576],
}
HELD = 1_000_000


def stop(why, status=1):
    print(f"dev bench: {why}", file=sys.stderr)
    sys.exit(status)


def need(command, what):
    if not shutil.which(command):
        stop(f"{command} is not on the path, which {what}", 127)


def compile_plain(work, name="plain.rs"):
    need("rustc", "compiles the plain program")
    plain = work / "plain"
    source = HERE / name
    subprocess.run(["rustc", "--edition", "2021", "-O", "-o", plain, source], check=True)
    return plain


def output_of(words, **how):
    ran = subprocess.run(words, text=True, stdout=subprocess.PIPE, **how)
    if ran.returncode:
        stop(f"{' '.join(map(str, words))} ended with status {ran.returncode}")
    return ran.stdout


def row(name, *values):
    print(f"  {name:<40}" + "".join(f"{value:>12}" for value in values), flush=True)


def calls_of(dumps, prefix):
    """Returns the stages that were called and their instructions, in order.

    A stage ends at the call of `tell`. A dump by a function within a stage belongs to the stage.
    The name of a function ends before its type arguments.
    """
    calls, stage, count = [], None, 0
    for _, trigger, total in dumps:
        count += total
        entered = re.split("::[<‹]", trigger.removeprefix(f"--dump-before={prefix}"))[0]
        if entered == "tell":
            calls.append((stage, count))
            stage = None
        elif stage is None:
            stage, count = entered, 0
    return calls


def figures_of(calls, numbers):
    """Returns the figures of each line by its title: the store's, None if its program is missing,
    and the plain one's."""

    def each(found, plus, minus):
        total = sum(it for stage, it in found if stage in plus) - sum(
            it for stage, it in found if stage in minus
        )
        return total / numbers[plus[0]]

    found = {title: [it and each(it, plus, minus) for it in calls] for title, plus, minus in LINES}
    digest = found[DIGEST][0]
    if digest is None:
        return found
    # The plain program uses another digest; in these lines both use that of the crate sha2.
    lives = [sum(found[title][which] for title in LIFE) for which in (0, 1)]
    found[WITH_DIGEST] = [it + digest for it in found[ADD]]
    found[LIVES[0]], found[LIVES[1]] = lives, [it + digest for it in lives]
    return found


def clocked_run(words):
    """Runs a program. Returns its lines, and for each the nanoseconds since the line before."""
    lines, took = [], {}
    with subprocess.Popen(words, text=True, stdout=subprocess.PIPE) as process:
        before = time.monotonic_ns()
        for line in process.stdout:
            now = time.monotonic_ns()
            lines.append(line)
            took[line.split()[0]], before = now - before, now
    if process.returncode:
        stop(f"{' '.join(words)} ended with status {process.returncode}")
    return lines, took


class Bench:
    """The two programs: the store's, which may be missing, and the plain one."""

    def __init__(self, work, program, plain):
        self.work = work
        self.programs = [(program, "bk_bench::stages::"), (plain, "plain::stage_")]

    def counted(self, words):
        """Runs both programs under valgrind.

        Returns the lines of output, and for each program the calls of its stages with their
        instructions, in order, or None if the program is missing. valgrind dumps and resets its
        counters when a stage or `tell` is entered; the trigger of a dump has the name.
        """
        found = []
        for program, prefix in self.programs:
            found.append(self.counted_calls(program, prefix, words) if program else None)
        ours, plain = found
        if ours and ours[0] != plain[0]:
            stop(f"the two programs did not do the same: {ours[0]} and {plain[0]}")
        return plain[0], [it and it[1] for it in found]

    def counted_calls(self, program, prefix, words, kinds=("",)):
        """Runs a program under valgrind. Stages are named by the prefix and one of the kinds."""
        for old in self.work.glob("counted.*"):
            old.unlink()
        told = output_of(
            [
                "valgrind",
                "--tool=callgrind",
                f"--callgrind-out-file={self.work}/counted.%n",
                "--combine-dumps=no",
                *(f"--dump-before={prefix}{kind}*" for kind in kinds),
                program,
                *map(str, words),
            ],
            stderr=subprocess.DEVNULL,
        )
        dumps = []
        for path in self.work.glob("counted.*"):
            text = path.read_text()
            part = re.search(r"^part: (\d+)$", text, re.M)
            trigger = re.search(r"^desc: Trigger: (.*)$", text, re.M)
            total = re.search(r"^totals: (\d+)", text, re.M)
            if part and trigger and total:
                dumps.append((int(part[1]), trigger[1], int(total[1])))
        return told.splitlines(), calls_of(sorted(dumps), prefix)

    def peaks(self, *words):
        """Returns the peak memory of each program in bytes, None for a missing program."""
        found = []
        for program, _ in self.programs:
            if program is None:
                found.append(None)
                continue
            process = subprocess.Popen([str(program), "memory", *words], stdout=subprocess.DEVNULL)
            _, status, usage = os.wait4(process.pid, 0)
            if status:
                stop(f"memory {' '.join(words)} did not end well")
            found.append(1024 * usage.ru_maxrss)
        return found

    def clocked(self, words, runs):
        """Runs both programs some times, in turn.

        Returns the lines of output, and for each program the least nanoseconds of each stage, or
        None if the program is missing. A stage takes from the line before to its own.
        """
        least, lines = [None, None], None
        for _ in range(runs):
            for number, (program, _) in enumerate(self.programs):
                if program is None:
                    continue
                lines, took = clocked_run([str(program), *map(str, words)])
                before = least[number] or took
                least[number] = {stage: min(it, before[stage]) for stage, it in took.items()}
        return lines, [it and list(it.items()) for it in least]

    def stages(self, number, order, runs=None):
        """Returns the figures of each line for so many entries: instructions, or nanoseconds if
        runs are given."""
        words = ["entries", number, order]
        told, calls = self.clocked(words, runs) if runs else self.counted(words)
        numbers = {line.split()[0]: int(line.split()[1]) for line in told}
        numbers["digest"] = numbers["add"]
        return figures_of(calls, numbers)

    def show_stages(self, number, runs=None):
        """Prints the figures of so many entries in both orders, and returns them."""
        found = {}
        what = f"nanoseconds for each, least of {runs} runs" if runs else "instructions for each"
        for order, name in ORDERS.items():
            print(f"\n{number:,} entries of 100 bytes, {name}: {what}")
            row("", "store", "plain Rust", "ratio")
            found[order] = self.stages(number, order, runs)
            for title, (ours, plain) in found[order].items():
                shown = ["-" if it is None else f"{it:,.0f}" for it in (ours, plain)]
                row(title, *shown, "-" if ours is None else f"{ours / plain:.2f}")
        return found

    def count_trails(self):
        lengths = sorted({length for group in TRAILS.values() for length in group})
        told, calls = self.counted(["trail", *lengths])
        numbers = [int(line.split()[1]) for line in told]
        print(
            "\nthe longest single add, its digest among it, beside a trail of so many marks: "
            "instructions"
        )
        row("", "store", "plain Rust")
        for name, group in TRAILS.items():
            row(name, *(self.longest(numbers, found, group) for found in calls))

    @staticmethod
    def longest(numbers, found, group):
        if found is None:
            return "-"
        near = [
            count
            for number, (_, count) in zip(numbers, found)
            if any(abs(number - length) <= 2 for length in group)
        ]
        return f"{max(near):,}"

    def weigh(self):
        print(f"\nmemory at {HELD:,} entries of 100 ledgers: bytes for each")
        row("", "store", "plain Rust")
        for order, name in ORDERS.items():
            self.print_weight(f"index and accounts, {name}", "store", "log", order)
        self.print_weight("cached entry of 100 bytes, and its mark", "cached", "nothing", "turn")
        self.print_weight("mark", "marks", "nothing", "turn")

    def print_weight(self, title, what, beside, order):
        most = self.peaks(what, str(HELD), order)
        least = self.peaks(beside, str(HELD), order)
        row(
            title,
            *(
                "-" if one is None else f"{(one - other) / HELD:.1f}"
                for one, other in zip(most, least)
            ),
        )
