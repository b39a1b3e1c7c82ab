"""Counts and times the calls of a bookie, of one caller and of several, beside plain Rust: ./dev
bench callers."""

import subprocess

from counting import ORDERS, Bench, need, row, stop

# Number of runs of callers and readers; the best counts.
RUNS = 15
CALLERS, READERS = (1, 2, 4, 8), (1, 2, 4)
# Counted calls, and kinds of calls and reads that are timed.
COUNTED = {
    "add": "add",
    "read from the write cache": "cached",
    "lease, and its end": "leased",
}
WORKS = {"adds": "adds", "takes": "reads from the write cache"}
READS = {"held": "reads by leases held", "leased": "reads, a lease each"}
# Ways of adding entries in plain Rust.
WAYS = {
    "adds": "Mutex, an entry a hold",
    "tried": "tried for a while first, an entry a hold",
    "fours": "the same, 4 entries a hold",
    "sixteens": "the same, 16 entries a hold",
    "apart": "a store for each caller, no lock",
}


def timed(program, words, expected):
    """Runs a program whose works make `expected` calls each. Returns their nanoseconds."""
    ran = subprocess.run(
        [program, *map(str, words)], text=True, stdout=subprocess.PIPE, stderr=subprocess.PIPE
    )
    counts = dict(line.split() for line in ran.stdout.splitlines())
    if ran.returncode or set(counts.values()) != {str(expected)}:
        stop(f"{program}: not every call was answered as it should be: {ran.stdout}{ran.stderr}")
    return {name: int(took) for name, _, took in (line.split() for line in ran.stderr.splitlines())}


def rates(programs, part, callers, each):
    """Returns the most calls per second of each work and program. Other load only lowers a rate."""
    best = [{} for _ in programs]
    for _ in range(RUNS):
        for found, program in zip(best, programs):
            for name, took in timed(program, [part, callers, each], callers * each).items():
                found[name] = max(found.get(name, 0), callers * each / took * 1e9)
    return best


def count_pass(work, program, number=20_000):
    """Counts the instructions of calls by one pass alone, and of the store's own calls."""
    need("valgrind", "counts instructions")
    kinds = ("store_", "pass_", "held_", "tell")
    words = ["counted", number]
    told, calls = Bench(work, program, None).counted_calls(
        program, "bk_bench_threads::counted::", words, kinds
    )
    if {line.split()[1] for line in told} != {str(number)}:
        stop(f"not every call was answered as it should be: {told}")
    counts = dict(calls)
    print(f"\n{number:,} entries of 100 bytes, {ORDERS['turn']}: instructions for each")
    row("", "store", "one pass", "ratio")
    for title, kind in COUNTED.items():
        own, ours = counts[f"store_{kind}"], counts[f"pass_{kind}"]
        row(title, f"{own / number:,.0f}", f"{ours / number:,.0f}", f"{ours / own:.2f}")
    row("read by a lease that is held", f"{counts['held_read'] / number:,.0f}")


def time_calls(programs, each=20_000):
    """Times concurrent callers, each kind of call by all of them at once."""
    best = {callers: rates(programs, "calls", callers, each) for callers in CALLERS}
    print(
        f"\n{each:,} calls by each caller: thousands a second of all callers, best of {RUNS} runs"
    )
    for work, title in WORKS.items():
        row(title, "store", "to one", "plain Rust", "to one", "ratio")
        for callers, (ours, plain) in best.items():
            shown = [
                it
                for found, one in zip((ours, plain), best[1])
                for it in to_first(found[work], one[work])
            ]
            row(f"{callers} callers", *shown, f"{ours[work] / plain[work]:.2f}")


def to_first(rate, first):
    return f"{rate / 1e3:,.0f}", f"{rate / first:.2f}"


def time_ways(plain, each=20_000):
    """Times adds in plain Rust, with more than one entry a hold and without a lock."""
    print(
        f"\nadds in plain Rust, {each:,} by each caller: thousands a second of all callers, best "
        f"of {RUNS} runs"
    )
    row("", *(f"{callers} callers" for callers in CALLERS))
    found = [
        rates([plain], part, callers, each)[0]
        for part in ("calls", "grouped")
        for callers in CALLERS
    ]
    for way, title in WAYS.items():
        row(title, *(f"{it[way] / 1e3:,.0f}" for it in found if way in it))


def time_reads(programs, each=200_000):
    """Times concurrent readers: with leases that are held, and with a new lease for each read."""
    best = {readers: rates(programs, "reads", readers, each) for readers in READERS}
    print(
        f"\n{each:,} reads from a log by each reader: thousands a second of all readers, best of "
        f"{RUNS} runs"
    )
    for work, title in READS.items():
        row(title, "store", "plain Rust", "ratio")
        for readers, found in best.items():
            ours, plain = (it[work] for it in found)
            row(
                f"{readers} readers",
                f"{ours / 1e3:,.0f}",
                f"{plain / 1e3:,.0f}",
                f"{ours / plain:.2f}",
            )


def measure(work, program, plain):
    """All tables: of the built program of bk_bench_threads and of bench/callers.rs."""
    count_pass(work, program)
    time_calls([program, plain])
    time_ways(plain)
    time_reads([program, plain])
