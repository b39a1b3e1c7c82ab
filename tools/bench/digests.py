"""Times SHA-256: the kit's crate sha2, which the store uses, beside plain Rust and OpenSSL: ./dev
bench digest."""

import shutil
import subprocess
from pathlib import Path

import folder

HERE = Path(__file__).resolve().parent
# The bytes of a payload, and how many payloads a run digests: about a millisecond of work.
PAYLOADS = [(100, 2000), (1024, 200), (10_240, 20)]
RUNS = 100


def compile_openssl(work):
    """Compiles the program of the system library. Returns None, and says so, if the system lacks
    it."""
    program = work / "with-openssl"
    words = ["cc", "-O2", "-o", program, HERE / "digest_openssl.c", "-lcrypto"]
    if not shutil.which("cc") or subprocess.run(words, capture_output=True).returncode:
        print("OpenSSL is skipped: no cc, or no openssl/evp.h")
        return None
    return [program]


def least_time(program, folders, length, count):
    """The least nanoseconds of a payload, and the sum of the digests' first bytes."""
    sums, times = set(), []
    for _ in range(RUNS):
        if "openssl" in str(program[0]):
            words = [length, count]
        else:
            words = ["fill", folders.fresh("digested"), length, count, 1, folder.NO_LIMIT]
        total, nanoseconds = folder.run(program, *words)[0]["digest"]
        sums.add(total)
        times.append(nanoseconds / count)
    if len(sums) != 1:
        raise SystemExit("dev bench: the digests differ from run to run")
    return min(times), sums.pop()


def measure(work, store):
    """All rows. `store` is the built program of bk_bench, or None."""
    programs = folder.Programs(work, store, others=False)
    folders = folder.Folders(work)
    columns = {
        "sha2": programs.store,
        "plain Rust": programs.plain,
        "OpenSSL": compile_openssl(work),
    }
    columns = {name: program for name, program in columns.items() if program}
    print(f"\nSHA-256 of a payload: nanoseconds, and nanoseconds a byte, least of {RUNS} runs")
    folder.row("", *(it for name in columns for it in (name, "a byte")))
    for length, count in PAYLOADS:
        found = {
            name: least_time(program, folders, length, count) for name, program in columns.items()
        }
        if len({total for _, total in found.values()}) != 1:
            raise SystemExit("dev bench: the programs make different digests")
        folder.row(
            f"{length:,} bytes",
            *(it for time, _ in found.values() for it in (f"{time:,.0f}", f"{time / length:.2f}")),
        )
