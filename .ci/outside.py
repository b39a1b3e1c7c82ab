"""Runs what no contract states on the programs that rt ci has built."""

import shutil
from pathlib import Path

import tried

TOP = Path(__file__).resolve().parent.parent
# The programs whose device is made to fail and that are killed, and with what words.
PROGRAM, SERVER = "bk_shell", "bk_serve"
HARNESSES = (
    ("dev", "faults", "--quick", "--only", "script", "--only", "hint"),
    ("dev", "faults", "--serve", "--quick"),
    ("dev", "faults", "--serve", "--hostile", "--sessions", "500"),
    ("dev", "faults", "--serve", "--ahead", "--sessions", "20"),
    ("dev", "kills", "--kills", "20"),
    ("dev", "kills", "--serve", "--kills", "20"),
)


def try_programs(run, copy):
    """Runs what no contract states on the programs that rt ci has built: the clients of bindings/,
    the tests from outside, the daemon, an installation, faults of the device, hostile sessions, and
    kills. Returns how many of these passed, and what is wrong.
    """
    if not {PROGRAM, SERVER} <= tried.libraries(TOP).keys():
        return 0, []
    program, server = (copy / "crates" / it / "out" / it for it in (PROGRAM, SERVER))
    if not (program.is_file() and server.is_file()):
        return 0, [f"rt ci has left no program of {PROGRAM} or {SERVER}"]
    for it in (program, server):
        it.chmod(0o755)
    calls = [
        [".ci/bindings", server],
        ["tools/programs/run", "--shell", program, "--serve", server],
    ]
    calls += [["tools/daemon/test_daemon.py", "--server", server]]
    calls += [["tools/install/test_install.py", "--shell", program, "--serve", server]]
    calls += [
        [name, *words, "--program", program, "--server", server] for name, *words in HARNESSES
    ]
    if not shutil.which("gcc"):
        # The library that fails calls is compiled.
        print("dev faults and dev kills: skipped, no gcc")
        calls = [it for it in calls if it[0] != "dev"]
    failed = [it for it in calls if run.lines([str(TOP / it[0]), *map(str, it[1:])], TOP)]
    wrong = [f"{it[0]} {it[1]}: failed on what was proved" for it in failed]
    return len(calls) - len(wrong), wrong
