"""What the parts of .ci/selftest share: a stand-in for rt, files, and what is wrong."""

import shutil
from pathlib import Path

TOP = Path(__file__).resolve().parent.parent
# It writes each call to the file `calls`. The environment says of which crate the tests fail, of
# which it is silent, which crate does not compile unproved, and whether it stops before its last
# line.
RT = r"""#!/usr/bin/env python3
import os, re, shutil, sys
from pathlib import Path
words, here, env = sys.argv[1:], Path.cwd(), os.environ
crates = [it.split(":")[0].split()[0] for it in Path("crates.txt").read_text().splitlines() if ":" in it] if words[0] == "ci" else []
note = {"ci": " ".join(["ci", *words[1:], *crates]), "try": f"try {here.name}", "test": f"test {here.name}",
        "lib": f"build {here.name}", "run": f"build {here.name}"}.get(words[0])
if note:
    with open(env["CALLS"], "a") as calls:
        calls.write(note + "\n")
def build_tests(crate):
    (crate / "out").mkdir(exist_ok=True)
    shutil.copy(Path(sys.argv[0]).with_name("tests"), crate / "out" / f"{crate.name}_tests")
if words[0] in ("lib", "test"):
    (here / "out" / "rlib").mkdir(parents=True, exist_ok=True)
    if words[0] == "test":
        build_tests(here)
    sys.exit(here.name == env.get("FAILS"))
if words[0] == "run":
    (here / "out").mkdir(exist_ok=True)
    (here / "out" / f"{here.name}.stamp").touch()
if words[0] == "version":
    print("a kit")
if words[0] == "fmt":
    for file in here.rglob("*.rt"):
        file.write_text(file.read_text().replace("  // wide", " // wide"))
if words[0] == "try":
    if env.get("APART") == here.name:
        sys.exit("error: not compiled")
    tests = [(it, name) for it in sorted(here.rglob("*.rt")) for name in re.findall(r"fn (\w+)\(rt", it.read_text())]
    for file, name in tests:
        print(f"test {'::'.join(file.relative_to(here / 'src').with_suffix('').parts)}::{name} ... ok")
    print(f"test result: ok. {len(tests)} passed; 0 failed; 0 seconds")
if words[0] == "check":
    lines = (here / "src" / "lib.rt").read_text().splitlines()
    last = lambda at: [it for it in lines[: at + 1] if "fn " in it][-1].split("fn ")[1].split("(")[0]
    only = [it for flag, it in zip(words, words[1:]) if flag == "--only"]
    if unknown := [it for it in only if it not in ("low::sum", "low::twin")]:
        print(f"rattle: error: `low` has no function `{unknown[0]}`: help: write the name that a check prints")
        sys.exit(2)
    of_word = lambda word: [at for at, it in enumerate(lines) if word in it and (not only or f"low::{last(at)}" in only)]
    wrong, open_at, gone = of_word("wrong"), of_word("unknown"), of_word("gone")
    for name in sorted({last(at) for at in wrong}):
        print(f"fn low::{name}: no proof: `search` did not prove `returns`")
    # A goal that is left open, and a function that is not proved only because its proof names what
    # is gone.
    for at in open_at:
        print(f"note: src/lib.rt:{at + 1}:5: it is not proved that `returns`\nfn low::{last(at)}: not proved")
    for at in gone:
        print(f"./proofs/{last(at)}/Answers.antt:3:9: error: `a` is not in scope\nfn low::{last(at)}: not proved")
    print("fn low::twin: no proof: it calls `low::sum`, which is not proved" * ("sum" in map(last, wrong)))
    refused = wrong + open_at + gone
    print("logic=not-proved" if refused else "logic=proved")
    with open(env["CALLS"], "a") as calls:
        calls.write("check " + " ".join(sorted({last(at) for at in refused})) + "\n")
    sys.exit(bool(refused))
if words[0] == "ci":
    if list(Path("crates").glob("*/must-fail/*.edit")):
        sys.exit("rt: edits are there")
    tests, fails = [it for it in crates if it.endswith("_tests") and it != env.get("SILENT")], env.get("FAILS")
    for it in tests:
        build_tests(Path("crates") / it)
        print(f"rt: {it}: its tests {'FAILED' if it == fails else 'passed'}")
    if "CUT" in env:
        sys.exit(137)
    if fails in tests:
        print(f"rt: FAILED: {fails} (tests)")
    print(f"{len(crates)} passed, {int(fails in tests)} failed")
    sys.exit(fails in tests)
"""
WRONG = []


def copy_to(room, *names):
    """Copies files of the repository to a directory, each to its place."""
    for name in names:
        (room / name).parent.mkdir(parents=True, exist_ok=True)
        shutil.copy(TOP / name, room / name)


def write(file, text):
    file.parent.mkdir(parents=True, exist_ok=True)
    file.write_text(text)


def change(file, old, new):
    file.write_text(file.read_text().replace(old, new))
