"""The words of ./dev faults."""

import argparse
from pathlib import Path

TOP = Path(__file__).resolve().parent.parent.parent
BUILT = TOP / "crates" / "bk_shell" / "out" / "bk_shell"
SERVER = TOP / "crates" / "bk_serve" / "out" / "bk_serve"
# What each option does, and what it takes.
FLAGS = {
    "--serve": "fail calls of a session of bk_serve",
    "--ahead": "compare the replies of sessions that are sent ahead with a model",
    "--quick": "fail a few calls of each kind, and not each one",
    "--hostile": "try hostile directories in place of faults",
}
PATHS = {
    "--keep": "leave the directory of each finding there",
    "--room": "where directories are made [/dev/shm]",
}
PROGRAMS = {
    "--program": (BUILT, "the program bk_shell [that of ./dev build]"),
    "--server": (SERVER, "the program bk_serve [that of ./dev build]"),
}
SESSIONS = "how many hostile sessions, or sessions ahead, are sent [1000]"
ONLY = "the cases of a command, or one"
HINTS = "damage so many hints [100000]"
SEED = "what the damages of --hints follow from [1]"


def arguments():
    about = "Fails calls of the system while the program works on a directory."
    words = argparse.ArgumentParser("dev faults", description=about)
    for name, told in FLAGS.items():
        words.add_argument(name, action="store_true", help=told)
    for name, told in PATHS.items():
        words.add_argument(name, type=Path, metavar="DIR", help=told)
    for name, (path, told) in PROGRAMS.items():
        words.add_argument(name, default=path, metavar="PATH", help=told)
    words.add_argument("--sessions", type=int, default=1000, metavar="N", help=SESSIONS)
    words.add_argument("--only", action="append", default=[], metavar="NAME", help=ONLY)
    words.add_argument("--hints", type=int, nargs="?", const=100_000, metavar="N", help=HINTS)
    words.add_argument("--seed", default="1", metavar="TEXT", help=SEED)
    return words.parse_args()
