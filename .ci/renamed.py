"""Takes over records of an earlier commit, for crates that differ from it in names only.

A refusal or a proof does not depend on names. So if all texts that decide about the edits of a
crate, or about the proof of a crate of tests, are, token for token, those of the earlier commit up
to a one-to-one renaming in each file, nothing need be tried or proved again. `.ci/run all` does it
all.
"""

import contextlib
import re
import subprocess
import tempfile
from pathlib import Path

import tried

WORD = re.compile(r"[\w']+")
# Words that are no names: numbers, characters and bytes.
LITERAL = re.compile(r"\d|'|b'.")
# A `use` or `mod` item of a source, as tokens with a line each.
IMPORT = re.compile(r"\n(?:pub\n|ghost\n)?(?:use|mod)\n(?:(?!;\n).*\n)*?;(?=\n)")


@contextlib.contextmanager
def tree_of(top, commit):
    """Gives a directory with the files of a commit."""
    with tempfile.TemporaryDirectory(prefix="gate-") as room:
        packed = subprocess.run(
            ["git", "archive", commit], cwd=top, capture_output=True, check=True
        ).stdout
        subprocess.run(["tar", "-x", "-C", room], input=packed, check=True)
        yield Path(room)


def moves_of(top, commit):
    """Returns the earlier name of each file that git finds to be moved since the commit."""
    words = ["git", "diff", "--name-status", "-M30%", commit, "HEAD"]
    told = subprocess.run(words, cwd=top, capture_output=True, text=True, check=True).stdout
    rows = (it.split("\t") for it in told.splitlines())
    return {row[2]: row[1] for row in rows if row[0].startswith("R")}


def is_renamed(before, after, may):
    """Returns whether the second list of tokens is the first with some words renamed: each to one
    word, new to the file.

    An occurrence may keep its word, as a field or a local of the same name does. A literal keeps
    it. The pairs in `may` need not be new."""
    if len(before) != len(after):
        return False
    there, back, known = {}, {}, {word for it in before for word in WORD.findall(it)}
    for old, new in zip(before, after):
        words = WORD.findall(old), WORD.findall(new)
        if WORD.sub("_", old) != WORD.sub("_", new) or len(words[0]) != len(words[1]):
            return False
        for one, other in zip(*words):
            if one == other or (one, other) in may:
                continue
            if LITERAL.match(one) or LITERAL.match(other):
                return False
            if (
                other in known
                or there.setdefault(one, other) != other
                or back.setdefault(other, one) != one
            ):
                return False
    return True


def texts(top, crate, record):
    """Returns the texts that decide about what the record shows of the crate, without imports and
    lists of modules."""
    found = {}
    for file, tokens in record.texts(top, crate, tried.dependences(top)[crate]):
        if file.suffix == ".antt":
            tokens = tried.tokens_of(
                [it for it in tried.code_of(top / file) if not it.startswith("use ")]
            )
        # Of a file of a crate below there is a list of tokens for each item.
        tokens = [token for it in tokens for token in (it if isinstance(it, list) else [it])]
        tokens = IMPORT.sub("\n", "\n".join(["", *tokens, ""])).split("\n")
        found[str(file)] = [it for it in tokens if it]
    return found


def differences(base, top, crate, earlier, moved, may, record):
    """Returns the files in which the crate's texts differ by more than names from those of the
    earlier crate."""
    old, new, found = texts(base, earlier, record), texts(top, crate, record), []
    for file, after in new.items():
        # git pairs files by their lines: a short one is paired by its name and its tokens.
        before = moved.get(file, file)
        alike = [before, *(it for it in old if it.rsplit("/", 1)[1] == file.rsplit("/", 1)[1])]
        match = next((it for it in alike if it in old and is_renamed(old[it], after, may)), None)
        if match is not None:
            old.pop(match)
        elif file.startswith(f"crates/{crate}/"):
            found.append(file)
    # A file that a lower crate gained decides nothing here, nor does one that held no clause and no
    # code.
    return found + sorted(file for file, tokens in old.items() if tokens)


def carry_of(record, top, base, moved, may, kit):
    """Writes the records of one kind that hold on. Returns how many crates have one now, and how
    many had one and lost it."""
    carried, lost, before = 0, 0, record.digests(base, kit)
    for crate, digest in record.digests(top, kit).items():
        lib = f"crates/{crate}/src/lib.rt"
        earlier = moved.get(lib, lib).split("/")[1]
        if record.fits(top, crate, digest) or not record.fits(base, earlier, before.get(earlier)):
            continue
        found = differences(base, top, crate, earlier, moved, may, record)
        if found:
            lost += 1
            print(
                f"{crate}/{record.name}: not carried, since more than names differ in "
                f"{' '.join(found[:6])}"
            )
        else:
            carried += 1
            record.carry(top, crate, record.file(base, earlier), digest)
    return carried, lost


def carry(top, commit, pairs, kit):
    """Writes the records that hold on. Returns how many were carried, and how many were lost."""
    moved, may = moves_of(top, commit), {tuple(it.split("=")) for it in pairs}
    with tree_of(top, commit) as base:
        counts = [carry_of(it, top, base, moved, may, kit) for it in (tried.TRIED, tried.PROVED)]
    return tuple(map(sum, zip(*counts)))
