"""Tries the must-fail edits of a crate, those of different functions in one check.

A function is proved from its own body and the contracts of what it calls. So edits of different
functions do not disturb each other: each is refused if a goal of the function that it changes is
not proved, and only these functions and those that they call are checked. An edit for which such a
check does not show that is tried alone, on the whole crate; so is one that changes a definition or
a contract.
"""

import re
import shutil
import tempfile
from collections import Counter
from pathlib import Path
from typing import NamedTuple

import runs
import tried

FUNCTION = re.compile(r"^(\s*)(?:pub(?:\([^)]*\))? )?(?:const |unsafe )*fn (\w+)")
# An error of a proof file, with the directory that the function's name gives, and one that says
# only that the proof names something that the edit took away.
GOAL = re.compile(r"(?:\./)?proofs/(\S+)/\w+\.antt:\d+:\d+: error: (.*)")
GONE = re.compile(r"has no field|is not in scope|has no `|was not admitted")
REFUSED = re.compile(r"fn (\S+): no proof: (?!it calls)(.*)")
# A goal that nothing proves, with the file and the line at which it arises.
OPEN = re.compile(r"note: (src/\S+\.rt):(\d+):\d+: it is not proved (.*)")
# An error of an edited text: it could not be read, or a rule of the language other than a contract
# refuses it.
UNREAD = re.compile(r"(?:\./)?(?:src|specs)/\S+:\d+:\d+: error: ")
# What the prover says if it does not know which function is meant.
UNKNOWN = re.compile(
    r"^rattle: error: .*(?:has no function|several functions are named) `([^`]+)`", re.M
)
# The trait of an impl.
TRAIT = re.compile(r"\s*impl\b.*?(\w+)(?:<[^{]*>)? for ")


class Function(NamedTuple):
    """A function of a source file: the file's module, empty if it is the root, the type and the
    trait of its impl as one word, empty if it is in none, and its name."""

    module: str
    around: str
    name: str

    def path(self, crate):
        """Returns its name for `rt check --only`."""
        return f"{self.around or self.module or crate}::{self.name}"

    def is_called(self, full):
        """Returns whether this is its full name. The prover has a method in the module that
        declares its type, which no other type of the crate may have as its own name
        (`methods_twice`)."""
        *outer, last = full.split("::")
        own = outer[-1:] == [self.around] if self.around else "::".join(outer[1:]) == self.module
        return own and last == self.name


def module_of(path):
    """Returns the module of a source file, empty if it is the root."""
    module = path.removeprefix("src/").removesuffix(".rt").replace("/", "::")
    return "" if module in ("lib", "main") else module


def function_at(path, text, at):
    """Returns the function of a source file that has the line of this index, None if none has
    it."""
    lines = text.split("\n")
    for start in range(at, -1, -1):
        found = FUNCTION.match(lines[start])
        if not found:
            continue
        end = lines.index(found[1] + "}", start) if found[1] + "}" in lines[start:] else start
        impls = (
            it
            for it in reversed(lines[:start])
            if found[1] and it.startswith("impl") and tried.IMPL.match(it)
        )
        impl = next(impls, "")
        kind, trait = (it[1] if it else "" for it in (tried.IMPL.match(impl), TRAIT.match(impl)))
        return Function(module_of(path), kind + trait, found[2]) if at <= end else None
    return None


def methods_twice(folder):
    """Returns the type and the name of each method that two types of one name have."""
    found = Counter()
    for file in sorted((folder / "src").rglob("*.rt")):
        text, path = file.read_text(), str(file.relative_to(folder))
        starts = (at for at, line in enumerate(text.split("\n")) if FUNCTION.match(line))
        found.update(
            {
                (it.around, it.name)
                for it in (function_at(path, text, at) for at in starts)
                if it and it.around
            }
        )
    return {it for it, count in found.items() if count > 1}


class Edit:
    """An edit of a crate: what it replaces in which file, and the functions that it changes, None
    if it changes more."""

    def __init__(self, folder, name):
        self.name, self.pairs, path, old = name, [], "", None
        for line in (folder / "must-fail" / name).read_text().split("\n"):
            if line.startswith("file: "):
                path = line[len("file: ") :].strip()
            elif line.startswith("old: "):
                old = line[len("old: ") :]
            elif line.startswith("new:") and path and old:
                self.pairs.append((path, old, line[len("new:") :].removeprefix(" ")))
        self.functions = {self.function(folder, path, old) for path, old, _ in self.pairs}
        if None in self.functions:
            self.functions = None

    def function(self, folder, path, old):
        """Returns the function whose body has this text, if one has it."""
        text = (folder / path).read_text()
        if not path.startswith("src/") or text.count(old) != 1 or tried.CLAUSE.match(old):
            return None
        return function_at(path, text, text[: text.index(old)].count("\n"))


def apply(edits, folder, room):
    """Writes the texts of a crate with these edits over its copy. Returns the edits that fitted."""
    texts, fitting = {}, []
    for edit in edits:
        own = dict(texts)
        for path, old, new in edit.pairs:
            text = own.get(path) or (folder / path).read_text()
            if text.count(old) != 1:
                break
            own[path] = text.replace(old, new)
        else:
            texts, fitting = own, [*fitting, edit]
    for part in runs.PARTS:
        shutil.rmtree(room / part, ignore_errors=True)
        if (folder / part).is_dir():
            shutil.copytree(folder / part, room / part)
    for path, text in texts.items():
        (room / path).write_text(text)
    return fitting


def open_goals(said, room):
    """Yields each goal that nothing proves, as the function of the checked sources in which it
    arises, None if it is in none, and what the prover says of it."""
    for path, line, goal in (it.groups() for it in map(OPEN.match, said.splitlines()) if it):
        file = room / path
        yield function_at(path, file.read_text(), int(line) - 1) if file.is_file() else None, goal


def refusals(crate, said):
    """Returns the functions of which a proof or a search failed, by their full names, each with
    what the prover says of it: none of which it says only that a proof names something that is
    gone, or that it calls one that is not proved.
    """
    found = {}
    for line in said.splitlines():
        goal, refused = GOAL.match(line), REFUSED.match(line)
        if goal and not GONE.search(goal[2]):
            found.setdefault("::".join([crate, *goal[1].split("/")]), goal[2])
        elif refused:
            found.setdefault(refused[1], refused[2])
    return found


def groups(edits):
    """Returns the edits that can be tried in one check: no two change one function."""
    group, taken = [], set()
    for it in edits:
        if it.functions is not None and not it.functions & taken:
            group, taken = [*group, it], taken | it.functions
    return group


def count_checks(top, name):
    """Returns how many checks try the edits of a crate if each is refused: one for each group, one
    for each other edit, and one of the crate as it stands."""
    left, count = [Edit(top / "crates" / name, it) for it in sorted(tried.edits_of(top, name))], 1
    while left:
        group = groups(left) or left[:1]
        left, count = [it for it in left if it not in group], count + 1
    return count


class Crate:
    """The edits of a crate that are not tried yet, and the copy in which they are tried."""

    def __init__(self, top, name, room):
        self.name, self.folder, self.copy = (
            name,
            top / "crates" / name,
            runs.copy_of(top, name, Path(room)),
        )
        self.left = [Edit(self.folder, it) for it in sorted(tried.edits_of(top, name))]
        self.twice = methods_twice(self.folder)

    def check(self, paths=None):
        """Checks the crate, or these functions of it and those that they call: all functions of the
        module of one that the prover has under another name."""
        paths = paths or {}
        status, said = runs.rt(
            self.copy,
            "check",
            "--jobs",
            "1",
            *(word for it in sorted(paths) for word in ("--only", it)),
        )
        unknown = UNKNOWN.search(said)
        if not paths or not unknown:
            return status, said
        module = paths.get(unknown[1], unknown[1])
        others = {it: of for it, of in paths.items() if it != unknown[1]}
        return self.check({} if module == unknown[1] else {**others, module: module})

    def goal_of(self, functions, said):
        """Returns what the prover says of an open goal of one of these functions, None if it says
        none of them."""
        sure = [it for it in functions if (it.around, it.name) not in self.twice]
        goals = [goal for it, goal in open_goals(said, self.copy) if it in functions]
        goals += [
            why
            for it, why in refusals(self.name, said).items()
            if any(one.is_called(it) for one in sure)
        ]
        return next(iter(goals), None)

    def together(self, tell):
        """Tries one group of edits. Returns whether that showed something of one of them."""
        fitting = apply(groups(self.left), self.folder, self.copy)
        status, said = self.check(
            {one.path(self.name): one.module or self.name for it in fitting for one in it.functions}
        )
        is_read = status == 1 and not any(map(UNREAD.match, said.splitlines()))
        goals = {it.name: self.goal_of(it.functions, said) for it in fitting if is_read}
        shown = {name: why for name, why in goals.items() if why is not None}
        self.left = [it for it in self.left if it.name not in shown]
        for name, why in shown.items():
            tell(
                self.name,
                name,
                True,
                f"with {len(fitting) - 1} others: {why}" if len(fitting) > 1 else why,
            )
        return bool(shown)

    def alone(self, edit, tell):
        """Tries one edit. It is refused if the prover reads it, and does not prove a goal."""
        fits = apply([edit], self.folder, self.copy)
        status, said = self.check()
        goals = [
            *refusals(self.name, said).values(),
            *(goal for _, goal in open_goals(said, self.copy)),
        ]
        is_refused = fits and status == 1 and "logic=not-proved" in said and goals
        unread = [it for it in said.splitlines() if UNREAD.match(it)]
        if is_refused and not unread:
            tell(self.name, edit.name, True, f"alone: {goals[0]}")
        else:
            tell(
                self.name,
                edit.name,
                False,
                "it does not fit its file"
                if not fits
                else (unread or said.splitlines()[-6:] or [""])[0],
            )

    def all(self, tell):
        while any(it.functions for it in self.left) and self.together(tell):
            pass
        for it in self.left:
            self.alone(it, tell)

    def is_proved(self):
        """Checks the crate without its edits: what was refused says something only if it is
        proved."""
        apply([], self.folder, self.copy)
        return self.check()[0] == 0


def try_edits(top, name, tell, is_proved):
    """Tries all edits of a crate, and tells of each. Returns whether the crate without them is
    proved."""
    with tempfile.TemporaryDirectory(prefix="edits-") as room:
        crate = Crate(top, name, room)
        crate.all(tell)
        return is_proved or crate.is_proved()


def try_all(top, names, tell, proved=()):
    """Tries the edits of these crates, and tells of each. Returns the crates that are not proved
    without them; those of `proved` are known to be."""
    return runs.in_lanes(names, lambda it: try_edits(top, it, tell, it in proved))
