"""Several crates of tests as one crate, for a run without proof.

To compile the tests of one crate, the toolchain reads and compiles all crates below it, which is
nearly all of the work. As modules of one crate, the tests of many are compiled together, and that
work is done once.
"""

import re
import shutil

NAME = "joined_tests"
# What a library of tests alone has in its lib.rt.
ALONE = re.compile(r"(?://![^\n]*\n)*#!\[tactic\(auto\)\]\n\n#\[cfg\(test\)\]\nmod tests;\n")


def lines_of(top):
    """Returns the lines of crates.txt by the crate."""
    lines = (it.partition("#")[0].strip() for it in (top / "crates.txt").read_text().splitlines())
    return {it.partition(":")[0].split()[0]: it for it in lines if it}


def used_by(line):
    return line.partition(":")[2].split()


def can_join(top, crate):
    """Returns whether the crate has tests alone, which name nothing by the crate's own path."""
    src = top / "crates" / crate / "src"
    if not (src / "lib.rt").is_file() or not ALONE.fullmatch((src / "lib.rt").read_text()):
        return False
    return not any(
        re.search(rf"\bcrate::|\bRattle\.{crate}\b", it.read_text()) for it in src.rglob("*.rt")
    )


def below(lines, crates):
    """Returns the crates of the repository that these use, directly or through others."""
    found, left = set(), [it for crate in crates for it in used_by(lines[crate])]
    while left:
        one = left.pop()
        if one in lines and one not in found:
            found.add(one)
            left += used_by(lines[one])
    return found


def make(top, room, crates):
    """Makes a repository in an empty directory: a crate with the tests of these crates, each a
    module with the crate's name, and the sources of all crates below. Returns the directory of the
    crate."""
    lines = lines_of(top)
    lower = below(lines, crates)
    for it in lower:
        shutil.copytree(top / "crates" / it / "src", room / "crates" / it / "src")
    src = room / "crates" / NAME / "src"
    for it in crates:
        shutil.copytree(top / "crates" / it / "src", src / it)
        (src / it / "lib.rt").rename(src / f"{it}.rt")
        (src / f"{it}.rt").write_text("mod tests;\n")
    (src / "lib.rt").write_text(
        "#![tactic(auto)]\n\n" + "".join(f"#[cfg(test)]\nmod {it};\n" for it in sorted(crates))
    )
    used = sorted({it for crate in crates for it in used_by(lines[crate])})
    own = f"{NAME}: {' '.join(used)}"
    (room / "crates.txt").write_text("\n".join([*(lines[it] for it in sorted(lower)), own, ""]))
    shutil.copy(top / "HANDLES", room)
    return src.parent
