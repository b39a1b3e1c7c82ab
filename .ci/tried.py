"""What a run of the gate has shown: records of crates, with digests that ignore comments and
layout.

TRIED records that the prover refused each must-fail edit of a crate, PROVED that a crate of tests
was proved and passed.
"""

import functools
import hashlib
import re

PARTS = ("src", "specs", "proofs", "must-fail")
DIGEST = re.compile(r"^digest: ([0-9a-f]{64})$", re.M)
TOKEN = re.compile(r'"(?:\\.|[^"\\])*"|[\w\']+|[^\w\s]')
COMMENT = {".rt": "//", ".antt": "--"}
OPEN, CLOSED = "([{", ")]}"
WORD = re.compile(r"[\w']+")
# The lemmas of a crate below that a proof imports, and any other mention of a file of its proofs.
CITED = re.compile(r"\bRattle\.(\w+)\.proofs\.([\w.]+?)(?:\.\{([^}]*)\}|(?![\w.]))")
LOGIC = re.compile(r"\blogic \S+")
TEST = re.compile(r"^\s*#\[test\]\s*\n(?:\s*#\[.*\]\s*\n)*\s*fn (\w+)", re.M)
# The lines that name the tests of a crate.
TESTS = re.compile(r"^[ \t]*#\[cfg\(test\)\]\n[ \t]*mod tests;\n", re.M)
# A line that begins a clause, and one that the crates above can see.
CLAUSE = re.compile(r"\s*(?:requires|ensures|ghost (?!use)\w+ =)")
SEEN = re.compile(CLAUSE.pattern + r"|\s*(?:pub (?!use|mod)|fn|impl|trait|type|#\[)")
HIDDEN = re.compile(r"\s*(?:pub\(|(?:const |unsafe )*(?:fn|struct|enum|trait) )")
# The first line of an item of a source, of an impl and of a definition, with the name that it has.
SOURCE_ITEM = re.compile(
    r"\s*(?:pub(?:\([^)]*\))? )?(?:const |unsafe )*(?:fn|struct|enum|trait|type|const|static) (\w+)"
)
IMPL = re.compile(r"\s*impl\b.*?(\w\w+)(?:<[^{]*>)?\s*\{?$")
DEFINITION = re.compile(
    r"(?:(?:abbrev|pub|record|data|let|open|infix\w*|syntax|instance) +)*([\w'-]+)"
)


def libraries(top):
    """Returns each crate of crates.txt with the libraries of its line."""
    direct = {}
    for line in (top / "crates.txt").read_text().splitlines():
        name, colon, names = line.partition("#")[0].partition(":")
        if colon:
            direct[name.split()[0]] = names.split()
    return direct


def dependences(top):
    """Returns each crate of crates.txt with all the crates below it."""
    direct = libraries(top)

    def below(name):
        own = [it for it in direct[name] if it in direct]
        return {*own, *(deeper for it in own for deeper in below(it))}

    return {name: sorted(below(name)) for name in direct}


def all_files_in(top, crate, part):
    return sorted(it for it in (top / "crates" / crate / part).rglob("*") if it.is_file())


def files_in(top, crate, part):
    """Returns the files of a part of a crate that its edits depend on: no tests, no list of
    modules, not the record."""
    apart = ("tried.md", "Lib.antt")
    files = (it for it in all_files_in(top, crate, part) if it.name not in apart)
    tested = ("src", "proofs")
    return [
        it
        for it in files
        if part not in tested or "tests" not in it.relative_to(top).with_suffix("").parts
    ]


def edits_of(top, crate):
    return {it.name for it in files_in(top, crate, "must-fail") if it.suffix == ".edit"}


def tests_of(top, crate):
    return [
        name
        for file in all_files_in(top, crate, "src")
        if file.suffix == ".rt"
        for name in TEST.findall(file.read_text())
    ]


def is_of_tests(top, crate):
    """Returns whether a crate has tests and nothing that others use or that a contract states."""
    lib = top / "crates" / crate / "src" / "lib.rt"
    if (
        not lib.is_file()
        or edits_of(top, crate)
        or any(crate in names for names in libraries(top).values())
    ):
        return False
    return tokens_of(code_of(lib)) == tokens_of(["#![tactic(auto)]"]) and bool(
        TESTS.search(lib.read_text())
    )


def test_crates(top):
    """Returns the crates that have nothing but tests."""
    return [it for it in libraries(top) if is_of_tests(top, it)]


def without_comments(text, suffix):
    mark = COMMENT.get(suffix)
    return [it for it in text.splitlines() if mark is None or not it.lstrip().startswith(mark)]


def code_of(file):
    """Returns the lines of a source or a definition that are no comments and name no tests; all
    lines of any other file."""
    return without_comments(TESTS.sub("", file.read_text()), file.suffix)


def tokens_of(lines):
    """Returns the tokens of some lines. A comma before a closing bracket counts as layout."""
    found = TOKEN.findall("\n".join(lines))
    return [
        it
        for it, after in zip(found, [*found[1:], ""])
        if it != "," or after not in CLOSED or not after
    ]


def contract_of(lines):
    """Returns the lines that the crates above can see: public items with their fields, signatures
    and clauses, and those of the traits that types implement."""
    seen, depth, brackets, of_trait, hidden = [], 0, (OPEN, CLOSED), False, False
    for line in lines:
        if depth == 0:
            of_trait = (
                " for " in line if IMPL.match(line) else of_trait and not line.startswith("}")
            )
            if HIDDEN.match(line):
                hidden = not of_trait
            elif not CLAUSE.match(line) and SEEN.match(line):
                hidden = False
            if hidden or not SEEN.match(line):
                continue
            # Bodies of functions and impls and private fields are no part of what is seen.
            has_body = re.search(r"\b(fn|impl|struct)\b", line) and not CLAUSE.match(line)
            brackets = (OPEN[:2], CLOSED[:2]) if has_body else (OPEN, CLOSED)
        seen.append(line)
        depth += sum(map(line.count, brackets[0])) - sum(map(line.count, brackets[1]))
        depth = max(depth, 0)
    return seen


@functools.cache
def tokens_in(file):
    return tokens_of(code_of(file))


@functools.cache
def items_in(file):
    """Returns the definitions of a file, or the contracts of its items: each as the names by which
    others reach it, all of which they have to use, and its tokens."""
    is_source = file.suffix == ".rt"
    items, of_impl, before = [], set(), []
    for line in contract_of(code_of(file)) if is_source else code_of(file):
        if is_source and line.lstrip().startswith("#["):
            before.append(line)
            continue
        start = (SOURCE_ITEM if is_source else DEFINITION).match(line)
        if is_source and (found := IMPL.match(line)):
            of_impl = {found[1]}
            if " for " not in line:
                continue
            items.append((of_impl, []))
        elif start:
            items.append(({start[1]} | (of_impl if line[0] == " " else set()), []))
        elif not items:
            items.append(({"use"}, []))
        items[-1][1].extend([*before, line])
        before = []
    return [(names, tokens_of(lines)) for names, lines in items if "use" not in names]


def words_of(tokens):
    return {word for it in tokens for word in WORD.findall(it)}


def texts_below(top, own, lower):
    """Returns, of these items of crates below, each definition and contract that the texts name,
    directly or through others of these: what is added below changes nothing."""
    words = {word for _, tokens in own for word in words_of(tokens)}
    left, found, is_more = (
        [(it.relative_to(top), *item) for it in lower for item in items_in(it)],
        {},
        True,
    )
    while is_more:
        reached = [it for it in left if it[1] <= words]
        left = [it for it in left if not it[1] <= words]
        for file, _, tokens in reached:
            found.setdefault(file, []).append(tokens)
            words |= words_of(tokens)
        is_more = bool(reached)
    return [(file, sorted(found[file])) for file in sorted(found)]


def contracts_below(top, below):
    return [it for name in below for part in ("specs", "src") for it in files_in(top, name, part)]


def texts_of_edits(top, crate, below):
    """Returns, as file and tokens, everything that decides whether the prover refuses the crate's
    edits."""
    own = [
        (it.relative_to(top), tokens_in(it)) for part in PARTS for it in files_in(top, crate, part)
    ]
    return [*own, *texts_below(top, own, contracts_below(top, below))]


def lemmas_cited(top, file, below):
    """Yields, as file and tokens, the lemmas of crates below that a file imports: the whole file if
    it names none."""
    for crate, path, names in CITED.findall(file.read_text()):
        source = top / "crates" / crate / "proofs" / f"{path.replace('.', '/')}.antt"
        if crate not in below:
            continue
        wanted = {it.strip() for it in names.split(",") if it.strip()}
        items = items_in(source) if source.is_file() else []
        yield from (
            (source.relative_to(top), tokens) for its, tokens in items if not wanted or its & wanted
        )


def texts_of_tests(top, crate, below):
    """Returns, as file and tokens, everything that decides whether a crate of tests is proved: all
    of its own files, the lemmas of crates below that it imports, and what these name."""
    files = [it for part in ("src", "specs", "proofs") for it in all_files_in(top, crate, part)]
    own = [
        (it.relative_to(top), tokens_of(without_comments(it.read_text(), it.suffix)))
        for it in files
    ]
    own += sorted(
        (file, tokens)
        for it in files
        if it.suffix == ".antt"
        for file, tokens in lemmas_cited(top, it, below)
    )
    return [*own, *texts_below(top, own, contracts_below(top, below))]


def logic_of(kit):
    """Returns what the toolchain's version says of its logic: the definitions and rules by which it
    proves, the same in several releases."""
    found = LOGIC.search(kit)
    return found[0] if found else kit


class Record:
    """A file of a crate with the digest of the state in which a run of the gate has shown something
    of it, by a toolchain of which `by` gives what counts."""

    def __init__(self, name, has, texts, by, shown, again):
        self.name, self.has, self.texts, self.by = name, has, texts, by
        self.text = f"{shown} in the state that this digest stands for.\n"
        self.text += (
            f"`.ci/run` writes this file, and {again} again when the digest no longer fits.\n\n"
        )

    def digests(self, top, kit):
        """Returns the present digest of each crate that can have this record."""
        tokens_in.cache_clear()
        items_in.cache_clear()
        return {
            it: self.digest_of(top, it, below, kit)
            for it, below in dependences(top).items()
            if self.has(top, it)
        }

    def digest_of(self, top, crate, below, kit):
        digest = hashlib.sha256(repr((self.by(kit), libraries(top)[crate])).encode())
        for file, tokens in self.texts(top, crate, below):
            digest.update(repr((str(file), tokens)).encode())
        return digest.hexdigest()

    def note(self, top, crate, digest):
        self.file(top, crate).write_text(f"{self.text}digest: {digest}\n")

    def carry(self, top, crate, before, digest):
        """Writes the record that the directory `before` has of a crate, with another digest."""
        self.file(top, crate).write_text(DIGEST.sub(f"digest: {digest}", before.read_text()))

    def file(self, top, crate):
        return top / "crates" / crate / self.name

    def fits(self, top, crate, digest):
        file = self.file(top, crate)
        found = DIGEST.search(file.read_text()) if file.is_file() else None
        return found is not None and found[1] == digest

    def is_earlier(self, top, crate):
        """Returns whether a record was written by an earlier rule, which showed less."""
        return not self.file(top, crate).read_text().startswith(self.text)


TRIED = Record(
    "must-fail/tried.md",
    edits_of,
    texts_of_edits,
    logic_of,
    "Each edit of this directory was tried and refused by a goal of its own",
    "tries the edits",
)
PROVED = Record(
    "proved.md",
    is_of_tests,
    texts_of_tests,
    str,
    "This crate was proved and its tests passed",
    "proves the crate",
)
