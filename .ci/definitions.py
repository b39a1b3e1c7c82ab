"""Makes docs/definitions.md: the definitions that public contracts cite, by file."""

import re
import textwrap

HEAD = """# Definitions

The definitions that contracts of public functions cite, by file of `crates/*/specs`. A file begins
with what it defines. [Verification](verification.md#reading-a-definition) explains how to read one,
and where to begin.
"""
DEFINED = re.compile(r"^(?:(?:abbrev|unfoldable) pub|pub (?:record|data)) ([\w']+)", re.M)
PUBLIC = re.compile(r"^ *pub (?:const )?fn .*?^ *\{", re.M | re.S)
WIDTH = 100
CLAUSE = re.compile(r"\b(?:ensures|requires)\b.*", re.S)


def crates(top):
    lines = (top / "crates.txt").read_text().splitlines()
    return [it.split(":")[0].split()[0] for it in lines if ":" in it.partition("#")[0]]


def cited(top):
    """Returns the words of the clauses of all public functions and methods."""
    words = set()
    for file in top.glob("crates/*/src/**/*.rt"):
        if "tests" not in file.with_suffix("").parts:
            for found in PUBLIC.findall(file.read_text()):
                clauses = CLAUSE.search(found)
                words.update(re.findall(r"[A-Za-z_][\w']*", clauses[0]) if clauses else ())
    return words


def page(top):
    words, text = cited(top), HEAD
    for crate in crates(top):
        files = [
            it
            for it in sorted((top / "crates" / crate / "specs").glob("*.antt"))
            if it.name != "Lib.antt"
        ]
        items = []
        for file in files:
            source = file.read_text()
            names = ", ".join(f"`{it}`" for it in DEFINED.findall(source) if it in words)
            if names:
                item = f"- `{file.stem}`: {names}"
                items.append(
                    textwrap.fill(
                        item,
                        WIDTH,
                        subsequent_indent="  ",
                        break_long_words=False,
                        break_on_hyphens=False,
                    )
                )
        if items:
            text += f"\n## {crate}\n\n" + "\n".join(items) + "\n"
    return text
