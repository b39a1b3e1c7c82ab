"""The commands of bookie with their operands, options and help, read from the sources that make its
help.

The help of a command on a directory is its row in crates/bk_cli/src/rows, with the operands and
options of crates/bk_cli/src/words.rt. That of `script` and of `load`, and of the program itself, is
in the constants of help.rt and load/call.rt, in the usages of `script_error` and `bad_value`, and
where each option is made. `serve`, `daemon` and `simulate` are programs of their own with a help
text each.
"""

import re
from pathlib import Path
from typing import NamedTuple

TOP = Path(__file__).resolve().parent.parent
SOURCES = TOP / "crates" / "bk_cli" / "src"
LOAD = TOP / "crates" / "bk_shell" / "src" / "load" / "call.rt"
SERVE = TOP / "crates" / "bk_serve" / "src" / "command.rt"
SIMULATE = TOP / "crates" / "bk_simulate" / "src"
DAEMON = TOP / "tools" / "daemon" / "options.rs"
TEXT = r'"((?:[^"\\]|\\[\s\S])*)"'
ESCAPES = {"n": "\n", "\\": "\\", '"': '"', "t": "\t"}
# The lines of the programs of their own in the list of commands.
OWN_HEAD = "Serve a directory to clients, or simulate one:\n"
OWN = {
    "serve": ("serve DIR", "Serve a directory to one client, over standard input and output"),
    "daemon": ("daemon DIR", "Share a server between several clients, over a socket"),
    "simulate": ("simulate", "Simulate a bookie for days, to choose thresholds and limits"),
}


class Option(NamedTuple):
    """An option with two dashes, or an operand: its name, that of its value or None, its help, its
    values if these are a choice, and whether it is an operand that is required."""

    name: str
    value: str
    told: str
    choice: tuple = ()
    is_required: bool = False

    def called(self):
        return f"--{self.name}" + (f" {self.value}" if self.value else "")


class Command(NamedTuple):
    """A command: its summary, how it is called, its options, its help, and whether a word of it is
    a directory."""

    name: str
    summary: str
    usage: str
    options: list
    told: str
    has_directory: bool


def read(path):
    return (SOURCES / path).read_text()


def spoken(literal):
    """The text of a string literal: a backslash at a line's end joins the next line, without what
    it is moved in by."""
    joined = re.sub(r"\\\n\s*", "", literal)
    return re.sub(r"\\(.)", lambda found: ESCAPES[found[1]], joined)


def constants(path):
    """The texts of a file's constants, by their names."""
    found = re.findall(rf"const (\w+): &str =\s*{TEXT};", read(path))
    return {name: spoken(text) for name, text in found}


def words():
    """The operands and options of the rows, by the names of their constants."""
    found = {}
    body = r"^pub const (\w+): Word = Word \{(.*?)^\};"
    for constant, text in re.findall(body, read("words.rt"), re.M | re.S):
        names = re.findall(rf"\bname: {TEXT}", text)
        told = spoken(re.search(rf"help: {TEXT}", text)[1])
        among = re.search(r"among: &\[(.*?)\]", text, re.S)
        choice = tuple(re.findall(TEXT, among[1])) if among else ()
        value = names[1] if len(names) > 1 else None
        found[constant] = Option(names[0], value, told, choice, "..OPERAND" in text)
    return found


def rows(path):
    """The rows of a file: the name, the operands, the options, the summary and the help of each."""
    known, found = words(), []
    for body in re.findall(r"^    CommandRow \{(.*?)^    \},", read(path), re.M | re.S):
        lists = {}
        for field in ("operands", "options"):
            names = re.search(rf"{field}: &\[(.*?)\]", body, re.S)[1]
            lists[field] = [known[it] for it in re.findall(r"\w+", names)]
        fields = ("name", "summary", "help")
        texts = {it: spoken(re.search(rf"{it}: {TEXT}", body)[1]) for it in fields}
        found.append(lists | texts)
    return found


def operands(row, required="{}", optional="[{}]"):
    shown = [(required if it.is_required else optional).format(it.name) for it in row["operands"]]
    return " ".join([required.format("DIR"), *shown])


def listed(called, summary):
    """A command's line in the list of commands."""
    return f"  {called:<36}  {summary}\n"


def of_row(row):
    usage = f"{row['name']} [OPTIONS] {operands(row, '<{}>')}"
    return Command(row["name"], row["summary"], usage, row["options"], row["help"], True)


def function(source, name):
    """The text of a function, to the end of its body."""
    return re.search(rf"^(?:pub\S* )?fn {name}\b.*?^}}$", source, re.M | re.S)[0]


def made_options(text):
    """The options that are made in a piece of code."""
    found = []
    for piece in text.split("Arg::new(alloc, ")[1:]:
        name = re.search(rf"\.long\({TEXT}\)", piece)
        value = re.search(rf"\.value_name\({TEXT}\)", piece)
        told = re.search(rf"\.help\(\s*{TEXT},?\s*\)", piece)
        if name:
            found.append(Option(name[1], value and value[1], spoken(told[1])))
    return found


def number_options(source, value):
    """The options of a file whose values are numbers, by the names of their constants."""
    body = rf"(\w+): NumberOption = NumberOption \{{\s*name: {TEXT},.*?help: {TEXT},"
    found = re.findall(body, source, re.S)
    return {constant: Option(name, value, spoken(told)) for constant, name, told in found}


def of_store():
    """`script` and `load`."""
    texts, load = constants("help.rt") | constants(LOAD), LOAD.read_text()
    numbers = re.findall(
        rf"NumberOption \{{\s*name: {TEXT},.*?help: {TEXT},", read("script.rt"), re.S
    )
    options = {
        "script": [Option(name, "NUMBER", spoken(told)) for name, told in numbers]
        + made_options(read("folder_option.rt")),
        "load": made_options(function(load, "load_command")),
    }
    usages = {
        "script": re.search(r'override_usage\(\s*"bookie (script[^"]*)"', read("script.rt"))[1],
        "load": re.search(r'override_usage\(\s*"bookie (load[^"]*)"', load)[1],
    }
    for name, usage in usages.items():
        about, told = texts[f"ABOUT_{name.upper()}"], texts[f"{name.upper()}_HELP"]
        yield Command(name, about, usage, options[name], told, False)


def without_options(text):
    """A help text without its lines of options, and these options."""
    kept, found = [], []
    for line in text.splitlines():
        begun = re.match(r" +(?:-\w, )?--([a-z-]+)(?: (\S+(?: \S+)*?))?  +(\S.*)$", line)
        if begun:
            found.append(Option(*begun.groups()))
        elif found and re.match(r" {12,}\S", line):
            found[-1] = found[-1]._replace(told=f"{found[-1].told} {line.strip()}")
        elif line != "Options:":
            kept.append(line)
    told = re.sub(r"\n{3,}", "\n\n", "\n".join(kept)).strip("\n") + "\n"
    return told, [it for it in found if it.name not in ("help", "version")]


def of_text(name, path, usage):
    """A program of its own, of its help text in a source. The line of its usage is replaced."""
    source = path.read_text()
    text = spoken(re.search(rf"const HELP: &str = {TEXT};", source)[1])
    told, options = without_options(text)
    lines = [it for it in told.splitlines() if not it.startswith(("Usage: ", "bookie "))]
    told = re.sub(r"\n{3,}", "\n\n", "\n".join(lines)).strip("\n") + "\n"
    return Command(name, OWN[name][1], usage, options, told, name != "simulate")


def of_simulate():
    source = (SIMULATE / "command.rt").read_text()
    numbers = number_options((SIMULATE / "numbers.rt").read_text(), "N")
    texts = rf"(?:list|text)\(\s*alloc,\s*{TEXT},\s*{TEXT},\s*{TEXT},?\s*\)"
    made, options = (
        rf"(\w+)\.arg\(alloc\)|{texts}|(Arg::new\(alloc, \"[a-z]+\"\).*?\.help\(.*?\))",
        [],
    )
    for name in ("with_load", "with_upkeep", "with_run"):
        for number, *listed, code in re.findall(made, function(source, name), re.S):
            if number:
                options.append(numbers[number])
            else:
                options += (
                    made_options(code)
                    if code
                    else [Option(listed[0], listed[1], spoken(listed[2]))]
                )
    told = spoken(re.search(rf"const HELP: &str = {TEXT};", source)[1])
    return Command("simulate", OWN["simulate"][1], "simulate [OPTIONS]", options, told, False)


def commands():
    """All commands, in the order of the man page."""
    reading = rows("rows/listing.rt") + rows("rows/reading.rt") + rows("rows/counting.rt")
    writing = rows("rows/copying.rt") + rows("rows/writing.rt")
    daemon = re.search(r"^bookie (daemon .*)$", DAEMON.read_text(), re.M)[1]
    own = [
        of_text("serve", SERVE, "serve DIR [OPTIONS]"),
        of_text("daemon", DAEMON, daemon),
        of_simulate(),
    ]
    return [*map(of_row, reading + writing), *of_store(), *own]


def listing():
    """The usage of the program and the list of its commands."""
    texts = constants("help.rt")
    heads = re.findall(r'write_str\("((?:\\n)?[A-Z][^"]*:\\n)"\)', read("help.rt"))
    inspect, write = [spoken(head) for head in heads]
    groups = (("listing", "reading", "counting"), ("copying", "writing"))
    reading, writing = ([row for it in group for row in rows(f"rows/{it}.rt")] for group in groups)
    lines = lambda rows: "".join(
        listed(f"{it['name']} {operands(it)}", it["summary"]) for it in rows
    )
    own = OWN_HEAD + "".join(listed(*it) for it in OWN.values())
    others = texts["OTHERS"].replace("\nGeneral:\n", f"\n{own}\nGeneral:\n")
    return texts["CALLED"] + inspect + lines(reading) + write + lines(writing) + others


def version():
    """The version of the programs, and the logic that their proofs are of."""
    return constants("help.rt")["VERSION"].split("\n")[:2]
