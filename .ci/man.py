#!/usr/bin/env python3
"""Makes contrib/man/NAME.1, the manual pages of the programs, from what these print and what the other pages say of them.

    man.py PROGRAMS            compares, and fails where a page differs
    man.py --write PROGRAMS    writes them

PROGRAMS is the folder in which vxgate/out/vxgate and so on stand: `crates`, where they were built.

What a program is stands in the first line of its crate. Its words are what it prints for `--help`: `vxgate` tells what it is and its
options, the others refuse the word with their usage line. Statuses and examples are those of README.md, docs/LAB.md and
docs/SCRIPT.md. The rest is written by hand, in contrib/man/NAME.txt: sections, each behind a heading in capitals, of blocks with an
empty line between them. A block is an example where each line has four spaces in front. Else a line with two in front tells of the
word above it, and a block without such a line is a paragraph. `x` stands as it is, *x* for something else.
"""
import itertools
import pathlib
import re
import subprocess
import sys
from typing import NamedTuple

from rpc import PATIENCE

TOP = pathlib.Path(__file__).resolve().parent.parent
README, LAB, SCRIPT = "README.md", "docs/LAB.md", "docs/SCRIPT.md"
SECTIONS = ("DESCRIPTION", "OPTIONS", "EXIT STATUS", "EXAMPLES")


class Source(NamedTuple):
    """What is said of a program on other pages: a section is a page and a heading."""

    page: str  # with a section `Statuses`
    sessions: tuple = ()  # sections whose blocks are examples
    words: tuple = ()  # sections whose first table has words of the program


PROGRAMS = {
    "vxplay": Source(SCRIPT, ((SCRIPT, "A script lifted to version 2"), (SCRIPT, "A run from a number"))),
    "vxcheck": Source(SCRIPT, ((SCRIPT, "The checker"),)),
    "vxgate": Source(LAB, ((README, "A lab session"),)),
    "vxcall": Source(LAB, ((LAB, "The client"),), ((LAB, "The client"),)),
    "vxmap": Source(LAB, ((LAB, "The port mapper"),)),
    "vxbuses": Source(LAB, ((LAB, "Four buses"),)),
    "vxguard": Source(LAB, ((LAB, "The guard"),)),
}


class Unmade(Exception):
    """Why a page can't be made."""


# Roff.

SIGNS = {"\\": r"\e", "-": r"\-", "'": r"\(aq", "`": r"\(ga", "^": r"\(ha", "~": r"\(ti"}


def roff(text):
    """A text, or a front of one, as roff prints it to the letter."""
    spelled = "".join(SIGNS.get(it, it if it.isascii() else rf"\[u{ord(it):04X}]") for it in text)
    return r"\&" + spelled if spelled.startswith(".") else spelled


def bold(text):
    return rf"\fB{roff(text)}\fP"


def italic(text):
    return rf"\fI{roff(text)}\fP"


def marked(text):
    """A text of a page, with its words in bold and in italics, and without its links."""
    text = re.sub(r"\[([^\]]*)\]\([^)]*\)", r"\1", text)
    parts = re.split(r"`([^`]+)`|\*([^*]+)\*", text)
    return "".join(f(it) for f, it in zip(itertools.cycle((roff, bold, italic)), parts) if it)


def sentences(text):
    """A line for each sentence."""
    return "\n".join(marked(it) for it in re.split(r"(?<=[.:]) (?=[A-Z`*])", " ".join(text.split())))


def paragraph(text):
    return ".PP\n" + sentences(text)


def entry(term, text):
    """What is said of a term, which is in roff."""
    return f".TP\n{term}\n{sentences(text if text.endswith('.') else text + '.')}"


def example(lines):
    return "\n".join([".PP", ".RS 4", ".nf", *map(roff, lines), ".fi", ".RE"])


def section(title, blocks):
    return f".SH {title}\n" + "\n".join(blocks).removeprefix(".PP\n")


# What programs print.


def printed(programs, name, word, due):
    """What a program prints for this word, with this status."""
    path = pathlib.Path(programs, name, "out", name).resolve()
    try:
        done = subprocess.run([path, word], stdin=subprocess.DEVNULL, stdout=subprocess.PIPE, timeout=PATIENCE)
    except OSError as why:
        raise Unmade(f"{path} can't be asked for its words: {why.strerror}") from None
    if done.returncode != due:
        raise Unmade(f"{name} {word} ended with status {done.returncode}")
    return done.stdout.decode()


OPTION = re.compile(r" +(?:(-\w), )?(--[\w-]+)(?: <([\w=]+)>)? +(.+?)(?: \[default: (\S+)\])?")


def option(line):
    """The entry of an option of a help."""
    found = OPTION.fullmatch(line)
    if not found:
        raise Unmade(f"no option of a help: {line}")
    short, long, value, text, default = found.groups()
    term = ", ".join(map(bold, filter(None, (short, long)))) + (f" {italic(value)}" if value else "")
    return entry(term, f"{text}. The default is {default}." if default else text)


def about(text):
    """The blocks of what a help says of its program, behind the first line. Lines with spaces in front are examples."""
    for part in re.findall(r"(?:^  .*\n?)+|(?:^\S.*\n?)+", text.partition("\n")[2], re.M):
        yield example(re.findall(r"\S.*", part)) if part.startswith(" ") else paragraph(part)


def told(programs, name):
    """A program's usage, what it tells of itself, and its options."""
    if name != "vxgate":
        return printed(programs, name, "--help", 1).removeprefix("usage: ").strip(), [], []
    text, _, rest = printed(programs, name, "--help", 0).partition("\n\nUsage: ")
    usage, _, options = rest.partition("\n\nOptions:\n")
    return usage, list(about(text)), list(map(option, options.splitlines()))


def synopsis(usage):
    name, *words = usage.split()
    return " ".join([bold(name), *(re.sub(r"\w+", lambda it: italic(it[0]), word) for word in words)])


# What pages say.


def lines_of(page, heading):
    """The lines of a section."""
    text = (TOP / page).read_text(encoding="utf-8")
    _, found, rest = text.partition(f"\n## {heading}\n")
    if not found:
        raise Unmade(f"{page} has no section {heading}")
    return re.split(r"\n## ", rest)[0].split("\n")


def table(page, heading):
    """The rows of the first table of a section, the head first."""
    lines = itertools.dropwhile(lambda line: not line.startswith("|"), lines_of(page, heading))
    rows = [[it.strip() for it in line.strip("|").split("|")] for line in itertools.takewhile(lambda line: line.startswith("|"), lines)]
    return rows[:1] + rows[2:]


def sessions(page, heading):
    """The blocks of a section, with programs called by their names."""
    parts = re.split(r"^```.*$", "\n".join(lines_of(page, heading)), flags=re.M)[1::2]
    return [example(re.sub(r"\bcrates/(\w+)/out/\1", r"\1", it.strip("\n")).split("\n")) for it in parts]


def words_of(page, heading):
    """The entries of words, by what stands of them in a table of what is called and what is printed."""
    return [entry(marked(word), f"{what}. Printed: {line}") for word, what, line in table(page, heading)[1:]]


def meant(row, head, column):
    """What a cell says, where it may name the cell of another program."""
    text = row[column]
    if text == "the same":
        return meant(row, head, column - 1)
    other = re.fullmatch(r"as `(\w+)`", text)
    return meant(row, head, head.index(f"`{other[1]}`")) if other else text


def statuses(page, name):
    head, *rows = table(page, "Statuses")
    column = next(number for number, it in enumerate(head) if it.strip("`").split(" ")[0] == name)
    said = ((row[0], meant(row, head, column)) for row in rows)
    return [entry(bold(number), text) for number, text in said if text]


def purpose(name):
    """What a program is, in the first line of its crate."""
    first = (TOP / f"crates/{name}/src/main.rt").read_text(encoding="utf-8").partition("\n")[0]
    return first.partition("`: ")[2].removesuffix(".").replace("`", "")


# What is written by hand.


def entries(lines):
    """Words, and behind each the lines that tell of it."""
    for line in lines:
        yield "\n" + sentences(line) if line.startswith("  ") else f"\n.TP\n{marked(line)}"


def block(text):
    lines = text.split("\n")
    if all(line.startswith("    ") for line in lines):
        return example([line[4:] for line in lines])
    return "".join(entries(lines)).strip("\n") if any(line.startswith("  ") for line in lines) else paragraph(text)


def written(name):
    """The sections that are written by hand, of each its blocks."""
    found = {title: [] for title in SECTIONS}
    for text in (TOP / f"contrib/man/{name}.txt").read_text(encoding="utf-8").strip("\n").split("\n\n"):
        if text in found:
            blocks = found[text]
        else:
            blocks.append(block(text))
    return found


# The pages.


def made(programs, name, version):
    source, hand = PROGRAMS[name], written(name)
    usage, description, options = told(programs, name)
    parts = {
        "DESCRIPTION": description + hand["DESCRIPTION"],
        "OPTIONS": hand["OPTIONS"] + options + [it for place in source.words for it in words_of(*place)],
        "EXIT STATUS": statuses(source.page, name) + hand["EXIT STATUS"],
        "EXAMPLES": hand["EXAMPLES"] + [it for place in source.sessions for it in sessions(*place)],
    }
    others = ",\n".join(f".BR {it} (1)" for it in PROGRAMS if it != name)
    return "\n".join([
        r'.\" Made by .ci/man.py.',
        f'.TH {name.upper()} 1 "" "{version}"',
        section("NAME", [rf"{name} \- {roff(purpose(name))}"]),
        section("SYNOPSIS", [synopsis(usage)]),
        *(section(title, parts[title]) for title in SECTIONS),
        section("SEE ALSO", [others, paragraph(f"{source.page} of the sources")]),
        "",
    ])


def main(words):
    writes = words[:1] == ["--write"]
    if len(words) != 1 + writes:
        sys.exit("usage: man.py [--write] PROGRAMS")
    wrong, programs = [], words[-1]
    try:
        version = printed(programs, "vxgate", "--version", 0).split()[-1]
        for name in PROGRAMS:
            page, text = TOP / f"contrib/man/{name}.1", made(programs, name, version)
            if writes:
                page.write_text(text, encoding="utf-8")
            elif not page.exists() or page.read_text(encoding="utf-8") != text:
                wrong.append(f"contrib/man/{name}.1 isn't what is said of {name}: python3 .ci/man.py --write {programs} makes it anew")
    except Unmade as why:
        wrong.append(str(why))
    print("\n".join(wrong) if wrong else "the manual pages say what programs and pages say", file=sys.stderr)
    return 1 if wrong else 0


if __name__ == "__main__":
    sys.exit(main(sys.argv[1:]))
