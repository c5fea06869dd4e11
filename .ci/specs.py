#!/usr/bin/env python3
"""The definitions of the repository, as its specs/ spell them: what stands in each file, and what each name in it is.

It reads names and `use` lines, not the checker's scopes. A definition is told by its head: `abbrev pub NAME`, `pub record NAME`,
`pub data NAME`, or `NAME :`, at the margin or within a module.
"""
import functools
import glob
import os
import re

# The first line of a file of specs/ that has to be believed behind a program's call.
MARK = "-- To be believed."

USE = re.compile(r"\s*(?:ghost )?(?:pub )?use Rattle\.(\w+)\.(specs|proofs)\.([\w.]+?)\.?(?:\{(.*)\}|\s+as\s+(\S+?))?;?\s*$")
HEAD = re.compile(
    r"^(?:(?:(?:abbrev|unfoldable|opaque|pub|record|data|mutual|private)\s+)+|(?: {2}| {4})(?:abbrev pub|pub record|pub data) )([^\s:({]+)"
)
PLAIN = re.compile(r"^([^\s:(){}=,]+) :(?: |$)")
FIELD = re.compile(r"^\s+(?:pub )?([\w'\-◌]+) :")
NAME = re.compile(r"[A-Za-z_ℕ◌][\w'\-◌]*(?:\.[A-Za-z_][\w'\-]*)*")


def named(words):
    """The names of a `use` line's braces, each with what it is called here."""
    for word in filter(None, (it.strip() for it in words.split(","))):
        there, _, here = word.partition(" as ")
        yield (here or there).strip(), there.strip()


@functools.lru_cache(maxsize=None)
def handed_on():
    """The files that the Lib of a crate hands on from another: (crate, file) to the crate that has it."""
    found = {}
    for lib in glob.glob("crates/*/specs/Lib.antt"):
        for line in open(lib, encoding="utf-8"):
            use = re.match(r"\s*pub use Rattle\.(\w+)\.specs\.([\w.]+)", line)
            if use:
                found[lib.split("/")[1], use[2]] = use[1]
    return found


@functools.lru_cache(maxsize=None)
def file_of(crate, path):
    """The file of specs/ that a path of a `use` line names, or None where it is a Rust type's own."""
    parts = path.split(".")
    if parts[0] == "declared":
        return None
    for count in range(len(parts), 0, -1):
        name = f"crates/{crate}/specs/{'/'.join(parts[:count])}.antt"
        if os.path.exists(name):
            return name
    for count in range(len(parts), 0, -1):
        part = ".".join(parts[:count])
        if (crate, part) in handed_on():
            return file_of(handed_on()[crate, part], path)
    return None


class Names:
    """What the `use` lines of a file bring in: names of definitions, and names of whole files."""

    def __init__(self, text):
        self.definitions, self.files = {}, {}
        for line in text.split("\n"):
            use = USE.match(line)
            file = file_of(use[1], use[3]) if use and use[2] == "specs" else None
            if not file:
                continue
            if use[4] is not None:
                self.definitions.update((here, (file, there)) for here, there in named(use[4]))
            else:
                self.files[use[5] or use[3].split(".")[-1]] = file

    def of(self, word):
        """The definition that a word names, if it was brought in."""
        parts = word.split(".")
        if parts[0] in self.definitions:
            return self.definitions[parts[0]]
        if parts[0] in self.files and len(parts) > 1:
            return self.files[parts[0]], parts[1]
        return None


class Spec:
    """A file of specs/: its definitions in order, each with its lines and the comment above it, and the names that it uses."""

    def __init__(self, name):
        self.name = name
        with open(name, encoding="utf-8") as file:
            text = file.read()
        self.lines = text.split("\n")
        self.names = Names(text)
        self.definitions, self.comments, self.cases = {}, {}, {}
        self.title = self.read()

    def read(self):
        title, comment, current, is_data = [], [], None, False
        for number, line in enumerate(self.lines):
            if line == MARK and number == 0:
                continue
            if line.startswith(("use ", "pub use ", "pub mod ", "mod ", "module ")):
                title, comment, current = title or comment, [], None
            elif line.lstrip().startswith("--"):
                comment.append(line.strip()[2:].strip())
            elif not line.strip():
                if current:
                    comment = []
            else:
                head = HEAD.match(line) or PLAIN.match(line)
                if head and not (current and PLAIN.match(line) and head[1] == current):
                    current, is_data = head[1], "data " in line[:12]
                    self.definitions.setdefault(current, [])
                    if comment:
                        self.comments.setdefault(current, " ".join(comment))
                    comment = []
                if current:
                    self.definitions[current].append(line)
                    field = FIELD.match(line)
                    if field and is_data and len(self.definitions[current]) > 1:
                        self.cases.setdefault(field[1], current)
        return " ".join(title or comment)

    def holder(self, name):
        """The definition of this file by this name, or the one whose case has it."""
        return name if name in self.definitions else self.cases.get(name)

    def uses(self, name):
        """The definitions that a definition here names, as (file, name)."""
        found = set()
        for word in NAME.findall("\n".join(line.split(" -- ")[0] for line in self.definitions[name])):
            other = self.names.of(word)
            own = self.holder(word.split(".")[0])
            if other:
                found.add(other)
            elif own and own != name:
                found.add((self.name, own))
        return found


@functools.lru_cache(maxsize=None)
def spec(name):
    return Spec(name)


def settled(definition):
    """The definition itself, where a file only hands it on or names one of its cases; or None."""
    file, name = definition
    for _ in range(9):
        holder = spec(file).holder(name)
        if holder:
            return file, holder
        further = spec(file).names.definitions.get(name)
        if not further:
            return None
        file, name = further
    return None
