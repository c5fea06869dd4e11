#!/usr/bin/env python3
"""Makes docs/PROVED.md, and the list of definitions in docs/MODEL.md, from the comments that stand in the crates.

    pages.py           compares, and fails where a page differs
    pages.py --write   writes them
"""
import glob
import os
import re
import sys

from specs import MARK, spec

MODEL, PROVED = "docs/MODEL.md", "docs/PROVED.md"
BEGIN, END = "<!-- the definitions begin -->", "<!-- the definitions end -->"

PROVED_HEAD = """# What is proved

Each public function with its clauses and what stands above it in the code, a heading a crate. A script makes this page; the words
are those of the crates. A function without a clause is proved to be safe and to end, as every other is; one that takes a `Wait`
owes no end. The crates of tests, `vx_test_low`, `vx_test_core`, `vx_test_play` and `vx_test_server`, offer nothing to other crates
and have no heading here. Neither have `vx_lemmas` and `vx_run`, which have no function: the one has lemmas that proofs of other crates
cite, the other the definitions of a script's run that [MODEL.md](MODEL.md) lists. [CLAIMS.md](CLAIMS.md) says what the programs' own calls promise, and [MODEL.md](MODEL.md) what the clauses mean.
"""

FUNCTION = re.compile(r"^(\s*)(?:pub )?(?:const )?(?:unsafe )?fn (\w+)")
CLAUSE = re.compile(r"^\s*ensures(?:\*)?(?: (\w[\w'\-]*))? ?\{")


def crates():
    """The crates in the order of crates.txt, but those of tests."""
    with open("crates.txt", encoding="utf-8") as lines:
        names = [line.split(":")[0].split()[0] for line in lines if ":" in line and not line.startswith("#")]
    return [it for it in names if not it.startswith("vx_test_")]


def top(crate):
    return next(it for it in (f"crates/{crate}/src/{name}.rt" for name in ("lib", "main")) if os.path.exists(it))


def about(crate):
    """What a crate says of itself."""
    with open(top(crate), encoding="utf-8") as file:
        words = [line[3:].strip() for line in file if line.startswith("//!")]
    return [part.strip() for part in re.split(r"\n\n", "\n".join(words)) if part.strip()]


def cell(words):
    return " ".join(words.split()).replace("|", "\\|")


# The definitions that have to be believed.


def table_of(file):
    """A file's definitions, each with the comment above it."""
    known, rows, plain = spec(file), [], []
    for name in known.definitions:
        words = known.comments.get(name)
        if words:
            rows.append(f"| `{name}` | {cell(words)} |")
        else:
            plain.append(f"`{name}`")
    text = f"### {os.path.basename(file).removesuffix('.antt')}\n\n{known.title}\n"
    if rows:
        text += "\n| Definition | What it is |\n|---|---|\n" + "\n".join(rows) + "\n"
    if plain:
        text += f"\nBeside these: {', '.join(plain)}.\n"
    return text


def definitions():
    parts = []
    for crate in crates():
        files = [it for it in sorted(glob.glob(f"crates/{crate}/specs/*.antt")) if spec(it).lines[0] == MARK]
        if files:
            parts.append(f"## {crate}\n\n" + "\n".join(map(table_of, files)))
    return "\n".join(parts).rstrip("\n")


# The functions.


def handed_out(crate):
    """The names that the top file of a crate hands out, and those that stand in it."""
    with open(top(crate), encoding="utf-8") as file:
        text = file.read()
    names = set(re.findall(r"^pub (?:struct|enum|trait|fn|const fn|type) (\w+)", text, re.M))
    for words in re.findall(r"^pub use [\w:]+::\{([^}]*)\}|^pub use [\w:]+::(\w+);", text, re.M):
        names |= {it.strip().split(" as ")[-1] for it in (words[0] or words[1]).split(",")}
    for inner in re.findall(r"^pub mod (\w+);", text, re.M):
        path = os.path.join(os.path.dirname(top(crate)), inner + ".rt")
        with open(path, encoding="utf-8") as file:
            names |= set(re.findall(r"^pub (?:struct|enum|trait|fn|const fn|type) (\w+)", file.read(), re.M))
    return names


def owner_of(line):
    """The type or trait that a block is of, if the line begins one whose functions are public by it."""
    trait = re.match(r"pub trait (\w+)", line)
    if trait:
        return trait[1], True
    block = re.match(r"impl(?:<.*?>)? (\w+)(?:<.*>)?(?:\s|$)", re.sub(r"^impl<(?:[^<>]|<[^<>]*>)*>", "impl", line))
    return (block[1], False) if block and " for " not in line else None


def functions(crate):
    """Each public function: its name with its type, its clauses, and what is said of it."""
    names = handed_out(crate)
    for file in sorted(glob.glob(f"crates/{crate}/src/**/*.rt", recursive=True)):
        with open(file, encoding="utf-8") as text:
            lines = text.read().split("\n")
        owner, said = None, []
        for number, line in enumerate(lines):
            if line.startswith(("impl", "pub trait", "trait ")):
                owner = owner_of(line)
            elif line == "}":
                owner = None
            found = FUNCTION.match(line)
            if line.lstrip().startswith("///"):
                said.append(line.strip()[3:].strip())
                continue
            if found:
                is_own = not found[1]
                is_public = line.lstrip().startswith("pub fn") or line.lstrip().startswith("pub const fn") or bool(owner and owner[1])
                holder = found[2] if is_own else owner and owner[0]
                if is_public and holder in names:
                    yield (found[2] if is_own else f"{owner[0]}::{found[2]}"), clauses(lines, number), " ".join(said)
            if not line.lstrip().startswith("#["):
                said = []


def clauses(lines, number):
    """The names of a function's clauses, up to its body or its end."""
    found, own = [], len(lines[number]) - len(lines[number].lstrip())
    for line in lines[number + 1 :]:
        depth = len(line) - len(line.lstrip())
        if line.strip() and depth <= own and (line.strip().startswith("{") or not line.strip().startswith((")", ">", "where"))):
            break
        clause = CLAUSE.match(line)
        if clause:
            found.append(f"`{clause[1]}`" if clause[1] else "its result")
    return found


def proved():
    parts = [PROVED_HEAD]
    for crate in crates():
        rows = [f"| `{name}` | {', '.join(said)} | {cell(words)} |" for name, said, words in functions(crate)]
        if rows:
            head = "\n\n".join(" ".join(it.split()) for it in about(crate))
            parts.append(f"## {crate}\n\n{head}\n\n| Function | Clauses | What it does |\n|---|---|---|\n" + "\n".join(rows) + "\n")
    return "\n".join(parts)


def main():
    with open(MODEL, encoding="utf-8") as page:
        front, _, rest = page.read().partition(BEGIN)
    pages = {MODEL: f"{front}{BEGIN}\n{definitions()}\n{END}{rest.partition(END)[2]}", PROVED: proved()}
    wrong = []
    for name, text in pages.items():
        if sys.argv[1:] == ["--write"]:
            with open(name, "w", encoding="utf-8") as page:
                page.write(text)
            continue
        with open(name, encoding="utf-8") as page:
            if page.read() != text:
                wrong.append(f"{name} isn't what the crates say: python3 .ci/pages.py --write makes it anew")
    print("\n".join(wrong) if wrong else "the pages that are made of the crates say what these say", file=sys.stderr)
    return 1 if wrong else 0


if __name__ == "__main__":
    sys.exit(main())
