#!/usr/bin/env python3
"""Whether definitions, proofs, and the laws that other crates cite stand apart: in specs/, in proofs/, and in proofs/Laws.

    shelf.py    fails where a file of specs/ imports a proof of one of these crates; where a file imports a proof of another of them
                that doesn't stand in proofs/Laws there; and where a file of specs/ has a lemma, which is told by the hyphen in
                its name. Of these a file may have what an impl owes, which the checker takes from specs/ alone: its first line
                says so then.

What is wrong, a line each, or at last how much was looked at, goes to standard error; the status is 1 where something is wrong.
"""
import glob
import os
import re
import sys

from specs import spec

OWED = "-- Proofs that an impl owes"
# a proof as a `use` line names it, and as `using(..)` of a tactic does
IMPORT = re.compile(r"\bRattle\.(\w+)\.proofs\.(\w+)|\b(\w+)::proofs::(\w+)")
COMMENT = re.compile(r"\s*(--|//)")


def sources():
    """The files of specs/, proofs/ and src/ of all crates."""
    found = [glob.glob(f"crates/*/{folder}/**/*.{kind}", recursive=True)
             for folder, kind in (("specs", "antt"), ("proofs", "antt"), ("src", "rt"))]
    return sorted(sum(found, []))


def crate_and_folder(file):
    return file.split("/")[1:3]


def is_ours(crate):
    return os.path.isdir(f"crates/{crate}")


def imports(file):
    """The proofs of these crates that a file imports: of each the line, the crate, and the file in its proofs/, or the folder there."""
    own, _ = crate_and_folder(file)
    with open(file, encoding="utf-8") as source:
        for number, line in enumerate(source, 1):
            for names in () if COMMENT.match(line) else IMPORT.findall(line):
                crate, part = filter(None, names)
                crate = own if crate == "crate" else crate
                if is_ours(crate):
                    yield number, crate, part


def wrong_imports(file, taken):
    own, folder = crate_and_folder(file)
    for number, crate, part in taken:
        if folder == "specs":
            yield f"{file}, line {number}: a definition rests on proofs of {crate}"
        elif crate != own and part != "Laws":
            yield f"{file}, line {number}: proofs/{part} of {crate} isn't among its laws"


def lemmas(file):
    """The lemmas of a file of specs/ that no impl owes."""
    owed = spec(file).lines[0].startswith(OWED)
    return [] if owed else [name for name in spec(file).definitions if "-" in name and "◌" not in name]


def main():
    files, wrong, count = sources(), [], 0
    for file in files:
        taken = list(imports(file))
        count += len(taken)
        wrong += wrong_imports(file, taken)
        if crate_and_folder(file)[1] == "specs":
            wrong += [f"{file}: {name} is a lemma" for name in lemmas(file)]
    for line in wrong:
        print(line, file=sys.stderr)
    print(f"{len(files)} files with {count} imports of proofs, {len(wrong)} wrong", file=sys.stderr)
    return 1 if wrong else 0


if __name__ == "__main__":
    sys.exit(main())
