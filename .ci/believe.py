#!/usr/bin/env python3
"""Which files of specs/ a reader has to believe behind the calls that the programs make, and compares them with docs/MODEL.md.

From the clauses of each call it goes along `use` lines, definition by definition. The list in docs/MODEL.md stands between two
marks; each file on it begins with the line `-- To be believed.`, and no other file does.

    believe.py           compares, and fails where the list or a mark differs
    believe.py --write   writes the list and the marks
"""
import collections
import glob
import re
import sys

from specs import MARK, NAME, Names, settled, spec

PAGE = "docs/MODEL.md"
BEGIN, END = "<!-- the reading list begins -->", "<!-- the reading list ends -->"

# The calls that the programs make, in the order of the list, and beside a session's those of the server's other workers.
CALLS = [
    ("crates/vx_play/src/run.rt", ["play_run"]),
    ("crates/vx_session/src/sessions.rt", ["core_session", "abort_session"]),
    ("crates/vx_session/src/links.rt", ["core_link", "abort_link"]),
    ("crates/vx_session/src/pumps.rt", ["pump"]),
    ("crates/vx_session/src/samples.rt", ["sample_turn"]),
    ("crates/vx_check/src/run.rt", ["check_run"]),
    ("crates/vx_loop/src/through.rt", ["through_client"]),
    ("crates/vx_serve/src/server.rt", ["serve_run"]),
    ("crates/vx_relay/src/run.rt", ["relay_run"]),
    ("crates/vx_buses/src/run.rt", ["buses_run"]),
    ("crates/vx_guard/src/run.rt", ["guard_run"]),
    ("crates/vx_client/src/run.rt", ["call_run"]),
    ("crates/vx_portmap/src/run.rt", ["map_run"]),
]

# The record of all that is claimed of a history.
CLAIMS = ("crates/vx_flow/specs/Claims.antt", "Claims")

# Two definitions that a law proves to say the same: the first is read as the second.
READ_AS = {
    ("crates/vx_flow/specs/InterleavedStep.antt", "interleaved_step"): ("crates/vx_flow/specs/Does.antt", "Does"),
}


def clauses(file, calls):
    """The definitions that the clauses of these calls name."""
    with open(file, encoding="utf-8") as source:
        text = source.read()
    names, found = Names(text), set()
    for call in calls:
        begin = re.search(rf"^pub fn {call}\b", text, re.M).start()
        end = re.search(r"^\{$", text[begin:], re.M).start()
        found |= {it for it in map(names.of, NAME.findall(text[begin : begin + end])) if it}
    return found


def reached(starts):
    """All definitions that these rest on, with them."""
    found, left = {}, [it for it in map(settled, starts) if it]
    while left:
        one = left.pop()
        one = READ_AS.get(one, one)
        if one not in found:
            found[one] = {it for it in map(settled, spec(one[0]).uses(one[1])) if it}
            left += found[one]
    return found


def in_order(files, uses):
    """The files, each behind those that it rests on, where no circle is."""
    below = collections.defaultdict(set)
    for one, others in uses.items():
        below[one[0]] |= {READ_AS.get(it, it)[0] for it in others} - {one[0]}
    ordered, seen = [], set()

    def visit(file):
        if file not in seen:
            seen.add(file)
            for it in sorted(below[file]):
                visit(it)
            ordered.append(file)

    for file in sorted(files):
        visit(file)
    return [it for it in ordered if it in files]


def short(file):
    return file.removeprefix("crates/").removesuffix(".antt").replace("/specs/", "/")


def size(found):
    """How many definitions, in how many lines and files."""
    lines = sum(len([it for it in spec(file).definitions[name] if it.strip()]) for file, name in found)
    return f"{len(found)} definitions, {lines:,} lines, in {len({file for file, _ in found})} files"


def listed():
    """The list as Markdown, and the files on it."""
    parts, seen = [], set()
    sections = [("What is claimed of a history", reached([CLAIMS]))]
    sections += [("Behind " + " and ".join(f"`{it}`" for it in calls), reached(clauses(file, calls))) for file, calls in CALLS]
    for title, found in sections:
        files = {file for file, _ in found}
        more = in_order(files - seen, found)
        parts.append(f"**{title}**: {size(found)}" + (":" if more and not seen else "; beside those above:" if more else ", all above."))
        if more:
            parts.append("| File | What it says |\n|---|---|\n" + "\n".join(f"| `{short(it)}` | {spec(it).title} |" for it in more))
        seen |= files
    return "\n\n".join(parts), seen


def marked():
    """The files of specs/ that begin with the mark."""
    return {it for it in glob.glob("crates/*/specs/**/*.antt", recursive=True) if spec(it).lines[0] == MARK}


def write(text, files):
    with open(PAGE, encoding="utf-8") as page:
        front, _, rest = page.read().partition(BEGIN)
    with open(PAGE, "w", encoding="utf-8") as page:
        page.write(f"{front}{BEGIN}\n{text}\n{END}{rest.partition(END)[2]}")
    for file in files ^ marked():
        lines = spec(file).lines
        with open(file, "w", encoding="utf-8") as it:
            it.write("\n".join([MARK, *lines] if file in files else lines[1:]))


def main():
    text, files = listed()
    if sys.argv[1:] == ["--write"]:
        write(text, files)
        return 0
    with open(PAGE, encoding="utf-8") as page:
        told = page.read().partition(BEGIN)[2].partition(END)[0].strip("\n")
    wrong = [f"{PAGE} doesn't say: {it}" for it in text.split("\n") if it and it not in told.split("\n")]
    wrong += [f"{PAGE} says what isn't so: {it}" for it in told.split("\n") if it and it not in text.split("\n")]
    wrong += [f"{short(it)} has to be believed, and its first line doesn't say so" for it in sorted(files - marked())]
    wrong += [f"{short(it)} says that it has to be believed, and no call rests on it" for it in sorted(marked() - files)]
    print("\n".join(wrong) if wrong else f"{len(files)} files have to be believed, and {PAGE} names them", file=sys.stderr)
    return 1 if wrong else 0


if __name__ == "__main__":
    sys.exit(main())
