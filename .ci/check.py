#!/usr/bin/env python3
"""Gives the checker `vxcheck`, the second word, the traces that the player `vxplay`, the first word, prints of the scripts of
`examples/` and of the crates' data, in version 2 or lifted to it, and of a hundred that are drawn here. It must find each of
them legal, and none of them where the error of one reply is another. A script that isn't played to its end is wrong too, but for
those of which it is stored that they are refused. Where memory can't hold a trace the checker must say so. What differs, and at last
'N passed, M failed', goes to standard error; the status is 1 where something differs.

The traces of the crates' data are judged in `vx_measure` too, without a reply of another error; here the two programs hand
them on.

Whole messages are composed from their words, by RFC 5531 and VXI-11.
"""
import glob
import os
import random
import re
import resource
import subprocess
import sys

from rpc import ABORT, CORE, CREATE_LINK, call, record

PATIENCE = 60  # seconds
HEAD = b"vxscript 2"  # the first line of a script of version 2
DRAWN, STEPS = 100, 60
# scripts of crates that must be among them
ROWS = {"calls_aborted", "lock_waits_for_a_turn", "interrupts_of_a_rise", "connection_gone_in_its_turn"}
REFUSED, NO_MEMORY = 3, 5  # statuses of both programs
LARGE, SPACE = 1 << 26, 1 << 25  # a trace's bytes, and an address space that can't hold them
LINK_UNKNOWN = 4  # no call is answered so whose answer is another
# a reply's record begins with its mark, xid, 1, 0, two words of a verifier, and 0 (RFC 5531, section 9); then comes the error
ERROR_AT = slice(56, 64)
ACCEPTED = slice(16, 56)
WELL = b"00000001" + b"00000000" * 4


# ---- drawn scripts


def drawn_call(draw, conn, xid):
    """A call on a core connection, as a record. Links are mostly its own first one, and times mostly short."""
    link, flags = draw.choice([conn] * 8 + [1, 9]), draw.choice([0, 0, 1, 8, 9, 0x80])
    wait, lock_wait = draw.choice([0, 5, 50, 1000]), draw.choice([0, 5, 50])
    device = draw.choice([b"gpib0,5", b"gpib0,5", b"gpib0,6", b"gpib0,7", b"gpib0", b"gpib0,31", b"inst0"])
    data = bytes(draw.randrange(256) for _ in range(draw.choice([0, 1, 3, 12, 300])))
    generic = (link, flags, lock_wait, wait)
    command, size = draw.choice([(0x20000, 1), (0x20001, 2), (0x20002, 2), (0x20003, 2), (0x2000A, 4), (0x20010, 0), (0x20099, 0)])
    value = draw.randrange(9).to_bytes(size, "big") if size else b""
    procedure, arguments = draw.choice([
        (0, ()),
        (CREATE_LINK, (0, draw.randrange(2), lock_wait, device)),
        (11, (link, wait, lock_wait, flags, data)),
        (11, (link, wait, lock_wait, 8, b"*IDN?\n")),
        (12, (link, draw.choice([0, 1, 100]), wait, lock_wait, flags, draw.randrange(256))),
        (draw.randrange(13, 18), generic),
        (18, (link, flags, lock_wait)),
        (19, (link,)),
        (20, (link, draw.randrange(2), data[:40])),
        (22, (link, flags, wait, lock_wait, command, 1, size, value)),
        (23, (link,)),
        (25, (0x7F000001, 9012, 0x0607B1, 1, draw.choice([0, 0, 0, 1]))),
        (26, ()),
        (99, ()),
    ])
    return record(call(xid, CORE, procedure, *arguments))


def drawn_step(draw, number):
    """A step of a script over three core connections and one of the abort channel."""
    conn = draw.randrange(1, 4)
    asked = lambda: drawn_call(draw, conn, number).hex().upper()
    abort = lambda: record(call(number, ABORT, 1, draw.randrange(1, 4))).hex().upper()
    return draw.choice([
        lambda: f"in {conn} {asked()}",
        lambda: f"in {conn} {asked()}",
        lambda: f"in {conn} {asked()}",
        lambda: f"poll {conn}",
        lambda: f"poll {conn}",
        lambda: f"in 4 {abort()}",
        lambda: f"dial {conn} {draw.choice(['ok', 'fail'])}",
        lambda: f"take {conn}",
        lambda: "sample",
        lambda: f"at {number * draw.choice([1, 3])}",
        lambda: f"set 7 {draw.choice(['00', '40', '50'])}",
        lambda: draw.choice([f"fail {draw.randrange(1, 20)}", "down 3", "pull 6", "set 5 40"]),
    ])()


def drawn_script(player, seed):
    """A script of drawn steps, without those that are refused behind the others."""
    draw = random.Random(seed)
    lines = ["plug 5 echo", "plug 6 slow", "plug 7 asker"] + [f"up {conn} core" for conn in (1, 2, 3)] + ["up 4 abort"]
    for conn in (1, 2, 3):
        device = draw.choice([b"gpib0,5", b"gpib0,6", b"gpib0,7", b"gpib0"])
        lines.append(f"in {conn} {record(call(0, CORE, CREATE_LINK, 0, 0, 0, device)).hex().upper()}")
    lines += [drawn_step(draw, number) for number in range(1, STEPS)]
    while True:
        text = "".join(line + "\n" for line in lines).encode()
        status, told = run(player, ["run"], text)
        refused = re.search(rb"^fault line (\d+) \w+\n\Z", told, re.M)
        if status != 3 or not refused:
            return text
        del lines[int(refused[1]) - 1]


# ---- traces


def run(program, words, given):
    done = subprocess.run([program, *words], input=given, capture_output=True, timeout=PATIENCE)
    return done.returncode, done.stdout


def trace_of(player, text):
    """The status of a script that is played in version 2, or lifted to it, and its trace."""
    if text.split(b"\n", 1)[0] != HEAD:
        status, text = run(player, ["lift"], text)
        if status:
            return status, text
    return run(player, ["run"], text)


def spoiled(line):
    """The line of a reply with another error, or none where it has no error."""
    front, _, reply = line.rpartition(b" ")
    parts = front.split(b" ")
    if len(parts) != 3 or parts[1] != b"out" or reply[ACCEPTED] != WELL or len(reply) < ERROR_AT.stop:
        return None
    error = int(reply[ERROR_AT], 16)
    other = 0 if error == LINK_UNKNOWN else LINK_UNKNOWN
    return front + b" " + reply[: ERROR_AT.start] + b"%08X" % other + reply[ERROR_AT.stop :]


def spoiled_traces(trace):
    """The traces in which one reply's error is another: that of the first, the middle and the last reply."""
    lines = trace.split(b"\n")
    replies = [(place, other) for place, line in enumerate(lines) if (other := spoiled(line))]
    for place, other in {replies[part] for part in (0, len(replies) // 2, -1)} if replies else ():
        yield b"\n".join(lines[:place] + [other] + lines[place + 1 :])


def is_refused(path):
    """Whether what is stored beside a script says that it isn't played to its end."""
    with open(path.removesuffix(".vxs") + ".out", "rb") as stored:
        return stored.read().splitlines()[-1] not in (b"done", b"status 0")


def scripts(player):
    """The name and the text of each script, and whether it may be refused."""
    for path in sorted(glob.glob("examples/*.vxs") + glob.glob("crates/*/data/*.vxs")):
        with open(path, "rb") as script:
            yield path, script.read(), is_refused(path)
    for seed in range(DRAWN):
        yield f"the script drawn from {seed}", drawn_script(player, seed), False


def faults_of(checker, name, trace):
    """What the checker says otherwise than is due, of a trace and of those with another error, and how many these are."""
    found = run(checker, [], trace)
    wrong = [] if found == (0, b"legal\n") else [f"{name}: {found} of its trace"]
    others = list(spoiled_traces(trace))
    for other in others:
        status, line = run(checker, [], other)
        if status != 3 or not line.startswith(b"line "):
            wrong.append(f"{name}: {(status, line)} of its trace with another error")
    return wrong, len(others)


def lacks_memory(checker):
    """What the checker says otherwise than is due, where its memory can't hold the trace."""
    trace = b"vxtrace 2\n" + b"0 srq 0\n" * (LARGE // 8) + b"done\n"
    done = subprocess.run([checker], input=trace, capture_output=True, timeout=PATIENCE,
                          preexec_fn=lambda: resource.setrlimit(resource.RLIMIT_AS, (SPACE, SPACE)))
    found = (done.returncode, done.stdout)
    return [] if found == (NO_MEMORY, b"") else [f"{found} of a trace that memory can't hold"]


def main():
    if len(sys.argv) != 3:
        sys.exit(__doc__)
    player, checker = sys.argv[1:]
    passed = failed = refused = changed = 0
    missing = set(ROWS)
    for name, text, may_be_refused in scripts(player):
        status, trace = trace_of(player, text)
        if status == REFUSED and may_be_refused:
            refused += 1
            continue
        wrong, others = faults_of(checker, name, trace) if status == 0 else ([f"{name}: status {status} of its play"], 0)
        changed += others
        for line in wrong:
            print(line, file=sys.stderr)
        if wrong:
            failed += 1
        else:
            passed += 1
            missing.discard(os.path.basename(name).removesuffix(".vxs"))
    for line in lacks_memory(checker):
        failed += 1
        print(line, file=sys.stderr)
    for row in sorted(missing):
        failed += 1
        print(f"{row}: no such script passed", file=sys.stderr)
    print(f"{refused} scripts refused, {changed} traces with another error; {passed} passed, {failed} failed", file=sys.stderr)
    sys.exit(failed > 0)


if __name__ == "__main__":
    os.chdir(os.path.join(os.path.dirname(os.path.realpath(__file__)), ".."))
    main()
