#!/usr/bin/env python3
"""Measures how long steps of a play take with full tables, scripts of 64 MiB in both versions, a long run from a number, and the
check of a trace of 64 MiB, and prints one table in Markdown.

    tables.py [OPTIONS] NAME=PROGRAM .. [--check NAME=PROGRAM ..]

Each NAME is a column, and PROGRAM a `vxplay`. The steps are taken with 64 core connections and 1,024 links, of which the last is
made in the first row, while 63 calls wait, or 64 in the row of polls. A figure is what a play with the steps takes more than
one without them. All programs of a row are measured in turn, run by run, so that what else the machine does meets all alike.
A program that knows no run from a number, or no version 2, has no figure in those rows. `--check` adds a `vxcheck` to the column;
the trace that it is given is one of the first player.
"""
import argparse
import os
import statistics
import struct
import subprocess
import sys
import tempfile
import time

CONNECTIONS = 64  # the most of the core channel
LINKS_EACH = 16
FREE = CONNECTIONS  # the connection whose steps are measured
CORE = 0x0607AF
CREATE_LINK, WRITE, LOCK, UNLOCK, DESTROY_LINK, CREATE_INTR = 10, 11, 18, 19, 23, 25
WAITLOCK = 1
FOREVER = 2**32 - 1  # milliseconds


def words():
    parser = argparse.ArgumentParser(description=__doc__.split("\n")[0])
    pair = lambda text: tuple(text.split("=", 1)) if "=" in text else parser.error(f"no NAME=PROGRAM: {text}")
    parser.add_argument("players", nargs="+", type=pair, metavar="NAME=PROGRAM")
    parser.add_argument("--check", action="append", default=[], type=pair, metavar="NAME=PROGRAM")
    parser.add_argument("--runs", type=int, default=5, help="of each figure (5)")
    parser.add_argument("--steps", type=int, default=20000, help="of each kind in a play (20000)")
    parser.add_argument("--draws", type=int, default=1000000, help="of the run from a number, 0 for none (1000000)")
    return parser.parse_args()


def call(conn, procedure, arguments):
    """The line of a call that comes as one record (RFC 5531, sections 9 and 11)."""
    message = struct.pack(">10I", 1, 0, 2, CORE, 1, procedure, 0, 0, 0, 0) + arguments
    return f"in {conn} {struct.pack('>I', 1 << 31 | len(message)).hex()}{message.hex()}\n"


def create(conn, address):
    text = f"gpib0,{address}".encode()
    return call(conn, CREATE_LINK, struct.pack(">4I", 0, 0, 0, len(text)) + text.ljust(8, b"\0"))


def lock(conn, link, flags):
    return call(conn, LOCK, struct.pack(">3I", link, flags, FOREVER))


def filled():
    """All connections, all links but one, and a call that waits on each connection but the last: for a dial on the first, whose
    lock of address 5 the others wait for. The links of the last are to address 6."""
    lines = [f"up {conn} core\n" for conn in range(1, CONNECTIONS + 1)]
    for conn in range(1, CONNECTIONS + 1):
        links = LINKS_EACH - (conn == FREE)
        lines += [create(conn, 6 if conn == FREE else 5)] * links
    lines.append(lock(1, 1, 0))
    lines.append(call(1, CREATE_INTR, struct.pack(">5I", 0x7F000001, 9012, 0x0607B1, 1, 0)))
    lines += [lock(conn, 1 + LINKS_EACH * (conn - 1), WAITLOCK) for conn in range(2, FREE)]
    return lines


TRACED_WRITES = 169  # of 64 KiB each, whose trace has some 64 MiB
LAST = CONNECTIONS * LINKS_EACH  # the number of the last link


def links_made(steps):
    pairs = [create(FREE, 6) + call(FREE, DESTROY_LINK, struct.pack(">I", LAST + step)) for step in range(steps)]
    return filled(), pairs


def locks_taken(steps):
    pair = lock(FREE, LAST, 0) + call(FREE, UNLOCK, struct.pack(">I", LAST))
    return filled() + [create(FREE, 6)], [pair] * steps


def waiting_polled(steps):
    waits = filled() + [create(FREE, 5), lock(FREE, LAST, WAITLOCK)]
    return waits, [f"poll {2 + step % (CONNECTIONS - 1)}\n" for step in range(steps)]


ROWS = {
    "a create_link and its destroy_link": links_made,
    "a device_lock and its device_unlock": locks_taken,
    "a poll of a call that waits": waiting_polled,
}


def play(program, script):
    """The seconds that a play of a script takes."""
    with open(script, "rb") as source, tempfile.TemporaryFile() as told:
        began = time.monotonic()
        status = subprocess.run([program, "run"], stdin=source, stdout=told).returncode
        took = time.monotonic() - began
        told.seek(max(0, told.tell() - 200))
        last = told.read().decode().split("\n")[-2:]
    if status or last != ["done", ""]:
        sys.exit(f"tables: {program}: status {status}, {last}")
    return took


def long_script(writes=500):
    """A script of writes of 64 KiB to one instrument, each with the polls of its slices. With 500 it has nearly 64 MiB, and lifted
    it is no longer than a script may be."""
    data = bytes(range(256)) * 256
    write = call(1, WRITE, struct.pack(">5I", 1, FOREVER, 0, 8, len(data)) + data)
    return ["plug 5 echo\n", "up 1 core\n", create(1, 5)] + [write + "poll 1\n" * 256] * writes


def lifted(program, script, path):
    """Writes what a script is lifted to, and answers its path; none where the program knows no lift."""
    with open(script, "rb") as source, open(path, "wb") as told:
        status = subprocess.run([program, "lift"], stdin=source, stdout=told).returncode
    return None if status else path


def long_trace(program, folder):
    """The path of a trace of some 64 MiB that a player prints; none where the program knows no version 2."""
    script = written(folder, "script", long_script(TRACED_WRITES))
    path = lifted(program, script, os.path.join(folder, "lifted"))
    if path is None:
        return None
    trace = os.path.join(folder, "trace")
    with open(path, "rb") as source, open(trace, "wb") as told:
        subprocess.run([program, "run"], stdin=source, stdout=told, check=True)
    return trace


def step_time(program, scripts, steps):
    """The microseconds of a step."""
    short, long = scripts
    return (play(program, long) - play(program, short)) / steps * 1e6


def most_memory(pid):
    """The most memory that a process has had, in MiB; 0 where it has ended."""
    try:
        with open(f"/proc/{pid}/status") as told:
            return max([int(line.split()[1]) / 1024 for line in told if line.startswith("VmHWM:")], default=0)
    except (FileNotFoundError, ProcessLookupError):
        return 0


def watched(program, words, script=os.devnull):
    """The seconds of a program with these words, to a hundredth, and the most memory that it had, in MiB; none where it knows no
    such words."""
    began, memory = time.monotonic(), 0
    with open(script, "rb") as source:
        player = subprocess.Popen([program, *words], stdin=source, stdout=subprocess.DEVNULL)
    while player.poll() is None:
        memory = max(memory, most_memory(player.pid))
        time.sleep(0.01)
    took = time.monotonic() - began
    if player.returncode == 1:
        return None
    if player.returncode:
        sys.exit(f"tables: {program}: status {player.returncode}")
    return took, memory


def measured(figure, players, runs):
    """For each name its runs, made in turn."""
    found = {name: [] for name in players}
    for _ in range(runs):
        for name, program in players.items():
            found[name].append(figure(program))
    return found


def spread(values, form):
    values = sorted(values)
    return f"{statistics.median(values):{form}} ({values[0]:{form}} to {values[-1]:{form}})"


def row(what, cells):
    print("| " + " | ".join([what] + cells) + " |", flush=True)


def seconds(asked, players, what, figure):
    """Two rows: the seconds of each program, and the most memory that it had."""
    found = measured(figure, players, asked.runs)
    told = lambda runs, part, form: "" if None in runs else spread([run[part] for run in runs], form)
    row(f"{what}, seconds", [told(found[name], 0, ".2f") for name in players])
    row("its memory, MiB", [told(found[name], 1, ".1f") for name in players])


def checked(asked, names, trace):
    """Two rows: the seconds that each checker takes for a trace, and the most memory that it had."""
    checkers = dict(asked.check)
    found = measured(lambda program: watched(program, [], trace), checkers, asked.runs)
    told = lambda name, part, form: spread([run[part] for run in found[name]], form) if name in found else ""
    row(f"the check of a trace of {os.path.getsize(trace) >> 20} MiB, seconds", [told(name, 0, ".2f") for name in names])
    row("its memory, MiB", [told(name, 1, ".1f") for name in names])


def written(folder, name, lines):
    path = os.path.join(folder, name)
    with open(path, "w") as script:
        script.writelines(lines)
    return path


def main():
    asked = words()
    players = dict(asked.players)
    print(f"{asked.runs} runs, {os.cpu_count()} processors: the median, and the best and worst run.\n")
    row("", list(players))
    print("|---|" + "---:|" * len(players), flush=True)
    with tempfile.TemporaryDirectory() as folder:
        for what, made in ROWS.items():
            front, steps = made(asked.steps)
            scripts = written(folder, "short", front), written(folder, "long", front + steps)
            found = measured(lambda program: step_time(program, scripts, asked.steps), players, asked.runs)
            row(f"{what}, microseconds", [spread(found[name], ".2f") for name in players])
        first = written(folder, "first", long_script())
        second = lambda program: lifted(program, first, os.path.join(folder, "second"))
        seconds(asked, players, "a script of 64 MiB", lambda program: watched(program, ["run"], first))
        seconds(asked, players, "the same in version 2", lambda program: (path := second(program)) and watched(program, ["run"], path))
        seconds(asked, players, "its lift", lambda program: watched(program, ["lift"], first))
    if asked.draws:
        gen = ["gen", "7", str(asked.draws)]
        seconds(asked, players, f"a run of {asked.draws:,} draws", lambda program: watched(program, gen))
    if asked.check:
        with tempfile.TemporaryDirectory() as folder:
            trace = long_trace(next(iter(players.values())), folder)
            checked(asked, list(players), trace)


if __name__ == "__main__":
    main()
