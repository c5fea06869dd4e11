#!/usr/bin/env python3
"""Measures servers and gates beside each other, and prints one table in Markdown.

    bench.py [OPTIONS] NAME=PROGRAM ..

Each NAME is a column. PROGRAM is a `vxgate`, or a command with `{core}` and `{abort}` for its ports that starts another server,
which has echoes at the addresses 5 to 8, or `:PORT` for such a server that runs on this host already. `--gate NAME=COMMAND` adds
to the column what `vx_measure gate` measures, and `--buses NAME=COMMAND` what `vx_measure buses` does, whose rows have one bus busy,
and two at once by a connection each. All programs of a row are measured in turn, run by run, so that what else the machine does meets
all of them alike. Half of the rows are measured alone, and half beside as many busy threads as the machine has processors.
`--within MINUTES` makes the runs as long as fits into so many.

A query is a device_write of six bytes and the device_read of them, over the loopback; the load is `load.c`, which `cc` compiles.
A writer makes device_writes of 65,536 bytes one after the other, on a device of its own, while one connection makes queries.
`--long` has rows of one connection whose queries are of 65,536 bytes, with 4 and with 31 instruments on the bus; these tell
bytes, and not queries: in MB a second, to and fro.
"""
import argparse
import os
import shlex
import socket
import statistics
import subprocess
import sys
import tempfile
import time

HERE = os.path.dirname(os.path.realpath(__file__))
BENCH = "".join(f"plug {address} echo\n" for address in range(5, 9))
OTHERS = [str(address) for address in (*range(1, 5), *range(9, 30))] + ["30,1", "30,2"]
FULL_BENCH = BENCH + "".join(f'inst {address} {{"rules":[]}}\n' for address in OTHERS)
LONG = 65536  # bytes of a long query
WORKERS = 64  # the most that a vxgate has
BUSY_BUSES = (1, 2)  # at once
PATIENCE = 60  # seconds that a run may take beyond its own
BUSY = "while True: pass"
GATE_COST = 1.6  # a run at a gate, with the turns before it that tell how many it is to take, beside one of a server
MARGIN = 0.65  # of the minutes that are given; programs and connections have to start, and turns beside busy threads differ


def words():
    parser = argparse.ArgumentParser(description=__doc__.split("\n")[0])
    numbers = lambda text: [int(word) for word in text.split(",")]
    pair = lambda text: tuple(text.split("=", 1)) if "=" in text else parser.error(f"no NAME=PROGRAM: {text}")
    parser.add_argument("servers", nargs="*", type=pair, metavar="NAME=PROGRAM")
    parser.add_argument("--gate", action="append", default=[], type=pair, metavar="NAME=COMMAND")
    parser.add_argument("--buses", action="append", default=[], type=pair, metavar="NAME=COMMAND")
    parser.add_argument("--connections", type=numbers, default=[1, 2, 4, 16, 64], help="how many at once (1,2,4,16,64)")
    parser.add_argument("--writers", type=numbers, default=[1, 2], help="how many beside one connection (1,2)")
    parser.add_argument("--long", action="store_true", help="queries of 65,536 bytes, too")
    parser.add_argument("--threads", type=numbers, default=[1, 2, 4, 16], help="how many at a gate (1,2,4,16)")
    parser.add_argument("--runs", type=int, default=5, help="of each figure (5)")
    parser.add_argument("--seconds", type=float, default=2.0, help="a run (2)")
    parser.add_argument("--within", type=float, metavar="MINUTES", help="as many seconds a run as fit, in place of --seconds")
    parser.add_argument("--only", choices=["alone", "busy"], help="leave the other half out")
    asked = parser.parse_args()
    asked.halves = [asked.only] if asked.only else ["alone", "busy"]
    if asked.within:
        asked.seconds = round(fitting(asked), 2)
    return asked


def fitting(asked):
    """The seconds of a run with which all of them take so many minutes."""
    rows = (len(asked.connections) + len(asked.writers)) * len(asked.servers) + GATE_COST * len(asked.threads) * len(asked.gate)
    rows += len(BUSY_BUSES) * len(asked.buses) + (2 * len(asked.servers) if asked.long else 0)
    return MARGIN * 60 * asked.within / (len(asked.halves) * asked.runs * rows) if rows else 0


def run(*command):
    done = subprocess.run(command, stdin=subprocess.DEVNULL, capture_output=True, text=True, timeout=PATIENCE)
    if done.returncode:
        sys.exit(f"bench: {' '.join(command)}: status {done.returncode}\n{done.stderr}")
    return done.stdout


def free_port():
    with socket.socket() as probe:
        probe.bind(("127.0.0.1", 0))
        return probe.getsockname()[1]


def start_server(program, started, bench=BENCH):
    """The port of the server, which is started with these instruments unless it runs already."""
    if program.startswith(":"):
        return int(program[1:])
    core, abort = free_port(), free_port()
    command = [program, "--workers", str(WORKERS), "--core", "{core}", "--abort", "{abort}"]
    if "{core}" in program:
        command = shlex.split(program)
    command = [word.format(core=core, abort=abort) for word in command]
    server = subprocess.Popen(command, stdin=subprocess.PIPE, stdout=subprocess.DEVNULL)
    started.append(server)
    server.stdin.write(bench.encode())
    server.stdin.close()
    until = time.monotonic() + PATIENCE
    while time.monotonic() < until and server.poll() is None:
        with socket.socket() as probe:
            if probe.connect_ex(("127.0.0.1", core)) == 0:
                return core
        time.sleep(0.05)
    sys.exit(f"bench: {program} doesn't listen")


def queries(load, port, connections, seconds, writers=0, buses=0, length=6):
    """Queries a second, and the time of one at the 99th of a hundred, in milliseconds."""
    said = run(load, *map(str, (port, connections, seconds, writers, buses, length)))
    said = dict(word.split("=") for word in said.split())
    return int(said["queries"]) / float(said["seconds"]), float(said["last"]) / 1000


def megabytes(load, port, seconds):
    """What one connection moves by long queries, in MB a second, and the time of one at the 99th of a hundred."""
    rate, time = queries(load, port, 1, seconds, length=LONG)
    return 2 * LONG * rate / 1e6, time


def on_buses(load, command, number, seconds):
    """What connections to so many buses, one to each, ask of a server that serves just these."""
    port = free_port()
    with subprocess.Popen([*shlex.split(command), str(port), str(number)], stdin=subprocess.DEVNULL, stdout=subprocess.PIPE) as server:
        if server.stdout.readline() != b"ready\n":
            sys.exit(f"bench: {command} doesn't listen")
        found = queries(load, port, number, seconds, buses=number)
        if server.wait(PATIENCE):
            sys.exit(f"bench: {command}: status {server.returncode}")
    return found


def timed_turns(command, threads, turns):
    """The seconds that so many turns of each thread take, with the start of the program."""
    began = time.monotonic()
    said = run(*shlex.split(command), str(threads), str(turns))
    if int(said) != threads * turns:
        sys.exit(f"bench: {command} took {said.strip()} turns, and not {threads * turns}")
    return time.monotonic() - began


def turns(command, threads, seconds):
    """Turns a second, of as many turns as take about so long."""
    each = 100
    while (took := timed_turns(command, threads, each)) < seconds / 4:
        each *= 4
    each = max(1, int(each * seconds / took))
    return threads * each / timed_turns(command, threads, each), None


def measured(figure, programs, runs):
    """For each name its runs, made in turn."""
    found = {name: [] for name in programs}
    for _ in range(runs):
        for name, program in programs.items():
            found[name].append(figure(program))
    return found


def cells(found):
    """The rate, as its median with the worst and the best run, and the median of the times."""
    if not found:
        return ["", ""]
    rates = sorted(rate for rate, _ in found)
    times = [time for _, time in found if time is not None]
    rate = f"{statistics.median(rates):,.0f} ({rates[0]:,.0f} to {rates[-1]:,.0f})"
    return [rate, f"{statistics.median(times):.2f} ms" if times else ""]


def row(what, found, names):
    line = [what] + [cell for name in names for cell in cells(found.get(name))]
    print("| " + " | ".join(line) + " |", flush=True)


def counted(number, what):
    return f"{number} {what}" if number == 1 else f"{number} {what}s"


def half(asked, load, names, how):
    """The rows that are measured alone, or those beside busy processors."""
    started = []
    try:
        ports = {name: start_server(program, started) for name, program in asked.servers}
        busy = os.cpu_count() if how == "busy" else 0
        started += [subprocess.Popen([sys.executable, "-c", BUSY]) for _ in range(busy)]
        where = f"beside {busy} busy threads" if busy else "alone"
        for number in asked.connections if ports else []:
            figure = lambda port: queries(load, port, number, asked.seconds)
            row(f"{counted(number, 'connection')}, {where}", measured(figure, ports, asked.runs), names)
        for number in asked.writers if ports else []:
            figure = lambda port: queries(load, port, 1, asked.seconds, number)
            row(f"1 connection beside {counted(number, 'writer')}, {where}", measured(figure, ports, asked.runs), names)
        for bench in (BENCH, FULL_BENCH) if asked.long and ports else []:
            these = {name: start_server(program, started, bench) for name, program in asked.servers}
            figure = lambda port: megabytes(load, port, asked.seconds)
            row(f"MB a second, {bench.count(chr(10))} instruments, {where}", measured(figure, these, asked.runs), names)
        gates = dict(asked.gate)
        for number in asked.threads if gates else []:
            figure = lambda command: turns(command, number, asked.seconds)
            row(f"{counted(number, 'thread')} at the gate, {where}", measured(figure, gates, asked.runs), names)
        buses = dict(asked.buses)
        for number in BUSY_BUSES if buses else []:
            figure = lambda command: on_buses(load, command, number, asked.seconds)
            what = "1 bus busy" if number == 1 else f"{number} buses busy at once"
            row(f"{what}, {where}", measured(figure, buses, asked.runs), names)
    finally:
        for process in started:
            process.kill()
            process.wait()


def main():
    asked = words()
    names = list(dict(asked.servers + asked.gate + asked.buses))
    if not names:
        sys.exit("bench: name a program, as NAME=PROGRAM")
    print(f"{asked.runs} runs of {asked.seconds:g} seconds, {os.cpu_count()} processors: the median, and the worst and best run; queries a second, or turns.\n")
    print("| | " + " | ".join(f"{name} | 99th of a hundred" for name in names) + " |")
    print("|---|" + "---:|---:|" * len(names), flush=True)
    with tempfile.TemporaryDirectory() as folder:
        load = f"{folder}/load"
        run("cc", "-O2", "-pthread", "-o", load, f"{HERE}/load.c")
        for how in asked.halves:
            half(asked, load, names, how)


if __name__ == "__main__":
    main()
