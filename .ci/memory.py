#!/usr/bin/env python3
"""Refuses each allocation of six programs, and of one that has a client and a gateway in it, in turn, and says in one table what came
of it.

    memory.py PLAYER SERVER CLIENT MEASURE MAPPER BUSES GUARD

A program runs once for each allocation that it makes, with that one refused: `refuse.c`, which `cc` compiles, is preloaded.

The player plays `examples/session.vxs`, the client asks `*IDN?` of a server, and the server of `examples/bench.txt`, with a log and
a time for idle connections, is asked the same by three clients. The loop asks an instrument of its own, and makes a link or a
client once more of what a refused one handed back, so that it goes on where one of those is refused. The port mapper, by streams
and by packets, the server of four buses and the guard are asked by two peers, one after the other. With an allocation refused each
of these three ends with its status before it has its port, with nothing printed, whichever of the four buses or their gates the
allocation was for; or it serves both peers; or the two latter close one peer's link at once, and serve the other. A refused
allocation of any other program has to end the program with its status for want of memory, with a front of its output written, or to
leave it as it is; at a running server it may end the link of one client, and the others and a next one are served. The script ends
with status 1 where something else came of one.
"""
import os
import pathlib
import socket
import subprocess
import sys
import tempfile

import rpc
import serving
from rpc import HOST, PATIENCE
from serving import Program, Taken

TOP = pathlib.Path(__file__).resolve().parent.parent
NO_MEMORY = 5  # the status of each program for want of memory
NO_THREAD = 4  # that of the server where a thread can't be had, which takes memory too


class Wrong(Exception):
    """What a refused allocation may not lead to."""


def environment(folder, number):
    return {**os.environ, "LD_PRELOAD": f"{folder}/refuse.so", "REFUSE": str(number), "REFUSE_COUNT": f"{folder}/count"}


def asked(folder):
    """How many allocations the last program asked for."""
    return int.from_bytes(pathlib.Path(folder, "count").read_bytes(), sys.byteorder)


def ended(folder, number, words, source=None):
    """The status and the output of a program that ends by itself, with this allocation refused."""
    done = subprocess.run(words, stdin=source or subprocess.DEVNULL, capture_output=True, timeout=PATIENCE, env=environment(folder, number))
    return done.returncode, done.stdout


def is_lacking(status, output, whole):
    """Whether the program ended for want of memory; or it went on, and wrote all."""
    if status == NO_MEMORY and whole.startswith(output):
        return True
    if status == 0 and output == whole:
        return False
    raise Wrong(f"status {status}, output {output[:80]!r}")


def sweep(folder, run):
    """How many allocations there are, and what `run` says of each that is refused, summed."""
    run(0)
    count = asked(folder)
    if count == 0:
        raise Wrong("no allocation is seen")
    counts = {}
    for number in range(1, count + 1):
        try:
            for what in run(number):
                counts[what] = counts.get(what, 0) + 1
        except Wrong as wrong:
            raise Wrong(f"with allocation {number} refused: {wrong}") from None
    return count, counts


def of_player(folder, player):
    whole = (TOP / "examples/session.out").read_bytes()

    def run(number):
        with open(TOP / "examples/session.vxs", "rb") as script:
            status, output = ended(folder, number, [player, "run"], script)
        return ["ended" if is_lacking(status, output, whole) else "went on"]

    return sweep(folder, run)


def of_loop(folder, measure):
    words = [measure, "loop"]
    whole = subprocess.run(words, stdin=subprocess.DEVNULL, capture_output=True, timeout=PATIENCE, check=True).stdout

    def run(number):
        status, output = ended(folder, number, words)
        return ["ended" if is_lacking(status, output, whole) else "went on"]

    count, counts = sweep(folder, run)
    if not counts.get("went on"):
        raise Wrong("nothing that was handed back was used again")
    return count, counts


class Server(serving.Server):
    """A server of the example's bench with an allocation refused; `status` where it didn't come up."""

    def __init__(self, folder, server, number):
        bench, how = (TOP / "examples/bench.txt").read_bytes(), {"stderr": subprocess.DEVNULL, "env": environment(folder, number)}
        super().__init__([server], bench, "--log", "--idle", "600", **how)

    def expect_up(self):
        self.status = None
        if not self.process.stdout.readline().startswith(b"listening"):
            self.status = self.process.wait(PATIENCE)
            if self.status not in (NO_MEMORY, NO_THREAD):
                raise self.refusal()


def query(client, port):
    return [client, HOST, str(port), "gpib0,5", "query", "*IDN?"]


def of_client(folder, client, server):
    with Server(folder, server, 0) as served:
        port, _ = served.ports
        whole = subprocess.run(query(client, port), capture_output=True, timeout=PATIENCE, check=True).stdout

        def run(number):
            status, output = ended(folder, number, query(client, port))
            return ["ended" if is_lacking(status, output, whole) else "went on"]

        return sweep(folder, run)


def of_server(folder, server, client):
    def run(number):
        with Server(folder, server, number) as served:
            if served.status is not None:
                return ["ended"]
            ask = query(client, served.ports[0])
            answers = [subprocess.run(ask, capture_output=True, timeout=PATIENCE).returncode for _ in range(3)]
            refused = len(answers) - answers.count(0)
            if refused and subprocess.run(ask, capture_output=True, timeout=PATIENCE).returncode:
                raise Wrong(f"clients ended with {answers}, and one behind them isn't served")
            if served.process.poll() is not None or refused > 1:
                raise Wrong(f"clients ended with {answers}")
            return ["went on", "client refused"] if refused else ["went on"]

    return sweep(folder, run)


class Few(Program):
    """A program that serves two peers and ends, with an allocation refused; `status` where it ended before it was up."""

    def __init__(self, folder, number, words, source, kind, first_line):
        super().__init__(words, source, stderr=subprocess.DEVNULL, env=environment(folder, number))
        self.kind, self.first_line = kind, first_line

    def expect_up(self):
        self.status = None
        try:
            super().expect_up()
        except Taken:
            raise
        except AssertionError:
            self.status = self.process.poll()
            if self.status != NO_MEMORY:
                raise


def of_few(folder, words, ask, source=b"", kind=socket.SOCK_STREAM, first_line=None):
    """Two peers, one after the other, of a program that `words` starts at a port. `ask` tells whether a peer was served."""

    def run(number):
        with Few(folder, number, words, source, kind, first_line) as served:
            if served.status is not None:
                printed = served.process.stdout.read()
                if printed:
                    raise Wrong(f"it ended for want of memory, and printed {printed[:80]!r}")
                return ["ended"]
            answers = [ask(*served.ports), ask(*served.ports)]
            if True not in answers:
                raise Wrong("neither peer is served")
            served.expect_served(2)
            return ["went on"] if all(answers) else ["went on", "client refused"]

    return sweep(folder, run)


GETPORT = rpc.call(9, 100000, 3, rpc.CORE, 1, 6, 0, version=2)  # RFC 1833, section 3.2
CORE_PORT = rpc.reply(9, 9010)


def maps_stream(port):
    """A stream of one call is answered, and closed."""
    told = rpc.told_to(port, rpc.record(GETPORT), ends=True)
    if told != rpc.record(CORE_PORT):
        raise Wrong(f"the port mapper answers {told[:80]!r}")
    return True


def maps_packet(port):
    """A packet with a call is answered."""
    with socket.socket(type=socket.SOCK_DGRAM) as peer:
        peer.settimeout(PATIENCE)
        peer.connect((HOST, port))
        peer.send(GETPORT)
        told = peer.recv(65536)
    if told != CORE_PORT:
        raise Wrong(f"the port mapper answers {told[:80]!r}")
    return True


def echoes(port):
    """A client's link is made, and the echo gives back what it is sent; or the client is closed before any answer."""
    with rpc.Client(port) as client:
        try:
            error, link = client.create("gpib0,5")
        except (AssertionError, ConnectionError):
            return False
        answers = error, client.write(link, b"A"), client.read(link, 1)
    if answers != (0, (0, 1), (0, b"A")):
        raise Wrong(f"a client is answered {answers}")
    return True


def of_stream(folder, mapper):
    return of_few(folder, lambda port: [mapper, "stream", str(port), "9010", "9011", "2"], maps_stream, first_line="mapping {}\n")


def of_packets(folder, mapper):
    words = lambda port: [mapper, "packets", str(port), "9010", "9011", "2"]
    return of_few(folder, words, maps_packet, kind=socket.SOCK_DGRAM, first_line="mapping {}\n")


def of_buses(folder, buses):
    return of_few(folder, lambda port: [buses, str(port), "2"], echoes)


def of_guard(folder, guard):
    rules = b"deny 10.0.0.0/8 write 5\n" * 20 + b"allow 127.0.0.1/32 * *\n"
    return of_few(folder, lambda port: [guard, str(port), "2"], echoes, source=rules)


def main(words):
    if len(words) != 7:
        sys.exit(__doc__)
    player, server, client, measure, mapper, buses, guard = [os.path.realpath(word) for word in words]
    with tempfile.TemporaryDirectory() as folder:
        subprocess.run(["cc", "-O2", "-shared", "-fPIC", "-o", f"{folder}/refuse.so", TOP / ".ci/refuse.c", "-ldl"], check=True)
        rows = [
            ("`vxplay` plays `examples/session.vxs`", of_player, (player,)),
            ("`vxcall` asks a server", of_client, (client, server)),
            ("`vxgate` serves clients", of_server, (server, client)),
            ("`vx_measure loop`, a client over a gateway in the same program", of_loop, (measure,)),
            ("`vxmap` answers streams", of_stream, (mapper,)),
            ("`vxmap` answers packets", of_packets, (mapper,)),
            ("`vxbuses` serves clients", of_buses, (buses,)),
            ("`vxguard` serves clients", of_guard, (guard,)),
        ]
        print("| | allocations | ended for want of memory | went on | of these, a client was refused and the next served |")
        print("|---|---:|---:|---:|---:|")
        failed = 0
        for name, trial, programs in rows:
            try:
                count, counts = trial(folder, *programs)
            except (Wrong, AssertionError) as wrong:
                failed += 1
                print(f"{name}: {wrong}", file=sys.stderr)
                continue
            cells = [counts.get(what, 0) for what in ("ended", "went on", "client refused")]
            print(f"| {name} | {count} | " + " | ".join(str(cell) for cell in cells) + " |")
    return 1 if failed else 0


if __name__ == "__main__":
    sys.exit(main(sys.argv[1:]))
