#!/usr/bin/env python3
"""Has clients of others ask the port mapper and the server, where they are installed and port 111 can be had.

    clients.py MAPPER SERVER

`rpcinfo` calls the mapper over TCP and over UDP, lists its table, and has it say where the server is, which it then calls; lxi-tools and
pyvisa-py find the server through it, and ask an instrument who it is. Once that server has `examples/bench.txt`, and once its bus is
behind a server that has it. lxi-tools asks for the device `inst0`, and so does pyvisa-py where none is named: the server has that name
for the instrument. With Debian these are the packages `rpcbind`, `lxi-tools`, `python3-pyvisa` and `python3-pyvisa-py`. A client that isn't installed is passed over
with a word. What goes wrong, and at last 'N passed, M failed, L left out', goes to standard error; the status is 1 where something
went wrong.

`rpcinfo -p`, and `rpcinfo -t` and `-u` with the mapper's own number, aren't tried: they first ask a mapper where the mapper is, and
this one's table has the two programs of the server alone.
"""
import contextlib
import functools
import pathlib
import shutil
import subprocess
import sys

from mapper import MAPPER, Mapper
from rpc import ABORT, CORE, HOST, PATIENCE
from serving import Server, Taken

BENCH = pathlib.Path(__file__).resolve().parent.parent / "examples/bench.txt"
PORT = 111  # the mapper's
PYTHONS = (sys.executable, "/usr/bin/python3")  # that of this test, and the system's
NAMES = ("--name", "inst0=gpib0,5")  # what clients ask for by themselves
IDENTITY = "ACME,TABLE,1,1.0"  # what the instrument at 5 of that bench says of itself


class LeftOut(Exception):
    """A case that can't be tried here."""


class WellKnown(Mapper):
    """A mapper at the port where clients look for one, which tells these ports."""

    def __init__(self, program, word, number, tells):
        super().__init__(program, word, number, tells, (PORT,))

    def __enter__(self):
        try:
            return super().__enter__()
        except Taken:
            raise LeftOut(f"port {PORT} can't be had here")


def with_the_bench(server):
    """The server of the example's bench."""
    return Server([server, *NAMES], BENCH.read_bytes(), stderr=subprocess.DEVNULL)


@contextlib.contextmanager
def behind_a_box(server):
    """A server whose bus is behind that one."""
    with with_the_bench(server) as box:
        upstream = ("--upstream", HOST, str(box.ports[0]), "gpib0")
        with Server([server, *upstream, *NAMES], b"", stderr=subprocess.DEVNULL) as served:
            yield served


def installed(program):
    found = shutil.which(program)
    if found is None:
        raise LeftOut(f"{program} isn't installed")
    return found


def python_with(*modules):
    """A Python that has these modules."""
    for python in PYTHONS:
        words = [python, "-c", f"import {', '.join(modules)}"]
        if shutil.which(python) and subprocess.run(words, capture_output=True, timeout=PATIENCE).returncode == 0:
            return python
    raise LeftOut(f"{' or '.join(modules)} isn't installed")


def said_by(*words):
    """What a client that ends well has on standard output."""
    done = subprocess.run(words, capture_output=True, timeout=PATIENCE)
    assert done.returncode == 0, done.stdout + done.stderr
    return done.stdout.decode()


def rpcinfo_calls_the_mapper(mapper, server):
    """Over TCP and over UDP, each at a port of its own."""
    rpcinfo = installed("rpcinfo")
    for word, transport in (("stream", "tcp"), ("packets", "udp")):
        with Mapper(mapper, word, 1) as mapped:
            port, = mapped.ports
            address = f"{HOST}.{port >> 8}.{port & 255}"
            said = said_by(rpcinfo, "-a", address, "-T", transport, str(MAPPER), "2")
            assert said == f"program {MAPPER} version 2 ready and waiting\n", said
            mapped.expect_served(1)


def rpcinfo_lists_the_table(mapper, server):
    rpcinfo = installed("rpcinfo")
    with WellKnown(mapper, "stream", 1000, (9010, 9011)):
        rows = [line.split()[:3] for line in said_by(rpcinfo, "-s", HOST).splitlines()[1:]]
        assert rows == [[str(program), "1", "tcp"] for program in (CORE, ABORT)], rows


def rpcinfo_finds_the_server(serving, mapper, server):
    """It asks over TCP in the versions 4 and 3, which the mapper hasn't, and then over UDP in version 2."""
    rpcinfo = installed("rpcinfo")
    with serving(server) as served, WellKnown(mapper, "stream", 1000, served.ports), WellKnown(mapper, "packets", 1000, served.ports):
        for program in (CORE, ABORT):
            said = said_by(rpcinfo, "-t", HOST, str(program), "1")
            assert said == f"program {program} version 1 ready and waiting\n", said


def lxi_tools(serving, mapper, server):
    lxi = installed("lxi")
    with serving(server) as served, WellKnown(mapper, "stream", 1, served.ports) as mapped:
        assert said_by(lxi, "scpi", "--address", HOST, "*IDN?").strip() == IDENTITY
        mapped.expect_served(1)


def pyvisa(serving, mapper, server):
    python = python_with("pyvisa", "pyvisa_py")
    asks = f"""
import pyvisa
for name in ("gpib0,5::INSTR", "INSTR"):
    device = pyvisa.ResourceManager("@py").open_resource("TCPIP::{HOST}::" + name, open_timeout=60000)
    device.timeout = 60000
    device.write_termination = device.read_termination = chr(10)
    print(device.query("*IDN?"))
"""
    with serving(server) as served, WellKnown(mapper, "stream", 1000, served.ports):
        assert said_by(python, "-c", asks).split() == [IDENTITY] * 2


def of_each_server(case):
    """The case with either server, by its name."""
    for serving in (with_the_bench, behind_a_box):
        yield f"{case.__name__} ({serving.__name__})", functools.partial(case, serving)


CASES = {case.__name__: case for case in (rpcinfo_calls_the_mapper, rpcinfo_lists_the_table)}
for each in (rpcinfo_finds_the_server, lxi_tools, pyvisa):
    CASES.update(of_each_server(each))


def main(programs):
    if len(programs) != 2:
        sys.exit(__doc__)
    passed = failed = left_out = 0
    for name, case in CASES.items():
        try:
            case(*programs)
            passed += 1
        except LeftOut as why:
            left_out += 1
            print(f"{name} is left out: {why}", file=sys.stderr)
        except (AssertionError, OSError, subprocess.SubprocessError) as wrong:
            failed += 1
            print(f"{name}: {wrong!r}", file=sys.stderr)
    print(f"{passed} passed, {failed} failed, {left_out} left out", file=sys.stderr)
    return 1 if failed else 0


if __name__ == "__main__":
    sys.exit(main(sys.argv[1:]))
