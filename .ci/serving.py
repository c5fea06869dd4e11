"""Starts the programs that serve, for the tests of this folder, at ports of this host that nobody has.

A port that nobody had a moment ago may be another's when the program opens it, which then ends with status 3. So a program is started
again at other ports until it has them. That it is up is seen: by its first line, or by the socket that it listens with.
"""
import os
import random
import select
import socket
import subprocess
import tempfile
import time
from contextlib import ExitStack, suppress

from rpc import PATIENCE

TRIES = 20
PORTS = range(20000, 30000)  # below those that the system gives to clients
REFUSED = 3  # the status of a program that can't open its port


class Taken(AssertionError):
    """A program can't have its ports."""


def bound(kind=socket.SOCK_STREAM):
    """A socket that has a port of its own, at which nobody is reached until it listens."""
    for port in random.sample(PORTS, len(PORTS)):
        own = socket.socket(type=kind)
        try:
            own.bind(("", port))
            return own
        except OSError:
            own.close()
    raise Taken("no port is free")


def port_of(own):
    return own.getsockname()[1]


def free_ports(count, kind=socket.SOCK_STREAM):
    """So many ports that nobody has on any address."""
    with ExitStack() as probes:
        return [port_of(probes.enter_context(bound(kind))) for _ in range(count)]


def at_free_ports(serve, count=1, kind=socket.SOCK_STREAM):
    """What `serve` makes of free ports. Where one of them is another's by then it is asked again, with others."""
    for _ in range(TRIES):
        try:
            return serve(*free_ports(count, kind))
        except Taken:
            pass
    raise Taken(f"in {TRIES} tries the program had no port")


def sockets_at(number, port):
    """The descriptors of the process of this number whose sockets listen at this port."""
    found, folder = [], f"/proc/{number}"
    with suppress(OSError):  # of a process that has ended
        with open(f"{folder}/net/tcp") as table:
            rows = [line.split() for line in table][1:]
        listening = {f"socket:[{row[9]}]" for row in rows if row[3] == "0A" and int(row[1].split(":")[1], 16) == port}
        for own in os.listdir(f"{folder}/fd"):
            with suppress(FileNotFoundError):  # of one that is closed meanwhile
                if os.readlink(f"{folder}/fd/{own}") in listening:
                    found.append(int(own))
    return found


class Program:
    """A program that serves, in a `with` block: it is up there, and is killed behind it."""

    count, kind = 1, socket.SOCK_STREAM  # how many ports it opens, and of which kind
    first_line = None  # what it prints once its ports are open, with a pair of braces for each

    def __init__(self, words, source=b"", ports=None, **how):
        """`words` makes the words that start it of its ports; `source` is what it reads; `ports` are those that it has to have."""
        self.words, self.source, self.how = words, source, how
        self.wanted = ports

    def __enter__(self):
        if self.wanted:
            self.come_up(*self.wanted)
        else:
            at_free_ports(self.come_up, self.count, self.kind)
        return self

    def __exit__(self, *_):
        self.process.kill()
        self.process.wait()
        self.process.stdout.close()

    def start(self, *ports):
        with tempfile.TemporaryFile() as file:
            file.write(self.source)
            file.seek(0)
            return subprocess.Popen(self.words(*ports), stdin=file, stdout=subprocess.PIPE, **self.how)

    def come_up(self, *ports):
        self.process, self.ports = self.start(*ports), ports
        try:
            self.expect_up()
        except BaseException:
            self.__exit__()
            raise

    def expect_up(self):
        if self.first_line:
            self.expect_line(self.first_line.format(*self.ports))
        else:
            self.expect_sockets()

    def next_line(self):
        """The next line that it prints, which comes."""
        assert select.select([self.process.stdout], [], [], PATIENCE)[0], "it prints nothing"
        line = self.process.stdout.readline().decode()
        if not line:
            raise self.refusal()
        return line

    def expect_line(self, due):
        """The next line that it prints comes, and is this one."""
        line = self.next_line()
        assert line == due, f"it printed {line!r}"

    def expect_sockets(self):
        """It comes to listen at its ports."""
        until = time.monotonic() + PATIENCE
        while not all(sockets_at(self.process.pid, port) for port in self.ports):
            if self.process.poll() is not None:
                raise self.refusal()
            assert time.monotonic() < until, "its ports aren't open"
            time.sleep(0.02)

    def refusal(self):
        """Why it ended before it was up."""
        status = self.process.wait(PATIENCE)
        if status == REFUSED:
            return Taken(f"another has one of the ports {self.ports}")
        return AssertionError(f"it ended with status {status}")

    def expect_end(self, text, status=0):
        """It comes to end with this status, and what it printed from here on is this."""
        assert self.process.wait(PATIENCE) == status, f"it ended with status {self.process.returncode}"
        printed = self.process.stdout.read().decode()
        assert printed == text, f"it printed {printed!r}"

    def expect_served(self, number, told=""):
        """It comes to end, having told this and how many it has served."""
        self.expect_end(f"{told}served {number}\n")


class Counted(Program):
    """A program whose words are its port and how many links it serves before it ends."""

    def __init__(self, program, number, source=b"", **how):
        super().__init__(lambda port: [program, str(port), str(number)], source, **how)


class Server(Program):
    """The server `vxgate`, which these words start, with this bench and these options."""

    count, first_line = 2, "listening {} {}\n"

    def __init__(self, program, bench, *options, ports=None, **how):
        words = lambda core, abort: [*program, "--core", str(core), "--abort", str(abort), *options]
        super().__init__(words, bench, ports, **how)
