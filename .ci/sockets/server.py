"""The server and its process, as the tests of this folder start, watch and limit it."""
import ctypes
import os
import re
import resource
import socket
import subprocess
import sys
import tempfile
import time
from contextlib import ExitStack

import serving
from rpc import ABORT, CORE, HOST, PATIENCE, Peer
from serving import sockets_at
from sockets.calls import call, reply

BENCH = """\
plug 5 echo
plug 7 echo
plug 9 asker
plug 11 meter
inst 15 {"rules":[{"in":"*IDN?","out":"ACME,TABLE,1,1.0\\n"}]}
"""

# a line of the log: its moment, its connection with the peer of that, and what is told
LOGGED = re.compile(r"(0|[1-9][0-9]*) ((?:core|abort) [1-9][0-9]* [0-9.]+:[0-9]+) ((?:came|denied|ended|refused)\b.*)")

PIDFD_GETFD = 438  # the system call

programs = {}  # the words that start the server and the client
started = []  # the processes that this test started


def start(words, **how):
    process = subprocess.Popen(words, **how)
    started.append(process)
    return process


def end_all():
    for process in started:
        if process.poll() is None:
            process.kill()
            process.wait()


class Server(serving.Server):
    """A server on two free ports, which lives in a `with` block."""

    def __init__(self, *options, bench=BENCH, ports=None, env=None, keeps_errors=False):
        super().__init__(programs["server"], bench.encode(), *options, ports=ports, env=env)
        self.keeps_errors, self.errors = keeps_errors, None

    def start(self, core, abort):
        self.core, self.abort, self.began = core, abort, now()
        if self.keeps_errors:
            self.errors = self.how["stderr"] = tempfile.TemporaryFile()
        process = super().start(core, abort)
        started.append(process)
        return process

    def __exit__(self, *_):
        super().__exit__()
        if self.errors:
            self.errors.close()

    def told(self):
        """The lines that it has on standard error by now, and a last piece."""
        return os.pread(self.errors.fileno(), 1 << 20, 0).decode().split("\n")

    def expect_log(self, *due):
        """It comes to have these lines on standard error, each behind its moment, and no others. The moments are those of this host's
        clock, and of one connection none is before an earlier one."""
        until = time.monotonic() + PATIENCE
        while len(self.told()) <= len(due) and time.monotonic() < until:
            time.sleep(0.02)
        *told, rest = self.told()
        lines = [LOGGED.fullmatch(line) for line in told]
        assert all(lines) and not rest, f"{told} and {rest!r} was told"
        assert [f"{line[2]} {line[3]}" for line in lines] == [*due], f"{told} was told, due is {due}"
        last = {}
        for line in lines:
            moment = int(line[1])
            assert last.get(line[2], self.began) <= moment <= now(), f"{line[0]!r} isn't of its moment"
            last[line[2]] = moment

    def expect_told(self, pattern, due):
        """It comes to have so many lines of this kind on standard error."""
        until, found = time.monotonic() + PATIENCE, None
        while found != due and time.monotonic() < until:
            time.sleep(0.05)
            lines = self.told()
            found = sum(bool(re.fullmatch(pattern, line)) for line in lines)
        assert found == due, f"{found} lines are {pattern!r}, {due} are due, of {lines[-5:]}"

    def descriptors(self):
        return len(os.listdir(f"/proc/{self.process.pid}/fd"))

    def expect_descriptors(self, *due):
        """It comes to have so many open, or one of these numbers."""
        until = time.monotonic() + PATIENCE
        while (found := self.descriptors()) not in due and time.monotonic() < until:
            time.sleep(0.05)
        assert found in due, f"{found} descriptors are open, {' or '.join(map(str, due))} are due"

    def lose_socket(self, port):
        """Its socket that listens at this port takes no connection any more, as if the system had lost it."""
        theirs = sockets_at(self.process.pid, port)
        assert len(theirs) == 1, f"{len(theirs)} sockets of the server listen at {port}"
        whose = os.pidfd_open(self.process.pid)
        own = ctypes.CDLL(None, use_errno=True).syscall(PIDFD_GETFD, whose, theirs[0], 0)
        os.close(whose)
        if own < 0:
            raise PermissionError("no descriptor of another process is to be had")
        with socket.socket(fileno=own) as listener:
            listener.shutdown(socket.SHUT_RDWR)

    def limit_descriptors(self, most):
        """From here on it gets no descriptor beyond so many."""
        resource.prlimit(self.process.pid, resource.RLIMIT_NOFILE, (most, most))

    def expect_workers(self, number):
        """It serves so many connections of each port at once."""
        for port, program in ((self.core, CORE), (self.abort, ABORT)):
            with ExitStack() as peers:
                for _ in range(number):
                    peers.enter_context(Peer(port)).ask(call(1, 0, program=program), reply(1))


def now():
    """The moment of this host's clock, in milliseconds."""
    return time.monotonic_ns() // 1_000_000


def logged(channel, number, news):
    """The lines of the log that tell this of a connection from this host, as a pattern."""
    return rf"[0-9]+ {channel} {number} {re.escape(HOST)}:[0-9]+ {news}"


def limit_memory(process, is_held):
    """From here on the process gets no memory beyond what it has, or all that this host lets it have."""
    _, most = resource.prlimit(process.pid, resource.RLIMIT_DATA)
    limit = most
    if is_held:
        with open(f"/proc/{process.pid}/status") as file:
            limit = 1024 * next(int(line.split()[1]) for line in file if line.startswith("VmData:"))
    resource.prlimit(process.pid, resource.RLIMIT_DATA, (limit, most))


def memory_is_refused():
    """Whether this host refuses memory to a process that has all that it may have."""
    words = [sys.executable, "-c", "print(flush=True); input(); bytearray(1 << 24)"]
    child = start(words, stdin=subprocess.PIPE, stdout=subprocess.PIPE, stderr=subprocess.DEVNULL)
    child.stdout.readline()
    try:
        limit_memory(child, True)
    except PermissionError:
        return False
    child.communicate(b"\n", timeout=PATIENCE)
    return child.returncode != 0
