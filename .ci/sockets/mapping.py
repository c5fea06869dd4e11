"""The port mapper in the server's own process."""
import socket
import time
from contextlib import suppress

import rpc
from mapper import call, done
from rpc import ABORT, CORE, HOST, PATIENCE, Peer, record
from sockets.calls import call as core_call
from sockets.calls import reply
from sockets.server import Server

MAPPER_PORT = 111
UNMAPPED = r"vxgate: no port mapper at port 111: the port can't be had, or is lost"


def can_be_had():
    """Whether this process could open the mapper's port, over TCP and over UDP."""
    for kind in (socket.SOCK_STREAM, socket.SOCK_DGRAM):
        with socket.socket(type=kind) as own:
            own.setsockopt(socket.SOL_SOCKET, socket.SO_REUSEADDR, 1)
            try:
                own.bind(("0.0.0.0", MAPPER_PORT))
            except OSError:
                return False
    return True


def over_tcp(message):
    """What the mapper answers to a message over TCP."""
    return rpc.told_to(MAPPER_PORT, record(message), ends=True)


def over_udp(message):
    """And over UDP, as a record."""
    with socket.socket(type=socket.SOCK_DGRAM) as peer:
        peer.settimeout(1)
        peer.connect((HOST, MAPPER_PORT))
        peer.send(message)
        return record(peer.recv(1024))


def once_there(ask, message):
    """What it answers so, once it is there."""
    until = time.monotonic() + PATIENCE
    while time.monotonic() < until:
        with suppress(OSError):
            return ask(message)
        time.sleep(0.05)
    raise AssertionError("nobody answers at port 111")


def expect_mapped(program, port):
    """Both ways tell that a program, version 1 over TCP, is at this port."""
    for ask in (over_tcp, over_udp):
        answer = once_there(ask, call(3, program, 1, 6, 0))
        assert answer == record(done(port)), f"{answer!r} is told"


def ports_are_told():
    """Both programs' ports are told over TCP and UDP. A second server, which finds the port taken, says so, and serves."""
    is_first = can_be_had()
    with Server("--map", keeps_errors=True) as server, Server("--map", keeps_errors=True) as second:
        if is_first:
            expect_mapped(CORE, server.core)
            expect_mapped(ABORT, server.abort)
        else:
            print("port 111 can't be had here: that a port is told isn't tried")
            server.expect_told(UNMAPPED, 2)
        second.expect_told(UNMAPPED, 2)
        with Peer(second.core) as peer:
            peer.ask(core_call(1, 0), reply(1))


CASES = [ports_are_told]
