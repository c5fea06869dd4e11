"""What the server tells on standard error."""
import socket

import rpc
from rpc import ABORT, DEVICE_ABORT, LAST, RECORD_MAX, Peer
from serving import REFUSED
from sockets.calls import call, create, created, reply
from sockets.server import Server


def called(channel, number, peer):
    """What the log calls a connection of this peer."""
    host, port = peer.stream.getsockname()
    return f"{channel} {number} {host}:{port}"


def a_log_of_ends():
    """Junk, a record that is too long, a stream cut within a record, a reset, and an abort connection from another address, each with its
    reason."""
    ends = [
        (rpc.record(rpc.words(1, 0)), "a record is no call, 1 calls"),
        (rpc.words(LAST | RECORD_MAX + 1), "a record is too long, 1 calls"),
        (rpc.words(LAST | 68), "closed by its peer within a record, 1 calls"),
        (b"", "closed by its peer, 1 calls"),
    ]
    with Server("--log", "--workers", "1", bench="", keeps_errors=True) as server:
        log = []

        def logs(line):
            log.append(line)
            server.expect_log(*log)

        for number, (data, end) in enumerate(ends, 1):
            with Peer(server.core) as peer:
                its = called("core", number, peer)
                logs(f"{its} came")
                peer.ask(call(1, 0), reply(1))
                peer.send(data)
                peer.stream.shutdown(socket.SHUT_WR)
                logs(f"{its} ended: {end}")
        peer = Peer(server.core)
        its = called("core", 5, peer)
        logs(f"{its} came")
        peer.ask(call(1, 0), reply(1))
        peer.reset()
        logs(f"{its} ended: receiving failed, 1 calls")
        with Peer(server.abort, address="127.0.0.3") as peer:
            its = called("abort", 1, peer)
            logs(f"{its} came")
            for xid in range(3):
                peer.ask(call(xid, DEVICE_ABORT, 1, program=ABORT), reply(xid, 4))
        logs(f"{its} ended: closed by its peer, 3 calls")


def a_lost_socket_is_told():
    """Where the abort port's socket is lost the server says so and goes on, and where the core port's is it ends with status 3."""
    with Server(keeps_errors=True) as server, Peer(server.core) as peer:
        peer.ask(call(1, 0), reply(1))
        try:
            server.lose_socket(server.abort)
        except (AttributeError, PermissionError):
            print("this machine lends no descriptor of another process: no socket was lost")
            return
        lost = r"Invalid argument \(os error 22\)"
        server.expect_told(f"vxgate: the abort port is lost, and no new abort connection is served: {lost}", 1)
        peer.ask(create(2, b"gpib0,5"), created(2, 1, server))
        server.lose_socket(server.core)
        server.expect_told(f"vxgate: the core port is lost: {lost}", 1)
        server.expect_told("vxgate: .*", 2)
        server.expect_end("", REFUSED)


CASES = [a_log_of_ends, a_lost_socket_is_told]
