"""How the server starts, at which ports, and how it ends."""
from rpc import PATIENCE, Peer
from serving import REFUSED, at_free_ports, bound, free_ports, port_of
from sockets.calls import call, create, created, reply
from sockets.server import BENCH, Server


USAGE = "usage: vxgate OPTIONS\n"


def refused(*options, bench=BENCH, ports=None):
    """What a server prints that doesn't come up, and its status."""
    process = Server(*options, bench=bench).start(*ports or free_ports(2))
    text, _ = process.communicate(timeout=PATIENCE)
    return text.decode(), process.returncode


def refused_starts():
    """Words, benches and ports that it refuses: what it prints, and its status."""
    assert refused("--workers", "65") == (USAGE, 1)
    assert refused("--name", "inst0") == (USAGE, 1)
    assert refused("--name", "inst0=gpib0,5", "--name", "inst0=gpib0,7") == (USAGE, 1)
    assert refused("--name", "i" * 256 + "=gpib0,5") == (USAGE, 1)
    assert refused(bench="at 1\n") == ("fault line 1 form\n", 2)
    assert refused(bench="# a bench\nplug 5 echo\nplug 5 meter\n") == ("fault line 3 taken\n", 2)
    with bound() as taken:
        taken.listen()
        port, other = port_of(taken), *free_ports(1)
        assert refused(ports=(port, other)) == ("", REFUSED)
        assert refused(ports=(other, port)) == ("", REFUSED)


def a_port_serves_again_at_once():
    """A server on the ports of one that has just ended, while their old connections linger."""

    def serve_twice(*ports):
        with Server(ports=ports) as first, Peer(first.core) as peer:
            peer.ask(call(1, 0), reply(1))
            first.process.kill()
            first.process.wait()
            with Server(ports=ports) as second, Peer(second.core) as peer:
                peer.ask(call(1, 0), reply(1))

    at_free_ports(serve_twice, 2)


def a_limit_ends_it():
    with Server("--limit", "3") as server:
        for number in range(3):
            with Peer(server.core) as peer:
                peer.ask(create(1, b"gpib0,5"), created(1, number + 1, server))
        server.expect_end("served 3\n")


CASES = [refused_starts, a_port_serves_again_at_once, a_limit_ends_it]
