"""Nothing is left of connections that end, however they do."""
from rpc import ABORT, Peer
from sockets.cables import at_a_host
from sockets.calls import call, create, created, reply
from sockets.server import Server


def nothing_is_left_of_ten_thousand():
    """Ten thousand connections one after another, each closed, reset or cut short, of which most take the lock that the one before
    had, and eighty whose host vanishes, eight at a time, of which one has that lock: no descriptor, no lock and no worker is left."""
    with at_a_host() as hosts, Server("--keepalive", "2") as server:
        before, link = server.descriptors(), 0
        for number in range(10000):
            if number % 10 == 9:
                with Peer(server.abort) as peer:
                    peer.ask(call(1, 0, program=ABORT), reply(1))
                    leave(peer, number)
                continue
            if hosts and number % 1000 == 500:
                link += 1
                vanish(hosts, server, link)
            link += 1
            with Peer(server.core) as peer:
                peer.ask(create(1, b"gpib0,5", lock=1, lock_timeout=60000), created(1, link, server))
                leave(peer, number)
        server.expect_descriptors(before)
        server.expect_workers(16)
        server.expect_descriptors(before)


def vanish(hosts, server, link):
    """Four core and four abort connections of a host that goes without a word, of which the first has this link and the lock."""
    with hosts.at(hosts.far):
        gone = [Peer(port, host=hosts.NEAR) for port in 4 * (server.core,) + 4 * (server.abort,)]
    gone[0].ask(create(1, b"gpib0,5", lock=1, lock_timeout=60000), created(1, link, server))
    for peer in gone[1:4]:
        peer.ask(call(1, 0), reply(1))
    for peer in gone[4:]:
        peer.ask(call(1, 0, program=ABORT), reply(1))
    hosts.lose(gone)


def leave(peer, number):
    """Resets the connection, sends half a mark before it is closed, or nothing."""
    if number % 3 == 1:
        peer.reset()
    elif number % 3 == 2:
        peer.send(b"\x80\0")


CASES = [nothing_is_left_of_ten_thousand]
