"""As many connections as there are workers, and what is served where descriptors or memory lack."""
import time
from contextlib import ExitStack

import rpc
from rpc import ABORT, CORE, DESTROY_LINK, Peer
from sockets.calls import call, create, created, reply
from sockets.server import Server, limit_memory, logged, memory_is_refused

# so that a thread that is refused memory of its own heap finds none in another
ONE_HEAP = {"MALLOC_ARENA_MAX": "1"}


def sixty_four_at_once():
    """With 64 workers as many connections are served. One more waits, unanswered, until another has ended."""
    with Server("--workers", "64") as server:
        peers = [Peer(server.core) for _ in range(64)]
        for number, peer in enumerate(peers, 1):
            peer.ask(create(1, b"gpib0,5"), created(1, number, server))
        with Peer(server.core) as late:
            late.send(create(1, b"gpib0,7"))
            assert not late.hears(0.5), "more connections are served than there are workers"
            for number, peer in enumerate(peers, 1):
                peer.ask(call(2, DESTROY_LINK, number), reply(2, 0))
            peers.pop().stream.close()
            late.expect(created(1, 65, server))
        for peer in peers:
            peer.stream.close()


def the_sixty_fifth_waits():
    """Whatever the workers of core connections are, 64 abort connections are served. One more waits, where none makes way. The log tells
    that it came, and refuses none."""
    with Server("--workers", "1", "--abort-idle", "0", "--log", keeps_errors=True) as server, ExitStack() as peers:
        early = [peers.enter_context(Peer(server.abort)) for _ in range(64)]
        for peer in early:
            peer.ask(call(1, 0, program=ABORT), reply(1))
        late = peers.enter_context(Peer(server.abort))
        late.send(call(1, 0, program=ABORT))
        server.expect_told(logged("abort", 65, "came"), 1)
        assert not late.hears(3), "more connections are served than there are workers"
        early[0].stream.close()
        late.expect(reply(1))
        server.expect_told(logged("abort", 1, "ended: closed by its peer, 1 calls"), 1)
        server.expect_told(logged("abort", ".*", "refused.*"), 0)


def a_peer_that_stays_holds_no_worker():
    """Of a hundred peers each sends junk, and none closes its connection. Two workers serve one after another, and within seconds
    no descriptor is left of them."""
    with Server("--workers", "2") as server, ExitStack() as peers:
        before, began = server.descriptors(), time.monotonic()
        for _ in range(100):
            peer = peers.enter_context(Peer(server.core))
            peer.ask(call(1, 0), reply(1))
            peer.send(rpc.record(rpc.words(1, 0)))
            peer.expect_end()
        assert time.monotonic() - began < 30, "peers that have their replies hold up others"
        server.expect_descriptors(before)
        server.expect_workers(2)


def without_descriptors_it_waits():
    """A server that has no descriptor left takes no connection, and the next one once there are some again."""
    with Server("--workers", "64") as server:
        before = server.descriptors()
        server.limit_descriptors(before + 8)
        for port, program in ((server.core, CORE), (server.abort, ABORT)):
            with ExitStack() as peers:
                for _ in range(40):
                    peers.enter_context(Peer(port))
                # the wait at the other port may have one for what comes next
                server.expect_descriptors(before + 7, before + 8)
                time.sleep(1)
                assert server.process.poll() is None, "it ended for want of a descriptor"
            with Peer(port) as peer:
                peer.ask(call(1, 0, program=program), reply(1))
        server.expect_descriptors(before)
        server.expect_workers(7)


def a_refused_connection_ends_its_link(role, program):
    """Where there is no memory for its connection a link ends at once, unanswered, as the log tells, and its worker takes the next
    one: with memory again as many connections are served as there are workers."""
    with Server("--workers", "64", "--log", env=ONE_HEAP, keeps_errors=True) as server:
        port = getattr(server, role)
        limit_memory(server.process, True)
        peers = [Peer(port) for _ in range(64)]
        served = [peer for peer in peers if peer.is_answered(program)]
        limit_memory(server.process, False)
        assert len(served) < 64, "no connection wanted memory"
        server.expect_told(logged(role, "[0-9]+", "refused: no memory"), 64 - len(served))
        more = [Peer(port) for _ in range(64 - len(served))]
        assert all(peer.is_answered(program) for peer in more), "a link isn't served where there is memory"
        with Peer(port) as late:
            late.send(call(1, 0, program=program))
            assert not late.hears(0.5), "more connections are served than there are workers"
        for peer in peers + more:
            peer.stream.close()


def refused_connections_end_their_links():
    if not memory_is_refused():
        print("this host refuses no memory: no connection was refused")
        return
    a_refused_connection_ends_its_link("core", CORE)
    a_refused_connection_ends_its_link("abort", ABORT)


CASES = [sixty_four_at_once, the_sixty_fifth_waits, a_peer_that_stays_holds_no_worker, without_descriptors_it_waits]

# those that an address sanitizer doesn't live through, since it ends a process that is refused memory
PLAIN_CASES = [refused_connections_end_their_links]
