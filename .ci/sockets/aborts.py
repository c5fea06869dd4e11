"""Aborts, and the places of abort connections."""
import time
from contextlib import ExitStack

from rpc import ABORT, DEVICE_ABORT, PATIENCE, WAITLOCK, Peer
from sockets.calls import call, create, created, lock, read, reply, write
from sockets.server import Server


def a_read_is_aborted():
    """A read of a device that says nothing would take a minute."""
    with Server() as server, Peer(server.core) as peer, Peer(server.abort) as other:
        peer.ask(create(1, b"gpib0,5"), created(1, 1, server))
        peer.send(read(2, 1, io_timeout=60000))
        assert not peer.hears(0.3), "a silent device was read"
        # only a call that has come is aborted, and the two streams aren't in step
        for xid in range(PATIENCE):
            other.ask(call(xid, DEVICE_ABORT, 1, program=ABORT), reply(xid, 0))
            if peer.hears(1):
                break
        peer.expect(reply(2, 23, 0, b""))
        other.ask(call(999, DEVICE_ABORT, 2, program=ABORT), reply(999, 4))
        peer.ask(create(3, b"gpib0,7"), created(3, 2, server))


def an_abort_ends_the_call_of_one_that_is_gone():
    """Whoever knows the number of its link may end the call that keeps the bus and a lock."""
    with Server() as server, Peer(server.core) as other, Peer(server.abort) as aborts:
        peer = Peer(server.core)
        peer.ask(create(1, b"gpib0,5", lock=1), created(1, 1, server))
        peer.send(read(2, 1, io_timeout=0xFFFFFFFF))
        other.ask(create(1, b"gpib0,5"), created(1, 2, server))
        assert not peer.hears(0.3), "a silent device was read"
        peer.reset()
        other.send(lock(2, 2, WAITLOCK, 60000))
        assert not other.hears(0.5), "a lock was given that a pending call keeps"
        # only a call that has come is aborted; behind its end the link is gone
        for xid in range(PATIENCE):
            aborts.send(call(xid, DEVICE_ABORT, 1, program=ABORT))
            aborts.expect(reply(xid, 0), reply(xid, 4))
            if other.hears(1):
                break
        other.expect(reply(2, 0))
        other.ask(write(3, 2, b"mine"), reply(3, 0, 4))


def aborts_beside_idle_peers_are_answered_at_once():
    """63 abort connections that say nothing keep no device_abort waiting, however few workers core connections have."""
    with Server("--workers", "2", "--abort-idle", "0") as server, Peer(server.core) as reader, ExitStack() as peers:
        reader.ask(create(1, b"gpib0,5"), created(1, 1, server))
        reader.send(read(2, 1, io_timeout=0xFFFFFFFF))
        for _ in range(63):
            peers.enter_context(Peer(server.abort)).ask(call(1, 0, program=ABORT), reply(1))
        with Peer(server.abort) as late:
            # only a call that has come is aborted, and the two streams aren't in step
            for xid in range(PATIENCE):
                late.ask(call(xid, DEVICE_ABORT, 1, program=ABORT), reply(xid, 0))
                if reader.hears(1):
                    break
        reader.expect(reply(2, 23, 0, b""))


def idle_abort_connections_make_way():
    """64 abort connections that say nothing hold all workers. None ends while nobody wants its place. Then one of them does, for the
    one that would end a read which keeps the bus."""
    with Server("--abort-idle", "2") as server, Peer(server.core) as reader, ExitStack() as peers:
        reader.ask(create(1, b"gpib0,5"), created(1, 1, server))
        reader.send(read(2, 1, io_timeout=0xFFFFFFFF))
        idle = [peers.enter_context(Peer(server.abort)) for _ in range(64)]
        for peer in idle:
            peer.ask(call(1, 0, program=ABORT), reply(1))
        time.sleep(5)
        assert not any(peer.has_ended() for peer in idle), "an idle abort connection ended without need"
        for gone in (1, 2):
            late = peers.enter_context(Peer(server.abort))
            began = time.monotonic()
            late.ask(call(2, DEVICE_ABORT, 1, program=ABORT), reply(2, 0))
            assert time.monotonic() - began < 30, "a device_abort waited long for a place"
            idle.append(late)
            time.sleep(2.5)
            ended = sum(peer.has_ended() for peer in idle)
            assert ended == gone, f"{ended} places were given up for {gone}"
        reader.expect(reply(2, 23, 0, b""))
        for peer in idle:
            if not peer.has_ended():
                peer.ask(call(3, 0, program=ABORT), reply(3))


def idle_abort_connections_stay_where_workers_are_free():
    """60 abort connections say nothing while others come and go all the time: at many a look some connection is about to be taken by
    a free worker, and none of those has waited."""
    with Server("--abort-idle", "1") as server, ExitStack() as peers:
        idle = [peers.enter_context(Peer(server.abort)) for _ in range(60)]
        for peer in idle:
            peer.ask(call(1, 0, program=ABORT), reply(1))
        until = time.monotonic() + 8
        while time.monotonic() < until:
            with Peer(server.abort) as peer:
                peer.ask(call(1, 0, program=ABORT), reply(1))
        ended = sum(peer.has_ended() for peer in idle)
        assert ended == 0, f"{ended} idle abort connections ended without need"


CASES = [
    a_read_is_aborted,
    an_abort_ends_the_call_of_one_that_is_gone,
    aborts_beside_idle_peers_are_answered_at_once,
    idle_abort_connections_make_way,
    idle_abort_connections_stay_where_workers_are_free,
]
