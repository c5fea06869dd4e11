"""How long the server waits for a peer that is there: one that reads nothing, one that reads slowly, one that says nothing."""
import threading
import time
from contextlib import ExitStack, suppress

from rpc import DESTROY_LINK, PATIENCE, WAITLOCK, Peer
from sockets.calls import call, create, created, lock, read, reply
from sockets.server import Server


def one_that_never_reads_is_cut_off():
    """A peer that reads none of its replies, and has a lock: the lock is free once a send took nothing for 8 s, and also where
    --keepalive alone bounds that. The system may find room for some more meanwhile, and the 8 s begin anew then."""
    for options in (("--send-timeout", "8"), ("--send-timeout", "0", "--keepalive", "8")):
        with Server(*options) as server, Peer(server.core) as other, Peer(server.core, small=True) as peer:
            other.ask(create(1, b"gpib0,5"), created(1, 1, server))
            peer.ask(create(1, b"gpib0,5", lock=1), created(1, 2, server))
            other.ask(lock(2, 1), reply(2, 11))
            peer.floods()
            other.ask(lock(3, 1), reply(3, 11))
            other.send(lock(4, 1, WAITLOCK, 100000))
            while not other.hears(10):  # the server was slow to take more, and wasn't stopped
                with suppress(ConnectionError):
                    peer.floods()
            other.expect(reply(4, 0))


def a_slow_reader_is_served():
    """A peer that pauses between its replies, but never as long as a send bears, gets all of them."""
    with Server("--send-timeout", "8", "--keepalive", "60") as server, Peer(server.core, small=True) as peer:
        sender = threading.Thread(target=peer.send, args=(call(1, 0) * 9000,))
        sender.start()
        for _ in range(3):
            time.sleep(2)
            for _ in range(3000):
                peer.expect(reply(1))
        sender.join()


def an_idle_connection_ends():
    """One that says nothing for five seconds, and one that stops within a record, are gone with their locks; one whose call takes
    longer, and one that asks again in time, stay."""
    with Server("--idle", "5") as server, ExitStack() as peers:
        reader, idle, stopped, other = [peers.enter_context(Peer(server.core)) for _ in range(4)]
        reader.ask(create(1, b"gpib0,7"), created(1, 1, server))
        reader.send(read(2, 1, io_timeout=30000))
        idle.ask(create(1, b"gpib0,5", lock=1), created(1, 2, server))
        stopped.ask(create(1, b"gpib0,9", lock=1), created(1, 3, server))
        stopped.send(call(2, 0)[:20])
        other.ask(create(1, b"gpib0,5"), created(1, 4, server))
        other.ask(create(2, b"gpib0,9"), created(2, 5, server))
        other.ask(lock(3, 4), reply(3, 11))
        other.ask(lock(4, 5), reply(4, 11))
        until = time.monotonic() + PATIENCE
        while not (idle.has_ended() and stopped.has_ended()) and time.monotonic() < until:
            time.sleep(0.5)
            other.ask(call(5, 0), reply(5))
        other.ask(lock(6, 4, WAITLOCK, 60000), reply(6, 0))
        other.ask(lock(7, 5, WAITLOCK, 60000), reply(7, 0))
        idle.expect_end()
        stopped.expect_end()
        reader.expect(reply(2, 15, 0, b""))
        reader.ask(call(3, DESTROY_LINK, 1), reply(3, 0))


CASES = [one_that_never_reads_is_cut_off, a_slow_reader_is_served, an_idle_connection_ends]
