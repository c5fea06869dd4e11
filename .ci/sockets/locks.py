"""Locks between clients."""
import threading
import time
from concurrent.futures import ThreadPoolExecutor

from rpc import BY_END, DESTROY_LINK, PATIENCE, UNLOCK, WAITLOCK, Peer
from sockets.calls import call, create, created, lock, read, reply, write
from sockets.server import Server


def two_clients_on_two_devices():
    """Each reads back what its own device got; a lock refuses the other, and one that waits gets it at the unlock."""
    with Server() as server, Peer(server.core) as one, Peer(server.core) as two:
        one.ask(create(1, b"gpib0,5"), created(1, 1, server))
        two.ask(create(1, b"gpib0,7"), created(1, 2, server))
        two.ask(create(2, b"gpib0,5"), created(2, 3, server))
        one.ask(write(2, 1, b"alpha"), reply(2, 0, 5))
        two.ask(write(3, 2, b"beta\n"), reply(3, 0, 5))
        one.ask(lock(3, 1), reply(3, 0))
        two.ask(lock(4, 3), reply(4, 11))
        two.ask(write(5, 3, b"gamma"), reply(5, 11, 0))
        two.send(lock(6, 3, WAITLOCK, 60000))
        assert not two.hears(0.3), "a lock was given that another link holds"
        one.ask(read(4, 1), reply(4, 0, BY_END, b"alpha"))
        one.ask(call(5, UNLOCK, 1), reply(5, 0))
        two.expect(reply(6, 0))
        one.ask(write(6, 1, b"delta"), reply(6, 11, 0))
        two.ask(read(7, 2), reply(7, 0, BY_END, b"beta\n"))
        two.ask(call(8, DESTROY_LINK, 3), reply(8, 0))
        one.ask(write(7, 1, b"delta"), reply(7, 0, 5))
        one.ask(read(8, 1), reply(8, 0, BY_END, b"delta"))


def locks_keep_clients_apart():
    """Eight clients at once on one device: who holds the lock reads back the own bytes and nothing of another's."""
    with Server() as server:
        peers = [Peer(server.core) for _ in range(8)]
        for link, peer in enumerate(peers, 1):
            peer.ask(create(1, b"gpib0,5"), created(1, link, server))

        def take_turns(link, peer):
            data = b"client %d" % link
            for xid in range(2, 102, 4):
                peer.ask(lock(xid, link, WAITLOCK, 60000), reply(xid, 0))
                peer.ask(write(xid + 1, link, data), reply(xid + 1, 0, len(data)))
                peer.ask(read(xid + 2, link), reply(xid + 2, 0, BY_END, data))
                peer.ask(call(xid + 3, UNLOCK, link), reply(xid + 3, 0))

        with ThreadPoolExecutor(len(peers)) as pool:
            for turns in [pool.submit(take_turns, link, peer) for link, peer in enumerate(peers, 1)]:
                turns.result()
        for peer in peers:
            peer.stream.close()


def two_that_lock_without_end_take_turns():
    """Two clients that ask for the same lock, let go, and ask again, without a break: the one that asks again comes behind the one
    that waits, so neither gets it much more often than the other."""
    with Server() as server, Peer(server.core) as one, Peer(server.core) as two:
        one.ask(create(1, b"gpib0,5"), created(1, 1, server))
        two.ask(create(1, b"gpib0,5"), created(1, 2, server))
        grants, over = {1: 0, 2: 0}, threading.Event()

        def take_turns(link, peer):
            while not over.is_set():
                xid = 2 * grants[link] + 2
                peer.ask(lock(xid, link, WAITLOCK, 60000), reply(xid, 0))
                peer.ask(call(xid + 1, UNLOCK, link), reply(xid + 1, 0))
                grants[link] += 1

        def are_alike():
            fewer, more = sorted(grants.values())
            return fewer > 20 and 2 * fewer > more

        with ThreadPoolExecutor(2) as pool:
            turns = [pool.submit(take_turns, 1, one), pool.submit(take_turns, 2, two)]
            until, alike = time.monotonic() + PATIENCE, False
            while not alike and time.monotonic() < until:
                time.sleep(2)
                alike = are_alike()
            over.set()
            for turn in turns:
                turn.result()
        assert alike, f"the grants are {grants}"


def a_reset_frees_a_lock():
    """A session looks at its stream when its call is answered: the lock goes once the time of the read has passed."""
    with Server() as server, Peer(server.core) as other:
        peer = Peer(server.core)
        peer.ask(create(1, b"gpib0,5", lock=1), created(1, 1, server))
        peer.send(read(2, 1, io_timeout=1000))
        other.ask(create(1, b"gpib0,5"), created(1, 2, server))
        other.ask(lock(2, 2), reply(2, 11))
        peer.reset()
        other.ask(lock(3, 2, WAITLOCK, 60000), reply(3, 0))
        other.ask(write(4, 2, b"mine"), reply(4, 0, 4))


CASES = [two_clients_on_two_devices, locks_keep_clients_apart, two_that_lock_without_end_take_turns, a_reset_frees_a_lock]
