"""Hosts that go without a word."""
import time
from contextlib import ExitStack

from rpc import DESTROY_LINK, WAITLOCK, Peer
from sockets.cables import at_a_host
from sockets.calls import call, create, created, lock, read, reply
from sockets.server import Server


def a_host_that_is_gone_is_found_out():
    """60 hosts go without a word: one has a lock and says nothing, one has a lock and a call whose reply doesn't come to it. Their
    locks, descriptors and workers are free soon. One that is there and says nothing stays."""
    with at_a_host() as hosts, ExitStack() as peers:
        if hosts is None:
            return
        server = peers.enter_context(Server("--workers", "64", "--keepalive", "2"))
        before = server.descriptors()
        other = peers.enter_context(Peer(server.core))
        other.ask(create(1, b"gpib0,5"), created(1, 1, server))
        other.ask(create(2, b"gpib0,7"), created(2, 2, server))
        with hosts.at(hosts.far):
            gone = [peers.enter_context(Peer(server.core, host=hosts.NEAR)) for _ in range(60)]
        gone[0].ask(create(1, b"gpib0,5", lock=1), created(1, 3, server))
        gone[1].ask(create(1, b"gpib0,7", lock=1), created(1, 4, server))
        for peer in gone[2:]:
            peer.ask(call(1, 0), reply(1))
        gone[1].send(read(2, 4, io_timeout=1000))
        time.sleep(0.3)
        hosts.pull_the_cable()
        began = time.monotonic()
        other.ask(lock(3, 1, WAITLOCK, 60000), reply(3, 0))
        other.ask(lock(4, 2, WAITLOCK, 60000), reply(4, 0))
        assert time.monotonic() - began < 30, "hosts that are gone were found out late"
        server.expect_descriptors(before + 1)
        time.sleep(3)
        other.ask(call(5, DESTROY_LINK, 1), reply(5, 0))
        server.expect_workers(63)


def a_silent_host_is_found_out_by_keepalive_alone():
    """A host with a lock goes, to which nothing is on its way, where nothing else bounds a peer. Its lock is free soon; without
    --keepalive it stays."""
    for seconds, result in (("4", 0), ("0", 11)):
        with at_a_host() as hosts, ExitStack() as peers:
            if hosts is None:
                return
            server = peers.enter_context(Server("--keepalive", seconds, "--send-timeout", "0", "--idle", "0"))
            other = peers.enter_context(Peer(server.core))
            with hosts.at(hosts.far):
                gone = peers.enter_context(Peer(server.core, host=hosts.NEAR))
            gone.ask(create(1, b"gpib0,5", lock=1), created(1, 1, server))
            other.ask(create(1, b"gpib0,5"), created(1, 2, server))
            time.sleep(0.5)  # in which the reply is acknowledged
            hosts.pull_the_cable()
            other.ask(lock(2, 2, WAITLOCK, 20000), reply(2, result))


CASES = [a_host_that_is_gone_is_found_out, a_silent_host_is_found_out_by_keepalive_alone]
