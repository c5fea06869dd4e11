"""The greatest write, the most links, and how fast small replies come."""
import os
import statistics
import time

from rpc import BY_COUNT, BY_END, DESTROY_LINK, LINK_MAX, READ, READ_MAX, WRITE_MAX, Peer
from sockets.calls import call, create, created, read, reply, write
from sockets.server import Server


def the_greatest_write():
    """262,144 bytes are written at once, and read again in reads of 65,536; one byte more gets error 5."""
    with Server() as server, Peer(server.core) as peer:
        data = os.urandom(WRITE_MAX)
        peer.ask(create(1, b"gpib0,5"), created(1, 1, server))
        peer.ask(write(2, 1, data), reply(2, 0, WRITE_MAX))
        for at in range(0, WRITE_MAX, READ_MAX):
            reason = BY_COUNT | BY_END if at + READ_MAX == WRITE_MAX else BY_COUNT
            peer.ask(call(3, READ, 1, READ_MAX, 10000, 0, 0, 0), reply(3, 0, reason, data[at : at + READ_MAX]))
        peer.ask(write(4, 1, data + b"."), reply(4, 5, 0))


def a_thousand_and_twenty_four_links():
    """So many live at once, over two connections. The next one gets error 9, until one has gone."""
    with Server() as server, Peer(server.core) as one, Peer(server.core) as two:
        for link in range(1, LINK_MAX + 1):
            (one, two)[link % 2].ask(create(link, b"gpib0,5"), created(link, link, server))
        one.ask(create(2000, b"gpib0,7"), reply(2000, 9, 0, 0, 0))
        two.ask(call(2001, DESTROY_LINK, 1), reply(2001, 0))
        one.ask(create(2002, b"gpib0,7"), created(2002, LINK_MAX + 1, server))


def a_slow_instrument():
    """One that is ready again only a moment after each byte takes a message and gives it back."""
    with Server(bench="plug 3 slow\n") as server, Peer(server.core) as peer:
        peer.ask(create(1, b"gpib0,3"), created(1, 1, server))
        for xid in (2, 4):
            peer.ask(write(xid, 1, b"byte by byte"), reply(xid, 0, 12))
            peer.ask(read(xid + 1, 1), reply(xid + 1, 0, BY_END, b"byte by byte"))


def small_replies_come_at_once():
    """Queries one after another, then with both calls in one send: a reply that waits until the last one is acknowledged
    comes 40 ms late each time. A busy machine may hold one up, but not most."""
    with Server() as server, Peer(server.core) as peer:
        peer.ask(create(1, b"gpib0,5"), created(1, 1, server))

        def one_by_one():
            peer.ask(write(2, 1, b"ping??"), reply(2, 0, 6))
            peer.ask(read(3, 1), reply(3, 0, BY_END, b"ping??"))

        def in_one_send():
            peer.ask(write(4, 1, b"ping??") + read(5, 1), reply(4, 0, 6))
            peer.expect(reply(5, 0, BY_END, b"ping??"))

        for query in (one_by_one, in_one_send):
            seconds = statistics.median(timed(query) for _ in range(200))
            assert seconds < 0.040, f"most queries {query.__name__} take more than {seconds:.3f} s"


def timed(action):
    """How many seconds it takes."""
    began = time.monotonic()
    action()
    return time.monotonic() - began


CASES = [the_greatest_write, a_thousand_and_twenty_four_links, a_slow_instrument, small_replies_come_at_once]
