"""Service requests and the channel that they go by."""
import time

from rpc import CREATE_INTR_CHAN, DESTROY_INTR_CHAN, ENABLE_SRQ, INTERRUPT, INTR_SRQ, PATIENCE, READSTB, Peer
from serving import bound, port_of
from sockets.calls import call, create, created, reply, write
from sockets.server import Server


def a_service_request():
    """The handle of a link comes to the port that its client named, and the channel is closed when it is destroyed."""
    with Server() as server, Peer(server.core) as peer, bound() as listener:
        listener.settimeout(PATIENCE)
        listener.listen()
        channel = (0x7F000001, port_of(listener), INTERRUPT, 1, 0)
        peer.ask(create(1, b"gpib0,9"), created(1, 1, server))
        peer.ask(call(2, CREATE_INTR_CHAN, *channel), reply(2, 0))
        peer.ask(call(3, CREATE_INTR_CHAN, *channel), reply(3, 29))
        peer.ask(call(4, ENABLE_SRQ, 1, 1, b"bench-3"), reply(4, 0))
        with Peer(stream=listener.accept()[0]) as interrupts:
            peer.ask(write(5, 1, b"go"), reply(5, 0, 2))
            interrupts.expect(call(1, INTR_SRQ, b"bench-3", program=INTERRUPT))
            # the server has to see the line low before it rises again; where it didn't, the line is let down for longer
            for seconds in (0.5, 1, 2, 4, 8):
                # its status byte is 16, and bit 6 is set once: by the first poll that it answers
                peer.ask(call(6, READSTB, 1, 0, 0, 10000), reply(6, 0, 80))
                peer.ask(call(7, READSTB, 1, 0, 0, 10000), reply(7, 0, 16))
                time.sleep(seconds)
                peer.ask(write(8, 1, b"go"), reply(8, 0, 2))
                if interrupts.hears(10):
                    break
            interrupts.expect(call(2, INTR_SRQ, b"bench-3", program=INTERRUPT))
            peer.ask(call(9, DESTROY_INTR_CHAN), reply(9, 0))
            interrupts.expect_end()
        peer.ask(call(10, DESTROY_INTR_CHAN), reply(10, 6))


def a_channel_that_nobody_takes():
    """A dial that fails is answered with error 6."""
    with Server() as server, Peer(server.core) as peer, bound() as nobody:
        peer.ask(call(1, CREATE_INTR_CHAN, 0x7F000001, port_of(nobody), INTERRUPT, 1, 0), reply(1, 6))


CASES = [a_service_request, a_channel_that_nobody_takes]
