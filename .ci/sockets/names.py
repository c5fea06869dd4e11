"""Names for devices, as the words of the server give them."""
from rpc import BY_END, DESTROY_LINK, Peer
from sockets.calls import call, create, created, lock, read, reply, write
from sockets.client import expect_client
from sockets.server import Server

NAMES = ("--name", "inst0=gpib0,5", "--name=scope=gpib0,7", "--name", "again=inst0", "--name", "gpib0,9=gpib0,11")


def expect_no_device(peer, xid, device):
    peer.ask(create(xid, device), reply(xid, 3, 0, 0, 0))


def a_name_is_its_device():
    """Each of two devices is written to by a name and read back by its own text; a lock by the one refuses the other."""
    with Server(*NAMES) as server, Peer(server.core) as one, Peer(server.core) as two:
        one.ask(create(1, b"inst0"), created(1, 1, server))
        one.ask(create(2, b"scope"), created(2, 2, server))
        two.ask(create(1, b"gpib0,5"), created(1, 3, server))
        two.ask(create(2, b"gpib0,7"), created(2, 4, server))
        one.ask(write(3, 1, b"alpha"), reply(3, 0, 5))
        one.ask(write(4, 2, b"beta"), reply(4, 0, 4))
        two.ask(read(3, 3), reply(3, 0, BY_END, b"alpha"))
        two.ask(read(4, 4), reply(4, 0, BY_END, b"beta"))
        one.ask(lock(5, 1), reply(5, 0))
        two.ask(lock(5, 3), reply(5, 11))
        two.ask(lock(6, 4), reply(6, 0))
        one.ask(call(6, DESTROY_LINK, 1), reply(6, 0))
        two.ask(lock(7, 3), reply(7, 0))


def other_texts_are_as_they_were():
    """A name is a whole text, in its own case. What it stands for isn't looked up again, and may hide a device."""
    with Server(*NAMES) as server, Peer(server.core) as peer, Server() as nameless, Peer(nameless.core) as stranger:
        for xid, device in enumerate((b"again", b"inst", b"inst00", b"INST0", b"inst1", b"inst0,5"), 1):
            expect_no_device(peer, xid, device)
        expect_no_device(stranger, 1, b"inst0")
        peer.ask(create(7, b"gpib0,9"), created(7, 1, server))
        peer.ask(create(8, b"gpib0,11"), created(8, 2, server))
        peer.ask(lock(9, 2), reply(9, 0))
        with Peer(server.core) as other:
            other.ask(create(1, b"gpib0,9"), created(1, 3, server))
            other.ask(lock(2, 3), reply(2, 11))


def a_client_asks_by_a_name():
    with Server("--name", "inst0=gpib0,15") as server:
        expect_client(server.core, "inst0", ["query", "*IDN?"], b"ACME,TABLE,1,1.0\n".hex().upper() + "\n", 0)


CASES = [a_name_is_its_device, other_texts_are_as_they_were, a_client_asks_by_a_name]
