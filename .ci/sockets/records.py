"""Records to the byte, in whatever pieces they come, and those that end a connection."""
import struct

import rpc
from rpc import BY_END, CORE, DESTROY_LINK, LAST, RECORD_MAX, Peer
from sockets.calls import call, create, created, read, reply, write
from sockets.server import Server


def a_link_by_its_bytes():
    """The bytes as they stand in docs/PROTOCOL.md, but for the port."""
    with Server() as server, Peer(server.core) as peer:
        asked = "80000040000000010000000000000002000607AF000000010000000A000000000000000000000000000000000000002A"
        peer.send(bytes.fromhex(asked + "00000000000000000000000767706962302C3500"))
        due = bytes.fromhex("8000002800000001000000010000000000000000000000000000000000000000000000010000")
        got = peer.take(44)
        assert got == due + struct.pack(">H", server.abort) + bytes.fromhex("00040000"), got.hex(" ", 4)


def a_record_in_any_pieces():
    """A byte a send, two records in a send, a record in fragments: each is answered as a whole one is."""
    with Server() as server, Peer(server.core) as peer:
        for byte in create(1, b"gpib0,5"):
            peer.send(bytes([byte]))
        peer.expect(created(1, 1, server))
        peer.send(create(2, b"gpib0,7") + write(3, 2, b"both"))
        peer.expect(created(2, 2, server))
        peer.expect(reply(3, 0, 4))
        body = read(4, 2)[4:]
        parts = [body[at : at + 10] for at in range(0, len(body), 10)]
        peer.send(b"".join(rpc.words(len(part)) + part for part in parts) + rpc.words(LAST))
        peer.expect(reply(4, 0, BY_END, b"both"))


def junk_closes():
    """A record that is no call, and one above 263,168 bytes, end their connection and no other."""
    with Server() as server, Peer(server.core) as other:
        other.ask(create(1, b"gpib0,5"), created(1, 1, server))
        calls = [rpc.words(1, 0), rpc.words(1, 0, 2, CORE, 1, 0, 0, 401)]
        for junk in (*map(rpc.record, calls), reply(1), rpc.words(LAST | RECORD_MAX + 1)):
            with Peer(server.core) as peer:
                peer.ask(call(7, 0), reply(7))
                peer.send(junk)
                peer.expect_end()
        other.ask(call(2, DESTROY_LINK, 1), reply(2, 0))


def replies_come_before_an_end():
    """Null calls, a record that is no call or is too long, and a megabyte behind it, in one send: each call is answered before the
    stream ends."""
    calls, replies = b"".join(call(xid, 0) for xid in range(50)), b"".join(reply(xid) for xid in range(50))
    ends = (rpc.record(rpc.words(1, 0)), rpc.words(LAST | RECORD_MAX + 1))
    with Server() as server:
        before = server.descriptors()
        for number in range(40):
            told = rpc.told_to(server.core, calls + ends[number % 2] + bytes(1 << 20))
            assert told == replies, f"{len(told)} of {len(replies)} bytes came"
        server.expect_descriptors(before)


CASES = [a_link_by_its_bytes, a_record_in_any_pieces, junk_closes, replies_come_before_an_end]
