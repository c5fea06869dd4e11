#!/usr/bin/env python3
"""Tests the port mapper `vxmap`, whose path is the one word, over sockets of this host.

Whole messages are composed here from their words, by RFC 1833 and RFC 5531. Each case takes its own port. What goes wrong, and at
last 'N passed, M failed', goes to standard error; the status is 1 where something went wrong.
"""
import select
import socket
import struct
import subprocess
import sys
import time

import cases
import rpc
from rpc import HOST, PATIENCE, Peer, record, words
from serving import Program

MAPPER = 100000
CORE, ABORT = 9010, 9011  # the ports that it tells
SILENCE = 30  # seconds after which a peer that says nothing is left
MAPPINGS = (1, rpc.CORE, 1, 6, CORE, 1, rpc.ABORT, 1, 6, ABORT, 0)


def call(procedure, *arguments, xid=9, program=MAPPER, version=2, rpc_version=2):
    return rpc.call(xid, program, procedure, *arguments, version=version, rpc=rpc_version)


def done(*results, xid=9):
    return rpc.reply(xid, *results)


def refused(status, *numbers):
    return rpc.reply(9, *numbers, status=status)


class Mapper(Program):
    """A mapper that serves so many."""

    first_line = "mapping {}\n"

    def __init__(self, program, word, number, tells=(CORE, ABORT), ports=None):
        super().__init__(lambda port: [program, word, *map(str, (port, *tells, number))], ports=ports)
        self.kind = socket.SOCK_STREAM if word == "stream" else socket.SOCK_DGRAM

    def peer(self):
        peer = socket.socket(type=self.kind)
        peer.settimeout(PATIENCE)
        peer.connect((HOST, *self.ports))
        return peer


def asked(mapper, stream):
    """What a peer that sends this, and no more, is sent."""
    return rpc.told_to(*mapper.ports, stream, ends=True)


GETPORT = call(3, rpc.CORE, 1, 6, 0)

# messages and their replies, or none
ANSWERS = [
    (GETPORT, done(CORE)),
    (call(3, rpc.ABORT, 1, 6, 7), done(ABORT)),
    (call(3, rpc.CORE, 1, 17, 0), done(0)),
    (call(3, rpc.CORE, 2, 6, 0), done(0)),
    (call(0), done()),
    (call(4), done(*MAPPINGS)),
    (call(1, 1, 2, 3, 4), refused(3)),
    (call(2, rpc.CORE, 1, 6, 0), refused(3)),
    (call(5, 1, 2, 3, 4), refused(3)),
    (call(0, version=3), refused(2, 2, 2)),
    (call(0, program=100003), refused(1)),
    (call(0, rpc_version=3), rpc.denied(9)),
    (call(3, 1, 2), refused(4)),
    (call(4, 0), refused(4)),
]


def on_one_stream(program):
    with Mapper(program, "stream", 1) as mapper:
        stream = b"".join(record(message) for message, _ in ANSWERS)
        wanted = b"".join(record(reply) for _, reply in ANSWERS)
        assert asked(mapper, stream) == wanted, "another answer"
        mapper.expect_served(1)


def byte_by_byte(program):
    with Mapper(program, "stream", 1) as mapper, mapper.peer() as peer:
        peer.setsockopt(socket.IPPROTO_TCP, socket.TCP_NODELAY, 1)
        for byte in record(GETPORT):
            peer.sendall(bytes([byte]))
        peer.shutdown(socket.SHUT_WR)
        assert rpc.read_all(peer) == record(done(CORE)), "another answer"


def by_packets(program):
    with Mapper(program, "packets", len(ANSWERS)) as mapper, mapper.peer() as peer:
        for message, reply in ANSWERS:
            peer.send(message)
            assert peer.recv(65536) == reply, "another answer"
        mapper.expect_served(len(ANSWERS))


def two_senders(program):
    with Mapper(program, "packets", 2) as mapper, mapper.peer() as one, mapper.peer() as other:
        one.send(call(0, xid=1))
        other.send(call(0, xid=2))
        assert one.recv(64) == done(xid=1) and other.recv(64) == done(xid=2), "an answer went astray"


def packets_without_an_answer(program):
    with Mapper(program, "packets", 5) as mapper, mapper.peer() as peer:
        for packet in (b"", b"nothing", done(1), call(0) + bytes(9000), GETPORT):
            peer.send(packet)
        # of the long one the first 1,024 bytes are read, which are a call with arguments too many
        assert peer.recv(65536) == refused(4), "another answer to a long packet"
        assert peer.recv(65536) == done(CORE), "another answer"
        mapper.expect_served(5)


def hostile_streams(program):
    streams = [b"", record(b"nothing"), record(done(1)), words(rpc.LAST | 1025), words(1024) + bytes(1024) + words(1), words(rpc.LAST | 1023)[:3]]
    with Mapper(program, "stream", len(streams) + 1) as mapper:
        for stream in streams:
            assert asked(mapper, stream) == b"", "junk is answered"
        assert asked(mapper, record(GETPORT)) == record(done(CORE)), "the next peer isn't served"
        mapper.expect_served(len(streams) + 1)


def sixteen_mebibytes(program):
    """Fragments of no bytes, which never make a record, go on until the mapper shows that it has done with the stream."""
    empty, sent = words(0) * 16384, 0
    with Mapper(program, "stream", 2) as mapper:
        with mapper.peer() as peer:
            ends = False
            while not ends:
                ends, ready, _ = select.select([peer], [peer], [], PATIENCE)
                if not ends:
                    assert ready, "the mapper reads no more, and doesn't end the stream"
                    sent += peer.send(empty)
            assert sent >= 16 << 20, f"the stream ends behind {sent} bytes"
            assert rpc.read_all(peer) == b"", "fragments of no bytes are answered"
        assert asked(mapper, record(GETPORT)) == record(done(CORE)), "the next peer isn't served"
        mapper.expect_served(2)


def a_peer_that_vanishes(program):
    with Mapper(program, "stream", 2) as mapper:
        with Peer(*mapper.ports) as peer:
            peer.send(record(GETPORT)[:9])
            peer.reset()
        assert asked(mapper, record(GETPORT)) == record(done(CORE)), "the next peer isn't served"


def replies_before_an_end(program):
    """Calls, a record that is no call or is too long, and a megabyte behind it, in one send: each call is answered."""
    asked, wanted = record(GETPORT) * 50, record(done(CORE)) * 50
    ends = (record(b"nothing"), words(rpc.LAST | 1025))
    with Mapper(program, "stream", 40) as mapper:
        for number in range(40):
            told = rpc.told_to(*mapper.ports, asked + ends[number % 2] + bytes(1 << 20))
            assert told == wanted, f"{len(told)} of {len(wanted)} bytes came"
        mapper.expect_served(40)


def datagram(source, port, to, data):
    """A whole IPv4 datagram with a UDP header, from this address and port. Its checksums are left to the system, or out."""
    header = struct.pack(">BBHHHBBH4s4s", 0x45, 0, 28 + len(data), 0, 0, 64, socket.IPPROTO_UDP, 0, source, socket.inet_aton(HOST))
    return header + struct.pack(">4H", port, to, 8 + len(data), 0) + data


def forged_packets(program):
    """Packets to whose sources the system sends nothing: port 0, and the addresses of all hosts. The next one is answered still."""
    sources = ((HOST, 0), ("255.255.255.255", 9), ("127.255.255.255", 9))
    try:
        raw = socket.socket(socket.AF_INET, socket.SOCK_RAW, socket.IPPROTO_RAW)
    except PermissionError:
        print("this test may not forge a packet: no mapper was sent one", file=sys.stderr)
        return
    with raw, Mapper(program, "packets", len(sources) + 1) as mapper, mapper.peer() as peer:
        for address, port in sources:
            raw.sendto(datagram(socket.inet_aton(address), port, *mapper.ports, GETPORT), (HOST, 0))
        peer.send(GETPORT)
        mapper.expect_served(len(sources) + 1)
        assert peer.recv(65536) == done(CORE), "another answer"


def a_silent_peer(program):
    with Mapper(program, "stream", 2) as mapper, mapper.peer():
        start = time.monotonic()
        assert asked(mapper, record(GETPORT)) == record(done(CORE)), "the next peer isn't served"
        assert SILENCE - 5 < time.monotonic() - start < SILENCE + 30, "after another time"


def a_taken_port(program):
    with Mapper(program, "stream", 1) as mapper:
        done = subprocess.run(mapper.words(*mapper.ports), capture_output=True, timeout=PATIENCE)
        assert (done.returncode, done.stdout) == (3, b""), "a taken port is served"
    done = subprocess.run([program, "packets", "1", "2", "3"], capture_output=True, timeout=PATIENCE)
    assert (done.returncode, done.stdout) == (1, b"usage: vxmap KIND PORT CORE ABORT N\n"), "other words are taken"


CASES = [a_silent_peer, on_one_stream, byte_by_byte, by_packets, two_senders, packets_without_an_answer, hostile_streams,
         sixteen_mebibytes, replies_before_an_end, forged_packets, a_peer_that_vanishes, a_taken_port]


if __name__ == "__main__":
    cases.at_once(CASES, "mapper.py MAPPER")
