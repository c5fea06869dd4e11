#!/usr/bin/env python3
"""Tests the helper in front of a GPIB card, `contrib/vx_card.py`, whose path is the one word, over sockets of this host.

Its simulated form is asked as a gateway asks it: by create_link with a lock, device_docmd, device_write and device_read on the
interface. Of its linux form only the way from calls to linux-gpib's functions is tested, over a stand-in of that library: no card was
asked. Each case starts helpers of its own. What goes wrong, and at last `card: N passed, M failed`, goes to standard error; the
status is 1 where something went wrong.

Results are compared as their words, which are composed by RFC 4506 and VXI-11.
"""
import os
import random
import socket
import struct
import subprocess
import sys
import tempfile
import time
from contextlib import ExitStack

import cases
import rpc
from rpc import BY_COUNT, BY_END, CORE, CREATE_LINK, DESTROY_LINK, END, LAST, PATIENCE, READ, WAITLOCK, WRITE, Client, record, spelled
from serving import Program, bound, free_ports, port_of

DOCMD = 22
SEND, STATUS, ATN, REN, PASS, ADDRESS, IFC = 0x020000, 0x020001, 0x020002, 0x020003, 0x020004, 0x02000A, 0x020010
REN_LEVEL, SRQ, NDAC, SYSTEM_CONTROLLER, IN_CHARGE, TALKER, LISTENER, OWN = range(1, 9)
GTL, SDC, GET, TCT, LLO, DCL, SPE, SPD, UNL, UNT = 0x01, 0x04, 0x08, 0x09, 0x11, 0x14, 0x18, 0x19, 0x3F, 0x5F
MLA, MTA, MSA = 0x20, 0x40, 0x60
BY_CHAR, TERMCHRSET = 2, 0x80
DATA_MAX, RECORD_MAX, LINKS, CONNECTIONS = 65536, 66560, 64, 32
ROOM = 1 << 20  # bytes that the instrument keeps
IDENTITY = b"ACME,CARD,1,1.0\n"
SHORT, LONG = 50, 10000  # milliseconds: of a call that is to run out of time, and of one that isn't


class Helper(Program):
    """The helper with an instrument at this address, and with faults by these lines."""

    first_line = "listening {}\n"

    def __init__(self, program, *faults, address="5", ports=None):
        # it goes with this object, and not with a program: where a port is another's by then, one more is started
        self.script = tempfile.NamedTemporaryFile("w", suffix=".faults")
        self.script.write("".join(f"{line}\n" for line in faults))
        self.script.flush()
        words = lambda port: [sys.executable, program, str(port), "simulated", address, "--faults", self.script.name]
        super().__init__(words, ports=ports)

    def client(self):
        return Client(*self.ports)

    def gateway(self):
        return Gateway(*self.ports)


class Gateway(Client):
    """A client that has the interface with its lock, and addresses the instrument at 5 as a gateway does."""

    def __init__(self, port):
        super().__init__(port)
        self.link = make_link(self, lock=1, lock_timeout=LONG)  # who had it before may not be seen to be gone yet
        for command, data in ((IFC, b""), (REN, b"\0\0"), (ADDRESS, bytes(4))):
            assert self.docmd(command, data) == (0, data), f"command {command:06X} isn't done"

    def docmd(self, command, data=b"", network_order=1):
        """The error, and the data."""
        results = self.results(DOCMD, self.link, 0, LONG, 0, command, network_order, 1, data)
        return error_and_data(results)

    def command(self, *codes):
        """Has these bytes sent with ATN."""
        data = bytes(codes)
        assert self.docmd(SEND, data) == (0, data), f"command bytes {data.hex(' ')} aren't sent"

    def status(self, selector):
        """What a bus status tells."""
        error, data = self.docmd(STATUS, selector.to_bytes(2, "big"))
        assert (error, len(data)) == (0, 2), f"bus status {selector} has error {error}"
        return int.from_bytes(data, "big")

    def put(self, data, flags=END, io_timeout=LONG):
        """The error, and how many bytes were written."""
        return struct.unpack(">2I", self.results(WRITE, self.link, io_timeout, 0, flags, data))

    def get(self, most=1024, stop=None, io_timeout=LONG):
        """The error, the reason, and the bytes."""
        flags, char = (0, 0) if stop is None else (TERMCHRSET, stop)
        results = self.results(READ, self.link, most, io_timeout, 0, flags, char)
        reason, = struct.unpack(">I", results[4:8])
        error, data = error_and_data(results[:4] + results[8:])
        return error, reason, data

    def talk(self, *listener):
        """The gateway is the talker, and the instrument listens."""
        self.command(UNL, MTA, MLA + 5, *listener)

    def listen(self, *talker):
        """The instrument is the talker, and the gateway listens."""
        self.command(UNL, MLA, MTA + 5, *talker)

    def tell(self, message):
        self.talk()
        assert self.put(message) == (0, len(message)), f"{message} isn't taken"

    def query(self, message):
        """What the instrument says to a message."""
        self.tell(message)
        self.listen()
        error, reason, data = self.get()
        assert (error, reason) == (0, BY_END), f"the answer to {message} has error {error}, reason {reason}"
        return data

    def poll(self):
        """The status byte of a serial poll."""
        self.command(UNL, MLA, SPE, MTA + 5)
        error, reason, data = self.get(1)
        self.command(SPD, UNT)
        assert (error, reason, len(data)) == (0, BY_COUNT, 1), "no status byte came"
        return data[0]


def error_and_data(results):
    error, size = struct.unpack(">2I", results[:8])
    data = results[8 : 8 + size]
    assert results == spelled(error, data), f"the results are {results.hex(' ', 4)}"
    return error, data


def make_link(client, lock=0, lock_timeout=0, device=b"gpib0"):
    """The number of a link that is made."""
    error, link, *rest = struct.unpack(">4I", client.results(CREATE_LINK, 1, lock, lock_timeout, device))
    assert (error, *rest) == (0, 0, DATA_MAX), f"create_link is answered with {error}, {rest}"
    return link


def link_error(client, lock=1, lock_timeout=0, device=b"gpib0"):
    """The error of a create_link that makes no link."""
    results = client.results(CREATE_LINK, 1, lock, lock_timeout, device)
    error, = struct.unpack(">I", results[:4])
    assert results == spelled(error, 0, 0, 0) and error, f"the results are {results.hex(' ', 4)}"
    return error


def expect(got, due):
    assert got == due, f"got {got}, due is {due}"


def expect_served(helper):
    """A new client gets the lock, and the instrument's answer."""
    with helper.gateway() as gateway:
        expect(gateway.query(b"*IDN?\n"), IDENTITY)


# ---- calls


def each_procedure(program):
    with Helper(program) as helper, helper.client() as client:
        expect(client.results(0), b"")
        expect(make_link(client, lock=1, device=b"GPIB0"), 1)
        expect(client.results(DOCMD, 1, 0, LONG, 0, SEND, 1, 1, bytes((UNL, MTA, MLA + 5))), spelled(0, bytes((UNL, MTA, MLA + 5))))
        expect(client.results(WRITE, 1, LONG, 0, END, b"*IDN?"), spelled(0, 5))
        expect(client.results(DOCMD, 1, 0, LONG, 0, SEND, 1, 1, bytes((UNL, MLA, MTA + 5))), spelled(0, bytes((UNL, MLA, MTA + 5))))
        expect(client.results(READ, 1, 1024, LONG, 0, 0, 0), spelled(0, BY_END, IDENTITY))
        expect(client.results(DESTROY_LINK, 1), spelled(0))
        expect(client.results(DESTROY_LINK, 1), spelled(4))


def refusals_of_rpc(program):
    """What RPC itself refuses, with the connection going on."""
    good = {CREATE_LINK: (1, 0, 0, b"gpib0"), WRITE: (1, 0, 0, 0, b"abc"), READ: (1, 1, 0, 0, 0, 0), DESTROY_LINK: (1,),
            DOCMD: (1, 0, 0, 0, SEND, 1, 1, b"abc")}
    garbage = [(procedure, spelled(*arguments)[:-4]) for procedure, arguments in good.items()]
    garbage += [(procedure, spelled(*arguments) + bytes(4)) for procedure, arguments in good.items()]
    garbage += [
        (0, bytes(4)),
        (CREATE_LINK, spelled(1, 2, 0, b"gpib0")),  # a bool of 2
        (CREATE_LINK, spelled(1, 0, 0, bytes(256))),  # a text that is too long
        (CREATE_LINK, spelled(1, 0, 0, 5) + b"gpib0\0\0\1"),  # padding that isn't zero
        (WRITE, spelled(1, 0, 0, 0, 0xFFFFFFFF)),  # more bytes than there are
        (DOCMD, spelled(1, 0, 0, 0, SEND, 7, 1, b"")),
    ]
    rows = [(rpc.call(9, CORE, 10, rpc=3), rpc.denied(9)),
            (rpc.call(9, rpc.ABORT, 1, 1), rpc.reply(9, status=1)),
            (rpc.call(9, 100000, 3), rpc.reply(9, status=1)),
            (rpc.call(9, CORE, 10, version=2), rpc.reply(9, 1, 1, status=2))]
    rows += [(rpc.call(9, CORE, procedure), rpc.reply(9, status=3)) for procedure in (1, 9, *range(13, 22), 24, 25, 26, 0xFFFFFFFF)]
    rows += [(rpc.call(9, CORE, procedure) + arguments, rpc.reply(9, status=4)) for procedure, arguments in garbage]
    with Helper(program) as helper, helper.client() as client:
        for message, due in rows:
            client.ask(record(message), record(due))
        client.ask(record(rpc.call(9, CORE, 0, flavor=1, credential=bytes(400), verifier=bytes(400))), record(rpc.reply(9)))


def errors_of_calls(program):
    """Each error that needs no bus."""
    with Helper(program) as helper, helper.gateway() as gateway, helper.client() as other:
        for device in (b"inst0", b"gpib1", b"gpib0,5", b"", b"gpib0\0"):
            expect(link_error(other, lock=0, device=device), 3)
        theirs = make_link(other)
        for link in (0, 99, theirs):
            expect(gateway.results(WRITE, link, 0, 0, END, b"a"), spelled(4, 0))
            expect(gateway.results(READ, link, 1, 0, 0, 0, 0), spelled(4, 0, b""))
            expect(gateway.results(DOCMD, link, 0, 0, 0, IFC, 1, 1, b""), spelled(4, b""))
            expect(gateway.results(DESTROY_LINK, link), spelled(4))
        for command in (0, PASS, 0x020005, 0x020011, 0xFFFFFFFF):
            expect(gateway.docmd(command, bytes(4)), (8, b""))
        wrong = [(STATUS, b"\0"), (STATUS, b"\0\0"), (STATUS, b"\0\x09"), (STATUS, b"\1\0"), (ATN, b"\1"), (REN, bytes(3)), (IFC, b"\0"),
                 (ADDRESS, bytes(2)), (ADDRESS, b"\0\0\0\x1f"), (SEND, bytes(DATA_MAX + 1))]
        for command, data in wrong:
            expect(gateway.docmd(command, data), (5, b""))
        gateway.talk()
        expect(gateway.put(bytes(DATA_MAX + 1)), (5, 0))
        for _ in range(LINKS - 2):
            make_link(other)
        expect(link_error(other, lock=0), 9)
        expect(other.results(DESTROY_LINK, theirs), spelled(0))
        make_link(other)


# ---- the bus


def lines_and_roles(program):
    """What a bus status tells, in either order of bytes."""
    with Helper(program) as helper, helper.gateway() as gateway:
        tells = lambda: [gateway.status(selector) for selector in range(REN_LEVEL, OWN + 1)]
        expect(tells(), [0, 0, 0, 1, 1, 0, 0, 0])
        gateway.docmd(REN, b"\1\0", network_order=0)
        gateway.docmd(ADDRESS, b"\7\0\0\0", network_order=0)
        gateway.command(UNL, MTA + 7, MLA + 7)
        expect(tells(), [1, 0, 1, 1, 1, 1, 1, 7])
        expect(gateway.docmd(STATUS, b"\x08\0", network_order=0), (0, b"\7\0"))
        gateway.docmd(IFC)
        expect(tells(), [1, 0, 0, 1, 1, 0, 0, 7])


def a_listener_is_found(program):
    """By NDAC, once ATN is let go."""
    with Helper(program) as helper, helper.gateway() as gateway:
        for address in (4, 5, 6):
            gateway.command(UNL, MLA + address)
            expect(gateway.status(NDAC), 1)
            expect(gateway.docmd(ATN, bytes(2)), (0, bytes(2)))
            expect(gateway.status(NDAC), int(address == 5))
            expect(gateway.docmd(ATN, b"\0\1"), (0, b"\0\1"))
            expect(gateway.status(NDAC), 1)


def reads_and_their_reasons(program):
    with Helper(program) as helper, helper.gateway() as gateway:
        gateway.tell(b"ab;cd;ef")
        gateway.listen()
        expect(gateway.get(0), (0, BY_COUNT, b""))
        expect(gateway.get(1), (0, BY_COUNT, b"a"))
        expect(gateway.get(9, stop=ord(";")), (0, BY_CHAR, b"b;"))
        expect(gateway.get(3, stop=ord(";")), (0, BY_COUNT | BY_CHAR, b"cd;"))
        expect(gateway.get(2, stop=ord("f")), (0, BY_COUNT | BY_CHAR | BY_END, b"ef"))
        expect(gateway.get(1, io_timeout=SHORT), (15, 0, b""))
        gateway.talk()
        expect(gateway.put(b"one", flags=0), (0, 3))
        expect(gateway.put(b"", flags=END), (0, 0))
        expect(gateway.put(b"two"), (0, 3))
        expect(gateway.put(b"next"), (0, 4))
        gateway.listen()
        expect(gateway.get(), (0, BY_END, b"onetwo"))
        expect(gateway.get(), (0, BY_END, b"next"))


def long_messages(program):
    """The longest write and read, a read beyond that, and an instrument that takes no more."""
    data = random.Random(1).randbytes(DATA_MAX)
    with Helper(program) as helper, helper.gateway() as gateway:
        gateway.talk()
        for place in range(0, ROOM, DATA_MAX):
            expect(gateway.put(data, flags=0), (0, DATA_MAX))
        expect(gateway.put(data, io_timeout=SHORT), (15, 0))
        gateway.command(SDC)
        expect(gateway.put(data, flags=0), (0, DATA_MAX))
        expect(gateway.put(b"."), (0, 1))
        gateway.listen()
        expect(gateway.get(DATA_MAX + 1), (0, 0, data))
        expect(gateway.get(DATA_MAX + 1), (0, BY_END, b"."))


def nobody_takes_or_gives(program):
    """The error tells whether it is a matter of time, or of the role that the gateway hasn't."""
    with Helper(program) as helper, helper.gateway() as gateway:
        gateway.command(UNL, MTA, MLA + 6)
        expect(gateway.put(b"a", io_timeout=SHORT), (15, 0))
        gateway.command(UNL, MLA, MTA + 6)
        expect(gateway.get(io_timeout=SHORT), (15, 0, b""))
        expect(gateway.put(b"a"), (17, 0))
        gateway.command(UNL, MTA, MLA + 5)
        expect(gateway.get(), (17, 0, b""))
        gateway.command(UNT)
        expect(gateway.put(b"a"), (17, 0))


def a_service_request(program):
    with Helper(program) as helper, helper.gateway() as gateway:
        gateway.tell(b"SRQ 3")
        expect(gateway.status(SRQ), 1)
        expect(gateway.query(b"*STB?"), b"67\n")
        expect(gateway.poll(), 0x43)
        expect((gateway.status(SRQ), gateway.poll()), (0, 3))
        gateway.tell(b"to be read")
        expect(gateway.poll(), 0x13)
        gateway.command(UNL, MLA, SPE, MTA + 5)
        expect(gateway.get(2, io_timeout=SHORT), (15, 0, b"\x13"))
        gateway.docmd(IFC)
        gateway.listen()
        expect(gateway.get(), (0, BY_END, b"to be read"))


def remote_clear_and_trigger(program):
    """Each as it reaches an instrument that listens, or every one."""
    with Helper(program) as helper, helper.gateway() as gateway:
        state = lambda: tuple(map(int, gateway.query(b"STATE?").split()[1::2]))
        expect(state(), (0, 0, 0, 0))
        gateway.docmd(REN, b"\0\1")
        gateway.command(UNL, MLA + 6, LLO, GET, SDC, GTL)
        expect(state(), (1, 1, 0, 0))
        gateway.command(UNL, MLA + 5, GTL, GET, GET, SDC)
        gateway.docmd(IFC)
        gateway.command(DCL)
        gateway.docmd(REN, bytes(2))
        expect(state(), (0, 0, 2, 2))
        gateway.docmd(REN, b"\0\1")
        gateway.talk()
        gateway.put(b"half", flags=0)
        gateway.command(SDC)
        expect(state(), (1, 0, 2, 3))
        gateway.talk(GTL)
        expect(gateway.put(b"STATE?"), (0, 6))
        gateway.listen()
        expect(gateway.get(), (0, BY_END, b"remote 0 lockout 0 triggers 2 clears 3\n"))


def secondary_addresses(program):
    with Helper(program, address="5,7") as helper, helper.gateway() as gateway:
        gateway.talk()
        expect(gateway.put(b"a", io_timeout=SHORT), (15, 0))
        gateway.talk(MSA + 6)
        expect(gateway.put(b"a", io_timeout=SHORT), (15, 0))
        gateway.talk(MSA + 7)
        expect(gateway.put(b"*IDN?"), (0, 5))
        gateway.listen(MSA + 7)
        expect(gateway.get(), (0, BY_END, IDENTITY))


def control_passed(program):
    """Who passed control is in charge again when it has cleared the interface."""
    with Helper(program) as helper, helper.gateway() as gateway:
        gateway.command(UNL, MTA, TCT)
        expect(gateway.status(IN_CHARGE), 1)
        gateway.command(UNL, MTA + 5, TCT)
        expect(gateway.status(IN_CHARGE), 0)
        expect(gateway.docmd(SEND, bytes((UNL,))), (17, b""))
        expect(gateway.docmd(ATN, b"\0\1"), (17, b""))
        gateway.docmd(IFC)
        expect(gateway.query(b"*IDN?"), IDENTITY)


# ---- connections


def records_in_any_pieces(program):
    """A byte a send, two records in a send, fragments, of which some are empty, and the longest record."""
    message = rpc.call(1, CORE, CREATE_LINK, 1, 0, 0, b"gpib0")
    made = lambda link: record(rpc.reply(1, 0, link, 0, DATA_MAX))
    with Helper(program) as helper, helper.client() as client:
        for byte in record(message):
            client.send(bytes([byte]))
        client.expect(made(1))
        client.ask(2 * record(message), made(2))
        client.expect(made(3))
        parts = [message[place : place + 7] for place in range(0, len(message), 7)]
        client.ask(b"".join(rpc.words(len(part)) + part + rpc.words(0) for part in parts) + rpc.words(LAST), made(4))
        longest = rpc.call(1, CORE, 99)
        longest += bytes(RECORD_MAX - len(longest))
        client.ask(record(longest), record(rpc.reply(1, status=3)))
        client.send(record(longest + bytes(1)))
        client.expect_end()


def junk_ends_its_connection_alone(program):
    junk = [b"", rpc.words(1, 0), rpc.words(1, 1, 0, 0, 0, 0), rpc.words(1, 2, 2, CORE, 1, 0, 0, 0, 0, 0),
            rpc.words(1, 0, 2, CORE, 1, 0, 0, 401), rpc.call(1, CORE, 0)[:-4]]
    streams = [record(message) for message in junk]
    streams += [rpc.words(LAST | RECORD_MAX + 1), rpc.words(RECORD_MAX) + bytes(RECORD_MAX) + rpc.words(1)]
    with Helper(program) as helper, helper.gateway() as gateway:
        for stream in streams:
            told = rpc.told_to(*helper.ports, record(rpc.call(7, CORE, 0)) + stream)
            expect(told, record(rpc.reply(7)))
        expect(gateway.query(b"*IDN?"), IDENTITY)


def any_bytes(program):
    """Streams of any bytes, and calls of which bytes are changed or lost: whatever comes, the next client is served."""
    draw = random.Random(2)
    calls = [rpc.call(1, CORE, CREATE_LINK, 1, 1, 0, b"gpib0"), rpc.call(2, CORE, WRITE, 1, 0, 0, END, b"message"),
             rpc.call(3, CORE, READ, 1, 9, 0, 0, 0, 0), rpc.call(4, CORE, DOCMD, 1, 0, 0, 0, SEND, 1, 1, bytes((UNL, MTA, MLA + 5)))]
    with Helper(program) as helper:
        for number in range(60):
            data = b"".join(map(record, calls)) if number % 3 else draw.randbytes(draw.randrange(200))
            data = bytearray(data)
            for _ in range(draw.randrange(1, 5) if data else 0):
                data[draw.randrange(len(data))] = draw.randrange(256)
            with helper.client() as client:
                client.send(data[: draw.randrange(len(data) + 1)] if number % 2 else data)
                client.stream.shutdown(socket.SHUT_WR)
                rpc.read_all(client.stream)
        expect_served(helper)


def two_clients(program):
    """The lock of a client that is there keeps the other out; when that is gone, however it went, it is the other's."""
    ends = (lambda one: expect(one.results(DESTROY_LINK, one.link), spelled(0)), lambda one: one.stream.close(), Client.reset,
            lambda one: (one.send(rpc.words(LAST | 64, 1)), one.stream.close()))
    with Helper(program) as helper:
        for end in ends:
            with helper.gateway() as one, helper.client() as two:
                other = make_link(two)
                expect(link_error(two), 11)
                expect(two.results(WRITE, other, LONG, 0, END, b"a"), spelled(11, 0))
                expect(two.results(READ, other, 1, LONG, 0, 0, 0), spelled(11, 0, b""))
                expect(two.results(DOCMD, other, 0, LONG, 0, IFC, 1, 1, b""), spelled(11, b""))
                expect(link_error(two, lock_timeout=SHORT), 11)
                expect(one.query(b"*IDN?"), IDENTITY)
                end(one)
                make_link(two, lock=1, lock_timeout=LONG)


def locks_are_waited_for(program):
    """By a create_link for its lock_timeout, by a call whose flags say so; and a client that leaves meanwhile is nobody's hindrance."""
    docmd = lambda link: rpc.call(9, CORE, DOCMD, link, WAITLOCK, LONG, LONG, STATUS, 1, 1, b"\0\x04")
    with Helper(program) as helper, helper.gateway() as one, helper.client() as two, helper.client() as three:
        other = make_link(two)
        two.send(record(docmd(other)))
        three.send(record(rpc.call(9, CORE, CREATE_LINK, 1, 1, LONG, b"gpib0")))
        assert not two.hears(0.2), "a call was answered under another link's lock"
        assert not three.hears(0.1), "a lock was given that another link has"
        three.stream.close()
        time.sleep(0.2)
        one.stream.close()
        two.expect(record(rpc.reply(9, 0, b"\0\1")))
        expect(make_link(two, lock=1, lock_timeout=LONG) > other, True)


def as_many_as_there_are_places(program):
    """A connection more than that is closed at once, and a place comes free."""
    with Helper(program) as helper, ExitStack() as peers:
        clients = [peers.enter_context(helper.client()) for _ in range(CONNECTIONS)]
        for client in clients:
            expect(client.results(0), b"")
        with helper.client() as late:
            assert late.has_ended() or not late.is_answered(CORE), "more connections are served than there are places"
        clients[0].stream.close()
        until = time.monotonic() + PATIENCE
        while True:
            with helper.client() as late:
                if late.is_answered(CORE):
                    break
            assert time.monotonic() < until, "no place came free"
            time.sleep(0.05)


# ---- faults


def short_sizes(program):
    """Three bytes a call: a whole transfer in many calls, each byte once."""
    with Helper(program, "short write 3", "short read 3") as helper, helper.gateway() as gateway:
        message, taken, calls = b"*IDN?", 0, 0
        gateway.talk()
        while taken < len(message):
            error, size = gateway.put(message[taken:])
            taken, calls = taken + size, calls + 1
            assert (error, size) in ((15, 3), (0, len(message) % 3)), f"error {error}, size {size}"
        expect(calls, 2)
        gateway.listen()
        came = [gateway.get() for _ in range(6)]
        expect(came, [(15, 0, IDENTITY[place : place + 3]) for place in range(0, 15, 3)] + [(0, BY_END, IDENTITY[15:])])
        expect(gateway.get(2, io_timeout=SHORT), (15, 0, b""))


def silence(program):
    """A reply that is late; a client that doesn't wait for it frees its lock at once."""
    with Helper(program, "silent write:1 1", "silent docmd:5 60") as helper:
        with helper.gateway() as gateway:
            gateway.talk()
            began = time.monotonic()
            expect(gateway.put(b"*IDN?"), (0, 5))
            assert time.monotonic() - began >= 1, "the reply wasn't late"
            gateway.send(record(rpc.call(9, CORE, DOCMD, gateway.link, 0, LONG, 0, SEND, 1, 1, bytes((UNL, MLA, MTA + 5)))))
            assert not gateway.hears(0.3), "the reply wasn't late"
        with helper.client() as other:
            make_link(other, lock=1, lock_timeout=LONG)


def a_reply_that_is_cut(program):
    """Within its mark, at its end, and before it begins; what the call did is done."""
    whole = record(rpc.reply(9, 0, 5))
    for size, due in ((0, b""), (2, whole[:2]), (20, whole[:20]), (99, whole[:-1])):
        with Helper(program, f"cut write:1 {size}") as helper:
            with helper.gateway() as gateway:
                gateway.talk()
                gateway.send(record(rpc.call(9, CORE, WRITE, gateway.link, LONG, 0, END, b"hello")))
                expect(rpc.read_all(gateway.stream), due)
            with helper.gateway() as gateway:
                gateway.listen()
                expect(gateway.get(), (0, BY_END, b"hello"))


def reads_without_bytes(program):
    with Helper(program, "empty read:1-2") as helper, helper.gateway() as gateway:
        gateway.tell(b"*IDN?")
        gateway.listen()
        expect([gateway.get() for _ in range(3)], [(0, BY_END, b"")] * 2 + [(0, BY_END, IDENTITY)])


def errors_by_a_script(program):
    """At the n-th call of a name, and at all from one on; the call isn't done. Of two lines the first counts."""
    lines = ("# faults", "", "error write:2 17", "error command:4- 15", "error ren:2 17", "error ren:2 8", "error create:2 3",
             "error any:3 17")
    with Helper(program, *lines) as helper, helper.client() as client:
        link = make_link(client, lock=1)
        docmd = lambda command, data: client.results(DOCMD, link, 0, LONG, 0, command, 1, 1, data)
        expect(docmd(REN, b"\0\1"), spelled(0, b"\0\1"))
        expect(docmd(STATUS, b"\0\1"), spelled(17, b""))
        expect(docmd(REN, bytes(2)), spelled(17, b""))
        expect(docmd(STATUS, b"\0\1"), spelled(0, b"\0\1"))
        talk, listen = bytes((UNL, MTA, MLA + 5)), bytes((UNL, MLA, MTA + 5))
        expect(docmd(SEND, talk), spelled(0, talk))
        for due in (spelled(0, 1), spelled(17, 0), spelled(0, 1)):
            expect(client.results(WRITE, link, LONG, 0, 0, b"a"), due)
        expect(client.results(WRITE, link, LONG, 0, END, b"b"), spelled(0, 1))
        for data, due in ((listen, 0), (listen, 0), (UNL.to_bytes(1, "big"), 15), (talk, 15)):
            expect(docmd(SEND, data), spelled(due, b"" if due else data))
        expect(client.results(READ, link, 9, LONG, 0, 0, 0), spelled(0, BY_END, b"aab"))
        expect(link_error(client, lock=0), 3)


def a_port_that_is_closed_for_a_while(program):
    """From the moment on at which the second connection is seen to have ended."""
    with Helper(program, "cut write:2 0", "refuse 2 2") as helper:
        expect_served(helper)
        with helper.gateway() as gateway:
            gateway.talk()
            gateway.send(record(rpc.call(9, CORE, WRITE, gateway.link, LONG, 0, END, b"hello")))
            gateway.expect_end()
        until, refused = time.monotonic() + PATIENCE, 0
        while True:
            try:
                with helper.client() as client:
                    expect(client.results(0), b"")
                break
            except ConnectionRefusedError:
                refused += 1
                assert time.monotonic() < until, "the port isn't open again"
                time.sleep(0.1)
        assert refused, "no connection was refused"


# ---- the program


def refused_words(program):
    def ended(*words, faults=""):
        done = subprocess.run([sys.executable, program, *words], input=faults.encode(), capture_output=True, timeout=PATIENCE)
        return done.returncode, done.stdout

    port = str(*free_ports(1))
    for words in ((port,), ("65536", "simulated", "5"), (port, "simulated", "5,31"), (port, "linux", "16"),
                  (port, "linux", "0", "--faults", "-")):
        expect(ended(*words), (1, b""))
    expect(ended(port, "simulated", "5", "--faults", "-", faults="\nshort wrote 3\n"), (2, b""))
    with bound() as taken:
        taken.listen()
        expect(ended(str(port_of(taken)), "simulated", "5"), (3, b""))
    status, told = ended("--help")
    assert status == 0 and b"short CALLS BYTES" in told and b"*IDN?" in told, "--help doesn't tell the faults"


def refused_faults(program):
    from vxcard.faults import BadFaults, Faults

    for line in ("short write", "short wrote 3", "short write 3 4", "short write:x 3", "short write:1-x 3", "late write 3",
                 "silent write -1", "silent write nan", "cut write 1.5", "empty read 3", "refuse 1", "refuse x 1"):
        try:
            Faults([line])
        except BadFaults:
            continue
        raise AssertionError(f"{line} is taken")


class Library:
    """Stands for the C library of linux-gpib: each function has answers in turn, of ibsta, iberr, ibcntl and what it hands out, and
    where there is none it succeeds with ibcntl 0. What was asked is kept."""

    OK, TIMED_OUT, END, NO_LISTENER, FAULT = (0x0100, 0), (0xC100, 6), (0x2100, 0), (0x8100, 2), (0x8100, 0)

    def __init__(self, **answers):
        self.answers, self.asked, self.err, self.count = answers, [], 0, 0

    def ThreadIberr(self):
        return self.err

    def ThreadIbcntl(self):
        return self.count

    def __getattr__(self, name):
        def function(board, *arguments):
            expect(board, 2)
            given = self.answers.get(name) or [(self.OK, 0, None)]
            (sta, self.err), self.count, out = given.pop(0)
            self.asked.append((name, *(argument for argument in arguments if isinstance(argument, (int, bytes)))))
            if name == "ibrd":
                arguments[0][: len(out or b"")] = out or b""
            elif out is not None:
                arguments[-1]._obj.value = out
            return sta

        return function

    def expect_asked(self, *due):
        """These were asked since the last look."""
        asked, self.asked = self.asked, []
        expect(asked, list(due))


def linux_card(**answers):
    """A card of the linux form, over a stand-in, and that; what it told."""
    from vxcard.linux import LinuxCard

    library, told = Library(**answers), []
    card = LinuxCard(library, 2, told.append)
    library.expect_asked(("ibconfig", 7, 0), ("ibeos", 0))
    return card, library, told


def error_of(action, *arguments):
    """The error with which a card refuses this."""
    from vxcard.card import Refused

    try:
        action(*arguments)
    except Refused as refused:
        return refused.error
    raise AssertionError("it isn't refused")


def linux_transfers(program):
    """Calls become functions of linux-gpib, and how these end becomes sizes, reasons and errors."""
    of = Library
    card, library, told = linux_card(
        ibcmd=[(of.OK, 3, None), (of.FAULT, 5, None), (of.TIMED_OUT, 1, None), (of.OK, 2, None)],
        ibwrt=[(of.OK, 5, None), (of.TIMED_OUT, 2, None), (of.NO_LISTENER, 0, None), (of.FAULT, 5, None)],
        ibrd=[(of.END, 3, b"abc"), (of.OK, 4, b"abcd"), (of.END, 4, b"abcd"), (of.TIMED_OUT, 2, b"ab"), (of.FAULT, 5, b""),
              (of.END, 2, b"a\n"), (of.OK, 2, b"ab")],
    )
    card.send(b"?@%", 10)
    library.expect_asked(("ibtmo", 10), ("ibcmd", b"?@%", 3))
    expect([error_of(card.send, b"?@%", 2000) for _ in range(3)], [17, 15, 17])
    library.expect_asked(*[("ibtmo", 12), ("ibcmd", b"?@%", 3)] * 3)
    expect(card.write(b"hello", True, 10), (0, 5))
    library.expect_asked(("ibtmo", 7), ("ibeot", 1), ("ibwrt", b"hello", 5))
    began = time.monotonic()
    expect([card.write(b"hello", False, SHORT) for _ in range(3)], [(15, 2), (15, 0), (17, 0)])
    assert time.monotonic() - began >= SHORT / 1000, "that nobody listens is told too early"
    library.expect_asked(*[("ibtmo", 9), ("ibeot", 0), ("ibwrt", b"hello", 5)] * 3)
    expect(card.write(b"", True, 10), (0, 0))
    expect(card.read(0, None, 10), (0, BY_COUNT, b""))
    library.expect_asked()
    expect([card.read(4, None, most) for most in (0, 1, 4, 999, 99999)],
           [(0, BY_END, b"abc"), (0, BY_COUNT, b"abcd"), (0, BY_COUNT | BY_END, b"abcd"), (15, 0, b"ab"), (17, 0, b"")])
    library.expect_asked(*[one for code in (5, 5, 7, 11, 13) for one in (("ibtmo", code), ("ibeos", 0), ("ibrd", 4))])
    expect([card.read(size, 10, 1) for size in (9, 2)], [(0, BY_CHAR, b"a\n"), (0, BY_COUNT, b"ab")])
    library.expect_asked(*[one for size in (9, 2) for one in (("ibtmo", 5), ("ibeos", 0x140A), ("ibrd", size))])
    expect(told, ["ibcmd: ibsta 8100, iberr 0, ibcntl 5", "ibwrt: ibsta 8100, iberr 2, ibcntl 0", "ibwrt: ibsta 8100, iberr 0, ibcntl 5",
                  "ibrd: ibsta 8100, iberr 0, ibcntl 5"])


def linux_lines(program):
    """Where a board can't tell SRQ by the lines, ibsta tells it; of what nothing tells, the error says so."""
    from vxcard.card import Selector

    of = Library
    card, library, _ = linux_card(
        iblines=[(of.OK, 0, 0x1010), (of.OK, 0, 0x0010), (of.OK, 0, -0x8000 | 0x2020), (of.OK, 0, 0x2000),
                 (of.FAULT, 22, 0x2020), (of.OK, 0, 0x0200)],
        ibwait=[((0x1100, 0), 0, None), (of.OK, 0, None), ((0x0120, 0), 0, None), ((0x0108, 0), 0, None), (of.OK, 0, None)],
        ibask=[(of.OK, 0, 1), (of.OK, 0, 9)],
        ibcac=[(of.FAULT, 22, None), (of.OK, 0, None), (of.OK, 0, None)],
        ibsre=[(of.OK, 0, None), ((0x8100, 5), 0, None)],
    )
    tells = lambda *selectors: [card.status(selector) for selector in selectors]
    expect(tells(Selector.REN, Selector.REN, Selector.SRQ), [1, 0, 1])
    expect(tells(Selector.SRQ, Selector.SRQ), [1, 0])  # by ibsta, where the lines aren't told
    expect(error_of(card.status, Selector.NDAC), 8)
    expect(tells(Selector.IN_CHARGE, Selector.TALKER, Selector.LISTENER), [1, 1, 0])
    expect(tells(Selector.SYSTEM_CONTROLLER, Selector.ADDRESS), [1, 9])
    library.asked = []
    for on in (True, True, False):
        card.set_atn(on)
    card.set_ren(True)
    card.set_address(9)
    card.clear_interface()
    expect(error_of(card.set_ren, False), 17)
    library.expect_asked(("ibcac", 1), ("ibcac", 0), ("ibcac", 1), ("ibgts", 0), ("ibsre", 1), ("ibpad", 9), ("ibsic",), ("ibsre", 0))


CASES = [each_procedure, refusals_of_rpc, errors_of_calls, lines_and_roles, a_listener_is_found, reads_and_their_reasons, long_messages,
         nobody_takes_or_gives, a_service_request, remote_clear_and_trigger, secondary_addresses, control_passed, records_in_any_pieces,
         junk_ends_its_connection_alone, any_bytes, two_clients, locks_are_waited_for, as_many_as_there_are_places, short_sizes, silence,
         a_reply_that_is_cut, reads_without_bytes, errors_by_a_script, a_port_that_is_closed_for_a_while, refused_words, refused_faults,
         linux_transfers, linux_lines]


if __name__ == "__main__":
    sys.path += [os.path.dirname(os.path.abspath(word)) for word in sys.argv[1:]]  # where the helper's own modules are
    cases.at_once(CASES, "card.py CARD", "card: ")
