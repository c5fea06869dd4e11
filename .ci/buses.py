#!/usr/bin/env python3
"""Tests the server of four buses `vxbuses`, whose path is the one word, over sockets of this host.

Each bus has an echo at address 5. Results are composed here from their words, by RFC 4506 and VXI-11. Each case takes its own port.
What goes wrong, and at last 'N passed, M failed', goes to standard error; the status is 1 where something went wrong.
"""
import subprocess
import time

import cases
import rpc
from rpc import (BY_END, CORE, CREATE_INTR_CHAN, CREATE_LINK, DESTROY_LINK, END, INTERRUPT, LAST, PATIENCE, READ, READSTB, RECORD_MAX,
                 WRITE, WRITE_MAX, Client, record, spelled)
from serving import Counted, free_ports

ABORT_PORT = 9011  # what a create_link tells
NOT_ACCESSIBLE, NO_LINK, NOT_SUPPORTED, LOCKED = 3, 4, 8, 11  # errors
BUSES = range(4)
SILENCE = 30  # seconds after which a client that says nothing is left


class Buses(Counted):
    """A server of so many links."""

    def client(self):
        return Client(*self.ports)


def expect(client, procedure, arguments, *due):
    """The results of this call are these, to the byte."""
    results = client.results(procedure, *arguments)
    assert results == spelled(*due), f"procedure {procedure} of {arguments}: the results are {results.hex(' ', 4)}"


def make_link(client, device, number, lock=0):
    expect(client, CREATE_LINK, (1, lock, 0, device), 0, number, ABORT_PORT, WRITE_MAX)


def write(client, link, data):
    expect(client, WRITE, (link, 10000, 0, END, data), 0, len(data))


def read(client, link, data):
    expect(client, READ, (link, 1024, 10000, 0, 0, 0), 0, BY_END, data)


def a_query_on_each_bus(program):
    """What is written on a bus is read there, though all four have been written on by then."""
    with Buses(program, 1) as buses:
        with buses.client() as client:
            for bus in BUSES:
                make_link(client, b"gpib%d,5" % bus, bus + 1)
            for bus in BUSES:
                write(client, bus + 1, b"*IDN? of bus %d" % bus)
            for bus in reversed(BUSES):
                read(client, bus + 1, b"*IDN? of bus %d" % bus)
        buses.expect_served(1)


def links_of_two_clients(program):
    """A bus counts its links on. The lock of a client that has gone is free, and so is each bus."""
    with Buses(program, 2) as buses:
        with buses.client() as client:
            make_link(client, b"gpib2,5", 3, lock=1)
            make_link(client, b"GPIB2,5", 7)
            expect(client, WRITE, (7, 10000, 0, END, b"A"), LOCKED, 0)
            make_link(client, b"gpib3,5", 4)
            write(client, 4, b"B")
        with buses.client() as client:
            make_link(client, b"gpib2,5", 11, lock=1)
            make_link(client, b"gpib3,5", 8)
            write(client, 11, b"C")
            read(client, 8, b"B")
            read(client, 11, b"C")
            expect(client, READSTB, (4, 0, 0, 10000), NO_LINK, 0)
            expect(client, DESTROY_LINK, (8,), 0)
        buses.expect_served(2)


def calls_of_no_bus(program):
    """A fifth bus, a link that nobody made, and an interrupt channel, which no bus has."""
    with Buses(program, 1) as buses:
        with buses.client() as client:
            expect(client, 0, ())
            expect(client, CREATE_LINK, (1, 0, 0, b"gpib4,5"), NOT_ACCESSIBLE, 0, 0, 0)
            expect(client, WRITE, (1, 10000, 0, END, b"A"), NO_LINK, 0)
            expect(client, CREATE_INTR_CHAN, (0x7F000001, 9012, INTERRUPT, 1, 0), NOT_SUPPORTED)
        buses.expect_served(1)


def a_client_that_vanishes(program):
    """One that holds locks on two buses is reset within a record: both are the next one's."""
    with Buses(program, 2) as buses:
        with buses.client() as client:
            for bus in (1, 2):
                make_link(client, b"gpib%d,5" % bus, bus + 1, lock=1)
            client.send(rpc.words(LAST | 64, 1))
            client.reset()
        with buses.client() as client:
            for bus in (1, 2):
                make_link(client, b"gpib%d,5" % bus, bus + 5, lock=1)
                write(client, bus + 5, b"A")
        buses.expect_served(2)


def a_silent_client(program):
    """One that holds a lock and says nothing is cut off, and the next one is served."""
    with Buses(program, 2) as buses:
        with buses.client() as silent, buses.client() as client:
            make_link(silent, b"gpib3,5", 4, lock=1)
            began = time.monotonic()
            make_link(client, b"gpib3,5", 8, lock=1)
            assert SILENCE - 5 < time.monotonic() - began < SILENCE + 30, "the next client is served after another time"
            silent.expect_end()
        buses.expect_served(2)


def replies_before_an_end(program):
    """Calls, a record that is no call or is too long, and a megabyte behind it, in one send: each call is answered."""
    calls = b"".join(record(rpc.call(xid, CORE, 0)) for xid in range(50))
    replies = b"".join(record(rpc.reply(xid)) for xid in range(50))
    ends = (record(rpc.words(1, 0)), rpc.words(LAST | RECORD_MAX + 1))
    with Buses(program, 40) as buses:
        for number in range(40):
            told = rpc.told_to(*buses.ports, calls + ends[number % 2] + bytes(1 << 20))
            assert told == replies, f"{len(told)} of {len(replies)} bytes came"
        buses.expect_served(40)


def a_client_that_stays(program):
    """One whose connection ended by junk, and that doesn't close it, holds up the next one for a second."""
    with Buses(program, 2) as buses:
        with buses.client() as client:
            make_link(client, b"gpib0,5", 1)
            client.send(record(rpc.words(1, 0)))
            began = time.monotonic()
            with buses.client() as other:
                make_link(other, b"gpib0,5", 5)
            assert time.monotonic() - began < 20, "a client that is gone holds up the next one"
        buses.expect_served(2)


def no_run(program):
    def ended(*words):
        done = subprocess.run([program, *words], capture_output=True, timeout=PATIENCE)
        return done.returncode, done.stdout

    usage, port = (1, b"usage: vxbuses PORT N\n"), str(*free_ports(1))
    assert ended() == ended(port) == ended(port, "0") == ended("0", "1") == ended(port, "1", "1") == usage, "other words are taken"
    with Buses(program, 1) as buses:
        assert ended(str(*buses.ports), "1") == (3, b""), "a taken port is served"


CASES = [a_silent_client, a_query_on_each_bus, links_of_two_clients, calls_of_no_bus, a_client_that_vanishes, replies_before_an_end,
         a_client_that_stays, no_run]


if __name__ == "__main__":
    cases.at_once(CASES, "buses.py BUSES")
