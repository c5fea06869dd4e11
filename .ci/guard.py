#!/usr/bin/env python3
"""Tests the guard `vxguard`, whose path is the one word, over sockets of this host.

Whole messages are composed here from their words, by RFC 5531 and VXI-11. Clients come from two addresses of the loopback, 127.0.0.1
and 127.0.0.2. Each case takes its own port. What goes wrong, and at last 'N passed, M failed', goes to standard error; the status is 1
where something went wrong.
"""
import struct
import subprocess

import cases
import rpc
from rpc import CORE, LAST, PATIENCE, TRIGGER, Client, record, words
from serving import Counted, free_ports

NULL = 0
ALLOWED, DENIED, TIMED_OUT = 0, 3, 15
ONE, OTHER = "127.0.0.1", "127.0.0.2"


class Guard(Counted):
    """A guard by these rules that serves so many links."""

    def __init__(self, program, rules, number):
        super().__init__(program, number, rules.encode())

    def client(self, address):
        return Client(*self.ports, address)


def trigger(client, link):
    """The error."""
    return struct.unpack(">I", client.results(TRIGGER, link, 0, 0, 1000))[0]


def one_writes_and_one_reads(program):
    rules = "# the bench's own computer may do all, the other may only read\nallow 127.0.0.1/32 * *\n\n" \
            "deny 127.0.0.2/32 write *\nallow 127.0.0.2/32 create 5\nallow 127.0.0.2/32 read 5\n"
    with Guard(program, rules, 2) as guard:
        with guard.client(ONE) as client:
            error, lid = client.create("gpib0,5")
            assert error == ALLOWED, "the first may not make a link"
            assert client.write(lid, b"hello") == (ALLOWED, 5), "the first may not write"
        with guard.client(OTHER) as client:
            error, lid = client.create("gpib0,5")
            assert error == ALLOWED, "the second may not make a link"
            assert client.write(lid, b"goodbye") == (DENIED, 0), "the second may write"
            assert client.read(lid, 5) == (ALLOWED, b"hello"), "it reads something else"
            assert client.read(lid, 5, io_timeout=0) == (TIMED_OUT, b""), "the device heard what was denied"
            assert trigger(client, lid) == DENIED, "it may do what no rule allows"
        guard.expect_served(2, "deny 2 2\ndeny 2 0\n")


def the_other_way_round(program):
    with Guard(program, "deny 127.0.0.1/32 write 5\nallow 127.0.0.0/8 * *\n", 2) as guard:
        for address, wanted in ((ONE, (DENIED, 0)), (OTHER, (ALLOWED, 1))):
            with guard.client(address) as client:
                error, lid = client.create("gpib0,5")
                assert (error, client.write(lid, b"A")) == (ALLOWED, wanted), f"another answer to {address}"
        guard.expect_served(2, "deny 1 1\n")


def no_rule(program):
    with Guard(program, "", 1) as guard:
        with guard.client(ONE) as client:
            assert client.results(NULL) == b"", "the null procedure is judged"
            assert client.create("gpib0,5") == (DENIED, 0), "a call without a rule is allowed"
        guard.expect_served(1, "deny 1 0\n")


def a_peer_that_vanishes(program):
    with Guard(program, "allow * * *\n", 2) as guard:
        with guard.client(ONE) as client:
            client.send(words(LAST | 64, 1))
            client.reset()
        with guard.client(OTHER) as client:
            assert client.create("gpib0,5")[0] == ALLOWED, "the next peer isn't served"
        guard.expect_served(2)


def replies_before_an_end(program):
    """Calls, a record that is no call, and a megabyte behind it, in one send: each call is answered."""
    calls = b"".join(record(rpc.call(xid, CORE, NULL)) for xid in range(50))
    replies = b"".join(record(rpc.reply(xid)) for xid in range(50))
    with Guard(program, "allow * * *\n", 20) as guard:
        for _ in range(20):
            told = rpc.told_to(*guard.ports, calls + record(words(1, 0)) + bytes(1 << 20))
            assert told == replies, f"{len(told)} of {len(replies)} bytes came"
        guard.expect_served(20)


def ended(program, arguments, rules):
    done = subprocess.run([program, *arguments], input=rules.encode(), capture_output=True, timeout=PATIENCE)
    return done.returncode, done.stdout.decode()


def no_run(program):
    usage = (1, "usage: vxguard PORT N\n")
    port = str(*free_ports(1))
    assert ended(program, [], "allow * * *") == usage, "no words are taken"
    assert ended(program, [port, "0"], "allow * * *") == usage, "no link is taken"
    assert ended(program, [port, "1"], "# one\n\nallow * * 31\n") == (2, "fault line 3 form\n"), "another form is taken"
    assert ended(program, [port, "1"], "allow * * *\n" * 257) == (2, "fault many\n"), "257 rules are taken"
    assert ended(program, [port, "1"], "#" * 1_048_577) == (2, "fault long\n"), "a long policy is taken"
    with Guard(program, "allow * * *\n", 1) as guard:
        with guard.client(ONE) as client:
            client.results(NULL)
            assert ended(program, guard.words(*guard.ports)[1:], "allow * * *\n") == (3, ""), "a taken port is served"


CASES = [one_writes_and_one_reads, the_other_way_round, no_rule, a_peer_that_vanishes, replies_before_an_end, no_run]


if __name__ == "__main__":
    cases.at_once(CASES, "guard.py GUARD")
