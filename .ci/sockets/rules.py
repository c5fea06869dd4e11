"""Access rules, by which a server judges each call as it comes."""
import re
import subprocess
import tempfile
from concurrent.futures import ThreadPoolExecutor
from contextlib import ExitStack, contextmanager

import rpc
from rpc import (ABORT, BY_END, CREATE_INTR_CHAN, CREATE_LINK, DESTROY_INTR_CHAN, DESTROY_LINK, DEVICE_ABORT, ENABLE_SRQ, END, INTERRUPT,
                 LOCK, PATIENCE, READ, READSTB, TRIGGER, UNLOCK, WAITLOCK, WRITE, Peer)
from sockets.calls import call, create, created, lock, read, reply, write
from sockets.log import called
from sockets.server import Server, start

CLEAR, REMOTE, LOCAL, DOCMD = 15, 16, 17, 22
OTHER = "127.0.0.2"  # beside 127.0.0.1, from which a peer comes where it names no address

# each procedure of the core channel but null: its word in a rule, its arguments, and what stands behind the error where it is denied
PROCEDURES = [
    ("create", CREATE_LINK, (42, 0, 0, b"gpib0,5"), (0, 0, 0)),
    ("write", WRITE, (1, 1000, 0, END, b"alpha"), (0,)),
    ("read", READ, (1, 1024, 1000, 0, 0, 0), (0, b"")),
    ("stb", READSTB, (1, 0, 0, 1000), (0,)),
    ("trigger", TRIGGER, (1, 0, 0, 1000), ()),
    ("clear", CLEAR, (1, 0, 0, 1000), ()),
    ("remote", REMOTE, (1, 0, 0, 1000), ()),
    ("local", LOCAL, (1, 0, 0, 1000), ()),
    ("lock", LOCK, (1, 0, 0), ()),
    ("unlock", UNLOCK, (1,), ()),
    ("srq", ENABLE_SRQ, (1, 1, b"handle"), ()),
    ("docmd", DOCMD, (1, 0, 1000, 0, 0x020000, 1, 1, b"\x3f"), (b"",)),
    ("destroy", DESTROY_LINK, (1,), ()),
    ("intr", CREATE_INTR_CHAN, (0x7F000001, 9, INTERRUPT, 1, 0), ()),
    ("unintr", DESTROY_INTR_CHAN, (), ()),
]


@contextmanager
def written(rules):
    """The path of a file of these rules."""
    with tempfile.NamedTemporaryFile() as file:
        file.write(rules.encode())
        file.flush()
        yield file.name


@contextmanager
def ruled(rules, *options):
    """A server with these rules, which keeps a log. Their file is gone while it serves."""
    with ExitStack() as stack:
        with written(rules) as path:
            server = stack.enter_context(Server("--rules", path, "--log", *options, keeps_errors=True))
        yield server


def no_link(xid):
    return reply(xid, 3, 0, 0, 0)


def a_write_is_denied_to_one_address():
    """It does all else on that device, and writes to another one. A peer of another address writes there. The device hears nothing of
    what is denied, and the lock of a link changes nothing in it."""
    with ruled("# it may look\n\ndeny 127.0.0.2/32 write 5\nallow 127.0.0.0/8 * *\n") as server, Peer(server.core) as one:
        one.ask(create(1, b"gpib0,5"), created(1, 1, server))
        with Peer(server.core, address=OTHER) as two:
            two.ask(create(1, b"gpib0,5"), created(1, 2, server))
            two.ask(create(2, b"gpib0,7"), created(2, 3, server))
            two.ask(write(3, 2, b"theirs"), reply(3, 3, 0))
            one.ask(write(2, 1, b"alpha"), reply(2, 0, 5))
            two.ask(read(4, 2), reply(4, 0, BY_END, b"alpha"))
            two.ask(write(5, 3, b"beta"), reply(5, 0, 4))
            two.ask(read(6, 3), reply(6, 0, BY_END, b"beta"))
            two.ask(lock(7, 2), reply(7, 0))
            two.ask(write(8, 2, b"theirs"), reply(8, 3, 0))
            one.ask(write(3, 1, b"gamma"), reply(3, 11, 0))
            first, second = called("core", 1, one), called("core", 2, two)
            log = [f"{first} came", f"{second} came", *2 * [f"{second} denied: write, rule 1"]]
            server.expect_log(*log)
        server.expect_log(*log, f"{second} ended: closed by its peer, 8 calls")


def a_name_is_judged_as_its_device():
    """Whatever text a device is asked for by, the rules for its address hold, and so do those for the interface. A text that names
    nothing is the gateway's to answer where a rule for each place allows it: that is no denial."""
    names = ("--name", "inst0=gpib0,5", "--name", "scope=gpib0,7", "--name", "gpib0,9=gpib0,7", "--name", "all=gpib0")
    rules = "deny 127.0.0.1/32 write 5\ndeny 127.0.0.1/32 create 7\ndeny 127.0.0.1/32 * bus\nallow * * *\n"
    with ruled(rules, *names) as server, Peer(server.core) as one:
        one.ask(create(1, b"inst0"), created(1, 1, server))
        one.ask(write(2, 1, b"alpha"), reply(2, 3, 0))
        for xid, device in enumerate((b"scope", b"gpib0,7", b"GPIB0,7", b"gpib0,7,1", b"gpib0,9", b"all", b"gpib0", b"inst1"), 3):
            one.ask(create(xid, device), no_link(xid))
        with Peer(server.core, address=OTHER) as two:
            two.ask(create(1, b"inst0"), created(1, 2, server))
            two.ask(write(2, 2, b"beta"), reply(2, 0, 4))
            one.ask(read(11, 1), reply(11, 0, BY_END, b"beta"))
            two.ask(create(3, b"scope"), created(3, 3, server))
            two.ask(create(4, b"all"), created(4, 4, server))
            first, second = called("core", 1, one), called("core", 2, two)
            server.expect_log(f"{first} came", f"{first} denied: write, rule 1", *5 * [f"{first} denied: create, rule 2"],
                              *2 * [f"{first} denied: create, rule 3"], f"{second} came")


def eight_addresses_at_once():
    """Four of eight clients are denied their writes, each by a rule of its own, while the others have the lock of the same device in
    turn and read back their own bytes."""
    rules = "".join(f"deny 127.0.0.{number}/32 write *\n" for number in (1, 3, 5, 7)) + "allow 127.0.0.0/28 * *\n"
    with ruled(rules) as server, ExitStack() as stack:
        peers = []
        for number in range(1, 9):
            peer = stack.enter_context(Peer(server.core, address=f"127.0.0.{number}"))
            peer.ask(create(1, b"gpib0,5"), created(1, number, server))
            peers.append(peer)

        def is_denied(link, peer):
            for xid in range(2, 102):
                peer.ask(write(xid, link, b"client %d" % link), reply(xid, 3, 0))

        def takes_turns(link, peer):
            data = b"client %d" % link
            for xid in range(2, 102, 4):
                peer.ask(lock(xid, link, WAITLOCK, 60000), reply(xid, 0))
                peer.ask(write(xid + 1, link, data), reply(xid + 1, 0, len(data)))
                peer.ask(read(xid + 2, link), reply(xid + 2, 0, BY_END, data))
                peer.ask(call(xid + 3, UNLOCK, link), reply(xid + 3, 0))

        with ThreadPoolExecutor(len(peers)) as pool:
            for does in [pool.submit(is_denied if link % 2 else takes_turns, link, peer) for link, peer in enumerate(peers, 1)]:
                does.result()
        for rule, number in enumerate((1, 3, 5, 7), 1):
            its = re.escape(called("core", number, peers[number - 1]))
            server.expect_told(f"[0-9]+ {its} denied: write, rule {rule}", 100)
        server.expect_told(".* denied: .*", 400)


def what_no_rule_allows():
    """It is denied by rule 0: also a call on a link that isn't there, for which only rules for each place are."""
    with ruled("allow * create 5\nallow * * 7\n") as server, Peer(server.core) as peer:
        peer.ask(create(1, b"gpib0,9"), no_link(1))
        peer.ask(write(2, 0, b"alpha"), reply(2, 3, 0))
        peer.ask(create(3, b"gpib0,5"), created(3, 1, server))
        peer.ask(write(4, 1, b"alpha"), reply(4, 3, 0))
        peer.ask(read(5, 99), reply(5, 3, 0, b""))
        peer.ask(create(6, b"gpib0,7"), created(6, 2, server))
        peer.ask(lock(7, 2), reply(7, 0))
        peer.ask(call(8, DESTROY_LINK, 2), reply(8, 0))
        peer.ask(lock(9, 2), reply(9, 3))
        its = called("core", 1, peer)
        words = ("create", "write", "write", "read", "lock")
        server.expect_log(f"{its} came", *(f"{its} denied: {word}, rule 0" for word in words))


def a_link_of_another_has_no_place():
    """A call on it comes to the gateway where a rule for each place allows it, and has its error. So has one behind a denied create_link,
    on the link that its reply tells."""
    with ruled("deny 127.0.0.2/32 * 5\nallow * * *\n") as server, Peer(server.core) as one:
        one.ask(create(1, b"gpib0,5"), created(1, 1, server))
        with Peer(server.core, address=OTHER) as two:
            two.ask(write(1, 1, b"theirs"), reply(1, 4, 0))
            two.ask(create(2, b"gpib0,5"), no_link(2))
            two.ask(write(3, 0, b"theirs"), reply(3, 4, 0))
            two.ask(call(4, DESTROY_LINK, 1), reply(4, 4))
            one.ask(write(2, 1, b"alpha"), reply(2, 0, 5))
            one.ask(read(3, 1), reply(3, 0, BY_END, b"alpha"))
            first, second = called("core", 1, one), called("core", 2, two)
            server.expect_log(f"{first} came", f"{second} came", f"{second} denied: create, rule 1")


def a_file_without_a_rule_denies_all():
    """Each procedure has its word in the log. The null procedure is answered, and what is no readable call is refused as ever: that is
    no denial. Without a log nothing is told."""
    with ruled("") as server, Peer(server.core) as peer:
        for xid, (_, procedure, arguments, rest) in enumerate(PROCEDURES, 1):
            peer.ask(call(xid, procedure, *arguments), reply(xid, 3, *rest))
        peer.ask(call(16, 0), reply(16))
        peer.ask(call(17, 21), rpc.record(rpc.reply(17, status=3)))
        peer.ask(call(18, WRITE, 1), rpc.record(rpc.reply(18, status=4)))
        its = called("core", 1, peer)
        server.expect_log(f"{its} came", *(f"{its} denied: {word}, rule 0" for word, *_ in PROCEDURES))
    with written("# no rule\n\n") as path, Server("--rules", path, keeps_errors=True) as server, Peer(server.core) as peer:
        peer.ask(create(1, b"gpib0,5"), no_link(1))
        server.expect_log()


def an_abort_is_not_judged():
    """Who is denied every call has aborted what another's link does."""
    with ruled("deny 127.0.0.2/32 * *\nallow * * *\n") as server, Peer(server.core) as one:
        one.ask(create(1, b"gpib0,5"), created(1, 1, server))
        with Peer(server.abort, address=OTHER) as two:
            two.ask(call(1, DEVICE_ABORT, 1, program=ABORT), reply(1, 0))
            first, second = called("core", 1, one), called("abort", 1, two)
            server.expect_log(f"{first} came", f"{second} came")


def refused(server, *options):
    """What a server prints that doesn't come up with these options, its status, and what it tells on standard error. Its bench would be
    refused too, and its ports are those of this one."""
    process = start([*server.words(*server.ports), *options], stdin=subprocess.PIPE, stdout=subprocess.PIPE, stderr=subprocess.PIPE)
    text, told = process.communicate(b"at 1\n", timeout=PATIENCE)
    return text.decode(), process.returncode, told.decode()


def rules_that_are_refused():
    """Each before the bench, which would be refused at its first line with status 2 too, and before a port, which would be refused with
    status 3. So are a file that can't be read, and words with two files."""
    rows = [
        ("# rules\n\nallow * * *\nallow * write\nallow * * 31\n", "fault line 4 form\n"),
        ("deny 127.0.0.2/32 write gpib0,5\n", "fault line 1 form\n"),
        ("allow * * *\r\n", "fault line 1 form\n"),
        ("allow * * *\n" * 257, "fault many\n"),
        ("#" * 1_048_577, "fault long\n"),
    ]
    with Server() as server, tempfile.TemporaryDirectory() as folder:
        for rules, due in rows:
            with written(rules) as path:
                *got, _ = refused(server, "--rules", path)
            assert got == [due, 2], f"{due!r} is due, and it ended with {got}"
        for path in (f"{folder}/rules.txt", folder):
            *got, told = refused(server, "--rules", path)
            assert got == ["", 7], f"{path} can't be read, and it ended with {got}"
            assert re.fullmatch(f"vxgate: {re.escape(path)}: .*\n", told), f"it told {told!r}"
        with written("allow * * *\n") as path:
            text, status, _ = refused(server, "--rules", path, "--rules", path)
            assert text.startswith("usage: vxgate ") and status == 1, f"two files are given, and it ended with {text!r} and {status}"
        with Peer(server.core) as peer:
            peer.ask(call(1, 0), reply(1))


CASES = [
    a_write_is_denied_to_one_address,
    a_name_is_judged_as_its_device,
    eight_addresses_at_once,
    what_no_rule_allows,
    a_link_of_another_has_no_place,
    a_file_without_a_rule_denies_all,
    an_abort_is_not_judged,
    rules_that_are_refused,
]
