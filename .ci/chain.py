#!/usr/bin/env python3
"""Tests the server `vxgate` where its bus is behind another box, over sockets of this host.

    chain.py SERVER CLIENT CARD     SERVER is `vxgate`, CLIENT `vxcall`, CARD the helper `contrib/vx_card.py`
    chain.py .. --only SUBJECT      runs the cases of one file of `sockets/` alone, or `boxes`, `faults` or `passing`

The cases of `sockets.py` run on a server whose box is another `vxgate`, which has their bench. What goes by words that are another
server's is left out. Then the box is killed, started anew, stopped and continued: once it is a `vxgate`, and once the helper in its
simulated form. At last the helper has faults by a script.

It prints a line a case and at last `chain: N passed, M failed`, and ends with status 1 where a case failed or something hung.
"""
import functools
import shutil
import signal
import struct
import subprocess
import sys
import tempfile
import time

import card
import rpc
from rpc import (CREATE_INTR_CHAN, CREATE_LINK, DESTROY_LINK, ENABLE_SRQ, END, HOST, INTERRUPT, INTR_SRQ, LOCK, PATIENCE, READSTB, TRIGGER,
                 UNLOCK, WAITLOCK, WRITE, Client, Peer)
from serving import bound, free_ports, port_of
from sockets import calls, server
from sockets.running import SUBJECTS, at_paths, cases_of, status_of, taken
from sockets.server import BENCH, end_all, programs, started
from tapping import Tap

CLEAR, REMOTE, LOCAL, DOCMD = 15, 16, 17, 22
IO_TIMEOUT, IO_ERROR, LOCKED = 15, 17, 11  # errors
UNMADE = 2  # the status of a front that doesn't have its box
LONG = 60000  # milliseconds that a call has on the bus
AT_ONCE = 10  # seconds in which an answer comes that waits for the box once or twice, also on a busy machine
AGAIN = 30  # seconds in which a box that is there again is used again

# cases of `sockets.py` that are about another server than one whose bus is behind a box
LEFT_OUT = {"refused_starts": "it refuses benches, and the box has the bench"}


# ---- gateways and their boxes


class Front(server.Server):
    """A gateway whose bus is behind this box."""

    def __init__(self, box, *options, **how):
        super().__init__(*options, bench="", **how)
        self.words = lambda core, abort: [*programs["server"], "--upstream", HOST, str(box.ports[0]), "gpib0", "--core", str(core),
                                          "--abort", str(abort), *options]

    def user(self):
        return User(self.core)


class Chain(Front):
    """A gateway whose bus is behind another one, which has this bench."""

    def __init__(self, *options, bench=BENCH, **how):
        self.far = server.Server(bench=bench)
        super().__init__(self.far, *options, **how)

    def __enter__(self):
        self.far.__enter__()
        try:
            return super().__enter__()
        except BaseException:
            self.far.__exit__()
            raise

    def __exit__(self, *_):
        super().__exit__()
        self.far.__exit__()


class Card(card.Helper):
    """The helper in its simulated form, with an instrument at 5 that says messages back."""

    def __init__(self, *faults, **how):
        super().__init__(*programs["card"], *faults, **how)

    def start(self, port):
        process = super().start(port)
        started.append(process)
        return process


class User(Client):
    """A client of the front."""

    def error(self, procedure, *arguments):
        return struct.unpack(">I", self.results(procedure, *arguments)[:4])[0]

    def device(self, device="gpib0,5"):
        """The number of a link to a device."""
        error, link = self.create(device)
        assert error == 0, f"a link to {device} has error {error}"
        return link

    def write(self, link, data):
        return struct.unpack(">2I", self.results(WRITE, link, LONG, 0, END, data))

    def status_byte(self, link):
        """The error, and the status byte."""
        return struct.unpack(">2I", self.results(READSTB, link, 0, 0, LONG))

    def expect_query(self, link, message, due=None):
        expect(self.write(link, message), (0, len(message)))
        expect(self.read(link, 65536, LONG), (0, message if due is None else due))

    def expect_works(self, link, message=b"*IDN of nobody"):
        """The instrument is cleared, and says a message back."""
        expect(self.error(CLEAR, link, 0, 0, LONG), 0)
        self.expect_query(link, message)

    def expect_served_again(self, link):
        """Within seconds the box is used again; until then each call is answered soon, with an error of the bus."""
        until = time.monotonic() + AGAIN
        while True:
            (error, _), seconds = timed(self.status_byte, link)
            assert error in (0, IO_ERROR), f"a call has error {error}"
            assert seconds < AT_ONCE, f"a call took {seconds:.1f} s"
            if error == 0:
                return
            assert time.monotonic() < until, "the box isn't used again"
            time.sleep(0.1)


def expect(got, due):
    assert got == due, f"got {got}, due is {due}"


def timed(action, *arguments):
    """What it returns, and in how many seconds."""
    began = time.monotonic()
    return action(*arguments), time.monotonic() - began


def expect_soon(action, *arguments):
    """What it returns, which is there soon."""
    returned, seconds = timed(action, *arguments)
    assert seconds < AT_ONCE, f"an answer took {seconds:.1f} s"
    return returned


# ---- the cases of sockets.py


def write_at_length(xid, link, data):
    return calls.call(xid, WRITE, link, LONG, 0, END, data)


def put_behind_a_box(subject):
    """Its servers have their bus behind a box, and more time for their calls where a case doesn't say how much."""
    longer = {"Server": Chain, "write": write_at_length, "read": functools.partial(calls.read, io_timeout=LONG)}
    for name, other in longer.items():
        if hasattr(subject, name):
            setattr(subject, name, other)


# ---- a box that goes, and one that is silent


def far_gateway(**how):
    return server.Server(**how)


def a_box_is_killed_and_started_anew(box_of):
    """A call in between has error 17, and so has each one until the box is there again. A link to a device lives on."""
    with box_of() as box, Front(box) as front, front.user() as user, front.user() as other:
        link, theirs = user.device(), other.device("gpib0,7")
        user.expect_query(link, b"before")
        box.process.kill()
        box.process.wait()
        for data in (b"lost", b"lost too"):
            expect(expect_soon(user.write, link, data), (IO_ERROR, 0))
        expect(expect_soon(user.status_byte, link), (IO_ERROR, 0))
        expect(expect_soon(other.error, LOCK, theirs, 0, 0), 0)
        with box_of(ports=box.ports):
            user.expect_served_again(link)
            user.expect_query(link, b"behind")


def a_box_is_stopped_and_continued(box_of):
    """A box that says nothing: calls that need no bus are answered, and the lock of a client that leaves comes free."""
    with box_of() as box, Front(box) as front, front.user() as other:
        holder, theirs = front.user(), other.device()
        link = holder.device()
        expect(holder.error(LOCK, link, 0, 0), 0)
        holder.expect_query(link, b"before")
        box.process.send_signal(signal.SIGSTOP)
        try:
            expect(expect_soon(holder.write, link, b"unheard")[0], IO_ERROR)
            expect(expect_soon(other.results, 0), b"")
            more = expect_soon(other.device, "gpib0,7")
            for procedure, *arguments in ((LOCK, more, 0, 0), (ENABLE_SRQ, more, 1, b"handle"), (UNLOCK, more), (DESTROY_LINK, more)):
                expect(expect_soon(other.error, procedure, *arguments), 0)
            expect(expect_soon(other.error, LOCK, theirs, 0, 0), LOCKED)
            expect(expect_soon(other.write, theirs, b"barred"), (LOCKED, 0))
            holder.stream.close()
            expect(expect_soon(other.error, LOCK, theirs, WAITLOCK, LONG), 0)
            expect(expect_soon(other.write, theirs, b"unheard")[0], IO_ERROR)
        finally:
            box.process.send_signal(signal.SIGCONT)
        other.expect_served_again(theirs)
        other.expect_works(theirs, b"behind")


def a_box_has_one_front(box_of):
    """The interface of a box is locked for its front: another one doesn't come up until that is gone."""
    with box_of() as box:
        with Front(box) as front, front.user() as user:
            user.expect_query(user.device(), b"first")
            expect(ended(box.ports[0]), (UNMADE, b"fault upstream link %d\n" % LOCKED))
        expect_free(box)
        with Front(box) as front, front.user() as user:
            user.expect_works(user.device(), b"second")


def nobody_is_at_the_box():
    """A front whose box isn't there doesn't come up."""
    with bound() as nobody:
        expect(ended(port_of(nobody)), (UNMADE, b"fault upstream reach\n"))


def expect_free(box):
    """The interface of a box comes to be free: that its front is gone is seen a moment later."""
    with User(box.ports[0]) as user:
        error, link = struct.unpack(">2I", user.results(CREATE_LINK, 1, 1, LONG, b"gpib0")[:8])
        expect((error, user.error(DESTROY_LINK, link)), (0, 0))


def ended(port):
    """The status and the output of a front that doesn't come up."""
    core, abort = free_ports(2)
    words = [*programs["server"], "--upstream", HOST, str(port), "gpib0", "--core", str(core), "--abort", str(abort)]
    done = subprocess.run(words, stdin=subprocess.DEVNULL, capture_output=True, timeout=PATIENCE)
    return done.returncode, done.stdout


def boxes():
    """Each case with either box."""
    for case in (a_box_is_killed_and_started_anew, a_box_is_stopped_and_continued, a_box_has_one_front):
        for box_of in (far_gateway, Card):
            yield named(f"{case.__name__} ({box_of.__name__.lower()})", functools.partial(case, box_of))


def named(name, case):
    case.__name__ = name
    return case


# ---- the helper, and its faults


def each_call_of_a_device():
    """What the simulated instrument of the helper tells of what came to it."""
    with Card() as box, Front(box) as front, front.user() as user:
        link = user.device()
        expect_state = lambda *due: user.expect_query(link, b"STATE?", b"remote %d lockout 0 triggers %d clears %d\n" % due)
        user.expect_query(link, b"*IDN?\n", card.IDENTITY)
        expect(user.error(REMOTE, link, 0, 0, LONG), 0)
        expect(user.error(TRIGGER, link, 0, 0, LONG), 0)
        expect(user.error(CLEAR, link, 0, 0, LONG), 0)
        expect_state(1, 1, 1)
        interface = user.device("gpib0")
        expect(user.error(LOCAL, interface, 0, 0, LONG), 0)
        expect(user.error(CLEAR, interface, 0, 0, LONG), 0)
        expect_state(0, 1, 2)
        sent = bytes((card.UNL, card.MTA, card.MLA + 5))
        expect(user.results(DOCMD, interface, 0, LONG, 0, card.SEND, 1, 1, sent), rpc.spelled(0, sent))
        expect(user.write(interface, b"SRQ 3"), (0, 5))
        expect([user.status_byte(link) for _ in range(2)], [(0, 0x43), (0, 3)])
        nobody = user.device("gpib0,6")
        expect(struct.unpack(">2I", user.results(WRITE, nobody, 300, 0, END, b"a")), (IO_TIMEOUT, 0))
        expect(user.read(link, 1, 300), (IO_TIMEOUT, b""))


def a_service_request_of_a_card():
    """It comes to the channel of a client of the front."""
    with Card() as box, Front(box) as front, front.user() as user, bound() as listener:
        listener.settimeout(PATIENCE)
        listener.listen()
        link = user.device()
        expect(user.error(CREATE_INTR_CHAN, 0x7F000001, port_of(listener), INTERRUPT, 1, 0), 0)
        expect(user.error(ENABLE_SRQ, link, 1, b"card"), 0)
        with Peer(stream=listener.accept()[0]) as interrupts:
            expect(user.write(link, b"SRQ 1"), (0, 5))
            interrupts.expect(calls.call(1, INTR_SRQ, b"card", program=INTERRUPT))
            expect(user.status_byte(link), (0, 0x41))


def a_card_of_three_bytes_a_call():
    """Each byte goes once, and END with the last."""
    message = bytes(place * 7 % 256 for place in range(1000))
    with Card("short write 3", "short read 3") as box, Front(box) as front, front.user() as user:
        link = user.device()
        user.expect_query(link, message)
        user.expect_query(link, b"*IDN?", card.IDENTITY)
        expect(user.status_byte(link), (0, 0))


def a_late_reply_that_is_waited_for():
    """A box has the time of --patience for a call, and a second to answer."""
    with Card("silent write:2 1.5") as box, Front(box, "--patience", "1000") as front, front.user() as user:
        link = user.device()
        for message in (b"before", b"late", b"behind"):
            user.expect_query(link, message)


def a_fault_of_a_write(*faults, heard):
    """The second device_write comes to nothing for its client. What the instrument heard of it, it heard once."""
    with Card(*faults) as box, Front(box) as front, front.user() as user:
        link = user.device()
        user.expect_query(link, b"before")
        expect(expect_soon(user.write, link, b"once")[0], IO_ERROR)
        user.expect_served_again(link)
        if heard:
            expect(user.read(link, 100, LONG), (0, b"once"))
        expect(user.read(link, 100, 300), (IO_TIMEOUT, b""))
        user.expect_query(link, b"behind")


def a_fault_of_a_read(*faults, left):
    """The second device_read comes to nothing for its client, and what the instrument gave for it doesn't come again."""
    with Card(*faults) as box, Front(box) as front, front.user() as user:
        link = user.device()
        user.expect_query(link, b"before")
        expect(user.write(link, b"once"), (0, 4))
        error, data = expect_soon(user.read, link, 100, LONG)
        expect((error, data), (IO_ERROR, b""))
        user.expect_served_again(link)
        if left:
            expect(user.read(link, 100, LONG), (0, b"once"))
        expect(user.read(link, 100, 300), (IO_TIMEOUT, b""))
        user.expect_query(link, b"behind")


def a_fault_of_a_command(*faults):
    """One of some serial polls has error 17, and then the box is used again."""
    with Card(*faults) as box, Front(box) as front, front.user() as user:
        link = user.device()
        errors = []
        while not errors or errors[-1] == 0:
            assert len(errors) < 20, "no call has an error"
            errors.append(expect_soon(user.status_byte, link)[0])
        expect(errors[-1], IO_ERROR)
        user.expect_served_again(link)
        user.expect_works(link)


DEVICE = [each_call_of_a_device, a_service_request_of_a_card, a_card_of_three_bytes_a_call, a_late_reply_that_is_waited_for]

FAULTS = [
    named("a reply to a write is late", functools.partial(a_fault_of_a_write, "silent write:2 6", heard=True)),
    named("a reply to a write is cut", functools.partial(a_fault_of_a_write, "cut write:2 10", heard=True)),
    named("a reply to a write is cut in its mark", functools.partial(a_fault_of_a_write, "cut write:2 2", heard=True)),
    named("a write has an error", functools.partial(a_fault_of_a_write, "error write:2 17", heard=False)),
    named("the port is closed behind a cut", functools.partial(a_fault_of_a_write, "cut write:2 10", "refuse 1 4", heard=True)),
    named("no link is made behind a cut", functools.partial(a_fault_of_a_write, "cut write:2 10", "error create:2-3 9", heard=True)),
    named("it is cut while it is brought back", functools.partial(a_fault_of_a_write, "error write:2 17", "cut ifc:2 4", heard=False)),
    named("an error while it is brought back", functools.partial(a_fault_of_a_write, "error write:2 17", "error ifc:2 17", heard=False)),
    named("silence while it is brought back", functools.partial(a_fault_of_a_write, "error write:2 17", "silent ifc:2 6", heard=False)),
    named("a reply to a read is late", functools.partial(a_fault_of_a_read, "silent read:2 6", left=False)),
    named("a reply to a read is cut", functools.partial(a_fault_of_a_read, "cut read:2 30", left=False)),
    named("a read brings no byte and END", functools.partial(a_fault_of_a_read, "empty read:2", left=True)),
    named("a read has an error", functools.partial(a_fault_of_a_read, "error read:2 17", left=True)),
    named("a command has error 17", functools.partial(a_fault_of_a_command, "error command:8 17")),
    named("a command has error 15", functools.partial(a_fault_of_a_command, "error command:8 15")),
    named("a reply to a command is cut", functools.partial(a_fault_of_a_command, "cut command:9 20")),
    named("a reply to a command is late", functools.partial(a_fault_of_a_command, "silent command:9 6")),
]


# ---- what passes between both


def a_reader_reads_what_passes():
    """Of all that a front and its box send each other `tshark`, where it is installed, reads each VXI-11 message, and none is malformed."""
    with far_gateway() as box, Tap(*box.ports[:1]) as tap:
        with Front(tap) as front, front.user() as user:
            link = user.device()
            user.expect_works(link, bytes(range(256)) * 20)
            expect(user.status_byte(link)[0], 0)
            for procedure in (TRIGGER, REMOTE, LOCAL, CLEAR):
                expect(user.error(procedure, link, 0, 0, LONG), 0)
        capture = tap.capture()
    assert len(capture) > 20000, f"{len(capture)} bytes were kept"
    if shutil.which("tshark") is None:
        print("tshark isn't installed: nobody reads what passes", flush=True)
        return
    with tempfile.NamedTemporaryFile(suffix=".pcap") as file:
        file.write(capture)
        file.flush()
        assert packets_read(file.name, box.ports[0], "vxi11_core") > 100
        expect(packets_read(file.name, box.ports[0], "_ws.malformed"), 0)


def packets_read(name, port, wanted):
    """How many packets of a capture `tshark` shows by this filter."""
    words = ["tshark", "-r", name, "-d", f"tcp.port=={port},rpc", "-Y", wanted, "-T", "fields", "-e", "frame.number"]
    return len(subprocess.run(words, capture_output=True, timeout=PATIENCE, check=True).stdout.split())


# ---- all of them


def cases_by_subject():
    """The cases of each subject, by its name. Those of `sockets.py` have their servers behind a box."""
    for subject in SUBJECTS.values():
        put_behind_a_box(subject)
    of_sockets = {name: list(filter(is_kept, cases_of(subject))) for name, subject in SUBJECTS.items()}
    return {**of_sockets, "boxes": [*boxes(), nobody_is_at_the_box], "faults": [*DEVICE, *FAULTS], "passing": [a_reader_reads_what_passes]}


def is_kept(case):
    return case.__name__ not in LEFT_OUT


def main(words):
    only, subjects = taken(words, "--only"), cases_by_subject()
    if len(words) != 3 or only not in (None, *subjects):
        sys.exit(f"usage: chain.py SERVER CLIENT CARD [--only {'|'.join(subjects)}]")
    at_paths(words, "server", "client", "card")
    for name, why in LEFT_OUT.items():
        print(f"{name} is left out: {why}", flush=True)
    return status_of(subjects[only] if only else sum(subjects.values(), []), "chain: ")


if __name__ == "__main__":
    try:
        sys.exit(main(sys.argv[1:]))
    finally:
        end_all()
