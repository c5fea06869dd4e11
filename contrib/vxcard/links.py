"""The links to a card's interface, and the calls on them."""
import threading
import time
from contextlib import contextmanager

from vxcard.card import ADDRESS_MAX, BY_COUNT, Error, Refused, Selector
from vxcard.messages import COMMAND_NAMES, END, SIZES, WAITLOCK, Command, CreateLink, DestroyLink, Docmd, Null, Read, Write

DATA_MAX = 65536  # bytes of a device_write, of a device_read, of a send command
LINKS_MAX = 64  # links at a time
IO_MAX = 10_000  # milliseconds that one call may keep the bus, whatever its io_timeout says
LOOK = 0.05  # seconds between two looks whether a client that waits is still there


class Left(Exception):
    """The client of a call isn't there any more."""


class Interface:
    """The links to a card's interface, of which at most one has the lock, and the calls on them.

    A link belongs to the connection that made it. One call at a time has the bus.
    """

    def __init__(self, card, name):
        self.card, self.name = card, name.lower().encode()
        self.changed = threading.Condition()
        self.links, self.holder, self.busy, self.given = {}, None, False, 0
        self.does = {Null: self.do_nothing, CreateLink: self.create, Write: self.write, Read: self.read, Docmd: self.docmd,
                     DestroyLink: self.destroy}

    def answer(self, call, client):
        """The results of a call of this client."""
        try:
            return self.does[type(call)](call, client)
        except Refused as refused:
            return call.failed(refused.error)

    def leave(self, client):
        """The links of a client go, and the lock with them."""
        with self.changed:
            for link in [link for link, owner in self.links.items() if owner is client]:
                self.remove(link)

    def remove(self, link):
        del self.links[link]
        if self.holder == link:
            self.holder = None
        self.changed.notify_all()

    def expect_link(self, link, client):
        if self.links.get(link) is not client:
            raise Refused(Error.INVALID_LINK)

    def is_barred(self, link):
        """Whether another link has the lock."""
        return self.holder not in (None, link)

    def forget_the_gone(self, link):
        """Frees a lock in this link's way whose client is gone, if its own thread hasn't seen that yet."""
        if self.is_barred(link) and self.links[self.holder].has_left():
            self.remove(self.holder)

    def await_turn(self, link, client, milliseconds):
        """Waits until no lock is in this link's way, for so long at most, and no call has the bus."""
        until = time.monotonic() + milliseconds / 1000
        self.forget_the_gone(link)
        while self.busy or self.is_barred(link):
            if self.is_barred(link) and time.monotonic() >= until:
                raise Refused(Error.LOCKED)
            self.changed.wait(LOOK)
            if client.has_left():
                raise Left

    @contextmanager
    def turn(self, call, client):
        """The card, for one call on a link of this client."""
        with self.changed:
            self.await_turn(call.link, client, call.lock_timeout if call.flags & WAITLOCK else 0)
            self.busy = True
        try:
            yield self.card
        finally:
            with self.changed:
                self.busy = False
                self.changed.notify_all()

    def do_nothing(self, call, client):
        return ()

    def create(self, call, client):
        if call.device.lower() != self.name:
            raise Refused(Error.NOT_ACCESSIBLE)
        with self.changed:
            if call.lock:
                self.await_turn(None, client, call.lock_timeout)
            if len(self.links) >= LINKS_MAX:
                raise Refused(Error.OUT_OF_RESOURCES)
            self.given += 1
            self.links[self.given] = client
            if call.lock:
                self.holder = self.given
            return Error.NONE, self.given, 0, DATA_MAX

    def destroy(self, call, client):
        with self.changed:
            self.expect_link(call.link, client)
            self.remove(call.link)
        return (Error.NONE,)

    def write(self, call, client):
        self.expect_link(call.link, client)
        if len(call.data) > DATA_MAX:
            raise Refused(Error.PARAMETER)
        with self.turn(call, client) as card:
            return card.write(call.data, bool(call.flags & END), min(call.io_timeout, IO_MAX))

    def read(self, call, client):
        self.expect_link(call.link, client)
        with self.turn(call, client) as card:
            given = card.read(min(call.size, DATA_MAX), call.stop, min(call.io_timeout, IO_MAX))
        if call.size > DATA_MAX:  # more may be asked for
            return given._replace(reason=given.reason & ~BY_COUNT)
        return given

    def docmd(self, call, client):
        self.expect_link(call.link, client)
        expect_command(call)
        with self.turn(call, client) as card:
            return Error.NONE, commanded(card, call)


def expect_command(call):
    """A docmd is one that is served, its data have the right length, and they are in range."""
    if call.command not in COMMAND_NAMES:
        raise Refused(Error.NOT_SUPPORTED)
    if len(call.data) != SIZES.get(call.command, len(call.data)) or len(call.data) > DATA_MAX:
        raise Refused(Error.PARAMETER)
    if call.command == Command.STATUS and not Selector.REN <= call.number <= Selector.ADDRESS:
        raise Refused(Error.PARAMETER)
    if call.command == Command.ADDRESS and call.number > ADDRESS_MAX:
        raise Refused(Error.PARAMETER)


def commanded(card, call):
    """Has the card do a docmd, and what that tells: the data again, but for a bus status (VXI-11.2, device_docmd)."""
    if call.command == Command.STATUS:
        return card.status(Selector(call.number)).to_bytes(2, call.order)
    if call.command == Command.SEND:
        card.send(call.data, min(call.io_timeout, IO_MAX))
    elif call.command == Command.ATN:
        card.set_atn(call.number != 0)
    elif call.command == Command.REN:
        card.set_ren(call.number != 0)
    elif call.command == Command.ADDRESS:
        card.set_address(call.number)
    else:
        card.clear_interface()
    return call.data
