"""Calls and replies: values by RFC 4506, messages by RFC 5531, arguments and results by VXI-11 and VXI-11.2."""
from __future__ import annotations

import enum
from dataclasses import dataclass

CORE = 0x0607AF  # the program of VXI-11's core channel
AUTH_MAX, DEVICE_MAX, WORD_MAX = 400, 255, 0xFFFFFFFF  # bytes of a credential, of a device text, of any other opaque
WAITLOCK, END, TERMCHRSET = 0x01, 0x08, 0x80  # flags of a call (VXI-11, Device_Flags)


class Command(enum.IntEnum):
    """Those commands of device_docmd that are served (VXI-11.2, device_docmd)."""

    SEND = 0x020000
    STATUS = 0x020001
    ATN = 0x020002
    REN = 0x020003
    ADDRESS = 0x02000A
    IFC = 0x020010


# What a command has as data, in bytes, where that is fixed; and its name in a line of faults.
SIZES = {Command.STATUS: 2, Command.ATN: 2, Command.REN: 2, Command.ADDRESS: 4, Command.IFC: 0}
COMMAND_NAMES = {Command.SEND: "command", **{command: command.name.lower() for command in SIZES}}


class Unreadable(Exception):
    """Bytes that spell no value of the kind that is due."""


class Reader:
    """Reads values from the front of a message (RFC 4506, section 4)."""

    def __init__(self, data):
        self.data, self.place = data, 0

    def piece(self, size):
        piece = self.data[self.place : self.place + size]
        if len(piece) < size:
            raise Unreadable
        self.place += size
        return piece

    def word(self):
        return int.from_bytes(self.piece(4), "big")

    def boolean(self):
        value = self.word()
        if value > 1:
            raise Unreadable
        return value == 1

    def opaque(self, most=WORD_MAX):
        """Its length, its bytes, and zero bytes up to a multiple of 4."""
        size = self.word()
        if size > most:
            raise Unreadable
        data = self.piece(size)
        if any(self.piece(-size % 4)):
            raise Unreadable
        return data

    def end(self):
        if self.place < len(self.data):
            raise Unreadable


def spelled(*values):
    """Numbers as words and bytes as opaques, one behind another (RFC 4506, section 4)."""
    parts = []
    for value in values:
        if isinstance(value, bytes):
            parts += [len(value).to_bytes(4, "big"), value, bytes(-len(value) % 4)]
        else:
            parts.append(int(value).to_bytes(4, "big"))
    return b"".join(parts)


@dataclass(frozen=True)
class Null:
    """The null procedure, which each program of RPC has by convention."""

    names = ()

    @classmethod
    def read(cls, reader):
        return cls()

    def failed(self, error):
        return ()


@dataclass(frozen=True)
class CreateLink:
    """create_link; lock_timeout is in milliseconds."""

    client: int
    lock: bool
    lock_timeout: int
    device: bytes
    names = ("create",)

    @classmethod
    def read(cls, reader):
        return cls(reader.word(), reader.boolean(), reader.word(), reader.opaque(DEVICE_MAX))

    def failed(self, error):
        return error, 0, 0, 0


@dataclass(frozen=True)
class Write:
    """device_write; both times are in milliseconds."""

    link: int
    io_timeout: int
    lock_timeout: int
    flags: int
    data: bytes
    names = ("write",)

    @classmethod
    def read(cls, reader):
        return cls(*(reader.word() for _ in range(4)), reader.opaque())

    def failed(self, error):
        return error, 0


@dataclass(frozen=True)
class Read:
    """device_read of at most so many bytes; both times are in milliseconds."""

    link: int
    size: int
    io_timeout: int
    lock_timeout: int
    flags: int
    char: int
    names = ("read",)

    @classmethod
    def read(cls, reader):
        return cls(*(reader.word() for _ in range(6)))

    @property
    def stop(self):
        """The byte at which it stops, where it has one: the low eight bits of its word."""
        return self.char & 0xFF if self.flags & TERMCHRSET else None

    def failed(self, error):
        return error, 0, b""


@dataclass(frozen=True)
class Docmd:
    """device_docmd; both times are in milliseconds."""

    link: int
    flags: int
    io_timeout: int
    lock_timeout: int
    command: int
    network_order: bool
    data_size: int
    data: bytes

    @classmethod
    def read(cls, reader):
        return cls(*(reader.word() for _ in range(5)), reader.boolean(), reader.word(), reader.opaque())

    @property
    def names(self):
        return ("docmd", COMMAND_NAMES[self.command]) if self.command in COMMAND_NAMES else ("docmd",)

    @property
    def order(self):
        return "big" if self.network_order else "little"

    @property
    def number(self):
        return int.from_bytes(self.data, self.order)

    def failed(self, error):
        return error, b""


@dataclass(frozen=True)
class DestroyLink:
    """destroy_link."""

    link: int
    names = ("destroy",)

    @classmethod
    def read(cls, reader):
        return cls(reader.word())

    def failed(self, error):
        return (error,)


# the calls by the numbers of their procedures (VXI-11, core channel)
CALLS = {0: Null, 10: CreateLink, 11: Write, 12: Read, 22: Docmd, 23: DestroyLink}


class Junk(Exception):
    """A record that is no call."""


class NotServed(Exception):
    """A call that RPC itself refuses; it has the whole reply."""

    def __init__(self, *numbers):
        super().__init__()
        self.reply = spelled(*numbers)


REPLY, ACCEPTED = 1, (0, 0, 0)  # of a reply: its kind; that the call is accepted, and no verifier (RFC 5531, section 9)
SUCCESS, PROG_UNAVAIL, PROG_MISMATCH, PROC_UNAVAIL, GARBAGE_ARGS = range(5)


def header_of(message):
    """The xid, program, version and procedure of a call, and the reader of its arguments (RFC 5531, section 9)."""
    reader = Reader(message)
    try:
        xid, kind, rpc = (reader.word() for _ in range(3))
        if kind != 0:
            raise Junk
        if rpc != 2:
            raise NotServed(xid, REPLY, 1, 0, 2, 2)
        numbers = [reader.word() for _ in range(3)]
        for _ in ("credential", "verifier"):
            reader.word()
            reader.opaque(AUTH_MAX)
    except Unreadable:
        raise Junk from None
    return xid, *numbers, reader


def call_of(message):
    """The xid and the call of a message."""
    xid, program, version, procedure, reader = header_of(message)
    if program != CORE:
        raise NotServed(xid, REPLY, *ACCEPTED, PROG_UNAVAIL)
    if version != 1:
        raise NotServed(xid, REPLY, *ACCEPTED, PROG_MISMATCH, 1, 1)
    if procedure not in CALLS:
        raise NotServed(xid, REPLY, *ACCEPTED, PROC_UNAVAIL)
    try:
        call = CALLS[procedure].read(reader)
        reader.end()
    except Unreadable:
        raise NotServed(xid, REPLY, *ACCEPTED, GARBAGE_ARGS) from None
    return xid, call


def reply_to(xid, results):
    return spelled(xid, REPLY, *ACCEPTED, SUCCESS, *results)
