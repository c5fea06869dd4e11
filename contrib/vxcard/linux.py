"""A card or an adapter that linux-gpib drives."""
import ctypes
import time
from typing import NamedTuple

from vxcard.card import BY_CHAR, BY_COUNT, BY_END, Card, Error, Given, Refused, Selector, Taken


class Status(NamedTuple):
    """How a function of linux-gpib ended: its name, and ibsta, iberr and ibcntl as they were behind it."""

    name: str
    sta: int
    err: int
    count: int

    # bits of ibsta
    ERR, TIMO, END, SRQI, CIC, TACS, LACS = 0x8000, 0x4000, 0x2000, 0x1000, 0x20, 0x08, 0x04
    # values of iberr, which counts where ERR is set
    EDVR, ENOL = 0, 2

    @property
    def error(self):
        if not self.sta & self.ERR:
            return Error.NONE
        return Error.IO_TIMEOUT if self.sta & self.TIMO else Error.IO

    @property
    def nobody_listened(self):
        return bool(self.sta & self.ERR) and self.err == self.ENOL

    def moved(self, most):
        """How many bytes moved: behind EDVR ibcntl has an error of the system instead."""
        if self.sta & self.ERR and self.err == self.EDVR:
            return 0
        return max(0, min(most, self.count))

    def __str__(self):
        return f"{self.name}: ibsta {self.sta:04X}, iberr {self.err}, ibcntl {self.count}"


class LinuxCard(Card):
    """A board of linux-gpib, by the functions of its C library (its manual: ibcmd, ibwrt, ibrd, ibsre, ibsic, iblines, ibpad, ibcac,
    ibgts, ibtmo, ibeot, ibeos, ibask, ibconfig, ibwait). It was never tried on hardware.

    They are called by `ctypes`. linux-gpib's own Python module stands on the same library, but its read drops the bytes of a read that
    ran out of time, and those would be lost to whoever reads on.

    The board's own serial polls are switched off: else linux-gpib sends commands of its own when a device asks for service.
    """

    # the codes of ibtmo, by the milliseconds that they stand for: T1ms to T10s
    TIMES = ((1, 5), (3, 6), (10, 7), (30, 8), (100, 9), (300, 10), (1_000, 11), (3_000, 12), (10_000, 13))
    COMMAND_LEAST = 300  # milliseconds that a command byte has at least: one that was cut short can't be told from one that went
    REOS, BIN = 0x400, 0x1000  # of ibeos: a read stops at the byte; all eight bits of it count
    ASK_PAD, ASK_SYSTEM_CONTROLLER, CONFIGURE_AUTOPOLL = 0x01, 0x0A, 0x07  # of ibask and ibconfig
    # of iblines: by what a line can be told, and by what it stands
    LINES = {Selector.REN: (0x10, 0x1000), Selector.SRQ: (0x20, 0x2000), Selector.NDAC: (0x02, 0x0200)}
    ROLES = {Selector.SRQ: Status.SRQI, Selector.IN_CHARGE: Status.CIC, Selector.TALKER: Status.TACS, Selector.LISTENER: Status.LACS}
    ASKED = {Selector.SYSTEM_CONTROLLER: ASK_SYSTEM_CONTROLLER, Selector.ADDRESS: ASK_PAD}

    def __init__(self, library, board, tell):
        """`library` has the functions; `tell` is given a line about each that failed."""
        self.library, self.board, self.tell, self.told = library, board, tell, None
        self.expect(self.ask("ibconfig", self.CONFIGURE_AUTOPOLL, 0))
        self.expect(self.ask("ibeos", 0))

    @staticmethod
    def loaded():
        """The library, as the system has it."""
        number, long = ctypes.c_int, ctypes.c_long
        library = ctypes.CDLL("libgpib.so.0")
        for name in ("ibcmd", "ibwrt", "ibrd"):
            getattr(library, name).argtypes = (number, ctypes.c_char_p, long)
        library.ibask.argtypes = (number, number, ctypes.c_void_p)
        library.iblines.argtypes = (number, ctypes.c_void_p)
        library.ThreadIbcntl.restype = long
        return library

    def ask(self, name, *arguments):
        """Has the library do this at the board."""
        sta = getattr(self.library, name)(self.board, *arguments)
        status = Status(name, sta & 0xFFFF, self.library.ThreadIberr(), self.library.ThreadIbcntl())
        if status.error == Error.IO and status != self.told:  # what fails again and again is told once
            self.told = status
            self.tell(str(status))
        return status

    @staticmethod
    def expect(status):
        if status.error:
            raise Refused(status.error)

    def set_time(self, milliseconds):
        """The time that the next transfer has: the least one of linux-gpib that isn't shorter."""
        codes = [code for most, code in self.TIMES if milliseconds <= most]
        self.expect(self.ask("ibtmo", codes[0] if codes else self.TIMES[-1][1]))

    def send(self, data, milliseconds):
        self.set_time(max(milliseconds, self.COMMAND_LEAST))
        status = self.ask("ibcmd", data, len(data))
        self.expect(status)
        if status.moved(len(data)) < len(data):
            raise Refused(Error.IO)

    def write(self, data, end, milliseconds):
        if not data:
            return Taken(Error.NONE, 0)
        began = time.monotonic()
        self.set_time(milliseconds)
        self.expect(self.ask("ibeot", int(end)))
        status = self.ask("ibwrt", data, len(data))
        size = status.moved(len(data))
        if status.nobody_listened:
            # it is told at once; to whoever asks it is a device that takes nothing in its time
            time.sleep(max(0, began + milliseconds / 1000 - time.monotonic()))
            return Taken(Error.IO_TIMEOUT, size)
        return Taken(status.error, size)

    def read(self, size, stop, milliseconds):
        if size == 0:
            return Given(Error.NONE, BY_COUNT, b"")
        self.set_time(milliseconds)
        self.expect(self.ask("ibeos", 0 if stop is None else self.REOS | self.BIN | stop))
        room = ctypes.create_string_buffer(size)
        status = self.ask("ibrd", room, size)
        data = room.raw[: status.moved(size)]
        return Given(status.error, self.reason(status, data, size, stop), data)

    @staticmethod
    def reason(status, data, size, stop):
        """Why a read ended. At the stop byte linux-gpib doesn't say whether END was on it, so END isn't told there."""
        if status.error:
            return 0
        count = BY_COUNT if len(data) == size else 0
        if stop is not None and data[-1:] == bytes([stop]):
            return count | BY_CHAR
        return count | (BY_END if status.sta & Status.END else 0)

    def set_atn(self, on):
        """ATN is taken in step with the handshake where the board can, and at once where it can't."""
        if not on:
            self.expect(self.ask("ibgts", 0))
        elif self.ask("ibcac", 1).error:
            self.expect(self.ask("ibcac", 0))

    def set_ren(self, on):
        self.expect(self.ask("ibsre", int(on)))

    def set_address(self, address):
        self.expect(self.ask("ibpad", address))

    def clear_interface(self):
        self.expect(self.ask("ibsic"))

    def status(self, selector):
        if selector in self.ASKED:
            return self.asked(self.ASKED[selector])
        level = self.level(*self.LINES[selector]) if selector in self.LINES else None
        if level is None and selector in self.ROLES:
            level = self.role(self.ROLES[selector])
        if level is None:
            raise Refused(Error.NOT_SUPPORTED)
        return int(level)

    def asked(self, option):
        value = ctypes.c_int()
        self.expect(self.ask("ibask", option, ctypes.byref(value)))
        return value.value

    def level(self, told, stands):
        """The level of a line, or none where the board can't tell it."""
        lines = ctypes.c_short()
        status = self.ask("iblines", ctypes.byref(lines))
        return bool(lines.value & stands) if lines.value & told and not status.error else None

    def role(self, bit):
        """A bit of ibsta as it is now: a wait for nothing has it looked at."""
        status = self.ask("ibwait", 0)
        self.expect(status)
        return bool(status.sta & bit)
