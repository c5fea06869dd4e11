"""A bus in memory, with a small instrument."""
from __future__ import annotations

import time
from collections import deque
from typing import NamedTuple

from vxcard.card import ADDRESS_MAX, BY_CHAR, BY_COUNT, BY_END, Card, Error, Given, Refused, Selector, Taken

HELP = """\
the simulated instrument takes a message up to END. To these it answers, and any other one it says back as it is:
  *IDN?        who it is
  *STB?        its status byte, in decimal; bit 4 (16) says that something is there to be read
  SRQ N        the status byte is N (0 to 255, without bits 4 and 6) from now on, and service is asked for until a serial poll
  STATE?       remote and lockout (0 or 1), and how many triggers and clears came
"""


class Address(NamedTuple):
    """A primary address, 0 to 30, and a secondary one where there is one."""

    primary: int
    secondary: int | None = None

    @classmethod
    def of(cls, text):
        parts = [int(part) for part in text.split(",")]
        if len(parts) > 2 or not all(0 <= part <= ADDRESS_MAX for part in parts):
            raise ValueError(text)
        return cls(*parts)


class Instrument:
    """A small instrument: it says messages back, and has an identity, a status byte and a service request.

    A message goes up to END. What it has to say is a queue of messages, with END on the last byte of each.
    """

    IDENTITY = b"ACME,CARD,1,1.0\n"
    ROOM = 1 << 20  # bytes that it keeps in all; it takes no more until some are read, or a clear comes
    RQS, MAV = 0x40, 0x10  # bits of the status byte: service is asked for (IEEE 488.1); a message is there (IEEE 488.2)

    def __init__(self):
        self.forget()
        self.number, self.asks = 0, False
        self.remote = self.lockout = False
        self.triggers = self.clears = 0

    def forget(self):
        """Drops what it heard, what it has to say, and the count of both."""
        self.heard, self.queue, self.said, self.kept = bytearray(), deque(), 0, 0

    def hear(self, data, end):
        """How many of these bytes it takes."""
        taken = data[: max(0, self.ROOM - self.kept)]
        self.heard += taken
        self.kept += len(taken)
        if end and len(taken) == len(data):
            message, self.heard = bytes(self.heard), bytearray()
            self.kept -= len(message)
            self.obey(message)
        return len(taken)

    def obey(self, message):
        words = message.rstrip(b"\r\n").split()
        if words == [b"*IDN?"]:
            self.answer(self.IDENTITY)
        elif words == [b"*STB?"]:
            self.answer(b"%d\n" % self.status())
        elif words == [b"STATE?"]:
            state = (self.remote, self.lockout, self.triggers, self.clears)
            self.answer(b"remote %d lockout %d triggers %d clears %d\n" % state)
        elif len(words) == 2 and words[0] == b"SRQ" and words[1].isdigit() and int(words[1]) < 256:
            self.number, self.asks = int(words[1]) & ~self.RQS, True
        else:
            self.answer(message)

    def answer(self, message):
        self.queue.append(message)
        self.kept += len(message)

    def status(self):
        return self.number & ~self.MAV | (self.MAV if self.queue else 0) | (self.RQS if self.asks else 0)

    def poll(self):
        """Its status byte at a serial poll, by which its service request ends (IEEE 488.1, service request)."""
        status, self.asks = self.status(), False
        return status

    def say(self, size, stop):
        """Bytes of the first message, up to so many or to the stop byte, and whether END is on the last."""
        if not self.queue:
            return b"", False
        message, first = self.queue[0], self.said
        place = -1 if stop is None else message.find(stop, first, first + size)
        self.said = min(len(message), first + size) if place < 0 else place + 1
        data, end = message[first : self.said], self.said == len(message)
        self.kept -= len(data)
        if end:
            self.queue.popleft()
            self.said = 0
        return data, end

    def trigger(self):
        self.triggers += 1

    def clear(self):
        self.clears += 1
        self.forget()

    def go_to_local(self):
        self.remote = False


class SimulatedCard(Card):
    """A bus in memory with one instrument (IEEE 488.1: talkers, listeners, remote and local, service request, clear, trigger).

    ATN stands from a command on until data bytes move, or until it is let go. Who is passed control with TCT takes it, unless that is
    the card, which then isn't in charge until it clears the interface.
    """

    def __init__(self, address, instrument):
        self.address, self.instrument = address, instrument
        self.own, self.ren, self.atn, self.in_charge = 0, False, False, True
        self.unaddress()

    def unaddress(self):
        self.talker, self.listeners, self.pending, self.polling = None, set(), None, False

    def is_talker(self):
        return self.talker == Address(self.own)

    def is_listener(self):
        return Address(self.own) in self.listeners

    def is_heard(self):
        """Whether the instrument listens."""
        return self.address in self.listeners

    def expect_charge(self):
        if not self.in_charge:
            raise Refused(Error.IO)

    def send(self, data, milliseconds):
        for byte in data:
            self.expect_charge()
            self.atn = True
            self.command(byte & 0x7F)

    def command(self, code):
        """What a command byte does (IEEE 488.1, multiline interface messages)."""
        if 0x60 <= code <= 0x7E:
            self.address_secondary(code - 0x60)
        elif code != 0x7F:
            self.pending = None
            if code == 0x3F:  # UNL
                self.listeners = set()
            elif code == 0x5F:  # UNT
                self.talker = None
            elif code >= 0x40:  # MTA
                self.talker, self.pending = Address(code - 0x40), (self.talk, code - 0x40)
            elif code >= 0x20:  # MLA
                self.listen(Address(code - 0x20))
                self.pending = (self.listen, code - 0x20)
            else:
                self.command_devices(code)

    def listen(self, address):
        self.listeners.discard(Address(address.primary))
        self.listeners.add(address)
        if address == self.address and self.ren:
            self.instrument.remote = True

    def talk(self, address):
        self.talker = address

    def address_secondary(self, secondary):
        """MSA, behind MLA or MTA, perhaps not the first one there: it takes the place of the primary address alone."""
        if self.pending:
            extend, primary = self.pending
            extend(Address(primary, secondary))

    def command_devices(self, code):
        """The addressed and the universal commands."""
        to_listeners = {0x01: self.instrument.go_to_local, 0x04: self.instrument.clear, 0x08: self.instrument.trigger}
        if code in to_listeners:  # GTL, SDC, GET
            if self.is_heard():
                to_listeners[code]()
        elif code == 0x09:  # TCT
            if self.talker and self.talker.primary != self.own:
                self.in_charge = self.atn = False
        elif code == 0x11:  # LLO
            self.instrument.lockout = self.ren
        elif code == 0x14:  # DCL
            self.instrument.clear()
        elif code in (0x18, 0x19):  # SPE, SPD
            self.polling = code == 0x18

    def write(self, data, end, milliseconds):
        if not self.is_talker():
            raise Refused(Error.IO)
        self.atn = False
        if not data:
            return Taken(Error.NONE, 0)
        size = self.instrument.hear(data, end) if self.is_heard() else 0
        if size < len(data):
            time.sleep(milliseconds / 1000)
            return Taken(Error.IO_TIMEOUT, size)
        return Taken(Error.NONE, size)

    def read(self, size, stop, milliseconds):
        if not self.is_listener():
            raise Refused(Error.IO)
        self.atn = False
        data, end = self.said(size, stop)
        reason = BY_END if end else 0
        reason |= BY_COUNT if len(data) == size else 0
        reason |= BY_CHAR if data and data[-1] == stop else 0
        if not reason:
            time.sleep(milliseconds / 1000)
            return Given(Error.IO_TIMEOUT, 0, data)
        return Given(Error.NONE, reason, data)

    def said(self, size, stop):
        """What the talker gives, and whether END is on the last byte: a status byte where serial poll is enabled, else data."""
        if size == 0 or self.talker != self.address:
            return b"", False
        if self.polling:
            return bytes([self.instrument.poll()]), False
        return self.instrument.say(size, stop)

    def set_atn(self, on):
        self.expect_charge()
        self.atn = on

    def set_ren(self, on):
        self.ren = on
        if not on:
            self.instrument.remote = self.instrument.lockout = False

    def set_address(self, address):
        self.own = address

    def clear_interface(self):
        self.unaddress()
        self.in_charge, self.atn = True, False

    def status(self, selector):
        tells = {
            Selector.REN: lambda: self.ren,
            Selector.SRQ: lambda: self.instrument.asks,
            # each device holds it as ATN stands, and else each listener
            Selector.NDAC: lambda: self.atn or self.is_heard() or self.is_listener(),
            Selector.SYSTEM_CONTROLLER: lambda: True,
            Selector.IN_CHARGE: lambda: self.in_charge,
            Selector.TALKER: self.is_talker,
            Selector.LISTENER: self.is_listener,
            Selector.ADDRESS: lambda: self.own,
        }
        return int(tells[selector]())
