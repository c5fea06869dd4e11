"""What a card is asked, and what it answers."""
import abc
import enum
from typing import NamedTuple

ADDRESS_MAX = 30  # the greatest address of IEEE 488.1
BY_COUNT, BY_CHAR, BY_END = 1, 2, 4  # reasons of a read (VXI-11, Device_ReadResp)


class Error(enum.IntEnum):
    """Those errors that are answered here (VXI-11, Device_ErrorCode)."""

    NONE = 0
    NOT_ACCESSIBLE = 3
    INVALID_LINK = 4
    PARAMETER = 5
    NOT_SUPPORTED = 8
    OUT_OF_RESOURCES = 9
    LOCKED = 11
    IO_TIMEOUT = 15
    IO = 17


class Selector(enum.IntEnum):
    """What a bus status tells (VXI-11.2, bus status)."""

    REN = 1
    SRQ = 2
    NDAC = 3
    SYSTEM_CONTROLLER = 4
    IN_CHARGE = 5
    TALKER = 6
    LISTENER = 7
    ADDRESS = 8


class Refused(Exception):
    """A call that is answered with this error, and nothing else."""

    def __init__(self, error):
        super().__init__(f"error {int(error)}")
        self.error = error


class Taken(NamedTuple):
    """What became of a write: so many bytes went."""

    error: Error
    size: int


class Given(NamedTuple):
    """What became of a read: these bytes came, and why no more."""

    error: Error
    reason: int
    data: bytes


class Card(abc.ABC):
    """A card, or an adapter, that is the system controller of a GPIB bus. It is asked by one thread at a time.

    Times are in milliseconds. What it can't do it refuses with an error of VXI-11.
    """

    @abc.abstractmethod
    def send(self, data, milliseconds):
        """Sends these bytes with ATN (IEEE 488.1, multiline interface messages)."""

    @abc.abstractmethod
    def write(self, data, end, milliseconds):
        """Puts these data bytes, with END on the last one or not: what was taken of them. The card has to be the talker."""

    @abc.abstractmethod
    def read(self, size, stop, milliseconds):
        """Takes data bytes up to END, to the stop byte or to so many: what was given. The card has to be a listener."""

    @abc.abstractmethod
    def set_atn(self, on):
        """Asserts ATN, or lets it go."""

    @abc.abstractmethod
    def set_ren(self, on):
        """Asserts REN, or lets it go."""

    @abc.abstractmethod
    def set_address(self, address):
        """Takes this primary address, 0 to 30."""

    @abc.abstractmethod
    def clear_interface(self):
        """Pulses IFC for 100 microseconds at least, and is in charge from then on (IEEE 488.1, system controller)."""

    @abc.abstractmethod
    def status(self, selector):
        """What a bus status tells: a line or a role as 0 or 1, or the card's own address."""
