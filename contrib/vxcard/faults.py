"""What is to go wrong, by a script."""
import threading
from collections import Counter
from dataclasses import dataclass, replace

from vxcard.card import BY_COUNT, BY_END, Error
from vxcard.messages import COMMAND_NAMES, END, WORD_MAX, Read, Write

HELP = """\
faults of the simulated form are a line each in FILE. Empty lines and lines that begin with # are skipped:
  short CALLS BYTES      a device_write takes, or a device_read gives, at most so many bytes, and is answered with error 15 and
                         that size, as by a slow device; but at once
  silent CALLS SECONDS   the call is done, and its reply comes so much later
  cut CALLS BYTES        the call is done, so many bytes of its reply's record are sent (the mark has 4), and the connection ends
  empty CALLS            a device_read is answered with no byte and END, and nothing is read
  error CALLS NUMBER     the call is answered with this error, and isn't done
  refuse N SECONDS       when connection N has ended the port is closed for so long
CALLS is a name, or a name and which calls of that name since the start: write, write:3, write:3-5, write:3-
  any, create, write, read, docmd, destroy; and a docmd by what it asks: command, status, atn, ren, address, ifc
Of several lines of one kind that are for a call the first counts.
"""


class BadFaults(Exception):
    """A line of a file of faults that isn't one."""


@dataclass(frozen=True)
class Fault:
    """What is to go wrong at the calls of a name, from the first to the last of them."""

    kind: str
    name: str
    first: int
    last: float
    number: float

    def hits(self, counts):
        return self.first <= counts.get(self.name, 0) <= self.last


class Plan:
    """What is to go wrong at one call."""

    def __init__(self, faults=()):
        self.numbers = {fault.kind: fault.number for fault in reversed(faults)}

    def answer(self, call, answer):
        """The results of a call, where `answer` makes those of one that nothing goes wrong with."""
        if "error" in self.numbers:
            return call.failed(int(self.numbers["error"]))
        if "empty" in self.numbers and isinstance(call, Read):
            return Error.NONE, BY_END, b""
        if "short" in self.numbers:
            return self.shortened(call, int(self.numbers["short"]), answer)
        return answer(call)

    @staticmethod
    def shortened(call, most, answer):
        """The results of a transfer of which at most so many bytes are made."""
        if isinstance(call, Write) and len(call.data) > most:
            error, size = answer(replace(call, data=call.data[:most], flags=call.flags & ~END))
            return error or Error.IO_TIMEOUT, size
        if isinstance(call, Read) and call.size > most:
            error, reason, data = answer(replace(call, size=most))
            return (Error.IO_TIMEOUT, 0, data) if reason == BY_COUNT else (error, reason, data)
        return answer(call)


class Faults:
    """The faults of a script, of which none is used up."""

    NAMES = ("any", "create", "write", "read", "docmd", "destroy", *COMMAND_NAMES.values())
    NUMBERS = {"short": int, "silent": float, "cut": int, "empty": None, "error": int}

    def __init__(self, lines=()):
        self.faults, self.refusals = [], {}
        self.counts, self.turn = Counter(), threading.Lock()
        for number, line in enumerate(lines, 1):
            if line.strip() and not line.startswith("#"):
                try:
                    self.add(line.split())
                except ValueError as why:
                    raise BadFaults(f"fault line {number}: {why}") from None

    def add(self, words):
        kind, *rest = words
        if kind == "refuse":
            connection, seconds = rest
            self.refusals[int(connection)] = self.positive(float(seconds))
        elif kind in self.NUMBERS:
            calls, *numbers = rest
            made = self.NUMBERS[kind]
            number, = [made(text) for text in numbers] if made else [0, *numbers]
            self.faults.append(Fault(kind, *self.calls(calls), self.positive(number)))
        else:
            raise ValueError(f"no fault is called {kind}")

    @staticmethod
    def positive(number):
        if not 0 <= number <= WORD_MAX:
            raise ValueError(f"{number} is out of range")
        return number

    def calls(self, text):
        """The name, and the first and the last call of it, that a text like write:3-5 says."""
        name, colon, places = text.partition(":")
        if name not in self.NAMES:
            raise ValueError(f"no call is called {name}")
        if not colon:
            return name, 1, float("inf")
        first, dash, last = places.partition("-")
        return name, int(first), (int(last) if last else float("inf")) if dash else int(first)

    def plan(self, call):
        """What is to go wrong at this call, which is counted."""
        with self.turn:
            self.counts.update(("any", *call.names))
            counts = {name: self.counts[name] for name in ("any", *call.names)}
        return Plan([fault for fault in self.faults if fault.hits(counts)])
