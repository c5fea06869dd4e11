"""The port at which clients come, and their connections."""
import select
import socket
import threading
import time
import traceback
from contextlib import suppress

from vxcard.card import Error
from vxcard.links import DATA_MAX, LOOK, Left
from vxcard.messages import Junk, NotServed, call_of, reply_to

LAST = 0x80000000  # in the mark of a fragment: it is the last one of its record (RFC 5531, section 11)
RECORD_MAX = DATA_MAX + 1024  # bytes of a record, its marks left out
CLIENTS_MAX = 32  # connections at a time
RECORD_SECONDS = 30  # in which the next bytes of a record that has begun have to come, and some of a reply have to go
PARTING_SECONDS = 1  # in which a client that is left may close its own side


class Ended(Exception):
    """A connection goes on no more, for this reason."""


class Client:
    """A client's connection, which one thread serves until it ends."""

    def __init__(self, stream, number, service):
        self.stream, self.number, self.service, self.calls = stream, number, service, 0
        stream.setsockopt(socket.IPPROTO_TCP, socket.TCP_NODELAY, 1)
        keep_alive(stream)

    def serve(self):
        """Answers calls until the connection ends. Then its links go, and only then its socket."""
        reason = "this program failed"
        try:
            while True:
                self.answer(self.take_record())
                self.calls += 1
        except Ended as ended:
            reason = str(ended)
        except Left:
            reason = "closed by its peer"
        except OSError as failed:
            reason = failed.strerror or "it took too long"
        except Exception:
            traceback.print_exc()
        finally:
            self.service.interface.leave(self)
            self.service.door.left(self.number)
            self.service.tell(f"connection {self.number} ended: {reason}, {self.calls} calls")
            self.part()

    def answer(self, message):
        try:
            xid, call = call_of(message)
        except Junk:
            raise Ended("a record is no call") from None
        except NotServed as refusal:
            return self.send(refusal.reply)
        plan = self.service.faults.plan(call)
        results = plan.answer(call, lambda call: self.service.interface.answer(call, self))
        if results and results[0] not in (Error.NONE, Error.IO_TIMEOUT):
            self.service.tell(f"connection {self.number}: {' '.join(call.names)} has error {int(results[0])}")
        self.pause(plan.numbers.get("silent", 0))
        return self.send(reply_to(xid, results), plan.numbers.get("cut"))

    def send(self, message, cut=None):
        """A reply as one fragment, or the front of it, where the connection ends."""
        record = (LAST | len(message)).to_bytes(4, "big") + message
        self.stream.settimeout(RECORD_SECONDS)
        if cut is not None:
            self.stream.sendall(record[: min(int(cut), len(record) - 1)])
            raise Ended("its reply was cut")
        self.stream.sendall(record)

    def take_record(self):
        """The next record: what its fragments hold, one behind another (RFC 5531, section 11)."""
        self.stream.settimeout(None)
        record, is_last, goes_on = bytearray(), False, ""
        while not is_last:
            mark = int.from_bytes(self.take(4, goes_on), "big")
            is_last, size = mark >= LAST, mark & ~LAST
            if len(record) + size > RECORD_MAX:
                raise Ended("a record is too long")
            goes_on = " within a record"
            record += self.take(size, goes_on)
        return bytes(record)

    def take(self, size, place):
        data = bytearray()
        while len(data) < size:
            piece = self.stream.recv(min(size - len(data), 65536))
            if not piece:
                raise Ended("closed by its peer" + (" within a record" if data else place))
            self.stream.settimeout(RECORD_SECONDS)
            data += piece
        return data

    def has_left(self):
        """Whether its peer has closed its side, with nothing waiting to be read."""
        with suppress(OSError):
            if not select.select([self.stream], [], [], 0)[0]:
                return False
            return self.stream.recv(1, socket.MSG_PEEK) == b""
        return True

    def pause(self, seconds):
        until = time.monotonic() + seconds
        while (left := until - time.monotonic()) > 0:
            if self.has_left():
                raise Left
            time.sleep(min(LOOK, left))

    def part(self):
        """Ends its own side first, and drops what still comes: a socket that is closed with bytes unread may lose replies."""
        with suppress(OSError):
            self.stream.shutdown(socket.SHUT_WR)
            self.stream.settimeout(PARTING_SECONDS)
            until = time.monotonic() + PARTING_SECONDS
            while time.monotonic() < until and self.stream.recv(65536):
                pass
        self.stream.close()


def keep_alive(stream):
    """A client whose host is gone is given up within about a minute, where the system can see to it."""
    stream.setsockopt(socket.SOL_SOCKET, socket.SO_KEEPALIVE, 1)
    for name, value in (("TCP_KEEPIDLE", 30), ("TCP_KEEPINTVL", 10), ("TCP_KEEPCNT", 3)):
        if hasattr(socket, name):
            stream.setsockopt(socket.IPPROTO_TCP, getattr(socket, name), value)


class Door:
    """The port at which clients come. It is closed for a while behind the end of those connections that a script tells."""

    def __init__(self, address, port, refusals):
        self.place, self.refusals = (address, port), refusals
        self.opens = None  # the moment of a closed port, in seconds
        self.listener = self.opened()

    def opened(self):
        family = socket.AF_INET6 if ":" in self.place[0] else socket.AF_INET
        return socket.create_server(self.place, family=family, backlog=CLIENTS_MAX)

    def left(self, number):
        """The connection of this number has ended."""
        if number in self.refusals:
            self.opens = time.monotonic() + self.refusals[number]
            with suppress(OSError):
                self.listener.shutdown(socket.SHUT_RDWR)  # which ends an accept too

    def take(self):
        """The next connection."""
        while True:
            try:
                return self.listener.accept()[0]
            except OSError as failed:
                if self.opens is not None:
                    self.reopen()
                elif self.listener.getsockopt(socket.SOL_SOCKET, socket.SO_ACCEPTCONN):
                    time.sleep(0.1)  # no descriptor is left, or the peer is gone
                else:
                    raise failed

    def reopen(self):
        self.listener.close()
        while (left := self.opens - time.monotonic()) > 0:
            time.sleep(left)
        self.opens = None
        self.listener = self.opened()


class Service:
    """The interface at its port, and what is told of it."""

    def __init__(self, interface, door, faults, tell):
        self.interface, self.door, self.faults, self.tell = interface, door, faults, tell
        self.places = threading.Semaphore(CLIENTS_MAX)

    def run(self):
        number = 0
        while True:
            stream = self.door.take()
            number += 1
            if not self.places.acquire(blocking=False):
                self.tell(f"connection {number} refused: {CLIENTS_MAX} are connected")
                stream.close()
                continue
            try:
                threading.Thread(target=self.serve, args=(stream, number), daemon=True).start()
            except RuntimeError as why:
                self.tell(f"connection {number} refused: {why}")
                stream.close()
                self.places.release()

    def serve(self, stream, number):
        try:
            self.tell(f"connection {number} came")
            with stream:
                Client(stream, number, self).serve()
        except OSError as failed:  # it was gone as it came
            self.tell(f"connection {number} ended: {failed.strerror}, 0 calls")
        finally:
            self.places.release()
