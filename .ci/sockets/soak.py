"""A mixed load for minutes, which no gate runs."""
import struct
import threading
import time
from concurrent.futures import ThreadPoolExecutor

from rpc import ABORT, BY_END, DEVICE_ABORT, Peer
from sockets.calls import call, create, read, reply, write
from sockets.closing import leave
from sockets.server import Server


class Soak:
    """A server under a mixed load, of which each kind goes on in threads of its own until the time is over."""

    OPTIONS = ("--workers", "32", "--keepalive", "10", "--send-timeout", "5", "--abort-idle", "5")

    def __init__(self, server, seconds):
        self.server, self.until = server, time.monotonic() + seconds
        self.counts = {"queries": 0, "connections": 0, "aborts": 0, "deaf peers": 0, "places": 0}
        self.turn = threading.Lock()

    def goes_on(self):
        return time.monotonic() < self.until

    def add(self, what):
        with self.turn:
            self.counts[what] += 1

    def query(self, device):
        """Messages there and back, on one connection."""
        with Peer(self.server.core) as peer:
            peer.stream.settimeout(60)
            peer.send(create(1, device))
            link = struct.unpack(">I", peer.take(44)[32:36])[0]
            while self.goes_on():
                peer.ask(write(2, link, b"ping??"), reply(2, 0, 6))
                peer.ask(read(3, link), reply(3, 0, BY_END, b"ping??"))
                self.add("queries")

    def come_and_go(self, number):
        """Connections that end in each way, with a lock that the next one wants."""
        while self.goes_on():
            number += 1
            with Peer(self.server.core) as peer:
                peer.stream.settimeout(60)
                peer.send(create(1, b"gpib0,11", lock=1, lock_timeout=60000))
                assert peer.take(44)[24:32] == bytes(8), "a lock was refused"
                leave(peer, number)
            self.add("connections")

    def abort(self):
        """A read that would take a minute, once a second, and its end."""
        with Peer(self.server.core) as peer:
            peer.send(create(1, b"gpib0,15"))
            link = struct.unpack(">I", peer.take(44)[32:36])[0]
            while self.goes_on():
                peer.send(read(2, link, io_timeout=60000))
                while not peer.hears(0.1):
                    with Peer(self.server.abort) as other:
                        other.ask(call(3, DEVICE_ABORT, link, program=ABORT), reply(3, 0))
                peer.expect(reply(2, 23, 0, b""))
                self.add("aborts")
                time.sleep(1)

    def be_deaf(self):
        """A peer that reads no reply, until it is cut off."""
        while self.goes_on():
            with Peer(self.server.core, small=True) as peer:
                try:
                    while self.goes_on():
                        peer.floods()
                except ConnectionError:
                    self.add("deaf peers")

    def be_idle(self):
        """More abort connections than there are workers, of which each ends when another wants its place."""
        while self.goes_on():
            with Peer(self.server.abort) as peer:
                peer.stream.settimeout(120)
                if peer.is_answered(ABORT):
                    while self.goes_on() and not peer.has_ended():
                        time.sleep(0.2)
                    self.add("places")

    def figures(self):
        with open(f"/proc/{self.server.process.pid}/status") as file:
            status = dict(line.split(":", 1) for line in file)
        figures = {**self.counts, "descriptors": self.server.descriptors()}
        figures.update(threads=int(status["Threads"]), KiB=int(status["VmRSS"].split()[0]))
        return ", ".join(f"{what} {number}" for what, number in figures.items())

    def run(self):
        jobs = [(self.query, b"gpib0,5"), (self.query, b"gpib0,7")]
        jobs += [(self.come_and_go, number) for number in range(3)] + [(self.abort,), (self.be_deaf,), (self.be_deaf,)]
        jobs += [(self.be_idle,)] * 65
        with ThreadPoolExecutor(len(jobs)) as pool:
            running = [pool.submit(*job) for job in jobs]
            while self.goes_on():
                time.sleep(max(0, min(60, self.until - time.monotonic())))
                print(self.figures(), flush=True)
                assert self.server.process.poll() is None, "the server ended"
            for job in running:
                job.result()


def soak(minutes):
    """Runs the load, and then looks that nothing is left of it."""
    with Server(*Soak.OPTIONS) as server:
        before = server.descriptors()
        Soak(server, 60 * minutes).run()
        server.expect_descriptors(before)
        server.expect_workers(32)
    print("nothing is left of it")
