"""A tap between a client and a server over TCP, which keeps what passes as a capture file (pcap) for programs that read such files."""
import socket
import struct
import threading
import time
from contextlib import suppress

from rpc import HOST
from serving import bound, port_of

ADDRESS = socket.inet_aton(HOST)
CLIENTS = 20000  # the port that the first client has in the capture, and so on
PIECE = 16384  # bytes of one packet
SYN, ACK, PUSH = 0x02, 0x10, 0x08  # flags of a packet (RFC 9293, section 3.1)
HEADER = struct.pack("<IHHiIII", 0xA1B2C3D4, 2, 4, 0, 0, 65535, 101)  # of a file of plain IP packets
IP, TCP = struct.Struct(">BBHHHBBH4s4s"), struct.Struct(">HHIIBBHHH")


class Tap:
    """Hands on what comes at a port of its own, both ways, in a `with` block. Each connection to it is one to the server's port."""

    def __init__(self, port):
        self.server, self.packets, self.lock = port, [], threading.Lock()

    def __enter__(self):
        self.listener = bound()
        self.listener.listen()
        self.ports, self.streams = (port_of(self.listener),), [self.listener]
        threading.Thread(target=self.take, daemon=True).start()
        return self

    def __exit__(self, *_):
        for stream in self.streams:
            with suppress(OSError):
                stream.shutdown(socket.SHUT_RDWR)
            stream.close()

    def take(self):
        """Joins each client with the server."""
        number = 0
        with suppress(OSError):
            while True:
                client, _ = self.listener.accept()
                server = socket.create_connection((HOST, self.server))
                self.streams += [client, server]
                ways = Ways(CLIENTS + number, self.server)
                self.keep(ways.opening())
                for source, sink, is_call in ((client, server, True), (server, client, False)):
                    threading.Thread(target=self.hand_on, args=(source, sink, ways, is_call), daemon=True).start()
                number += 1

    def hand_on(self, source, sink, ways, is_call):
        with suppress(OSError):
            while data := source.recv(PIECE):
                with self.lock:
                    self.packets.append((time.time(), ways.packet(is_call, PUSH | ACK, data)))
                sink.sendall(data)
            sink.shutdown(socket.SHUT_WR)

    def keep(self, packets):
        with self.lock:
            self.packets += [(time.time(), packet) for packet in packets]

    def capture(self):
        """What passed so far, as a file."""
        with self.lock:
            return HEADER + b"".join(
                struct.pack("<IIII", int(moment), int(moment % 1 * 1e6), len(packet), len(packet)) + packet for moment, packet in self.packets
            )


class Ways:
    """Both ways of a connection: which bytes come next on each."""

    def __init__(self, client, server):
        self.ports, self.next = {True: client, False: server}, {True: 1, False: 1}

    def packet(self, is_call, flags, data=b""):
        sequence, acknowledged = self.next[is_call], self.next[not is_call]
        self.next[is_call] += len(data) + bool(flags & SYN)
        tcp = TCP.pack(self.ports[is_call], self.ports[not is_call], sequence, acknowledged, 5 << 4, flags, 65535, 0, 0)
        return IP.pack(0x45, 0, IP.size + TCP.size + len(data), 0, 0, 64, socket.IPPROTO_TCP, 0, ADDRESS, ADDRESS) + tcp + data

    def opening(self):
        """The three packets by which it begins."""
        return [self.packet(True, SYN), self.packet(False, SYN | ACK), self.packet(True, ACK)]
