"""Messages and connections as the tests of this folder compose them: values by RFC 4506, headers and records by RFC 5531, and calls by
VXI-11 1.0."""
import select
import socket
import struct

HOST = "127.0.0.1"
PATIENCE = 300  # seconds in which whatever is waited for has to come, also on a very busy machine

LAST = 0x80000000  # in a record mark: its fragment is the last one of the record
CORE, ABORT, INTERRUPT = 0x0607AF, 0x0607B0, 0x0607B1  # the programs of VXI-11, each of version 1

# procedures of the core channel, of the abort channel, and of the interrupt channel
CREATE_LINK, WRITE, READ, READSTB, TRIGGER, LOCK, UNLOCK, ENABLE_SRQ = 10, 11, 12, 13, 14, 18, 19, 20
DESTROY_LINK, CREATE_INTR_CHAN, DESTROY_INTR_CHAN = 23, 25, 26
DEVICE_ABORT, INTR_SRQ = 1, 30

WAITLOCK, END = 0x01, 0x08  # flags of a call: it waits for a lock; the last byte of a write has END
BY_COUNT, BY_END = 1, 4  # reasons of a read
LINK_MAX, WRITE_MAX, READ_MAX, RECORD_MAX = 1024, 262144, 65536, 263168  # links, and bytes of a write, of a read, of a record

BIND_ADDRESS_NO_PORT = 24  # the socket option of Linux


# Messages


def words(*numbers):
    return struct.pack(f">{len(numbers)}I", *numbers)


def opaque(data):
    """Its length, its bytes, and zero bytes up to a multiple of 4."""
    return words(len(data)) + data + bytes(-len(data) % 4)


def spelled(*values):
    """Numbers as words and bytes as opaques, one behind another."""
    return b"".join(opaque(value) if isinstance(value, bytes) else words(value) for value in values)


def call(xid, program, procedure, *arguments, version=1, rpc=2, flavor=0, credential=b"", verifier=b""):
    """A call, without credentials where none are given."""
    front = words(xid, 0, rpc, program, version, procedure, flavor)
    return front + opaque(credential) + words(0) + opaque(verifier) + spelled(*arguments)


def reply(xid, *results, status=0):
    """A reply that is accepted, with no verifier; of status 0 it is a success."""
    return words(xid, 1, 0, 0, 0, status) + spelled(*results)


def denied(xid):
    """The reply to a call of another version of RPC than 2."""
    return words(xid, 1, 1, 0, 2, 2)


def record(message):
    """A message as one fragment."""
    return words(LAST | len(message)) + message


# Connections


def read_all(stream):
    """What comes until the other side ends."""
    return b"".join(iter(lambda: stream.recv(65536), b""))


def told_to(port, data, ends=False):
    """What a peer is told that sends this at once, and then reads until the other side ends. It may end its own side first."""
    with socket.create_connection((HOST, port), PATIENCE) as stream:
        stream.sendall(data)
        if ends:
            stream.shutdown(socket.SHUT_WR)
        return read_all(stream)


class Peer:
    """A connection to a port, from this address where one is given, or one that was accepted; in a `with` block. A small one has little
    room for what comes, and has the server have little room for it."""

    def __init__(self, port=None, stream=None, host=HOST, small=False, address=None):
        if stream is None:
            stream = socket.socket()
            if small:
                stream.setsockopt(socket.SOL_SOCKET, socket.SO_RCVBUF, 4096)
                stream.setsockopt(socket.IPPROTO_TCP, socket.TCP_MAXSEG, 536)
            if address is not None:
                # its own port is chosen at the connect: so it may be one of a connection that lingers
                stream.setsockopt(socket.IPPROTO_IP, BIND_ADDRESS_NO_PORT, 1)
                stream.bind((address, 0))
            stream.connect((host, port))
        self.stream, self.unsent = stream, b""
        self.stream.settimeout(PATIENCE)
        self.stream.setsockopt(socket.IPPROTO_TCP, socket.TCP_NODELAY, 1)

    def __enter__(self):
        return self

    def __exit__(self, *_):
        self.stream.close()

    def send(self, data):
        self.stream.sendall(data)

    def take(self, count):
        data = b""
        while len(data) < count:
            piece = self.stream.recv(count - len(data))
            assert piece, f"the stream ended behind {data.hex(' ', 4)}"
            data += piece
        return data

    def take_record(self):
        """The next record, which is one fragment, with its mark."""
        mark = self.take(4)
        return mark + self.take(struct.unpack(">I", mark)[0] & ~LAST)

    def expect(self, *due):
        """The next record is this one, or one of these."""
        got = self.take_record()
        assert got in due, f"got {got.hex(' ', 4)}, due is {' or '.join(one.hex(' ', 4) for one in due)}"

    def ask(self, asked, due):
        self.send(asked)
        self.expect(due)

    def hears(self, seconds):
        """Whether something comes, or the stream ends, in this time."""
        return bool(select.select([self.stream], [], [], seconds)[0])

    def expect_end(self):
        rest = self.stream.recv(1)
        assert rest == b"", "the stream goes on"

    def has_ended(self):
        """Whether the stream has ended, with nothing waiting to be read."""
        return self.hears(0) and self.stream.recv(1, socket.MSG_PEEK) == b""

    def floods(self):
        """Sends calls and reads no reply, until the server takes none for two seconds. What it left of a call is sent first."""
        while select.select([], [self.stream], [], 2)[1]:
            self.unsent = self.unsent or record(call(1, CORE, 0)) * 100
            sent = self.stream.send(self.unsent, socket.MSG_DONTWAIT)
            self.unsent = self.unsent[sent:]

    def is_answered(self, program):
        """Whether a null call is answered. Where it isn't the stream has ended, with what was sent read or not."""
        try:
            self.send(record(call(1, program, 0)))
            if self.stream.recv(1, socket.MSG_PEEK) == b"":
                return False
        except ConnectionError:
            return False
        self.expect(record(reply(1)))
        return True

    def reset(self):
        """Closes it by a reset, with what is on its way lost."""
        self.stream.setsockopt(socket.SOL_SOCKET, socket.SO_LINGER, struct.pack("ii", 1, 0))
        self.stream.close()


class Client(Peer):
    """A client of a core channel, which comes from this address and numbers its calls from 1."""

    def __init__(self, port, address=HOST):
        super().__init__(port, address=address)
        self.xid = 0

    def results(self, procedure, *arguments):
        """The results of a call, as they are spelled."""
        self.xid += 1
        self.send(record(call(self.xid, CORE, procedure, *arguments)))
        message, front = self.take_record()[4:], reply(self.xid)
        assert message.startswith(front), "the call isn't accepted"
        return message[len(front):]

    def create(self, device):
        """The error, and the number of the link."""
        return struct.unpack(">4I", self.results(CREATE_LINK, 1, 0, 0, device.encode()))[:2]

    def write(self, link, data):
        """The error, and how many bytes were written."""
        return struct.unpack(">2I", self.results(WRITE, link, 10000, 0, END, data))

    def read(self, link, most, io_timeout=10000):
        """The error, and the bytes."""
        results = self.results(READ, link, most, io_timeout, 0, 0, 0)
        error, _, count = struct.unpack(">3I", results[:12])
        return error, results[12:12 + count]
