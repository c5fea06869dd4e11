#!/usr/bin/env python3
"""Plays streams of hostile bytes through each built player whose path is an argument, and compares what it prints with what the
protocol says of them, which is worked out here from `docs/PROTOCOL.md` alone.

The streams hold records of each length around the limits and of each front of a call, fragments of no bytes, headers that never
end, texts, handles and credentials of the greatest length and one byte more, padding that isn't zero, and calls and records with
bytes changed at random, from a seed that is fixed. Each stream comes record by record, then byte by byte, then cut at random
places: the answers are the same. What differs, and at last 'N passed, M failed', goes to standard error; the status is 1 where
something differs.
"""
import random
import struct
import subprocess
import sys

import rpc
from rpc import ABORT, CORE, LAST, RECORD_MAX, opaque, record, words

DEAD = 7  # a link that nobody made
SEED = 488


class Unreadable(Exception):
    """A value that isn't spelled."""


class Reader:
    """The values at the front of some bytes (RFC 4506)."""

    def __init__(self, data):
        self.data = data

    def take(self, count):
        if len(self.data) < count:
            raise Unreadable
        front, self.data = self.data[:count], self.data[count:]
        return front

    def word(self):
        return struct.unpack(">I", self.take(4))[0]

    def flag(self):
        if self.word() > 1:
            raise Unreadable

    def opaque(self, most):
        length = self.word()
        if length > most:
            raise Unreadable
        self.take(length)
        if any(self.take(-length % 4)):
            raise Unreadable


# the kinds of arguments of each procedure: a word, a flag, or an opaque of at most so many bytes
ANY = RECORD_MAX
W, F = "word", "flag"
ARGUMENTS = {
    CORE: {
        0: [], 10: [W, F, W, 255], 11: [W, W, W, W, ANY], 12: [W] * 6, 13: [W] * 4, 14: [W] * 4, 15: [W] * 4, 16: [W] * 4,
        17: [W] * 4, 18: [W] * 3, 19: [W], 20: [W, F, 40], 22: [W, W, W, W, W, F, W, ANY], 23: [W], 25: [W] * 5, 26: [],
    },
    ABORT: {0: [], 1: [W]},
}
# the results behind the error of a call that is refused, all zero or empty, in words
EMPTY = {10: 3, 11: 1, 12: 2, 13: 1, 22: 1}


def answer(program, message):
    """The reply to a message of a connection on which nothing was made, or None where the message is junk."""
    if len(message) < 12 or message[4:8] != words(0):
        return None
    xid = struct.unpack(">I", message[:4])[0]
    accepted = lambda *results, status=0: record(rpc.reply(xid, *results, status=status))
    if message[8:12] != words(2):
        return record(rpc.denied(xid))
    reader = Reader(message[12:])
    try:
        named, version, procedure = reader.word(), reader.word(), reader.word()
        for _ in ("credential", "verifier"):
            reader.word()
            reader.opaque(400)
    except Unreadable:
        return None
    if named != program:
        return accepted(status=1)
    if version != 1:
        return accepted(1, 1, status=2)
    if procedure not in ARGUMENTS[program]:
        return accepted(status=3)
    try:
        for kind in ARGUMENTS[program][procedure]:
            reader.word() if kind == W else reader.flag() if kind == F else reader.opaque(kind)
    except Unreadable:
        return accepted(status=4)
    if reader.data:
        return accepted(status=4)
    if procedure == 0:
        return accepted()
    if procedure in (10, 25):
        raise ValueError("its answer depends on more than the protocol of records")
    error = 6 if procedure == 26 else 4
    return accepted(error, *[0] * EMPTY.get(procedure, 0))


def call(program, procedure, arguments, xid=9, **how):
    """A call whose arguments are these bytes, with a credential of flavor 1."""
    return rpc.call(xid, program, procedure, flavor=1, **how) + arguments


def write(length, xid=9):
    return call(CORE, 11, words(DEAD, 10000, 0, 8) + opaque(bytes(i % 251 for i in range(length))), xid)


def in_fragments(message, lengths):
    """A record whose fragments have these lengths, and a last one the rest."""
    pieces = []
    for length in lengths:
        pieces.append(words(length) + message[:length])
        message = message[length:]
    return [*pieces, record(message)]


class Stream:
    """The records of one connection, each the bytes of its fragments, and what is printed of them."""

    def __init__(self, name, program=CORE):
        self.name, self.program = name, program
        self.records, self.printed = [], []
        self.ended = False

    def add(self, message, fragments=None):
        assert not self.ended
        self.records.append(b"".join(fragments or [record(message)]))
        told = answer(self.program, message)
        self.ended = told is None
        self.printed.append("gone {} junk" if told is None else "out {} " + told.hex().upper())
        return self

    def too_long(self, fragments):
        """A record that ends with the header that takes it above the limit."""
        self.records.append(b"".join(fragments))
        self.printed.append("gone {} long")
        self.ended = True
        return self

    def cut_off(self, begun):
        """Bytes that end no record."""
        self.records.append(begun)
        return self


def lengths():
    message = write(9)
    for length in range(len(message) + 1):
        yield Stream(f"the first {length} bytes of a write").add(message[:length])
    for more in range(1, 6):
        yield Stream(f"a write with {more} bytes behind it").add(message + bytes(more))
    for short in range(9):
        message = write(RECORD_MAX - 60 - short)
        yield Stream(f"a record of {len(message)} bytes").add(message[: RECORD_MAX - short])
    for over in (1, 2, 3, 4, 1000, LAST - 1 - RECORD_MAX):
        yield Stream(f"a header of {RECORD_MAX + over} bytes").add(write(4)).too_long([words(LAST + RECORD_MAX + over)])
        yield Stream(f"the same, which isn't the last of its record, {over}").too_long([words(RECORD_MAX + over)])


def fragments():
    message = write(700)
    for count in (1, 2, 50, 2000):
        yield Stream(f"{count} fragments of no bytes in front").add(message, in_fragments(message, [0] * count))
        yield Stream(f"{count} fragments of no bytes inside").add(message, in_fragments(message, [11] + [0] * count + [30]))
        yield Stream(f"{count} fragments of no bytes, and nothing").add(b"", in_fragments(b"", [0] * count))
        yield Stream(f"{count} fragments of one byte").add(message[:count], in_fragments(message[:count], [1] * min(count, len(message))))
    whole_of = write(RECORD_MAX - 60)
    for cut in (1, 4, 4096, RECORD_MAX - 1, RECORD_MAX):
        yield Stream(f"the longest record, {cut} bytes first").add(whole_of, in_fragments(whole_of, [cut]))
        first = words(cut) + whole_of[:cut]
        yield Stream(f"one byte more, {cut} bytes first").too_long([first, words(LAST + RECORD_MAX - cut + 1)])
    for begun in range(1, 4):
        yield Stream(f"{begun} bytes of a header").cut_off(words(LAST + 40)[:begun])
        yield Stream(f"a call, then {begun} bytes of a header").add(write(1)).cut_off(words(LAST + 40)[:begun])
    yield Stream("a record that lacks its last byte").cut_off(record(write(100))[:-1])
    yield Stream("4,000 fragments of no bytes, and no last one").cut_off(words(0) * 4000)


def greatest():
    for length in (0, 1, 399, 400, 401, 404):
        yield Stream(f"a credential of {length} bytes").add(call(CORE, 19, words(DEAD), credential=bytes(length)))
        yield Stream(f"a verifier of {length} bytes").add(call(CORE, 19, words(DEAD), verifier=bytes(length)))
    for length in (39, 40, 41, 44):
        yield Stream(f"a handle of {length} bytes").add(call(CORE, 20, words(DEAD, 1) + opaque(bytes(length))))
    for length in (256, 257, 4096):
        yield Stream(f"a device text of {length} bytes").add(call(CORE, 10, words(0, 0, 0) + opaque(b"a" * length)))
    for told in (5, 8, 0x7FFFFFFF, 0xFFFFFFFC, 0xFFFFFFFF):
        yield Stream(f"data of {told} bytes, of which 4 come").add(call(CORE, 11, words(DEAD, 1, 1, 8, told) + b"abcd"))
        yield Stream(f"docmd of {told} bytes, of which 4 come").add(call(CORE, 22, words(DEAD, 0, 1, 1, 1, 1, 1, told) + b"abcd"))
    for padding in (b"\1\0\0", b"\0\1\0", b"\0\0\1", b"\0\0", b"\0\0\0\0"):
        yield Stream(f"padding {padding.hex()}").add(call(CORE, 11, words(DEAD, 1, 1, 8, 1) + b"a" + padding))
    for flag in (0, 1, 2, 256, 0xFFFFFFFF):
        yield Stream(f"a flag of {flag}").add(call(CORE, 20, words(DEAD, flag) + opaque(b"")))


def procedures():
    for program in (CORE, ABORT):
        for procedure in [*range(32), 0x7FFFFFFF, 0xFFFFFFFF]:
            if program == CORE and procedure in (10, 25):
                continue
            kinds = ARGUMENTS[program].get(procedure, [W])
            arguments = b"".join(words(DEAD if kind == W else 0) for kind in kinds)
            stream = Stream(f"procedure {procedure} of {program:X}", program)
            stream.add(call(program, procedure, arguments, version=2)).add(call(program, procedure, arguments, rpc=3))
            stream.add(call(CORE + ABORT - program, procedure, arguments)).add(call(program, procedure, arguments, xid=0xFFFFFFFF))
            if arguments:
                stream.add(call(program, procedure, arguments[:-1])).add(call(program, procedure, arguments[4:]))
            yield stream.add(call(program, procedure, arguments + b"\0"))


def changed():
    chance = random.Random(SEED)
    calls = [write(5), write(0), call(CORE, 22, words(DEAD, 0, 1, 1, 1, 1, 1) + opaque(b"12345")), call(CORE, 19, words(DEAD)),
             call(CORE, 20, words(DEAD, 1) + opaque(b"handle")), call(CORE, 12, words(DEAD, 5, 1, 1, 0, 10)), call(CORE, 0, b"")]
    for number in range(400):
        stream = Stream(f"changed calls {number}")
        while not stream.ended and len(stream.records) < 6:
            message = bytearray(chance.choice(calls) if chance.random() < 0.9 else chance.randbytes(chance.randrange(120)))
            for _ in range(chance.randrange(3)):
                if message:
                    message[chance.randrange(len(message))] = chance.choice((0, 1, 2, 4, 255, chance.randrange(256)))
            message = bytes(message[: len(message) - chance.choice((0, 0, 0, 1, 4))])
            pieces = in_fragments(message, [chance.randrange(1 + len(message) // 3) for _ in range(chance.randrange(3))])
            try:
                stream.add(message, pieces)
            except ValueError:
                continue
        yield stream


def record_by_record(stream):
    return stream.records


def byte_by_byte(stream):
    bytes_of = b"".join(stream.records)
    return [bytes_of[i : i + 1] for i in range(len(bytes_of))]


def at_random(stream):
    chance = random.Random(len(stream.name))
    for rest in stream.records:
        while rest:
            count = chance.choice((1, 2, 3, 4, 5, 50, 4096, len(rest)))
            yield rest[:count]
            rest = rest[count:]


def script_of(streams, cut):
    """A script that plays the streams, each on a connection of its own, and the lines that it prints."""
    script, printed = [], []
    for conn, stream in enumerate(streams, 1):
        script.append(f"up {conn} {'core' if stream.program == CORE else 'abort'}")
        script += [f"in {conn} {piece.hex()}" for piece in cut(stream)]
        printed += [line.format(conn) for line in stream.printed]
        if not stream.ended:
            script.append(f"down {conn}")
            printed.append(f"gone {conn} down")
    return "\n".join(script) + "\n", printed + ["done"]


def differs(player, streams, cut):
    """Where the first line stands that differs, and both lines, if one does."""
    script, wanted = script_of(streams, cut)
    done = subprocess.run([player, "run"], input=script.encode(), capture_output=True, timeout=300)
    printed = done.stdout.decode().splitlines()
    if done.returncode == 0 and printed == wanted:
        return None
    for place, (line, want) in enumerate(zip(printed, wanted), 1):
        if line != want:
            return f"line {place}: {line[:100]}, wanted {want[:100]}"
    return f"status {done.returncode}, {len(printed)} lines, wanted {len(wanted)}"


def main(players):
    groups = [list(make()) for make in (lengths, fragments, greatest, procedures, changed)]
    passed = failed = 0
    for player in players:
        for streams in groups:
            for cut in (record_by_record, byte_by_byte, at_random):
                wrong = differs(player, streams, cut)
                if wrong is None:
                    passed += len(streams)
                else:
                    failed += 1
                    print(f"{player}, {cut.__name__}, from {streams[0].name}: {wrong}", file=sys.stderr)
    print(f"{passed} passed, {failed} failed", file=sys.stderr)
    return 1 if failed or not passed else 0


if __name__ == "__main__":
    sys.exit(main(sys.argv[1:]))
