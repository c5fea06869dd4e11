#!/usr/bin/env python3
"""Draws a trace of version 2 as a sequence diagram, or tells it as a table.

    draw.py [OPTIONS] < TRACE > PICTURE.svg
    draw.py [OPTIONS] line N CAUSE < TRACE > PICTURE.svg
    draw.py --table [OPTIONS] < TRACE

With the words that `vxcheck` prints of a trace that it refuses, the trace is drawn up to that line, with the cause; its word `legal`
changes nothing. The trace is what `vxplay run` prints of a script of version 2; `docs/SCRIPT.md` has its lines. There is a column
for each connection, for the gateway, for the bus, and for each address that the bus is told; moments go downwards. Calls and replies
are named as VXI-11 does, and the transfers of a poll are summed up: which bytes went to whom. Where the pointer rests on a row, a
viewer of SVG shows the line of the trace. An input that is no such trace has a message on standard error, and status 1.

    --from MOMENT, --to MOMENT   draw what lies between these two, both with it, in milliseconds
    --connection N               draw the lines of this connection alone; it may be given several times
    --table                      tell it in lines of text: the moment, who, what, and how it ended

All of the trace is read for a part of it too: a part tells of the bus, of a turn and of a reply what it is in the whole.
"""
import argparse
import re
import struct
import sys
import xml.etree.ElementTree as ET

CORE, ABORT, INTERRUPT = 0x0607AF, 0x0607B0, 0x0607B1
WAITLOCK, END, STOPS = 0x01, 0x08, 0x80  # flags of a call

# the names of VXI-11 1.0 by program and procedure
PROCEDURES = {
    (CORE, 0): "null", (CORE, 10): "create_link", (CORE, 11): "device_write", (CORE, 12): "device_read", (CORE, 13): "device_readstb",
    (CORE, 14): "device_trigger", (CORE, 15): "device_clear", (CORE, 16): "device_remote", (CORE, 17): "device_local",
    (CORE, 18): "device_lock", (CORE, 19): "device_unlock", (CORE, 20): "device_enable_srq", (CORE, 22): "device_docmd",
    (CORE, 23): "destroy_link", (CORE, 25): "create_intr_chan", (CORE, 26): "destroy_intr_chan",
    (ABORT, 0): "null", (ABORT, 1): "device_abort", (INTERRUPT, 30): "device_intr_srq",
}
ERRORS = {
    1: "syntax error", 3: "device not accessible", 4: "invalid link identifier", 5: "parameter error", 6: "channel not established",
    8: "operation not supported", 9: "out of resources", 11: "device locked by another link", 12: "no lock held by this link",
    15: "I/O timeout", 17: "I/O error", 21: "invalid address", 23: "abort", 29: "channel already established",
}
COMMANDS = {
    0x020000: "send command", 0x020001: "bus status", 0x020002: "ATN control", 0x020003: "REN control", 0x020004: "pass control",
    0x02000A: "bus address", 0x020010: "IFC control",
}
REFUSALS = {1: "program unavailable", 2: "program version mismatch", 3: "procedure unavailable", 4: "garbage arguments"}


class Fault(Exception):
    """Why an input is no trace."""


class Unreadable(Exception):
    """A value that isn't spelled."""


# The lines of a trace

CONN, HEX, NUMBER = "([1-9][0-9]{0,9})", "((?:[0-9A-F]{2})+)", "(?:0|[1-9][0-9]*)"
TRANSFER = f"(?:[cpPgG][0-9A-F]{{2}}|ren[01]|atn[01]|ifc|own{NUMBER})"
FORMS = {
    "up": f"{CONN} (core|abort)",
    "call": f"{CONN} ((?:[0-9A-F]{{2}})*)",
    "begin": CONN,
    "bus": f"{CONN}((?: {TRANSFER})+)",
    "dial": f"{CONN} (ok|fail)",
    "srq": "([01])",
    "out": f"{CONN} {HEX}",
    "irq": f"{CONN} (none|closed|(?:[0-9A-F]{{2}})+)",
    "wait": f"{CONN} (lock [1-9][0-9]*|behind [1-9][0-9]*|turn [1-9][0-9]*|held|slice|dial)",
    "gone": f"{CONN} (down|junk|long)",
}
LAST = re.compile(r"done|fault line [1-9][0-9]* [a-z]+")
REFUSED = re.compile(r"line ([1-9][0-9]*) (form|moment|place|reply|entry)")  # what vxcheck prints


class Line:
    """A line of a trace: its number, its text, the moment, its first word, the connection, if it has one, and the rest."""

    def __init__(self, number, text):
        self.number, self.text = number, text
        moment, _, line = text.partition(" ")
        self.kind, _, rest = line.partition(" ")
        form = FORMS.get(self.kind)
        found = re.fullmatch(NUMBER, moment) and form and re.fullmatch(form, rest)
        if not found:
            raise Fault(f"line {number}: {text[:60]!r} is no line of a trace of version 2")
        self.moment = int(moment)
        parts = list(found.groups())
        self.conn = None if self.kind == "srq" else int(parts.pop(0))
        self.rest = parts[0] if parts else ""


def read_refused(text, number, cause):
    """The lines of a trace in front of a line that is refused, and what stands below them."""
    lines = text.split("\n")
    if number > len(lines):
        raise Fault(f"it has no line {number}")
    found = [Line(place, line) for place, line in enumerate(lines[1 : number - 1], 2)]
    check_order(found)
    return found, f"line {number} {cause}"


def read_trace(text):
    """The lines of a trace between its first and its last one, and the last one."""
    first, *lines = text.split("\n")
    if first != "vxtrace 2":
        raise Fault("line 1: it isn't 'vxtrace 2'")
    if len(lines) < 2 or lines[-1] != "" or not LAST.fullmatch(lines[-2]):
        raise Fault("the last line is neither 'done' nor 'fault line N CAUSE'")
    found = [Line(number, line) for number, line in enumerate(lines[:-2], 2)]
    check_order(found)
    return found, lines[-2]


def check_order(lines):
    """Moments don't fall, connections come up by number, and only one that is up has a line."""
    moment, up, live, asking = 0, 0, set(), set()
    for line in lines:
        if line.moment < moment:
            raise Fault(f"line {line.number}: its moment is before that of the line above")
        moment = line.moment
        if line.kind == "up":
            up += 1
            if line.conn != up:
                raise Fault(f"line {line.number}: connection {up} is the next, and not {line.conn}")
            live.add(up)
        elif line.kind != "srq" and line.conn not in live:
            raise Fault(f"line {line.number}: connection {line.conn} isn't up")
        elif line.kind == "call":
            asking.add(line.conn)
        elif line.kind == "out":
            if line.conn not in asking:
                raise Fault(f"line {line.number}: a reply without a call")
            asking.remove(line.conn)
        elif line.kind == "gone":
            live.remove(line.conn)


# Calls and replies in words (RFC 5531, RFC 4506, VXI-11 1.0)


class Reader:
    """The values at the front of some bytes."""

    def __init__(self, data):
        self.data = data

    def word(self):
        if len(self.data) < 4:
            raise Unreadable
        front, self.data = self.data[:4], self.data[4:]
        return struct.unpack(">I", front)[0]

    def words(self, count):
        return [self.word() for _ in range(count)]

    def opaque(self):
        length = self.word()
        if length > len(self.data):
            raise Unreadable
        front, self.data = self.data[:length], self.data[length + -length % 4 :]
        return front


def counted(number, what):
    return f"{number:,} {what}" + ("" if number == 1 else "s")


def cut(text, whole):
    return text + ("" if whole else " ..")


def digits(data, most=8):
    """Bytes in hexadecimal, up to so many of them."""
    return cut(data[:most].hex(" ").upper(), len(data) <= most)


def quoted(data, most=16):
    """Bytes as text, up to so many of them, or in hexadecimal where they are none."""
    names = {0x0A: "\\n", 0x0D: "\\r", 0x09: "\\t", 0x22: '\\"', 0x5C: "\\\\"}
    if any(b not in names and not 0x20 <= b < 0x7F for b in data[:most]):
        return digits(data)
    return cut('"' + "".join(names.get(b, chr(b)) for b in data[:most]) + '"', len(data) <= most)


def host(word):
    return ".".join(str(word >> shift & 255) for shift in (24, 16, 8, 0))


def arguments(procedure, reader):
    """What a call of the core channel asks for, behind its name."""
    if procedure == 10:
        _, lock, _ = reader.words(3)
        return f" {quoted(reader.opaque(), 40)}" + (", with its lock" if lock else "")
    if procedure in (11, 12):
        return bytes_moved(procedure, reader)
    if procedure == 22:
        link, _, _, _, command, _, _ = reader.words(7)
        return f" link {link}: {COMMANDS.get(command, f'command {command:X}')} {digits(reader.opaque())}".rstrip()
    if procedure == 25:
        address, port = reader.words(2)
        return f" to {host(address)}, port {port}"
    if procedure == 26:
        return ""
    link = reader.word()
    if procedure == 18:
        return f" link {link}" + (", and waits" if reader.word() & WAITLOCK else "")
    if procedure == 20:
        return f" link {link}: {'on' if reader.word() else 'off'}, handle {quoted(reader.opaque())}"
    return f" link {link}"


def bytes_moved(procedure, reader):
    """The same of a device_write and of a device_read."""
    if procedure == 11:
        link, _, _, flags = reader.words(4)
        data = reader.opaque()
        return f" link {link}: {counted(len(data), 'byte')} {quoted(data)}" + (", END" if flags & END else "")
    link, most, _, _, flags, stop = reader.words(6)
    return f" link {link}: at most {counted(most, 'byte')}" + (f", up to {quoted(bytes([stop & 255]))}" if flags & STOPS else "")


def call_of(message):
    """A call's program and procedure, and what stands of it in the picture."""
    reader = Reader(message)
    try:
        _, kind, _, program, version, procedure = reader.words(6)
        if kind != 0:
            raise Unreadable
        for _ in ("credential", "verifier"):
            reader.word()
            reader.opaque()
    except Unreadable:
        return None, f"{counted(len(message), 'byte')} that are no call"
    name = PROCEDURES.get((program, procedure))
    if name is None or version != 1:
        return None, f"program {program:X}, version {version}, procedure {procedure}"
    try:
        if name == "null":
            return (program, procedure), name
        asked = arguments(procedure, reader) if program == CORE else f" link {reader.word()}" if program == ABORT else ""
        if program == INTERRUPT:
            asked = f" {quoted(reader.opaque())}"
        return (program, procedure), name + asked
    except Unreadable:
        return (program, procedure), f"{name}, arguments that can't be read"


def results(procedure, reader):
    """What a reply brings besides no error."""
    if procedure == 10:
        link, port, most = reader.words(3)
        return f"link {link}, abort port {port}, {most:,} bytes a write"
    if procedure == 11:
        return f"{counted(reader.word(), 'byte')} written"
    if procedure == 12:
        return read_of(reader)
    if procedure == 13:
        return f"status byte 0x{reader.word():02X}"
    if procedure == 22:
        return digits(reader.opaque())
    return ""


def read_of(reader):
    reason, data = reader.word(), reader.opaque()
    why = [word for bit, word in ((4, "END"), (2, "the stop byte"), (1, "all that were asked for")) if reason & bit]
    return f"{counted(len(data), 'byte')} {quoted(data)}" + (f", {' and '.join(why)}" if why else "")


def reply_of(asked, record):
    """Whether a reply says that all is well, and what stands of it in the picture."""
    reader = Reader(record[4:])
    try:
        _, _, denied = reader.words(3)
        if denied:
            return False, "denied: another RPC version"
        reader.word()
        reader.opaque()
        status = reader.word()
        if status:
            return False, f"refused: {REFUSALS.get(status, f'status {status}')}"
        if asked is None or asked[1] == 0:
            return True, "ok"
        error = reader.word()
        if error:
            return False, f"error {error}: {ERRORS.get(error, 'of another kind')}" + done_before(asked, reader)
        told = results(asked[1], reader) if asked[0] == CORE else ""
        return True, f"ok: {told}" if told else "ok"
    except Unreadable:
        return False, "a reply that can't be read"


def done_before(asked, reader):
    """What a call had done when its error came."""
    if asked[0] == CORE and asked[1] in (11, 12):
        told = results(asked[1], reader)
        return "" if told.startswith("0 ") else f", {told}"
    return ""


# What the transfers of a poll say (IEEE 488.1)


class Wire:
    """Who talks and who listens, behind some transfers. An address is a primary one, and a secondary one or none."""

    def __init__(self):
        self.own, self.talker, self.listeners, self.pending, self.polls = 0, None, [], None, False

    def names_address(self, byte):
        """Follows a command byte, and answers whether it names an address."""
        byte &= 0x7F
        if byte == 0x7F:
            return False
        if 0x60 <= byte and self.pending:
            return self.second(byte - 0x60)
        pending, self.pending = self.pending, None
        if 0x20 <= byte < 0x3F:
            self.listen((byte - 0x20, None), (byte - 0x20, None))
            self.pending = ("listen", byte - 0x20)
        elif 0x40 <= byte < 0x5F:
            self.talker, self.pending = (byte - 0x40, None), ("talk", byte - 0x40)
        elif byte == 0x3F:
            self.listeners = []
        elif byte == 0x5F:
            self.talker = None
        elif byte in (0x18, 0x19):
            self.polls = byte == 0x18
        elif byte >= 0x60:
            self.pending = pending
        return self.pending is not None and self.pending[1] != self.own

    def second(self, secondary):
        role, primary = self.pending
        if role == "talk":
            self.talker = (primary, secondary)
        else:
            self.listen((primary, None), (primary, secondary))
        return primary != self.own

    def listen(self, old, new):
        self.listeners = [address for address in self.listeners if address not in (old, new)] + [new]

    def clear(self):
        self.talker, self.listeners, self.pending, self.polls = None, [], None, False

    def others(self):
        """The listeners but for the gateway."""
        return [address for address in self.listeners if address[0] != self.own]

    def other_talker(self):
        return [self.talker] if self.talker and self.talker[0] != self.own else []


class Act:
    """A row on the bus: what is said of it, at which addresses, and whether it comes from there."""

    def __init__(self, text, addresses=(), comes=False):
        self.text, self.addresses, self.comes = text, list(addresses), comes


def address_name(address):
    return str(address[0]) if address[1] is None else f"{address[0]},{address[1]}"


def address_order(address):
    """A primary address stands before those that have a secondary one."""
    return address[0], -1 if address[1] is None else address[1]


def all_of(addresses):
    return " and ".join(map(address_name, addresses)) or "nobody"


def command_act(wire, byte):
    """The act of a command byte that is more than addressing."""
    texts = {0x04: "clear", 0x08: "trigger", 0x01: "local"}
    if byte in texts:
        return Act(f"{texts[byte]} {all_of(wire.others())}", wire.others())
    if byte == 0x09:
        return Act(f"pass control to {all_of(wire.other_talker())}", wire.other_talker())
    if byte in (0x14, 0x11):
        return Act("clear all" if byte == 0x14 else "local lockout")
    return None


def line_act(wire, transfer):
    """The act of a transfer that is neither a command nor a byte."""
    if transfer == "ifc":
        wire.clear()
        return Act("interface clear")
    if transfer.startswith("own"):
        wire.own = int(transfer[3:])
        return Act(f"the gateway's address is {wire.own} now")
    return Act(f"{transfer[:3].upper()} {'on' if transfer[3:] == '1' else 'off'}")


def bytes_act(wire, run):
    """The act of bytes in a row, all put or all got."""
    data, end = bytes(int(transfer[1:], 16) for transfer in run), run[-1][0].isupper()
    if run[0][0] in "gG" and wire.polls:
        return Act(f"serial poll of {all_of(wire.other_talker())}: status byte 0x{data.hex().upper()}", wire.other_talker(), True)
    count, told = counted(len(data), "byte"), quoted(data) + (", END" if end else "")
    if run[0][0] in "gG":
        return Act(f"read {count} from {all_of(wire.other_talker())}: {told}", wire.other_talker(), True)
    return Act(f"write {count} to {all_of(wire.others())}: {told}", wire.others())


def addressed_act(wire):
    """The act of addresses that were told, where nothing else follows."""
    told = [f"{all_of(found)} to {word}" for found, word in ((wire.others(), "listen"), (wire.other_talker(), "talk")) if found]
    return Act("address " + ", ".join(told), wire.others() + wire.other_talker())


def runs_of(transfers):
    """The transfers, those of bytes in a row taken together: a byte with END is the last of its row."""
    run = []
    for transfer in transfers:
        if run and (transfer[0].lower() != run[0][0].lower() or run[-1][0].isupper()):
            yield run
            run = []
        if transfer[0] in "pPgG":
            run.append(transfer)
        else:
            yield [transfer]
    if run:
        yield run


def acts_of(wire, transfers):
    """What the transfers of a poll do, one act behind the other; at least one."""
    acts, addressed = [], False
    for run in runs_of(transfers):
        if run[0][0] == "c":
            byte = int(run[0][1:], 16) & 0x7F
            addressed = wire.names_address(byte) or addressed
            act = command_act(wire, byte)
        else:
            act = bytes_act(wire, run) if run[0][0] in "pPgG" else line_act(wire, run[0])
        if act:
            acts.append(act)
            addressed = False
    if addressed and (wire.others() or wire.other_talker()):
        acts.append(addressed_act(wire))
    return acts or [Act("commands " + " ".join(transfer[1:] for transfer in transfers))]


# Rows: what stands in a line of the picture


class Row:
    """A row of the picture. `side` is the gap that its text stands in; `kind` its colour; an arrow leads from one column to another, or
    a dashed line to where somebody waits; `dots` are columns that it concerns too."""

    def __init__(self, line, side, kind, text, arrow=None, dashed=False, dots=()):
        self.line, self.side, self.kind, self.text = line, side, kind, text
        self.arrow, self.dashed, self.dots = arrow, dashed, dots


WAITS = {
    "lock": "waits for the lock of link {}",
    "behind": "waits behind the call of connection {}",
    "turn": "waits for the turn of connection {}",
    "held": "waits: the bus is held",
    "slice": "goes on with its next poll",
    "dial": "waits for a dial",
}


class Part:
    """The part of a trace that is asked for: what lies between two moments, of all connections or of these."""

    def __init__(self, since, until, connections):
        self.since, self.until, self.connections = since, until, connections

    def has(self, line):
        is_in_time = (self.since or 0) <= line.moment and (self.until is None or line.moment <= self.until)
        return is_in_time and (not self.connections or line.conn in self.connections)


class Turn:
    """A turn on the bus: where it began, and where it ended, with its reply or its connection, if it did."""

    def __init__(self, line):
        self.conn, self.begin, self.end = line.conn, line.number, None


class Rows:
    """Makes the rows of a part of a trace, line by line. What stands outside of the part has no row, but what it says of the bus, of
    turns and of calls holds in the part."""

    def __init__(self, part):
        self.part, self.rows, self.asked, self.wire, self.roles, self.addresses = part, [], {}, Wire(), {}, set()
        self.turns, self.open = [], {}

    def add(self, line):
        getattr(self, f"add_{line.kind}")(line)
        if line.kind in ("out", "gone") and line.conn in self.open:
            self.open.pop(line.conn).end = line.number

    def put(self, line, *parts, **named):
        if self.part.has(line):
            self.rows.append(Row(line, *parts, **named))

    def conns(self):
        """The connections that have a row, in their order."""
        return sorted({row.line.conn for row in self.rows} - {None})

    def add_up(self, line):
        self.roles[line.conn] = line.rest
        self.put(line, "left", "up", f"connection {line.conn} comes up")

    def add_call(self, line):
        self.asked[line.conn], text = call_of(bytes.fromhex(line.rest))
        self.put(line, "left", "call", text, (line.conn, "gateway"))

    def add_begin(self, line):
        self.put(line, "right", "begin", f"the turn of connection {line.conn} begins")
        self.turns.append(Turn(line))
        self.open[line.conn] = self.turns[-1]

    def add_bus(self, line):
        for act in acts_of(self.wire, line.rest.split()):
            # the arrow ends at the last one, and passes the others
            ends = sorted(act.addresses, key=address_order) or ["bus"]
            arrow = (ends[-1], "gateway") if act.comes else ("gateway", ends[-1])
            self.put(line, "right", "bus", act.text, arrow, dots=ends[:-1])
            self.add_addresses(line, act.addresses)
        self.add_addresses(line, self.wire.others() + self.wire.other_talker())

    def add_addresses(self, line, addresses):
        if self.part.has(line):
            self.addresses.update(addresses)

    def add_dial(self, line):
        self.put(line, "left", "dial", f"dial of the client: {'up' if line.rest == 'ok' else 'failed'}", ("gateway", line.conn))

    def add_srq(self, line):
        self.put(line, "right", "srq", f"SRQ line: {'on' if line.rest == '1' else 'off'}", ("bus", "gateway"))

    def add_out(self, line):
        is_well, text = reply_of(self.asked[line.conn], bytes.fromhex(line.rest))
        self.put(line, "left", "out" if is_well else "error", text, ("gateway", line.conn))

    def add_irq(self, line):
        if line.rest in ("none", "closed"):
            text = "no interrupt is due" if line.rest == "none" else "no interrupt channel"
            self.put(line, "left", "wait", text, ("gateway", line.conn), dashed=True)
        else:
            _, text = call_of(bytes.fromhex(line.rest)[4:])
            self.put(line, "left", "irq", text, ("gateway", line.conn))

    def add_wait(self, line):
        why, _, whom = line.rest.partition(" ")
        self.put(line, "left", "wait", WAITS[why].format(whom), ("gateway", line.conn), dashed=True)

    def add_gone(self, line):
        why = {"down": "is down", "junk": "ends: no call", "long": "ends: a record too long"}[line.rest]
        self.put(line, "left", "gone", f"connection {line.conn} {why}")


# The picture

TOP, ROW, MOMENT_GAP, BOTTOM = 74, 30, 12, 46
MARGIN, BOX, GAP_LEAST = 20, 104, 200
FONT, SIZE, SMALL = "DejaVu Sans, Verdana, Arial, sans-serif", 13, 11
COLOURS = {
    "up": "#555555", "gone": "#555555", "call": "#1a5ea8", "out": "#22722b", "error": "#b3261e", "wait": "#946000", "begin": "#6b4a9c",
    "bus": "#6b4a9c", "srq": "#a8326e", "irq": "#a8326e", "dial": "#a8326e",
}
INK, LINE, PAPER, SHADE = "#222222", "#b8bec8", "#ffffff", "#eef1f6"
GOES_ON = "the trace goes on"  # stands below a part that isn't the last one


def width_of(text, size=SIZE):
    """How wide a text is at most, by the widths of DejaVu Sans."""
    widths = {**dict.fromkeys("iIjl.,:;'|! ", 0.36), **dict.fromkeys("mwMW@%", 0.99), **dict.fromkeys("frt()[]/\\-\"", 0.47)}
    return size * sum(widths.get(sign, 0.7 if sign.isupper() else 0.65) for sign in text)


class Picture:
    """Where each column and row of a trace stands, and the picture of them."""

    def __init__(self, made, last):
        self.rows, self.roles, self.last = made.rows, {conn: made.roles[conn] for conn in made.conns()}, last
        self.turns = [turn for turn in made.turns if turn.conn in self.roles]
        self.addresses = sorted(made.addresses, key=address_order)
        self.gaps = {side: self.gap(side) for side in ("left", "right")}
        self.place_columns()
        self.place_rows()

    def gap(self, side):
        """How wide the space beside the gateway is, so that each text on that side has room in it."""
        return max([GAP_LEAST] + [width_of(row.text) + 48 for row in self.rows if row.side == side])

    def place_columns(self):
        self.moments = max([40] + [width_of(moment_text(row.line), SMALL) for row in self.rows]) + MARGIN + 12
        at = self.moments + BOX / 2
        self.x = {}
        for conn in self.roles:
            self.x[conn] = at
            at += BOX + 16
        at += self.gaps["left"] - BOX - 16 if self.roles else 0
        self.x["gateway"] = at
        at += self.gaps["right"]
        for column in ("bus", *self.addresses):
            self.x[column] = at
            at += BOX + 16
        self.width = at - BOX / 2 - 16 + MARGIN

    def place_rows(self):
        self.y, y, moment = {}, TOP, None
        for row in self.rows:
            y += ROW + (MOMENT_GAP if row.line.moment != moment else 0)
            moment = row.line.moment
            self.y[row] = y
            # a text on its line, and not above it, comes nearer to the next one
            y += 8 if row.dashed or not row.arrow else 0
        self.end = y + ROW
        self.height = self.end + BOTTOM

    def drawn(self):
        size = {"width": number(self.width), "height": number(self.height)}
        svg = ET.Element("svg", {"xmlns": "http://www.w3.org/2000/svg", **size, "viewBox": f"0 0 {size['width']} {size['height']}"})
        svg.set("font-family", FONT)
        svg.set("font-size", str(SIZE))
        ET.SubElement(svg, "title").text = "A trace of the gateway"
        box(svg, 0, 0, self.width, self.height, PAPER)
        self.draw_moments(svg)
        self.draw_columns(svg)
        self.draw_turns(svg)
        for row in self.rows:
            self.draw_row(svg, row)
        self.draw_last(svg)
        return svg

    def draw_moments(self, svg):
        """The moment beside its first row, and a thin line above it."""
        moment = None
        for row in self.rows:
            if row.line.moment != moment:
                moment, y = row.line.moment, self.y[row]
                stroke(svg, MARGIN, y - ROW + 4, self.width - MARGIN, y - ROW + 4, "#e3e7ee")
                words(svg, self.moments - 12, y - ROW + 20, moment_text(row.line), "#555555", "end", SMALL)

    def draw_columns(self, svg):
        ups = {row.line.conn: self.y[row] for row in self.rows if row.kind == "up"}
        ends = {row.line.conn: self.y[row] for row in self.rows if row.kind == "gone"}
        for column, x in self.x.items():
            top, end = ups.get(column, TOP - 10), ends.get(column, self.end)
            stroke(svg, x, top, x, end, LINE, "2 4" if column == "bus" else None)
            heads = group(svg, "column", column_name(column))
            box(heads, x - BOX / 2, TOP - 50, BOX, 40, SHADE, LINE)
            name, below = self.heading(column)
            words(heads, x, TOP - (25 if not below else 33), name, INK, "middle", SIZE, "bold")
            if below:
                words(heads, x, TOP - 18, below, "#555555", "middle", SMALL)

    def heading(self, column):
        if isinstance(column, int):
            return f"client {column}", f"{self.roles[column]} channel"
        if isinstance(column, tuple):
            return f"address {address_name(column)}", "instrument"
        return ("gateway", "VXI-11") if column == "gateway" else ("bus", "IEEE 488")

    def draw_turns(self, svg):
        """A bar on the bus while a turn is under way: from its begin to its reply, or to the end of its connection. One that begins above
        the picture begins at its top, and one that ends below at its end."""
        heights = {row.line.number: self.y[row] for row in self.rows}
        for turn in self.turns:
            if turn.begin <= max(heights) and (turn.end is None or min(heights) <= turn.end):
                self.draw_turn(svg, heights.get(turn.begin, TOP - 4), heights.get(turn.end, self.end))

    def draw_turn(self, svg, top, end):
        box(svg, self.x["bus"] - 5, top - 6, 10, end - top + 6, "#e4daf2", COLOURS["bus"])

    def draw_row(self, svg, row):
        y, colour = self.y[row], COLOURS[row.kind]
        g = group(svg, row.line.kind, str(row.line.number), "data-line")
        ET.SubElement(g, "title").text = row.line.text[:200] + (" .." if len(row.line.text) > 200 else "")
        if row.arrow:
            begin, end = (self.x[column] for column in row.arrow)
            stroke(g, begin, y, end, y, colour, "5 4" if row.dashed else None, 1.5)
            if not row.dashed:
                head(g, end, y, 1 if end > begin else -1, colour)
        elif row.line.conn in self.x:
            self.draw_mark(g, row, y, colour)
        for column in row.dots:
            ET.SubElement(g, "circle", {"cx": number(self.x[column]), "cy": number(y), "r": "3.5", "fill": colour})
        self.draw_text(g, row, y, colour)

    def draw_mark(self, g, row, y, colour):
        """Where a connection comes up, a ring; where it goes, a cross; and where a turn begins, a bar on the bus."""
        x = self.x[row.line.conn]
        if row.kind == "begin":
            stroke(g, self.x["bus"] - 9, y - 6, self.x["bus"] + 9, y - 6, colour, None, 1.5)
        elif row.kind == "up":
            ET.SubElement(g, "circle", {"cx": number(x), "cy": number(y), "r": "5", "fill": PAPER, "stroke": colour, "stroke-width": "1.5"})
        else:
            stroke(g, x - 6, y - 6, x + 6, y + 6, colour, None, 2)
            stroke(g, x - 6, y + 6, x + 6, y - 6, colour, None, 2)

    def draw_text(self, g, row, y, colour):
        """Texts of calls stand in the middle of the space on the left of the gateway, those of the bus on its right; one of who waits in a
        frame on its dashed line, and others above their arrow."""
        gap = self.gaps[row.side] / 2
        x = self.x["gateway"] + (gap if row.side == "right" else -gap)
        if row.dashed:
            wide = width_of(row.text) + 16
            box(g, x - wide / 2, y - 11, wide, 22, "#fff6df", colour, 6)
        words(g, x, y + (4.5 if row.dashed or not row.arrow else -6), row.text, colour, "middle")

    def draw_last(self, svg):
        g = group(svg, "last", self.last)
        colour = {"done": COLOURS["out"], GOES_ON: COLOURS["up"]}.get(self.last, COLOURS["error"])
        stroke(g, MARGIN, self.end, self.width - MARGIN, self.end, LINE)
        words(g, self.x["gateway"], self.end + 24, self.last, colour, "middle", SIZE, "bold")


def moment_text(line):
    return f"{line.moment:,} ms"


def column_name(column):
    return address_name(column) if isinstance(column, tuple) else str(column)


def number(value):
    return f"{value:.1f}".removesuffix(".0")


def group(parent, kind, name, key="data-name"):
    return ET.SubElement(parent, "g", {"class": kind, key: name})


def box(parent, x, y, width, height, fill, outline=None, round_by=0):
    sizes = {"x": x, "y": y, "width": width, "height": height}
    rect = ET.SubElement(parent, "rect", {**{key: number(value) for key, value in sizes.items()}, "fill": fill})
    if outline:
        rect.set("stroke", outline)
    if round_by:
        rect.set("rx", str(round_by))


def stroke(parent, x1, y1, x2, y2, colour, dashes=None, width=1):
    ends = {"x1": x1, "y1": y1, "x2": x2, "y2": y2}
    look = {"stroke": colour, "stroke-width": str(width)}
    line = ET.SubElement(parent, "line", {**{key: number(value) for key, value in ends.items()}, **look})
    if dashes:
        line.set("stroke-dasharray", dashes)


def head(parent, x, y, way, colour):
    """The head of an arrow that leads to the right, way 1, or to the left, way -1."""
    points = [(x, y), (x - way * 9, y - 4.5), (x - way * 9, y + 4.5)]
    ET.SubElement(parent, "polygon", {"points": " ".join(f"{number(a)},{number(b)}" for a, b in points), "fill": colour})


def words(parent, x, y, text, colour, anchor, size=SIZE, weight=None):
    place = {"x": number(x), "y": number(y), "fill": colour, "text-anchor": anchor, "font-size": str(size)}
    if weight:
        place["font-weight"] = weight
    ET.SubElement(parent, "text", place).text = text


# The table


class Entry:
    """A line of the table: its moment, who, what, and how it ended."""

    def __init__(self, line, who, what, ended=""):
        self.line, self.who, self.what, self.ended, self.waits = line, who, what, ended, []

    def cells(self):
        return [f"{self.line.moment:,}", self.who, self.what, "; ".join(filter(None, [self.ended, *self.waits]))]


class Table:
    """What each call of a trace asks for and how it ended, and what else came, each with its moment."""

    def __init__(self, part):
        self.part, self.entries, self.asked, self.open = part, [], {}, {}

    def add(self, line):
        tell = getattr(self, f"tell_{line.kind}", None)
        if tell:
            tell(line)

    def put(self, line, what, ended=""):
        self.entries.append(Entry(line, "bus" if line.conn is None else f"client {line.conn}", what, ended))
        return self.entries[-1]

    def end(self, line, how):
        """The call of a connection that has one ended so."""
        entry = self.open.pop(line.conn, None)
        if entry:
            passed = line.moment - entry.line.moment
            entry.ended = how + (f", {passed:,} ms later" if passed else "")

    def tell_up(self, line):
        self.put(line, f"{line.rest} channel: connects")

    def tell_call(self, line):
        self.asked[line.conn], text = call_of(bytes.fromhex(line.rest))
        self.open[line.conn] = self.put(line, text, "no reply yet")

    def tell_wait(self, line):
        why, _, whom = line.rest.partition(" ")
        told = WAITED.get(why, "").format(whom)
        if line.conn in self.open and told and told not in self.open[line.conn].waits:
            self.open[line.conn].waits.append(told)

    def tell_out(self, line):
        self.end(line, reply_of(self.asked[line.conn], bytes.fromhex(line.rest))[1])

    def tell_gone(self, line):
        self.end(line, "no reply")
        self.put(line, {"down": "is down", "junk": "ends: no call", "long": "ends: a record too long"}[line.rest])

    def tell_srq(self, line):
        self.put(line, f"SRQ line: {'on' if line.rest == '1' else 'off'}")

    def tell_dial(self, line):
        self.put(line, "dial of the client", "up" if line.rest == "ok" else "failed")

    def tell_irq(self, line):
        if line.rest not in ("none", "closed"):
            self.put(line, call_of(bytes.fromhex(line.rest)[4:])[1])

    def text(self):
        """The entries of the part, below a heading, in columns."""
        cells = [entry.cells() for entry in self.entries if self.part.has(entry.line)]
        if not cells:
            raise Fault("nothing of the trace lies in this part")
        cells.insert(0, ["ms", "who", "what", "how it ended"])
        moment, who, what = (max(len(row[place]) for row in cells) for place in range(3))
        return "".join(f"{row[0]:>{moment}}  {row[1]:<{who}}  {row[2]:<{what}}  {row[3]}".rstrip() + "\n" for row in cells)


WAITED = {
    "lock": "waited for the lock of link {}", "behind": "waited behind the call of connection {}",
    "turn": "waited for the turn of connection {}", "held": "waited for the bus", "dial": "waited for a dial",
}


def picture_text(part, lines, last):
    """The picture of a part of these lines."""
    made = Rows(part)
    for line in lines:
        made.add(line)
    if not made.rows and (lines or part.since or part.until is not None or part.connections):
        raise Fault("nothing of the trace lies in this part")
    is_last = not lines or part.until is None or lines[-1].moment <= part.until
    svg = Picture(made, last if is_last else GOES_ON).drawn()
    ET.indent(svg)
    return ET.tostring(svg, encoding="unicode") + "\n"


def table_text(part, lines):
    table = Table(part)
    for line in lines:
        table.add(line)
    return table.text()


class Words(argparse.ArgumentParser):
    """The words behind the program's name."""

    def __init__(self):
        super().__init__(prog="draw", description="Draws a trace of version 2 of standard input as SVG, or tells it as a table.")
        self.add_argument("--from", dest="since", type=moment_of, metavar="MOMENT", help="leave out what was before, in milliseconds")
        self.add_argument("--to", dest="until", type=moment_of, metavar="MOMENT", help="leave out what came later, in milliseconds")
        self.add_argument("--connection", dest="connections", type=conn_of, action="append", default=[], metavar="N",
                          help="draw the lines of this connection alone; several times for several")
        self.add_argument("--table", action="store_true", help="tell it in lines of text, in place of a picture")
        self.add_argument("verdict", nargs="*", metavar="VERDICT", help="what vxcheck prints of the trace")

    def error(self, message):
        raise Fault(message)


def moment_of(word):
    if not re.fullmatch(NUMBER, word):
        raise argparse.ArgumentTypeError(f"{word!r} is no moment in milliseconds")
    return int(word)


def conn_of(word):
    if not re.fullmatch(CONN, word):
        raise argparse.ArgumentTypeError(f"{word!r} is no number of a connection")
    return int(word)


def told_of(words):
    """What the words ask to be told of the trace on standard input."""
    asked = Words().parse_args(words)
    refused = REFUSED.fullmatch(" ".join(asked.verdict))
    if asked.verdict and asked.verdict != ["legal"] and not refused:
        raise Fault("the words are no verdict of vxcheck")
    # what stands behind a refused line may be anything
    text = sys.stdin.buffer.read().decode("ascii", "replace" if refused else "strict")
    lines, last = read_refused(text, int(refused[1]), refused[2]) if refused else read_trace(text)
    part = Part(asked.since, asked.until, asked.connections)
    return table_text(part, lines) if asked.table else picture_text(part, lines, last)


def main(words):
    try:
        sys.stdout.write(told_of(words))
    except UnicodeDecodeError:
        return "draw: the input isn't ASCII"
    except Fault as why:
        return f"draw: {why}"
    return 0


if __name__ == "__main__":
    sys.exit(main(sys.argv[1:]))
