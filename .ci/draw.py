#!/usr/bin/env python3
"""Draws each trace of examples/, and one of each call, error and wait, by `examples/draw.py`, and looks in the picture for what the
trace has.

    draw.py

Each call, reply and wait of a trace has to stand in its picture once, in order, between the columns of its connection and of the
gateway, with the procedure, the error or the cause that the line has, which is read here from its words again; and so have the turns
on the bus and its transfers. All of a picture lies in its frame, and no text on another. A trace that is refused at a line is drawn
up to it, with the cause, whatever stands behind. Inputs that are no trace have a message and status 1. And docs/trace.svg, which
README.md shows, is the picture of the trace that it and docs/SCRIPT.md say. What differs, and at last 'N passed, M failed', goes to
standard error; the status is 1 where something differs.
"""
import pathlib
import re
import subprocess
import sys
import xml.etree.ElementTree as ET

import rpc

TOP = pathlib.Path(__file__).resolve().parent.parent
DRAW = TOP / "examples/draw.py"
SVG = "{http://www.w3.org/2000/svg}"
SHOWN = "waiting"  # the trace that docs/trace.svg shows

CORE = {
    10: "create_link", 11: "device_write", 12: "device_read", 13: "device_readstb", 14: "device_trigger", 15: "device_clear",
    16: "device_remote", 17: "device_local", 18: "device_lock", 19: "device_unlock", 20: "device_enable_srq", 22: "device_docmd",
    23: "destroy_link", 25: "create_intr_chan", 26: "destroy_intr_chan", 0: "null",
}
CAUSES = {"lock": "lock of link {}", "behind": "behind the call of connection {}", "turn": "turn of connection {}", "held": "bus is held",
          "slice": "next poll", "dial": "dial"}

CALL = "0000000100000000000000020006" + "07AF00000001" + "0" * 40
NO_TRACES = {
    "nothing": "",
    "a trace of version 1": "wait 1 held\ndone\n",
    "no last line": "vxtrace 2\n0 up 1 core\n",
    "no line feed at its end": "vxtrace 2\n0 up 1 core\ndone",
    "a line behind the last one": "vxtrace 2\ndone\n0 up 1 core\n",
    "a word that isn't known": "vxtrace 2\n0 come 1\ndone\n",
    "no moment": "vxtrace 2\nup 1 core\ndone\n",
    "a moment with a leading zero": "vxtrace 2\n00 up 1 core\ndone\n",
    "a moment before the last": "vxtrace 2\n5 up 1 core\n4 gone 1 down\ndone\n",
    "half a byte": "vxtrace 2\n0 up 1 core\n0 call 1 123\ndone\n",
    "digits in lower case": "vxtrace 2\n0 up 1 core\n0 call 1 ab\ndone\n",
    "a connection that isn't up": "vxtrace 2\n0 call 1 12\ndone\n",
    "a connection that is gone": "vxtrace 2\n0 up 1 core\n0 gone 1 down\n0 wait 1 held\ndone\n",
    "a number that isn't the next": "vxtrace 2\n0 up 2 core\ndone\n",
    "a reply without a call": "vxtrace 2\n0 up 1 core\n0 out 1 8000000000\ndone\n",
    "a second reply": f"vxtrace 2\n0 up 1 core\n0 call 1 {CALL}\n0 out 1 80000000\n0 out 1 80000000\ndone\n",
    "a transfer that is none": "vxtrace 2\n0 up 1 core\n0 bus 1 x3F\ndone\n",
    "a bus without a transfer": "vxtrace 2\n0 up 1 core\n0 bus 1\ndone\n",
    "another cause of a wait": "vxtrace 2\n0 up 1 core\n0 wait 1 long\ndone\n",
    "another end": "vxtrace 2\nfault long\n",
    "bytes that are no text": b"vxtrace 2\n\xff\ndone\n",
}


# arguments of each procedure, and the results of a reply without an error
OPAQUE = "00000004" + b'%<"&'.hex().upper()
ARGUMENTS = {0: "", 10: "0" * 16 + "00000001" + OPAQUE, 11: "00000007" * 3 + "00000008" + OPAQUE, 12: "00000007" * 4 + "000000800000000A",
             20: "0000000700000001" + OPAQUE, 22: "00000007" * 4 + "000200000000000100000001" + OPAQUE, 25: "7F000001" * 5, 26: ""}
RESULTS = {10: "000000070000233300040000", 11: "00000004", 12: "00000007" + OPAQUE, 13: "00000050", 22: OPAQUE}
# the errors, and what is said of each
ERRORS = {1: "syntax", 3: "not accessible", 4: "link", 5: "parameter", 6: "not established", 8: "not supported", 9: "resources", 11: "locked",
          12: "no lock", 15: "timeout", 17: "I/O", 21: "address", 23: "abort", 29: "already"}
TRANSFERS = (
    "c3F c40 c25 c63 c2C p25 p3C P26", "p41 p42", "c3F c20 c18 c46 g50 c19 c5F", "ren1 c3F c25", "ifc", "own9 atn0", "c3F c25 c04 c08 c01",
    "c14 c11", "c47 c09", "c7F", "c3F c40 c25", "c3F c20 c45 c61", "g25 G0A",
)


class Wrong(Exception):
    """What a picture lacks."""


def drawn(trace, *verdict):
    trace = trace if isinstance(trace, bytes) else trace.encode()
    return subprocess.run([sys.executable, str(DRAW), *verdict], input=trace, capture_output=True, timeout=60)


def call(procedure, arguments, program=rpc.CORE):
    return rpc.call(1, program, procedure).hex().upper() + arguments


def reply(results):
    return rpc.record(rpc.reply(1) + bytes.fromhex(results)).hex().upper()


def trace_of_all():
    """A trace with each procedure, error, refusal, wait and transfer."""
    lines = ["up 1 core", "up 2 abort", "up 3 core"]
    for number in CORE:
        lines += [f"call 1 {call(number, ARGUMENTS.get(number, '00000007' * 4))}", "begin 1"]
        lines.append(f"out 1 {reply('0' * 8 + RESULTS.get(number, '') if number else '')}")
    for error in ERRORS:
        lines += [f"call 3 {call(11, ARGUMENTS[11])}", f"out 3 {reply(f'{error:08X}00000003')}"]
    for status in (1, 2, 3, 4):
        lines += [f"call 1 {call(10, '')}", f"out 1 8000001800000001000000010000000000000000000000000000000{status}"]
    lines += [f"call 1 {call(10, ARGUMENTS[10])}", "out 1 8000001800000001" + "00000001" * 2 + "0" * 8 + "00000002" * 2]
    lines += [f"call 2 {call(1, '00000007', rpc.ABORT)}", f"out 2 {reply('0' * 8)}", f"call 1 {call(11, ARGUMENTS[11])}"]
    lines += [f"bus 1 {transfers}" for transfers in TRANSFERS]
    lines += [f"wait 1 {cause} 3" if "{}" in text else f"wait 1 {cause}" for cause, text in CAUSES.items()]
    lines += ["dial 1 ok", "dial 1 fail", "srq 1", "srq 0", f"irq 1 80000034{call(30, OPAQUE, rpc.INTERRUPT)}", "irq 1 none", "irq 1 closed"]
    lines += ["gone 1 down", "call 3 ", "gone 3 junk", "gone 2 long"]
    return "\n".join(["vxtrace 2", *[f"{10 ** (place // 6)} {line}" for place, line in enumerate(lines)], "fault line 90 conn", ""])


def word(text, place):
    """The word of a record in hexadecimal digits at this place, the first being 0."""
    return int(text[8 * place : 8 * place + 8], 16)


def looked_for(kind, rest, asked):
    """What the picture has to say of a line: patterns, of which each is in its text. `asked` is the procedure of the last call."""
    if kind == "call":
        return [rf"\b{asked}\b"] if asked else [r"no call|program"]
    if kind == "wait":
        cause, _, whom = rest.partition(" ")
        return [re.escape(CAUSES[cause].format(whom)) + r"$"]
    if word(rest, 3):
        return ["denied"]
    if word(rest, 6):
        return ["refused"]
    if asked == "null":
        return ["ok"]
    error = word(rest, 7)
    return [rf"error {error}: .*{ERRORS[error]}"] if error else reply_looked_for(asked, rest)


def reply_looked_for(asked, rest):
    """The same of a reply without an error."""
    if asked == "create_link":
        return ["ok", rf"link {word(rest, 8)}\b", rf"{word(rest, 10):,} bytes"]
    if asked in ("device_write", "device_read"):
        return ["ok", rf"\b{word(rest, 8 if asked == 'device_write' else 9):,} byte"]
    if asked == "device_readstb":
        return ["ok", f"0x{word(rest, 8):02X}"]
    return ["ok"]


def procedure(message):
    """The name of the procedure that a message calls, or none."""
    if len(message) < 80 or word(message, 1) or word(message, 2) not in (2, 3) or word(message, 4) != 1:
        return None
    return CORE.get(word(message, 5)) if word(message, 3) == 0x0607AF else "device_abort" if word(message, 5) == 1 else "null"


class Picture:
    def __init__(self, text):
        self.svg = ET.fromstring(text)
        if self.svg.tag != SVG + "svg":
            raise Wrong("it is no SVG")
        self.groups = list(self.svg.iter(SVG + "g"))
        self.columns = {g.get("data-name"): float(g.find(SVG + "rect").get("x")) + float(g.find(SVG + "rect").get("width")) / 2
                        for g in self.groups if g.get("class") == "column"}

    def of(self, number):
        """The groups of a line of the trace."""
        return [g for g in self.groups if g.get("data-line") == str(number)]

    def box(self, text):
        """The space of a text: its left and right end, and its top and bottom, with six tenths of its size for a sign."""
        size, wide = float(text.get("font-size")), len(text.text) * 0.6 * float(text.get("font-size"))
        x, y = float(text.get("x")) - {"middle": wide / 2, "end": wide}[text.get("text-anchor")], float(text.get("y"))
        return x, x + wide, y - 0.75 * size, y + 0.22 * size

    def check_frame(self):
        left, top, width, height = map(float, self.svg.get("viewBox").split())
        for element in self.svg.iter():
            for key, most in (("x", left + width), ("x1", left + width), ("x2", left + width), ("cx", left + width), ("y", top + height),
                              ("y1", top + height), ("y2", top + height), ("cy", top + height)):
                if element.get(key) and not 0 <= float(element.get(key)) <= most:
                    raise Wrong(f"{key} {element.get(key)} is outside of the frame")

    def check_texts(self):
        boxes = sorted((self.box(text)[2], self.box(text), text.text) for text in self.svg.iter(SVG + "text"))
        for place, (_, one, name) in enumerate(boxes):
            for _, other, second in boxes[place + 1 : place + 12]:
                if one[0] < other[1] and other[0] < one[1] and one[2] < other[3] and other[2] < one[3]:
                    raise Wrong(f"{name!r} stands on {second!r}")


def check_line(picture, number, kind, conn, patterns, above):
    """Whether a call, a reply or a wait has its row, below the row above: its height."""
    groups = picture.of(number)
    if len(groups) != 1 or groups[0].get("class") != kind:
        raise Wrong(f"line {number}, {kind}: {len(groups)} rows")
    texts, line = groups[0].findall(SVG + "text"), groups[0].find(SVG + "line")
    if len(texts) != 1 or any(not re.search(pattern, texts[0].text) for pattern in patterns):
        raise Wrong(f"line {number}: {[text.text for text in texts]} lacks one of {patterns}")
    ends = [picture.columns[conn], picture.columns["gateway"]]
    if line is None or [float(line.get(key)) for key in ("x1", "x2")] != (ends if kind == "call" else ends[::-1]):
        raise Wrong(f"line {number}, {kind}: it isn't between connection {conn} and the gateway")
    if (line.get("stroke-dasharray") is None) != (kind != "wait"):
        raise Wrong(f"line {number}, {kind}: a wait is dashed, and nothing else")
    if float(line.get("y1")) <= above:
        raise Wrong(f"line {number}, {kind}: it isn't below the line before")
    return float(line.get("y1"))


def picture_of(trace, *verdict):
    done = drawn(trace, *verdict)
    if done.returncode or done.stderr:
        raise Wrong(f"status {done.returncode}, {done.stderr.decode()}")
    return Picture(done.stdout)


def check_trace(trace):
    picture = picture_of(trace)
    check_lines(picture, trace.split("\n")[1:-2])
    check_addresses(picture, trace)
    picture.check_frame()
    picture.check_texts()


def check_lines(picture, lines):
    """Each of these lines, which stand behind the first one of a trace, has its row."""
    asked, y = {}, 0
    for number, line in enumerate(lines, 2):
        _, kind, *rest = line.split(" ", 3)
        conn, rest = rest[0], rest[1] if len(rest) > 1 else ""
        if kind == "call":
            asked[conn] = procedure(rest)
        if kind in ("call", "out", "wait"):
            rest = " ".join(line.split(" ")[3:])
            y = check_line(picture, number, kind, conn, looked_for(kind, rest, asked.get(conn)), y)
        elif not any(text.text for group in picture.of(number) for text in group.findall(SVG + "text")):
            raise Wrong(f"line {number}, {kind}: it has no row")


def check_refused(trace):
    """Refused at any of its lines, with junk from there on, it is drawn up to that line; so it is where its last line is missing."""
    lines = trace.split("\n")[:-1]
    for number in range(1, len(lines) + 1):
        is_cut, front = number == len(lines), "".join(line + "\n" for line in lines[: number - 1])
        verdict = f"line {number} {'place' if is_cut else 'form'}"
        picture = picture_of(front.encode() + (b"" if is_cut else b"junk \xff\n" * (len(lines) - number)), *verdict.split())
        check_lines(picture, lines[1 : number - 1])
        if any(picture.of(later) for later in range(number, len(lines) + 1)):
            raise Wrong(f"{verdict}: what stands behind it is drawn")
        last, = [g for g in picture.groups if g.get("class") == "last"]
        if [text.text for text in last.iter(SVG + "text")] != [verdict]:
            raise Wrong(f"{verdict}: the picture doesn't say so")
        picture.check_frame()


def check_verdicts():
    """`legal` changes nothing, and other words have a message."""
    trace = (TOP / f"examples/{SHOWN}.trace").read_bytes()
    if drawn(trace, "legal").stdout != drawn(trace).stdout:
        raise Wrong("another picture of a legal trace")
    for words in (["long"], ["line", "8"], ["line", "0", "form"], ["line", "8", "none"], ["line", "1000", "form"]):
        done = drawn(trace, *words)
        if done.returncode != 1 or done.stdout or not re.fullmatch(rb"draw: [^\n]+\n", done.stderr):
            raise Wrong(f"{words}: status {done.returncode}, {done.stderr[:80]}")


def texts_of(picture, number):
    return [[text.text for text in group.findall(SVG + "text")] for group in picture.of(number)]


def check_part(trace, whole, has, goes_on, *words):
    """With these words the lines are drawn that the part has, as in the whole picture, and no others."""
    part = picture_of(trace, *words)
    for number, line in enumerate(trace.split("\n")[1:-2], 2):
        due = texts_of(whole, number) if has(line) else []
        if texts_of(part, number) != due:
            raise Wrong(f"{words}, line {number}: {texts_of(part, number)}, and not {due}")
    last, = [g for g in part.groups if g.get("class") == "last"]
    if ([text.text for text in last.iter(SVG + "text")] == ["the trace goes on"]) != goes_on:
        raise Wrong(f"{words}: whether the trace goes on")
    part.check_frame()
    part.check_texts()


def check_parts(trace):
    """Parts from one of its moments on, up to one, and between two; and that of each connection."""
    whole, lines = picture_of(trace), trace.split("\n")[1:-2]
    moments = sorted({int(line.split(" ")[0]) for line in lines})
    for first, last in {(moments[len(moments) * k // 4], moments[(len(moments) - 1) * (k + 2) // 4]) for k in (0, 1, 2)}:
        before, behind = (lambda line: int(line.split(" ")[0]) <= last), (lambda line: first <= int(line.split(" ")[0]))
        goes_on = last < moments[-1]
        check_part(trace, whole, behind, False, "--from", str(first))
        check_part(trace, whole, before, goes_on, "--to", str(last))
        check_part(trace, whole, lambda line: before(line) and behind(line), goes_on, "--from", str(first), "--to", str(last))
    conns = sorted({line.split(" ")[2] for line in lines if line.split(" ")[1] == "up"})
    for conn in conns:
        check_part(trace, whole, lambda line: line.split(" ")[1] != "srq" and line.split(" ")[2] == conn, False, "--connection", conn)


def check_table(trace):
    """The table has a line for each call, with its moment, its reply or none, and why it waited; and one for each end, dial and interrupt."""
    done = drawn(trace, "--table")
    rows = iter(done.stdout.decode().splitlines()[1:])
    lines = [line.split(" ", 3) for line in trace.split("\n")[1:-2]]
    for place, (moment, kind, conn, *rest) in enumerate(lines):
        if kind in ("begin", "bus", "out", "wait") or kind == "irq" and rest[0] in ("none", "closed"):
            continue
        row, patterns = next(rows, ""), [rf"^ *{int(moment):,}  {'bus' if kind == 'srq' else f'client {conn}'} "]
        if kind == "call":
            asked = procedure(rest[0])
            patterns += looked_for("call", rest[0], asked) + ended(lines[place + 1 :], conn, asked)
        if any(not re.search(pattern, row) for pattern in patterns):
            raise Wrong(f"line {place + 2}: {row!r} lacks one of {patterns}")
    if done.returncode or next(rows, None) is not None:
        raise Wrong(f"status {done.returncode}, or a row that no line has")


def ended(later, conn, asked):
    """What the table has to say of the end of a call of a connection, by the lines behind it."""
    waits = []
    for _, kind, whose, *rest in later:
        if whose != conn or kind not in ("out", "wait", "gone"):
            continue
        if kind == "wait":
            cause, _, whom = rest[0].partition(" ")
            waits += [] if cause == "slice" else [re.escape(CAUSES[cause].format(whom).removesuffix(" is held"))]
        else:
            return waits + (looked_for("out", rest[0], asked) if kind == "out" else ["no reply"])
    return waits + ["no reply yet"]


def check_words():
    """A part that isn't there and words that aren't known have a message."""
    trace = (TOP / f"examples/{SHOWN}.trace").read_bytes()
    for words in (["--from", "x"], ["--to", "-1"], ["--connection", "0"], ["--connection", "9"], ["--from", "31", "--to", "30"],
                  ["--from", "32"], ["--table", "--connection", "9"], ["--colour"]):
        done = drawn(trace, *words)
        if done.returncode != 1 or done.stdout or not re.fullmatch(rb"draw: [^\n]+\n", done.stderr):
            raise Wrong(f"{words}: status {done.returncode}, {done.stderr[:80]}")


def check_addresses(picture, trace):
    """Each address of a device that a command names, where none has a secondary one, has its column."""
    for line in re.findall(r"^\d+ bus \d+ (.*)$", trace, re.M):
        for command in re.findall(r"\bc([2-5][0-9A-F])", line):
            address = str(int(command, 16) % 32)
            if address not in ("0", "31") and address not in picture.columns:
                raise Wrong(f"no column of address {address}")


def check_no_trace(name):
    done = drawn(NO_TRACES[name])
    if done.returncode != 1 or done.stdout or not re.fullmatch(rb"draw: [^\n]+\n", done.stderr):
        raise Wrong(f"status {done.returncode}, {done.stdout[:80]}, {done.stderr[:80]}")


def check_shown():
    for page, picture in (("README.md", "](docs/trace.svg)"), ("docs/SCRIPT.md", "](trace.svg)")):
        text = (TOP / page).read_text()
        if picture not in text or f"examples/{SHOWN}.trace" not in text:
            raise Wrong(f"{page} doesn't show it, or says another trace")
    if (TOP / "docs/trace.svg").read_bytes() != drawn((TOP / f"examples/{SHOWN}.trace").read_bytes()).stdout:
        raise Wrong(f"it isn't the picture of examples/{SHOWN}.trace: make it anew")


def main():
    traces = sorted((TOP / "examples").glob("*.trace"))
    cases = [(path.name, lambda path=path: check_trace(path.read_text())) for path in traces]
    cases.append(("a trace of all", lambda: check_trace(trace_of_all())))
    shown = (TOP / f"examples/{SHOWN}.trace").read_text()
    whole = [*((path.name, path.read_text()) for path in traces), ("a trace of all", trace_of_all())]
    cases += [(f"{name}, parts", lambda trace=trace: check_parts(trace)) for name, trace in whole]
    cases += [(f"{name}, table", lambda trace=trace: check_table(trace)) for name, trace in whole]
    cases += [("a trace that is refused", lambda: check_refused(shown)), ("verdicts", check_verdicts), ("words", check_words)]
    cases += [(name, lambda name=name: check_no_trace(name)) for name in NO_TRACES]
    cases.append(("docs/trace.svg", check_shown))
    failed = 0
    for name, check in cases:
        try:
            check()
        except (Wrong, KeyError, ValueError, OSError, ET.ParseError) as why:
            failed += 1
            print(f"{name}: {why}", file=sys.stderr)
    print(f"{len(cases) - failed} passed, {failed} failed", file=sys.stderr)
    return 1 if failed or not traces else 0


if __name__ == "__main__":
    sys.exit(main())
