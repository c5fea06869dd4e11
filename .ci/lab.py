#!/usr/bin/env python3
"""Runs the sessions that README.md, docs/SCRIPT.md and docs/LAB.md show, with the programs that the gate built.

    lab.py

A session is a block of a page with lines `$ COMMAND`, each with what it prints behind it. All of that has to be printed, with the
ports of the page (9010 and 9011) in place of those that were free here; in a line of the log the moment and the peer's port may be
others. A block that starts a server is one window, and the block behind it another one, with its clients; the server then ends by
itself. Clients without a server get one of `examples/bench.txt`. `cat FILE` shows a file that a server reads. Besides, the words of
`bash` of docs/LAB.md have to end a read. What differs, and at last 'N passed, M failed', goes to standard error; the status is 1 where
something differs.
"""
import os
import pathlib
import re
import select
import shlex
import subprocess
import sys

from rpc import HOST, PATIENCE
from serving import Program

TOP = pathlib.Path(__file__).resolve().parent.parent
PAGES = ("README.md", "docs/SCRIPT.md", "docs/LAB.md")
PROGRAMS = ("vxplay", "vxcheck", "vxgate", "vxcall", "vxbuses", "vxguard")
CORE, ABORT = "9010", "9011"  # the ports that the pages have
LOGGED = re.compile(r"^[0-9]+( (?:core|abort) [0-9]+ [0-9.]+:)[0-9]+ ")
COMMAND_SECONDS = 1800  # `make try` builds the player
WITH_PROGRAMS = {**os.environ, "PATH": os.pathsep.join([*(str(TOP / f"crates/{name}/out") for name in PROGRAMS), os.environ["PATH"]])}


class Block:
    """The commands of a block, each with the lines that it prints."""

    def __init__(self, page, number):
        self.name, self.commands = f"{page}, line {number}", []

    def add(self, line):
        if line.startswith("$ "):
            self.commands.append((line[2:], []))
        elif self.commands:
            self.commands[-1][1].append(line + "\n")

    def program(self):
        """The name of the program of its first command."""
        return pathlib.Path(shlex.split(self.commands[0][0])[0]).name


def blocks_of(page):
    """The blocks of a page that have commands."""
    found, inside = [], False
    for number, line in enumerate((TOP / page).read_text().splitlines(), 1):
        if line.startswith("```"):
            inside = not inside
            if inside:
                found.append(Block(page, number))
        elif inside:
            found[-1].add(line)
    return [block for block in found if block.commands]


def at_ports(text, ports):
    """The text of a page with these ports in place of its own."""
    for port, own in zip(ports, (CORE, ABORT)):
        text = text.replace(own, str(port))
    return text


def expect_printed(command, lines, ports=()):
    command, due = at_ports(command, ports), at_ports("".join(lines), ports)
    done = subprocess.run(["bash", "-c", command], cwd=TOP, env=WITH_PROGRAMS, stdin=subprocess.DEVNULL, capture_output=True,
                          timeout=COMMAND_SECONDS)
    printed = done.stdout.decode()
    assert printed == due, f"{command} printed {printed!r}"


def steady(line):
    """A line of the log but for its moment and its peer's port."""
    return LOGGED.sub(r"MOMENT\1PORT ", line)


class Server(Program):
    """The server of a command of a page, with what it prints on standard output and standard error as one text."""

    def __init__(self, command, lines, files):
        words, name = shlex.split(command), command.partition("<")[2].strip()
        program, *options = words[: words.index("<")]
        self.lines, self.is_told = lines, "--log" in options
        if pathlib.Path(program).name == "vxgate":
            self.count, self.first_line, self.lines = 2, "listening {} {}\n", lines[1:]
            options += ["--core", CORE, "--abort", ABORT]
        source = files.get(name) or (TOP / name).read_bytes()
        super().__init__(lambda *ports: [at_ports(word, ports) for word in (program, *options)], source,
                         stderr=subprocess.STDOUT, bufsize=0, cwd=TOP, env=WITH_PROGRAMS)

    def expect_told(self):
        """Where it has a log, its lines up to the next end of a connection."""
        is_ended = not self.is_told
        while not is_ended:
            due, line = self.lines.pop(0), self.next_line()
            assert steady(line) == steady(due), f"it printed {line!r}"
            is_ended = " ended: " in due


def serve(server, clients):
    """The commands of a block of clients, and then the end of their server."""
    with server:
        for command, lines in clients.commands:
            expect_printed(command, lines, server.ports)
            server.expect_told()
        server.expect_end("".join(server.lines))


def usual_server(number):
    return Server(f"vxgate --limit {number} < examples/bench.txt", ["listening\n", f"served {number}\n"], {})


def sessions_of(page):
    """Of each session its name, and what runs it."""
    blocks, files = blocks_of(page), {}
    while blocks:
        block = blocks.pop(0)
        command, lines = block.commands[0]
        if block.program() == "cat":
            files[shlex.split(command)[1]] = "".join(lines).encode()
        elif block.program() in ("vxgate", "vxbuses", "vxguard"):
            clients, server = blocks.pop(0), Server(command, list(lines), files)
            yield block.name, lambda server=server, clients=clients: serve(server, clients)
        elif block.program() == "vxcall":
            yield block.name, lambda block=block: serve(usual_server(len(block.commands)), block)
        else:
            yield block.name, lambda block=block: [expect_printed(*both) for both in block.commands]


def abort_by_hand():
    """The words of bash in docs/LAB.md end a read of link 1."""
    words = next(line for line in (TOP / "docs/LAB.md").read_text().splitlines() if line.startswith("printf ") and "/dev/tcp/" in line)
    with usual_server(1) as server:
        call = ["vxcall", HOST, str(server.ports[0]), "gpib0,7", "read"]
        reading = subprocess.Popen(call, env=WITH_PROGRAMS, stdout=subprocess.PIPE)
        while not select.select([reading.stdout], [], [], 0.5)[0]:
            expect_printed(words, [], server.ports)
        printed, _ = reading.communicate(timeout=PATIENCE)
        assert (printed, reading.returncode) == (b"error 23\n", 3), f"it ended with {printed!r}"


def main():
    cases = [case for page in PAGES for case in sessions_of(page)] + [("the device_abort of docs/LAB.md", abort_by_hand)]
    failed = 0
    for name, run in cases:
        try:
            run()
        except (AssertionError, OSError, IndexError, subprocess.SubprocessError) as wrong:
            failed += 1
            print(f"{name}: {wrong}", file=sys.stderr)
    print(f"{len(cases) - failed} passed, {failed} failed", file=sys.stderr)
    return 1 if failed else 0


if __name__ == "__main__":
    sys.exit(main())
