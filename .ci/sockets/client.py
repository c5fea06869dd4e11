"""The client, command by command."""
import subprocess

from rpc import HOST, PATIENCE
from serving import bound, port_of
from sockets.server import Server, programs, start


def the_client():
    """Each command of the client against the server: what it prints, and its status."""
    rows = [
        ("gpib0,5", ["query", "hello"], "68656C6C6F0A\n", 0),
        ("gpib0,15", ["query", "*IDN?"], b"ACME,TABLE,1,1.0\n".hex().upper() + "\n", 0),
        ("gpib0,5", ["write", "later"], "done\n", 0),
        ("gpib0,5", ["read"], "6C617465720A\n", 0),
        ("gpib0,5", ["stb"], "00\n", 0),
        ("gpib0,9", ["write", "serve me"], "done\n", 0),
        ("gpib0,9", ["stb"], "50\n", 0),
        ("gpib0,9", ["stb"], "10\n", 0),
        ("gpib0,11", ["query", "READ?"], "310A\n", 0),
        ("gpib0,11", ["trigger"], "done\n", 0),
        ("gpib0,11", ["write", "READ?"], "done\n", 0),
        ("gpib0,11", ["read"], "320A\n", 0),
        ("gpib0,11", ["clear"], "done\n", 0),
        ("gpib0,11", ["query", "READ?"], "340A\n", 0),
        ("gpib0,31", ["stb"], "error 21\n", 3),
        ("gpib0,5,31", ["stb"], "error 21\n", 3),
        ("gpib0", ["stb"], "error 8\n", 3),
        ("inst0", ["stb"], "error 3\n", 3),
        ("gpib0,5,", ["stb"], "error 1\n", 3),
        ("gpib0,5", ["shout"], "usage: vxcall HOST PORT DEVICE COMMAND\n", 1),
    ]
    with Server() as server:
        for device, command, text, status in rows:
            expect_client(server.core, device, command, text, status)
    with bound() as nobody:
        expect_client(port_of(nobody), "gpib0,5", ["stb"], "unreachable\n", 2)


def expect_client(port, device, command, text, status):
    words = [*programs["client"], HOST, str(port), device, *command]
    client = start(words, stdin=subprocess.DEVNULL, stdout=subprocess.PIPE)
    wrote, _ = client.communicate(timeout=PATIENCE)
    got = wrote.decode(), client.returncode
    assert got == (text, status), f"{device} {' '.join(command)}: it ended with {got}"


CASES = [the_client]
