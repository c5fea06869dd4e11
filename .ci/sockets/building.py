"""Builds both programs without a proof, with an address sanitizer."""
import os
import pathlib
import select
import shutil
import signal
import socket
import sys
import tempfile
import time

from rpc import HOST
from serving import REFUSED, Taken, at_free_ports, bound, port_of
from sockets.server import programs, start

TOP = pathlib.Path(__file__).resolve().parents[2]


def stream_of(text):
    """A file that has this text, to be read from its beginning."""
    file = tempfile.TemporaryFile()
    file.write(text.encode())
    file.seek(0)
    return file


def running(words):
    """The process of the program that `rt try` runs with these words: its number, and the words that started it."""
    for number in filter(str.isdigit, os.listdir("/proc")):
        try:
            with open(f"/proc/{number}/cmdline", "rb") as file:
                found = file.read().decode(errors="replace").split("\0")[:-1]
        except OSError:
            continue
        # `rt` itself has the words behind a `--`
        if found[-len(words) :] == words and found[-len(words) - 1 : -len(words)] != ["--"]:
            return int(number), found
    raise AssertionError("rt try runs no program")


def built(name, words, bench, is_up, folder):
    """Has `rt try` build and run a program, copies it once it is up, and ends it. Returns the words that start the copy."""
    with stream_of(bench) as source, tempfile.TemporaryFile() as said:
        how = {"stdin": source, "stdout": said, "stderr": said}
        maker = start(["rt", "try", "--seconds", "60", "--", *words], cwd=TOP / "crates" / name, **how)
        while not is_up():
            if maker.poll() is not None:
                said.seek(0)
                text = said.read().decode(errors="replace")
                if f"ended status={REFUSED}" in text:
                    raise Taken(text)
                sys.exit(f"rt try made no {name}:\n{text}")
            time.sleep(0.1)
        number, found = running(words)
        front, program = found[: -len(words) - 1], found[-len(words) - 1]
        copy = shutil.copy(program, f"{folder}/{name}")
        os.kill(number, signal.SIGKILL)
        maker.wait()
    return [*front, copy]


def build(folder):
    """Builds both programs. The server is up when its port takes connections, the client when it has made one."""

    def build_server(core, abort):
        words = ["--core", str(core), "--abort", str(abort)]
        with socket.socket() as probe:
            return built("vxgate", words, "", lambda: not probe.connect_ex((HOST, core)), folder)

    programs["server"] = at_free_ports(build_server, 2)
    with bound() as listener:
        listener.listen()
        words = [HOST, str(port_of(listener)), "gpib0,5", "stb"]
        called = lambda: bool(select.select([listener], [], [], 0)[0])
        programs["client"] = built("vxcall", words, "", called, folder)
