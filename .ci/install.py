#!/usr/bin/env python3
"""Tests `make install` and `make uninstall`, with the programs of the folder that is the one word, `crates` where they were built.

A folder stands in for the system: no case puts or starts anything outside. Each program of a unit is started by the unit's own words,
but at free ports. systemd judges the units, and groff the manual pages, where these are installed. What goes wrong, and at last
'install: N passed, M failed', goes to standard error; the status is 1 where something went wrong.
"""
import os
import pathlib
import shutil
import socket
import stat
import subprocess
import sys
import tempfile
from contextlib import contextmanager

import cases
from rpc import PATIENCE
from serving import Program

TOP = pathlib.Path(__file__).resolve().parent.parent
PROGRAMS = ("vxplay", "vxcheck", "vxgate", "vxcall", "vxmap", "vxbuses", "vxguard")
UNITS = ("vxgate.service", "vxmap@.service")
BENCH = "etc/duorfke/bench.txt"
FILES = {
    **{f"usr/local/bin/{name}": "755" for name in PROGRAMS},
    **{f"usr/local/share/man/man1/{name}.1": "644" for name in PROGRAMS},
    **{f"usr/local/lib/systemd/system/{name}": "644" for name in UNITS},
    BENCH: "644",
}
# a make that runs this test hands nothing on
ALONE = {name: value for name, value in os.environ.items() if "MAKE" not in name and name not in ("MFLAGS", "DESTDIR")}


def make(programs, *words, status=0):
    """Runs make with these words, under a mask that lets nobody else read; what it printed on standard error."""
    words = ["make", *words, f"CRATES={os.path.abspath(programs)}"]
    done = subprocess.run(words, cwd=TOP, env=ALONE, umask=0o077, capture_output=True, timeout=PATIENCE, text=True)
    assert done.returncode == status, f"it ended with status {done.returncode}: {done.stderr}"
    return done.stderr


@contextmanager
def folder():
    with tempfile.TemporaryDirectory() as name:
        yield pathlib.Path(name)


@contextmanager
def installed(programs):
    """A folder with all that is installed, as below `/`."""
    with folder() as root:
        make(programs, "install", f"DESTDIR={root}")
        yield root


def mode(path):
    return f"{stat.S_IMODE(path.stat().st_mode):o}"


def expect_files(root, due):
    """Below a folder there are these files, with these modes."""
    found = {str(it.relative_to(root)): mode(it) for it in root.rglob("*") if not it.is_dir()}
    other = {name: found.get(name) for name in found.keys() | due if found.get(name) != due.get(name)}
    assert not other, f"otherwise than they should be are {other}"


def just_these_files(programs):
    with installed(programs) as root:
        expect_files(root, FILES)
        modes = {mode(it) for it in root.rglob("*") if it.is_dir()}
        assert modes == {"755"}, f"folders have {modes}"
        for name in PROGRAMS:
            own = pathlib.Path(programs, name, "out", name)
            assert (root / "usr/local/bin" / name).read_bytes() == own.read_bytes(), f"{name} is another program"
        assert (root / BENCH).read_bytes() == (TOP / "examples/bench.txt").read_bytes(), "the bench is another"


def twice_is_as_once(programs):
    with installed(programs) as root:
        before = {name: (root / name).read_bytes() for name in FILES}
        make(programs, "install", f"DESTDIR={root}")
        expect_files(root, FILES)
        assert before == {name: (root / name).read_bytes() for name in FILES}, "the second one differs"


def the_player_plays(programs):
    with installed(programs) as root, open(TOP / "examples/first-link.vxs", "rb") as script:
        done = subprocess.run([root / "usr/local/bin/vxplay", "run"], stdin=script, capture_output=True, timeout=PATIENCE)
        assert (done.returncode, done.stdout) == (0, (TOP / "examples/first-link.out").read_bytes()), f"it printed {done.stdout!r}"


def nothing_is_left(programs):
    with installed(programs) as root:
        (root / "usr/local/bin/other").touch(0o600)
        for _ in range(2):
            make(programs, "uninstall", f"DESTDIR={root}")
            expect_files(root, {"usr/local/bin/other": "600"})
        assert not (root / BENCH).parent.exists(), "the folder of the bench is left"


def a_changed_bench_is_left(programs):
    with installed(programs) as root:
        (root / BENCH).write_text("plug 5 echo\n")
        make(programs, "install", f"DESTDIR={root}")
        told = make(programs, "uninstall", f"DESTDIR={root}")
        assert f"{root / BENCH} was changed" in told, f"it said {told!r}"
        expect_files(root, {BENCH: "644"})
        assert (root / BENCH).read_text() == "plug 5 echo\n", "the bench is another"


def nothing_is_put_where_nothing_was_built(_):
    with folder() as empty, folder() as root:
        told = make(empty, "install", f"DESTDIR={root}", status=2)
        assert f"{empty}/vxplay/out/vxplay isn't built: run make " in told, f"it said {told!r}"
        expect_files(root, {})


def words_of(unit, instance=""):
    """The words that start a unit's program, with its ports in place of their names, and where it reads from."""
    lines = [line.partition("=")[::2] for line in unit.read_text().splitlines() if "=" in line and not line.startswith("#")]
    own = dict(lines)
    words = own["ExecStart"].replace("%i", instance)
    for pair in own["Environment"].split():
        name, _, value = pair.partition("=")
        words = words.replace(f"${{{name}}}", value)
    return words.split(), own["StandardInput"]


class Unit(Program):
    """The program of a unit, started as the unit says, with free ports in place of these."""

    def __init__(self, words, source, ports, first_line, kind=socket.SOCK_STREAM):
        self.count, self.first_line, self.kind = len(ports), first_line, kind
        super().__init__(lambda *free: [dict(zip(ports, map(str, free))).get(word, word) for word in words], source,
                         stderr=subprocess.DEVNULL)


def units_start_what_is_installed(programs):
    """Below another PREFIX, since a unit has whole paths."""
    with folder() as prefix:
        make(programs, "install", f"PREFIX={prefix}")
        gateway, mapper = (prefix / "lib/systemd/system" / name for name in UNITS)
        words, source = words_of(gateway)
        assert words[0] == f"{prefix}/bin/vxgate" and source == f"file:{prefix}/{BENCH}", f"it is {words} from {source}"
        with Unit(words, (prefix / BENCH).read_bytes(), ("9010", "9011"), "listening {} {}\n"):
            pass
        for instance, kind in (("stream", socket.SOCK_STREAM), ("packets", socket.SOCK_DGRAM)):
            words, _ = words_of(mapper, instance)
            assert words == [f"{prefix}/bin/vxmap", instance, "111", "9010", "9011", "1000000"], f"it is {words}"
            with Unit(words, b"", ("111",), "mapping {}\n", kind):
                pass
        make(programs, "uninstall", f"PREFIX={prefix}")
        expect_files(prefix, {})


def is_here(program):
    if shutil.which(program):
        return True
    print(f"no {program}: it judged nothing", file=sys.stderr)
    return False


def systemd_takes_the_units(programs):
    if not is_here("systemd-analyze"):
        return
    with folder() as prefix:
        make(programs, "install", f"PREFIX={prefix}")
        units = [prefix / "lib/systemd/system" / name for name in ("vxgate.service", "vxmap@stream.service", "vxmap@packets.service")]
        done = subprocess.run(["systemd-analyze", "verify", "--man=no", *units], capture_output=True, timeout=PATIENCE, text=True)
        told = [line for line in done.stderr.splitlines() if "vxgate" in line or "vxmap" in line]
        assert not told, "\n".join(told)


def groff_takes_the_pages(programs):
    if not is_here("groff"):
        return
    with installed(programs) as root:
        for name in PROGRAMS:
            page = root / f"usr/local/share/man/man1/{name}.1"
            done = subprocess.run(["groff", "-man", "-Tutf8", "-ww", page], capture_output=True, timeout=PATIENCE)
            assert (done.returncode, done.stderr) == (0, b"") and done.stdout, f"{name}: {done.stderr!r}"


CASES = [just_these_files, twice_is_as_once, the_player_plays, nothing_is_left, a_changed_bench_is_left,
         nothing_is_put_where_nothing_was_built, units_start_what_is_installed, systemd_takes_the_units, groff_takes_the_pages]


if __name__ == "__main__":
    if not is_here("make"):
        sys.exit()
    cases.at_once(CASES, "install.py PROGRAMS", "install: ")
