#!/usr/bin/env python3
"""Serves the GPIB interface of one card at one TCP port, as the interface link of a VXI-11.2 gateway.

    vx_card.py PORT linux BOARD          a card or an adapter that linux-gpib drives, by the number of its board
    vx_card.py PORT simulated ADDRESS    a bus in memory, with a small instrument at this address, as 5 or 5,1

`vxgate --upstream HOST PORT gpib0` in front of it asks for each thing that the bus is to do. This program addresses nobody by
itself, and keeps nothing that a client would have to know. It prints `listening PORT` once clients can come.

It serves create_link, device_write, device_read, device_docmd and destroy_link, and the null procedure. There is no abort channel,
no interrupt channel and no port mapper. Of device_docmd it serves send command, bus status, ATN control, REN control, bus address
and IFC control. At most one link has the lock; the lock goes with its connection.

It has no access rules: whoever reaches the port has the bus. So it listens at 127.0.0.1 alone, unless --listen says otherwise.

Nothing of it is proved. The linux form was never tried on hardware.
"""
import argparse
import sys

from vxcard import faults, simulated
from vxcard.card import Refused
from vxcard.faults import BadFaults, Faults
from vxcard.linux import LinuxCard
from vxcard.links import Interface
from vxcard.serving import Door, Service
from vxcard.simulated import Address, Instrument, SimulatedCard

BOARD_MAX = 15  # the greatest number of a board of linux-gpib
STATUSES = "status: 1 the words are refused, 2 the faults are refused, 3 the port can't be had or is lost, 4 the card can't be had"


class Words(argparse.ArgumentParser):
    """The words of the command line; those that it refuses end the program with status 1."""

    def error(self, message):
        self.print_usage(sys.stderr)
        self.exit(1, f"{self.prog}: {message}\n")


def port_of(text):
    if text.isdecimal() and 1 <= int(text) <= 65535:
        return int(text)
    raise argparse.ArgumentTypeError(f"no port is called {text}")


def board_of(text):
    if text.isdecimal() and int(text) <= BOARD_MAX:
        return int(text)
    raise ValueError(text)


def read_words(words):
    parser = Words(prog="vx_card.py", description=__doc__, epilog="\n".join((simulated.HELP, faults.HELP, STATUSES)),
                   formatter_class=argparse.RawDescriptionHelpFormatter)
    parser.add_argument("port", metavar="PORT", type=port_of, help="the TCP port, 1 to 65535")
    parser.add_argument("form", metavar="FORM", choices=("linux", "simulated"), help="linux or simulated")
    parser.add_argument("where", metavar="BOARD|ADDRESS", help="the board's number, 0 to 15, or the instrument's address")
    parser.add_argument("--listen", metavar="ADDRESS", default="127.0.0.1", help="the own address at which clients come (%(default)s)")
    parser.add_argument("--name", default="gpib0", help="the device text of the interface, in either case (%(default)s)")
    parser.add_argument("--faults", metavar="FILE", type=argparse.FileType("r"), help="what is to go wrong, of the simulated form")
    parser.add_argument("--log", action="store_true", help="tell of connections, errors and failed functions on standard error")
    options = parser.parse_args(words)
    try:
        options.where = (board_of if options.form == "linux" else Address.of)(options.where)
    except ValueError:
        parser.error(f"no {'board' if options.form == 'linux' else 'address'} is called {options.where}")
    if options.form == "linux" and options.faults:
        parser.error("a real card has faults of its own")
    return options


def card_of(options, tell):
    if options.form == "linux":
        return LinuxCard(LinuxCard.loaded(), options.where, tell)
    return SimulatedCard(options.where, Instrument())


def tell_on_error(line):
    print(line, file=sys.stderr, flush=True)


def failed(status, why):
    print(f"vx_card.py: {why}", file=sys.stderr)
    return status


def main(words):
    options = read_words(words)
    tell = tell_on_error if options.log else lambda line: None
    try:
        script = Faults(options.faults or ())
    except (BadFaults, ValueError) as why:
        return failed(2, why)
    try:
        card = card_of(options, tell_on_error if options.form == "linux" else tell)
    except (OSError, AttributeError, Refused) as why:
        return failed(4, f"no card: {why}")
    try:
        door = Door(options.listen, options.port, script.refusals)
        print(f"listening {options.port}", flush=True)
        Service(Interface(card, options.name), door, script, tell).run()
    except OSError as why:
        return failed(3, why)
    except KeyboardInterrupt:
        return 0


if __name__ == "__main__":
    sys.exit(main(sys.argv[1:]))
